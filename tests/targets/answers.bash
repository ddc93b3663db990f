# What every target is held to: its archive is the same each time it is compiled, has the header's functions and needs nothing else, CMake
# finds the installed copy, and where it can run here, it answers the stored requests and the example host prints what is stored.

made=$PWD/target/targets
declare -A systems=([linux]=Linux [windows]=Windows [macos]=Darwin [wasm64]=Generic)

need_compilers() { # TARGET
  prepare_machine "$1"
  local cxx=${compiler[0]/%gcc/g++}
  case $cxx in
    g++) need "$cxx" g++ ;;
    aarch64-linux-gnu-g++) need "$cxx" g++-aarch64-linux-gnu ;;
    x86_64-w64-mingw32-g++) need "$cxx" g++-mingw-w64-x86-64-posix ;;
  esac
}

takes_wide_memory() {
  "${node[@]}" --eval 'process.exit(WebAssembly.validate(Uint8Array.of(0, 97, 115, 109, 1, 0, 0, 0, 5, 3, 1, 4, 1)) ? 0 : 1)' 2>/dev/null
}

# Before version 24 it takes memories of 64 bits only if it is told to.
need_node() { # it sets `node`
  need node nodejs
  node=(node)
  takes_wide_memory || node=(node --experimental-wasm-memory64)
  takes_wide_memory || fail "node $(node --version) takes no memories of 64 bits"
}

need_targets() {
  need_kit
  need make make
  need cmake cmake
  need llvm-nm llvm
  need_node
  local target
  for target in "${linux_targets[@]}"; do need_compilers "$target"; done
}

symbols() { # TARGET WORDS...: of the archive, sorted
  llvm-nm --extern-only --format=just-symbols "${@:2}" "target/$1/libhemotusap.a" | sed '/^$/d; /:$/d' | LC_ALL=C sort -u
}

# For Windows constants that a linker joins with others of their value, and a mark that stands for no place.
defined_beside() { # TARGET
  case $1 in x86_64-windows) echo '__xmm@|@feat[.]00' ;; *) echo '$' ;; esac
}

# Of the C library; for pages there is none, but a stack.
undefined_in() { # TARGET
  case $1 in
    *-macos) echo '_memcpy|_memset|_bzero|___bzero' ;;
    wasm64) echo '__stack_pointer' ;;
    *) echo 'memcpy|memset' ;;
  esac
}

check_symbols() { # TARGET
  local prefix= others
  case $1 in *-macos) prefix=_ ;; esac
  diff <(header_functions | sed "s/^/$prefix/" | LC_ALL=C sort) \
    <(symbols "$1" --defined-only | grep -vE "^($(defined_beside "$1"))") >&2 || fail "$1 has other functions than the header"
  others=$(symbols "$1" --undefined-only | grep -vxE "$(undefined_in "$1")" || true)
  [ -z "$others" ] || fail "$1 needs what no host has: $others"
}

# Apple's machines are not at hand, so the kit's linker for them has its say: with the C library's three functions nothing is missing.
link_for_macos() { # TARGET
  . tools/kit.bash
  link_as darwin -dylib -arch "${1%-*}" -platform_version macos 11.0 11.0 -all_load \
    "target/$1/libhemotusap.a" tests/targets/libSystem.tbd -o "$made/$1/libhemotusap.dylib" || fail "$1 does not link"
}

install_copy() { # TARGET
  make --silent install TARGET="$1" DESTDIR= PREFIX="$made/$1/installed" >"$made/$1/install.log"
}

# By its own version and its own system alone.
check_found() { # TARGET
  local find=tests/targets/find installed=$made/$1/installed version
  local at=-DCMAKE_SYSTEM_NAME=${systems[${1##*-}]}
  version=$(sed -n 's/^VERSION = //p' Makefile)
  configure $find "$made/$1/found" "$installed" "$at" -DVERSION="$version" || fail "CMake does not find $1: $(cat "$made/$1/found.log")"
  ! configure $find "$made/$1/later" "$installed" "$at" -DVERSION="$version.1" || fail "CMake takes $1 for a later version"
  [ "$1" = wasm64 ] || ! configure $find "$made/$1/other" "$installed" -DCMAKE_SYSTEM_NAME=Haiku || fail "CMake takes $1 for another system's"
}

# No archive holds the time of day. That for x86-64 Linux was compiled by the kit, and so the options for all are shown to be the kit's.
check_again() { # TARGET
  tools/compile-module target/module/module.bc "$1" "$made/$1/again.a"
  cmp "$made/$1/again.a" "target/$1/libhemotusap.a" >&2 || fail "$1 is another when it is compiled again"
}

size_of() { # FILE
  stat --format=%s "$1"
}

check_target() { # TARGET
  rm -rf "${made:?}/$1"
  mkdir -p "$made/$1"
  check_again "$1"
  check_symbols "$1"
  case $1 in *-macos) link_for_macos "$1" ;; esac
  install_copy "$1"
  check_found "$1"
  printf '%s: %s bytes%s, the functions of the header, found by CMake\n' "$1" "$(size_of "target/$1/libhemotusap.a")" \
    "$(if [ "$1" = wasm64 ]; then printf ', as a module %s' "$(size_of target/wasm64/hemotusap.wasm)"; fi)"
}

build_caller() { # NAME LIBRARY PROGRAM
  "${compiler[@]}" "${c_options[@]}" "tests/targets/$1.c" tests/boundary/{call,fail,functions}.c "$2" -o "$3"
}

check_replay() { # WHAT COMMAND...
  "${@:2}" <crates/requests/stdin | cmp - crates/requests/stdout >&2 || fail "$1 answers some of the stored requests otherwise"
}

# A line ends as the system's lines do.
check_host() { # WHAT COMMAND...
  "${@:2}" | tr -d '\r' | cmp - examples/host/expected >&2 || fail "the example host, $1, prints otherwise than examples/host/expected"
}

build_host() { # TARGET
  local words=(-DCMAKE_C_COMPILER="${compiler[0]}" -DCMAKE_CXX_COMPILER="${compiler[0]/%gcc/g++}")
  words+=(-DCMAKE_EXE_LINKER_FLAGS="${compiler[*]:1}")
  [ "$1" = "$own" ] || words+=(-DCMAKE_SYSTEM_NAME="${systems[${1##*-}]}")
  build_by_cmake examples/host "$made/$1/host" "$made/$1/installed" "${words[@]}"
}

# By its compiler, on what stands in for the machine.
run_compiled() { # TARGET
  local end= program
  case $1 in *-windows) end=.exe ;; esac
  need_compilers "$1"
  build_caller replay "target/$1/libhemotusap.a" "$made/$1/replay$end"
  check_replay "$1" "${emulator[@]}" "$made/$1/replay$end"
  build_host "$1"
  for program in host host-c; do check_host "by $program for $1" "${emulator[@]}" "$made/$1/host/$program$end"; done
  tell_run "$1" "${emulator[*]:+by ${emulator[-1]##*/}}"
}

tell_run() { # TARGET WHERE
  printf '%s: all %s requests answered, and the example host%s\n' "$1" "$(wc -l <crates/requests/stdin)" "${2:+, $2}"
}

check_in_node() {
  check_replay 'wasm64 in node' "${node[@]}" tests/targets/node.mjs
  check_host 'in node' "${node[@]}" examples/host/main.mjs
}

run_in_node() {
  need_node
  check_in_node
  tell_run wasm64 "in $(node --version | sed 's/^v/node /')"
}
