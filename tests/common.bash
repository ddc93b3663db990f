# What the commands of this folder share: the carried Rust is as it was carried, the machine has what they need, installed
# from Debian where it is missing, and the library's archives with a way to link and run programs over them.

# This machine, as the archives name it.
own=$(uname -m)-linux
# Whose programs are run, the other's by an emulator.
linux_targets=(x86_64-linux aarch64-linux)
c_options=(-std=c11 -O2 -Wall -Wextra -Werror -Iinclude -Itests/{boundary,draws,differential,load})

fail() {
  printf '%s: %s\n' "${0##*/}" "$*" >&2
  exit 1
}

# The sums say that each file is as it was carried; the names, that none is missing or added.
check_carried() {
  sha256sum --check --strict --quiet docs/src.sha256
  diff <(cut -c 67- docs/src.sha256 | LC_ALL=C sort) <(find docs/src ! -type d | LC_ALL=C sort) >&2 ||
    fail "docs/src holds other files than docs/src.sha256 lists"
}

install_packages() { # PACKAGES...
  local as_root=()
  command -v apt-get >/dev/null || fail "apt-get is missing, and with it a way to install $*"
  if [ "$(id -u)" -ne 0 ]; then
    command -v sudo >/dev/null || fail "it takes root or sudo to install $*"
    as_root=(sudo)
  fi
  "${as_root[@]}" apt-get --quiet=2 update >&2 &&
    "${as_root[@]}" env DEBIAN_FRONTEND=noninteractive \
      apt-get --quiet=2 --yes install --no-install-recommends "$@" >&2
}

need() { # COMMAND PACKAGES...
  command -v "$1" >/dev/null && return
  install_packages "${@:2}"
  command -v "$1" >/dev/null || fail "there is no $1, though ${*:2} are installed"
}

need_kit() {
  command -v rt >/dev/null || fail "rt, the command of the Rattle kit, is missing"
}

need_rust() {
  need cc gcc libc6-dev
  # Where Debian's rustc is too old for the carried Rust, a newer one comes as rustc-web.
  command -v rustc >/dev/null || install_packages rustc-web || install_packages rustc
  local version
  version=$(rustc --version)
  [[ $version =~ ^rustc\ 1\.([0-9]+)\. && ${BASH_REMATCH[1]} -ge 85 ]] ||
    fail "the carried Rust is of edition 2024, which needs rustc 1.85 or later; here is $version"
}

# The tools that read the counters of rustc, which have to be of its LLVM; it sets `llvm`.
need_coverage() {
  llvm=$(rustc --version --verbose | sed -n 's/^LLVM version: \([0-9]*\).*/\1/p')
  need "llvm-cov-$llvm" "llvm-$llvm"
}

# What a program's stored test has it print is what the Rust answers.
check_stored() { # CRATE [WORDS OF ITS make...]
  local made=target/$1 stored=crates/$1
  tests/oracle/build
  mkdir -p "$made"
  "tests/$1/make" target/oracle/oracle "${@:2}" <"$stored/stdin" >"$made/stdout"
  cmp "$made/stdout" "$stored/stdout" || fail "the stored test of $1 is not what tests/$1/make gives"
}

# Where it stands and no crate has changed, nothing is proved for it.
build_archive() { # TARGET; it sets `archive`
  need make make
  archive=$(make --silent TARGET="$1")
  # For wasm64 there is more, behind it.
  archive=${archive%%$'\n'*}
}

# For another machine this one cross-compiles and emulates.
prepare_machine() { # TARGET; it sets `compiler` and `emulator`
  need_kit
  case "$1 on $own" in
    "$own on $own")
      need gcc gcc libc6-dev
      compiler=(gcc)
      emulator=()
      ;;
    'aarch64-linux on x86_64-linux')
      need aarch64-linux-gnu-gcc gcc-aarch64-linux-gnu libc6-dev-arm64-cross
      need qemu-aarch64 qemu-user
      compiler=(aarch64-linux-gnu-gcc -static)
      emulator=(qemu-aarch64)
      ;;
    'x86_64-windows on x86_64-linux')
      need x86_64-w64-mingw32-gcc gcc-mingw-w64-x86-64-posix
      need wine wine wine64
      compiler=(x86_64-w64-mingw32-gcc -static)
      # A folder of its own for the system that it plays, without the parts that it would ask to fetch.
      emulator=(env WINEPREFIX="$PWD/target/wine" WINEDEBUG=-all WINEDLLOVERRIDES=mscoree,mshtml= wine)
      ;;
    *) fail "no way known to run programs of $1" ;;
  esac
}

# What CMake says is kept beside the folder in which it builds.
configure() { # SOURCE FOLDER PREFIX WORDS...
  mkdir -p "$2"
  cmake -S "$1" -B "$2" -DCMAKE_PREFIX_PATH="$3" "${@:4}" >"$2.log" 2>&1
}

build_by_cmake() { # SOURCE FOLDER PREFIX WORDS...
  configure "$@" && cmake --build "$2" >>"$2.log" 2>&1 || fail "CMake does not build $1: $(cat "$2.log")"
}

# The differential driver, at `program`, for the oracle's ranges of keys.
build_driver() { # [FILES AND WORDS...]
  "${compiler[@]}" "${c_options[@]}" -I"$(dirname "$oracle")" tests/{boundary,draws,differential}/*.c "$@" "$archive" -o "$program"
}

driver() {
  "${emulator[@]}" "$program" "$@"
}
