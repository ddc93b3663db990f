# How the drivers of this folder, and of tests/wrong, are built and the fuzzer is run.

calls=(tests/load/made.c tests/boundary/*.c tests/draws/draw.c)
shared=("${calls[@]}" tests/differential/lent.c)

# The fuzzer and the sanitizer come in a package of their own, which the compiler does not need.
need_fuzzer() {
  need clang-14 clang-14 libclang-rt-14-dev
  local runtime
  runtime=$(clang-14 --print-resource-dir)/lib/linux/libclang_rt.fuzzer-$(uname -m).a
  [ -e "$runtime" ] || install_packages libclang-rt-14-dev
}

build_fuzzer() { # PROGRAM ARCHIVE [FILES AND WORDS...]
  clang-14 "${c_options[@]}" -g -fsanitize=fuzzer,address tests/load/fuzz.c tests/differential/{lent_call,fault,run}.c \
    "${shared[@]}" "${@:3}" "$2" -o "$1"
}

fuzz() { # PROGRAM EXECUTIONS SEED FOLDER
  local words=(-max_len=1280 -len_control=0 -reduce_inputs=0 -print_funcs=0 -timeout=10)
  "$1" -seed="$3" -runs="$2" "${words[@]}" -artifact_prefix="$4/"
}

build_alone() { # NAME ARCHIVE PROGRAM COMPILER...
  "${@:4}" "${c_options[@]}" "tests/$1.c" "${shared[@]}" "$2" -pthread -o "$3"
}

# Linked statically, since a first call through a dynamic linker would be measured with it. Windows has a stack of the driver's own, and no
# pages that trap.
measure_stack() { # TARGET FOLDER CALLS
  local program=$2/stack-$1 sources=("${shared[@]}")
  case $1 in *-windows) program+=.exe sources=("${calls[@]}") ;; esac
  prepare_machine "$1"
  build_archive "$1"
  "${compiler[@]}" -static "${c_options[@]}" tests/load/stack.c "${sources[@]}" "$archive" -o "$program"
  "${emulator[@]}" "$program" "$1" "$3"
}
