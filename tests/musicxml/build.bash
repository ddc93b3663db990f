# How the reader of this folder is built.

# A library comes with no command by which to know it.
need_expat() {
  need cc gcc libc6-dev
  [ -e /usr/include/expat.h ] || install_packages libexpat1-dev
}

build_reader() { # PROGRAM ARCHIVE [FILES AND WORDS...]
  cc "${c_options[@]}" -Itests/musicxml tests/musicxml/*.c tests/boundary/*.c tests/differential/run.c "${@:3}" "$2" -lexpat -o "$1"
}
