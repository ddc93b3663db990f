# How the carried Rust is compiled: beside the stand-ins that tests/oracle/build has made.
stand_ins=target/oracle

compile_rust() { # PROGRAM SOURCE WORDS...
  rustc --edition 2024 -L "$stand_ins" --extern enum_bitset="$stand_ins/libenum_bitset.so" --extern serde --extern serde_json \
    "${@:3}" -o "$1" "$2"
}
