# Where the kit stands.

guide=$(rt doc)
kit=${guide%/*}

# The kit's linker, as that of a system: wasm, darwin or link, which is Microsoft's.
link_as() { # FLAVOR WORDS...
  "$kit/toolchain/bin/ld.lld" -flavor "$@"
}
