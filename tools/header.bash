# What the header declares.

header_functions() {
  sed -n 's/^int64_t \(hemotusap_[a-z_]*\)(.*/\1/p' include/hemotusap.h
}
