# The first error that the prover gave of a must-fail edit, from the lines of `rt must-fail` or `rt ci`. The kit keeps no more of it:
# of the error's own text it cuts all behind 160 characters.

# Those that the gate kept, unless others are named.
lines=${1:-target/gate/rt-ci}
[ -f "$lines" ] || { echo "${0##*/}: there is no $lines: rt must-fail >FILE, and name that" >&2 && exit 1; }

# Calls `COMMAND CRATE LABEL SAID` for each edit of a crate; what is said begins with how it was taken.
each_edit() { # CRATE COMMAND
  local edit label said
  for edit in "crates/$1/must-fail"/*.edit; do
    label=$(basename "$edit" .edit)
    said=$(sed -nE "s|^([0-9]+ )?rt: must-fail $1/$label[.]edit: ||p" "$lines" | tail -n 1)
    [ -n "$said" ] || { echo "${0##*/}: $lines tells nothing of $1/$label: rt must-fail $1" >&2 && exit 1; }
    "$2" "$1" "$label" "$said"
  done
}

# The place, from the crate's folder, and what was said of it; nothing of an edit that was not refused.
first_error() { # SAID
  local error
  error=$(sed -nE 's/^refused, as it must be( \([^()]*\))?: //p' <<<"$1")
  [ "${#error}" -lt 160 ] || error+=' …'
  error=${error#note: }
  printf '%s\n' "${error#./}"
}
