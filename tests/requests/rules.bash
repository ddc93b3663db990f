# The rules' refusals but for that of the room, each function's in their order. One that tells a place is 256 * its number + that.

# Unless this holds, the refusal of this number applies, if none before it did.
unless() { # NUMBER ARITHMETIC
  if [ "$refused" -eq 0 ] && ! (($2)); then refused=$1; fi
}

unless_note() { # LETTER ACCIDENTAL
  unless 5 "$1 <= 6 && -6 <= $2 && $2 <= 6"
}

# Fills `classes` and `intervals`.
both_lists() { # CLASSES INTERVALS
  numbers_in "$1" && classes=("${numbers[@]}")
  numbers_in "$2" && intervals=("${numbers[@]}")
}

# The same with the pairs that are used alone, as many as the shorter list has.
use_pairs() { # CLASSES INTERVALS
  local used
  both_lists "$@"
  used=$((${#classes[@]} < ${#intervals[@]} ? ${#classes[@]} : ${#intervals[@]}))
  classes=("${classes[@]:0:used}") intervals=("${intervals[@]:0:used}")
}

# Of a pair the class is looked at before the interval.
unless_pairs() { # CLASSES INTERVALS
  local classes intervals i
  use_pairs "$@"
  unless 3 "${#classes[@]} <= 16"
  for i in "${!classes[@]}"; do
    unless $((256 * 41 + i)) "${classes[i]} <= 11"
    unless $((256 * 42 + i)) "${intervals[i]} <= 22"
  done
}

unless_keys() { # CODES
  local numbers i
  numbers_in "$1"
  for i in "${!numbers[@]}"; do unless $((256 * 11 + i)) "${numbers[i]} <= 127"; done
}

# Sets `refused` to the first that applies, or to 0.
refuse() { # NAME ARGUMENTS...
  refused=0
  case $1 in
    quality) unless 1 "$2 <= 4095" ;;
    suffix) unless 1 "$2 <= 4095 && $2 % 2" ;;
    tones)
      unless 1 "$3 <= 4095 && $3 % 2"
      unless 2 "$2 <= 11"
      ;;
    candidates_strict | candidates_strict_sharp) unless_keys "$2" ;;
    note_text) unless_note "$2" "$3" ;;
    get_note)
      unless_note "$2" "$3"
      unless 6 "$4 <= 24 && 1 <= $5 && $5 <= 14"
      ;;
    transpose)
      unless_note "$2" "$3"
      unless_note "$4" "$5"
      unless_note "$6" "$7"
      ;;
    voicing | voicing_within)
      unless 2 "$2 <= 11 && ($3 <= 11 || $3 == 255)"
      unless 16 "${7:-0} <= ${8:-0} && ${8:-0} <= 127"
      unless_pairs "$5" "$6"
      ;;
    harmony)
      unless 1 "$4 <= 4095 && $4 % 2"
      unless 2 "$2 <= 11 && ($3 <= 11 || $3 == 255)"
      ;;
  esac
}
