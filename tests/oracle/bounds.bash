# The carried voicing with other bounds: its source stays as it is, and for each range a copy is made in which the two numbers that
# bound its keys are replaced, and nothing else.
voicing=docs/src/src/voicings/mod.rs
highest_is='static MAX_MIDI_CODE: u8 ='
lowest_is='static MIN_MIDI_CODE: u8 ='

# Ranges that are tried with every small pool: the product's, a vibraphone's and a left hand's; all keys; one key; keys of a single class
# or of a few, so that tones have none; ranges below the first key, or with its first ones alone; ranges at MIDI's end.
spread=('51 79' '51 89' '51 67' '0 127' '60 60' '48 48' '127 127' '0 0' '0 47' '0 48' '47 52' '59 60' '60 66' '66 76' '50 61' '116 127' '48 127' '79 79')

# As many as this are drawn: half are wide and half have at most an octave, in which some tone has no key.
drawn=30

# A number below a limit, by a generator with a period of 2^31 whose low bits are poor.
draw_number() { # LIMIT; it sets `number` and moves `state`
  state=$(((state * 1103515245 + 12345) % 2147483648))
  number=$(((state >> 8) % $1))
}

# Ranges by a seed, a line each: LOWEST HIGHEST.
draw_ranges() { # SEED
  local state=$(($1 & 2147483647)) number highest i
  for ((i = 0; i < drawn; i++)); do
    draw_number 84
    highest=$((44 + number))
    if ((i % 2)); then draw_number 12; else draw_number $((highest + 1)); fi
    printf '%s %s\n' $((highest - number)) "$highest"
  done
}

# The source but for the two lines that have the numbers.
other_lines() { # FILE
  grep -vx -e "$highest_is [0-9]*;" -e "$lowest_is [0-9]*;" "$1"
}

# Where a line stands that sets a number.
place_of() { # LINE NUMBER FILE
  grep -nx "$1 $2;" "$3" | cut -d: -f1
}

# One line sets this number, and it stands where the source has the line that sets its own.
is_replaced() { # LINE NUMBER OLD COPY
  local place
  place=$(place_of "$1" "$3" "$voicing")
  [[ $place =~ ^[0-9]+$ ]] && [ "$(place_of "$1" "$2" "$4")" = "$place" ]
}

copy_bounds() { # LOWEST HIGHEST COPY
  sed -e "s/^$highest_is 79;\$/$highest_is $2;/" -e "s/^$lowest_is 51;\$/$lowest_is $1;/" "$voicing" >"$3"
  cmp --silent <(other_lines "$voicing") <(other_lines "$3") && is_replaced "$highest_is" "$2" 79 "$3" && is_replaced "$lowest_is" "$1" 51 "$3" || {
    printf 'the copy of %s for %s..%s differs from it elsewhere than in its two numbers\n' "$voicing" "$1" "$2" >&2
    return 1
  }
}

# The copies, as one module: a line for each, then a table of what they generate.
write_copies() { # RANGES DIRECTORY
  local lowest highest copy rows=
  mkdir -p "$2"
  while read -r lowest highest; do
    copy=from_${lowest}_to_$highest
    copy_bounds "$lowest" "$highest" "$2/$copy.rs"
    printf 'mod %s;\n' "$copy"
    rows+="    (($lowest, $highest), $copy::generate_voicing),"$'\n'
  done < <(sed -n 's/.*(\(.*\), \(.*\))/\1 \2/p' "$1") >"$2/mod.rs"
  printf '\npub const GENERATORS: &[super::Bounded] = &[\n%s];\n' "$rows" >>"$2/mod.rs"
}
