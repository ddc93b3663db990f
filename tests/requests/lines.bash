# Candidates with sharp names, and a candidate's line in a key, of the Rust's candidates, whose names are flat.

declare -A sharp_of=([Db]=C# [Eb]=D# [Gb]=F# [Ab]=G# [Bb]=A#)

# Sets `sharpened`. The root's name is what a candidate begins with, since no suffix begins with a 'b', and the bass's what
# stands behind the last '/'.
sharpen() { # CANDIDATE
  local root=${1:0:2} bass=${1##*/}
  sharpened=${sharp_of[$root]:-$root}${1:2}
  if [[ $1 == */* ]]; then sharpened=${sharpened%/*}/${sharp_of[$bass]:-$bass}; fi
}

# Sets `flat` and `sharp`.
both_listings() { # CANDIDATES, tabs between
  local candidates candidate sharpened
  flat= sharp=
  IFS=$'\t' read -r -a candidates <<<"$1"
  for candidate in "${candidates[@]}"; do
    sharpen "$candidate"
    flat+=$candidate$'\n' sharp+=$sharpened$'\n'
  done
}

# Which listing a line is of, where it begins there, how many bytes it has, and these.
print_line() { # NUMBER FIFTHS FLAT SHARP
  local listing=$3 is_sharp=0 start=0 ended line
  if (($2 > 0)); then listing=$4 is_sharp=1; fi
  # Bytes behind the last LF are no line.
  mapfile -t ended < <(printf %s "${listing%"${listing##*$'\n'}"}")
  if (($2 < -7 || $2 > 7 || $1 >= ${#ended[@]})); then
    printf '0 %s 0 \n' "${#3}"
    return
  fi
  for line in "${ended[@]:0:$1}"; do start=$((start + ${#line} + 1)); done
  printf '%s %s %s %s\n' "$is_sharp" "$start" "${#ended[$1]}" "${ended[$1]}"
}
