# The gate's parts: each is told of when it begins and when it ends, and has its row in a table of seconds.

rows=()
failed=()

tell() {
  printf 'gate: %s\n' "$*"
}

begins() { # NAME
  tell "$1 begins"
}

ended() { # NAME STATUS SECONDS
  if [ "$2" -eq 0 ]; then
    tell "$1 passed ($3 s)"
  else
    tell "$1 FAILED (status $2, $3 s)"
    failed+=("$1")
  fi
  rows+=("$1"$'\t\t'"$3")
}

# A part alone, shown as it comes.
run_part() { # NAME COMMAND...
  local status=0 began=$SECONDS
  begins "$1"
  "${@:2}" </dev/null || status=$?
  ended "$1" "$status" $((SECONDS - began))
  return "$status"
}

show_table() {
  tell "seconds of the clock by part, some of which ran side by side"
  printf '%s\n' $'part\tnumber\tseconds' "${rows[@]}" |
    awk -F '\t' '{ row = sprintf("%-26s %7s %8s", $1, $2, $3); sub(/ +$/, "", row); print row }'
}
