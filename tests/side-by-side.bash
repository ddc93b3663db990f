# Commands side by side, as many at a time as the machine has processors. What each says is kept in a file of its own below
# `kept`, and when one ends, the caller's `on_end NAME STATUS SECONDS` is called.

at_a_time=$(nproc)
declare -A name_of=() began_at=()

start() { # NAME COMMAND...
  # Job control gives it a process group, by which it can be stopped with all that it has started.
  set -m
  "${@:2}" >"$kept/$1" 2>&1 </dev/null &
  set +m
  name_of[$!]=$1
  began_at[$!]=$SECONDS
}

await_one() {
  local ended status=0
  wait -n -p ended "${!name_of[@]}" || status=$?
  on_end "${name_of[$ended]}" "$status" $((SECONDS - began_at[$ended]))
  unset "name_of[$ended]"
}

await_processor() {
  while [ ${#name_of[@]} -ge "$at_a_time" ]; do await_one; done
}

await_all() {
  while [ ${#name_of[@]} -gt 0 ]; do await_one; done
}

# For the caller's end, which may come before theirs.
stop_all() {
  local group
  for group in "${!name_of[@]}"; do kill -- "-$group" 2>/dev/null || true; done
}
trap stop_all EXIT
