# Faults of hemotusap.mjs, each an edit of one line, which the checks in node have to find.

wrapper_faults() { # LABEL EDIT, a line each
  cat <<'END'
cuts_a_number s/Number.isInteger(number) && number === number >>> 0 ? number : 0xffffffff/number >>> 0/
cuts_a_signed_number s/Number.isInteger(number) \&\& number === (number | 0) ? number : -0x80000000/number | 0/
takes_fractions s/Number.isInteger(number) && number === number >>> 0/number < 0x100000000 \&\& number >= 0/
takes_any_range s/if (ArrayBuffer.isView(range).*) return range;/return range;/
takes_any_view s/ && range\[Symbol.toStringTag\] === 'Uint8Array'//
tells_a_far_place_as_a_near_one s/, toldStrictly),$/),/
tells_places_from_one s/-(answer % 256))/1 - (answer % 256))/
tells_no_place s/ : new Refusal(Math.trunc(answer \/ -256).*/ : new Refusal(Math.trunc(answer \/ -256));/
names_two_alike s/'bad interval of a pair'/'bad class of a pair'/
forgets_the_room s/Math.min(checked(out).length, most)/most/
answers_the_whole_output s/return out.subarray(0, answer);/return out;/
writes_the_whole_output s/out.set(this.#memory.subarray(start, start + answer));/out.set(this.#memory.subarray(start, start + room));/
writes_after_a_refusal s/if (answer < 0) return tell(answer);/out.fill(0); &/
lends_the_output_to_an_input s/this.#free += length;/this.#free = this.#first;/
grows_too_little s/Math.ceil(missing \/ PAGE)/Math.floor(missing \/ PAGE)/
keeps_the_old_memory s/^    this.#memory = new Uint8Array(memory.buffer);$//
answers_none_as_a_candidate s/found === 0 ? null : //
numbers_no_bass_fifteen s/bass === 15 ? NO_BASS : bass/bass/
moves_notes_by_six_flats s/(answer & 15) - 6/answer \& 15/
takes_each_line_from_the_flat_names s/(isSharp ? sharp : flat)/flat/
swaps_the_words s/\[isSharp, start, length\]/[isSharp, length, start]/
turns_the_range_round s/\[root, bass, lowest, highest\].map/[root, bass, highest, lowest].map/
shows_its_memory s/return Object.freeze({/& memory: opened,/
END
}

# A tree of its own, in which the module's wrapper can be changed and nothing else.
copy_for_node() {
  mkdir -p "$copy/target"
  cp -r --parents tests/targets examples/host crates/requests/std{in,out} "$copy"
  cp -r target/wasm64 "$copy/target"
}

check_copy() (
  cd "$copy"
  check_in_node
)

try_wrapper_faults() {
  local label edit changed=$copy/target/wasm64/hemotusap.mjs
  copy_for_node
  check_copy || fail "the checks in node fail without a fault"
  while read -r -u 4 label edit; do
    sed "$edit" javascript/hemotusap.mjs >"$changed"
    ! cmp --quiet javascript/hemotusap.mjs "$changed" || fail "the edit of $label changes nothing"
    expect_found hemotusap.mjs "$label" check_copy
  done 4< <(wrapper_faults)
}
