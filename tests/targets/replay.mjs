// The stored requests (crates/requests/src/main.rt tells of them), answered through hemotusap.mjs: every byte of what the program
// `requests` prints.
import { NO_BASS, Refusal, bytes, text } from '../../target/wasm64/hemotusap.mjs';

const FULL_STOP = '.'.charCodeAt(0);
const RANGE = 1200;

const lent = (room) => new Uint8Array(Number(room)).fill(FULL_STOP);
const list = (part) => Uint8Array.from(part === '-' ? [] : part.split(','), Number);

// As the boundary has it, a refusal and an answer are one number.
function number(answer) {
  if (!(answer instanceof Refusal)) return answer.length ?? answer;
  return answer.place === undefined ? -answer.number : -(256 * answer.number + answer.place);
}

const packedNote = (note) => (note instanceof Refusal ? number(note) : 16 * note.letter + note.accidental + 6);

function packedChord(chord) {
  if (chord === null) return 0;
  return 65536 * (chord.bass === NO_BASS ? 15 : chord.bass) + 4096 * chord.root + chord.set;
}

// A call on an output, which is told whole behind the number.
function texted(room, call) {
  const out = lent(room);
  return `${number(call(out))} ${text(out)}`;
}

function numbered(room, call) {
  const out = lent(room);
  return [number(call(out)), ...out].join(' ');
}

function line(hemotusap, place, codes, fifths, flatLength, sharpLength) {
  const [flat, sharp] = [lent(RANGE), lent(RANGE)];
  hemotusap.candidates(list(codes), flat);
  hemotusap.candidatesSharp(list(codes), sharp);
  const [ofFlat, ofSharp] = [flat.subarray(0, Number(flatLength)), sharp.subarray(0, Number(sharpLength))];
  const part = hemotusap.candidateLine(ofFlat, ofSharp, Number(place), Number(fifths));
  const isSharp = part.buffer === sharp.buffer ? 1 : 0;
  return `${isSharp} ${part.byteOffset} ${part.length} ${text(part)}`;
}

const repliesOf = (hemotusap) => ({
  quality: (set) => number(hemotusap.quality(+set)),
  candidate_count: (codes) => hemotusap.candidateCount(list(codes)),
  get_note: (...parts) => packedNote(hemotusap.getNote(...parts.map(Number))),
  transpose: (...parts) => packedNote(hemotusap.transpose(...parts.map(Number))),
  candidate: (place, codes) => packedChord(hemotusap.candidate(list(codes), +place)),
  candidates: (room, codes) => texted(room, (out) => hemotusap.candidates(list(codes), out)),
  candidates_strict: (room, codes) => texted(room, (out) => hemotusap.candidatesStrict(list(codes), out)),
  candidates_sharp: (room, codes) => texted(room, (out) => hemotusap.candidatesSharp(list(codes), out)),
  candidates_strict_sharp: (room, codes) => texted(room, (out) => hemotusap.candidatesStrictSharp(list(codes), out)),
  suffix: (room, set) => texted(room, (out) => hemotusap.suffix(+set, out)),
  note_text: (room, letter, count) => texted(room, (out) => hemotusap.noteText(+letter, +count, out)),
  tones: (room, root, set) => texted(room, (out) => hemotusap.tones(+root, +set, out)),
  harmony: (room, root, bass, set) => texted(room, (out) => hemotusap.harmony(+root, +bass, +set, out)),
  listing: (room, ...words) => numbered(room, (out) => hemotusap.listing(bytes(words.join(' ')), out)),
  voicing: (room, root, bass, lead, classes, intervals) =>
    numbered(room, (out) => hemotusap.voicing(+root, +bass, list(classes), list(intervals), +lead, out)),
  voicing_within: (room, root, bass, lead, classes, intervals, lowest, highest) =>
    numbered(room, (out) =>
      hemotusap.voicingWithin(+root, +bass, +lowest, +highest, list(classes), list(intervals), +lead, out)),
  candidate_line: (...parts) => line(hemotusap, ...parts),
});

export function replay(hemotusap, requests) {
  const replies = repliesOf(hemotusap);
  return requests.split('\n').slice(0, -1).map((request) => {
    const [name, ...parts] = request.split(' ');
    return `${replies[name](...parts)}\n`;
  }).join('');
}
