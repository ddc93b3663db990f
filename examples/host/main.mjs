// A host in JavaScript, for node or a page: each call of the library, by its wrapper. It prints what main.cpp prints.
import * as lib from '../../target/wasm64/hemotusap.mjs';

const { Refusal, text } = lib;
const hemotusap = await lib.open();

// The keys or sets that an answer has, or a text; of a refused call, why there is none.
function show(what, answer, told = text) {
  console.log(answer instanceof Refusal ? `${what}: refused, ${answer}` : `${what}: ${told(answer)}`);
}

const spaced = (numbers) => numbers.join(' ');
const noteText = ({ letter, accidental }) => text(hemotusap.noteText(letter, accidental));

// A listing ends each of its lines.
function showLines(what, listing) {
  console.log(`${what}\n${text(listing).trimEnd()}`);
}

function symbols() {
  const keys = Uint8Array.of(60, 64, 67);
  showLines(`60 64 67 may be ${hemotusap.candidateCount(keys)} chords:`, hemotusap.candidates(keys));
  show('suffix of 1169', hemotusap.suffix(1169)); // 7
  show('suffix of 4096', hemotusap.suffix(4096)); // refused, not a set
  show('sets of 7(b13)', hemotusap.listing(lib.bytes('7(b13)')), (listed) => spaced(lib.sets(listed)));
}

// For keys off a cable: 144 is a status byte.
function strictSymbols() {
  showLines('60 64:', hemotusap.candidatesStrict(Uint8Array.of(60, 64)));
  show('60 64 144', hemotusap.candidatesStrict(Uint8Array.of(60, 64, 144)));
}

// By the key's count of sharps, or minus that of its flats.
function keys() {
  const codes = Uint8Array.of(66, 69, 74);
  const [flat, sharp] = [hemotusap.candidates(codes), hemotusap.candidatesSharp(codes)];
  const inKey = (fifths) => text(hemotusap.candidateLine(flat, sharp, 2, fifths));
  console.log(`the last of 66 69 74, in D and in F: ${inKey(2)} ${inKey(-1)}`);
}

// Each candidate by its number, up to the one that is not there.
function elements() {
  const keys = Uint8Array.of(60, 64, 67);
  for (let at = 0, chord; (chord = hemotusap.candidate(keys, at)); at++)
    show('in MusicXML', hemotusap.harmony(chord.root, chord.bass, chord.set));
}

function qualities() {
  console.log(`145 is ${hemotusap.quality(145) === lib.QUALITY_MAJ ? 'major' : 'another'}`);
}

function notes() {
  const { LETTER_C, LETTER_E, LETTER_G } = lib;
  show('tones of 73 on C', hemotusap.tones(0, 73));
  show('tones of 1177 on E', hemotusap.tones(4, 1177));
  show('a major third above Eb', hemotusap.getNote(LETTER_E, -1, 4, 3), noteText);
  show('Eb moved as C to G', hemotusap.transpose(LETTER_C, 0, LETTER_E, -1, LETTER_G, 0), noteText);
}

// A major seventh chord on C, on the keys that a host has which names none, and within others.
function voicings() {
  const { NO_BASS, NO_LEAD } = lib;
  const classes = Uint8Array.of(0, 4, 7, 11);
  const intervals = Uint8Array.of(
    lib.INTERVAL_UNISON, lib.INTERVAL_MAJOR_THIRD, lib.INTERVAL_PERFECT_FIFTH, lib.INTERVAL_MAJOR_SEVENTH);
  const on = (lowest, highest) => hemotusap.voicingWithin(0, NO_BASS, lowest, highest, classes, intervals, NO_LEAD);
  show('CMa7', hemotusap.voicing(0, NO_BASS, classes, intervals, NO_LEAD), spaced); // 36 52 59 79
  show('CMa7/E, lead 71', hemotusap.voicing(0, 4, classes, intervals, 71), spaced);
  show('CMa7 on a vibraphone', on(51, 89), spaced); // 36 59 79 88
  show('CMa7 in the left hand', on(51, 67), spaced); // 36 52 59 67
  show('CMa7 from 68 to 67', on(68, 67)); // refused, bad range

  const wrong = Uint8Array.of(0, 4, 12); // the last is no class
  show('classes 0 4 12', hemotusap.voicing(0, NO_BASS, wrong, intervals, NO_LEAD));
}

symbols();
strictSymbols();
keys();
elements();
qualities();
notes();
voicings();
