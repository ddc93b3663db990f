// hemotusap.mjs held to what it says of itself, beyond what a replay of requests shows: numbers and ranges that no other language
// lets through, outputs of the caller's, inputs longer than the module's memory, and that this memory is nowhere to be had.
import * as lib from '../../target/wasm64/hemotusap.mjs';

const { NO_BASS, NO_LEAD, Refusal, text } = lib;
const TRIAD = Uint8Array.of(60, 64, 67);
const PAIRS = [Uint8Array.of(0, 4), Uint8Array.of(0, 4)];
// None is a whole number of 32 bits, though some would become 145, or 0, if they were cut to them.
const NO_NUMBERS = [NaN, Infinity, -1, 0.5, 145.5, 2 ** 32, 2 ** 32 + 145, 2 ** 53, '145', 145n, null, undefined, true, {}, []];
const NO_RANGES = [[60, 64, 67], '60', 60, undefined, null, new Uint16Array(3), new Int8Array(3), new DataView(TRIAD.buffer), TRIAD.buffer];

const shown = (value) => (value instanceof Uint8Array ? `[${value}]` : String(value));

function same(what, got, wanted) {
  if (got !== wanted) throw new Error(`${what}: ${got}, and not ${wanted}`);
}

function refusedAs(what, answer, number, told) {
  if (!(answer instanceof Refusal)) throw new Error(`${what} is answered: ${shown(answer)}`);
  same(what, `${answer.number} ${answer}`, `${number} ${told}`);
}

function throwing(what, call, kind) {
  try {
    call();
  } catch (error) {
    same(what, error.constructor.name, kind);
    return;
  }
  throw new Error(`${what} is taken`);
}

// A row for each refusal of the header's.
function refusals(hemotusap) {
  const [classes, intervals] = PAIRS;
  const on = (...range) => hemotusap.voicingWithin(0, NO_BASS, ...range, classes, intervals, NO_LEAD);
  const of = (first, second) => hemotusap.voicing(0, NO_BASS, Uint8Array.from(first), Uint8Array.from(second), NO_LEAD);
  const seventeen = new Uint8Array(17);
  refusedAs('a set of 4096', hemotusap.quality(4096), lib.NOT_A_SET, 'not a set');
  refusedAs('a root of 12', hemotusap.tones(12, 145), lib.BAD_CLASS, 'bad class');
  refusedAs('a range turned round', on(68, 67), lib.BAD_RANGE, 'bad range');
  refusedAs('17 pairs', of(seventeen, seventeen), lib.TOO_MANY_PAIRS, 'too many pairs');
  refusedAs('a class of 12', of([0, 12], [0, 23]), lib.BAD_PAIR_CLASS, 'bad class of a pair, at 1');
  refusedAs('an interval of 23', of([0, 4], [0, 23]), lib.BAD_PAIR_INTERVAL, 'bad interval of a pair, at 1');
  refusedAs('a letter of 7', hemotusap.noteText(7, 0), lib.BAD_NOTE, 'bad note');
  refusedAs('a degree of 0', hemotusap.getNote(0, 0, 0, 0), lib.BAD_MOVE, 'bad move');
  refusedAs('a status byte', hemotusap.candidatesStrict(Uint8Array.of(60, 144)), lib.NOT_A_KEY, 'not a key, at 1');
  refusedAs('no room', hemotusap.suffix(1169, new Uint8Array(0)), lib.NO_ROOM, 'no room');
}

function badNumbers(hemotusap) {
  const [classes, intervals] = PAIRS;
  const all = text(hemotusap.candidates(TRIAD));
  for (const value of NO_NUMBERS) {
    const what = `${typeof value} ${String(value)}`;
    refusedAs(what, hemotusap.quality(value), lib.NOT_A_SET, 'not a set');
    refusedAs(what, hemotusap.tones(value, 145), lib.BAD_CLASS, 'bad class');
    refusedAs(what, hemotusap.harmony(0, value, 145), lib.BAD_CLASS, 'bad class');
    refusedAs(what, hemotusap.getNote(0, 0, value, 1), lib.BAD_MOVE, 'bad move');
    refusedAs(what, hemotusap.voicingWithin(0, NO_BASS, 51, value, classes, intervals, 60), lib.BAD_RANGE, 'bad range');
    same(`candidate ${what}`, hemotusap.candidate(TRIAD, value), null);
    same(`line ${what}`, hemotusap.candidateLine(TRIAD, TRIAD, value, 0).length, 0);
    same(`lead ${what}`, shown(hemotusap.voicing(0, NO_BASS, classes, intervals, value)),
      shown(hemotusap.voicing(0, NO_BASS, classes, intervals, NO_LEAD)));
    if (value === -1) continue; // which is one flat, and a key of one
    refusedAs(what, hemotusap.noteText(0, value), lib.BAD_NOTE, 'bad note');
    refusedAs(what, hemotusap.transpose(0, 0, 0, 0, 0, value), lib.BAD_NOTE, 'bad note');
    same(`key ${what}`, hemotusap.candidateLine(lib.bytes(all), lib.bytes(all), 0, value).length, 0);
  }
}

// A call that throws leaves nothing behind: the next one answers.
function badRanges(hemotusap) {
  for (const value of NO_RANGES) {
    const what = `a range that is ${Object.prototype.toString.call(value)}`;
    throwing(what, () => hemotusap.candidateCount(value), 'TypeError');
    throwing(what, () => hemotusap.voicing(0, NO_BASS, TRIAD, value, NO_LEAD), 'TypeError');
    if (value !== undefined) throwing(what, () => hemotusap.suffix(1169, value), 'TypeError');
    same('then', text(hemotusap.suffix(1169)), '7');
  }
}

// Within a buffer of the caller's; longer than every answer; one of the inputs.
function outputs(hemotusap) {
  const whole = new Uint8Array(100).fill(46);
  same('refused', hemotusap.candidates(TRIAD, whole.subarray(10, 42)).number, lib.NO_ROOM);
  same('left alone', text(whole), '.'.repeat(100));
  const answer = hemotusap.candidates(TRIAD, whole.subarray(10, 43));
  same('the part written', `${answer.byteOffset} ${answer.length}`, '10 33');
  same('the whole', text(whole), `${'.'.repeat(10)}C\nEmi(b6,omit5)/C\nG6sus(omit5)/C\n${'.'.repeat(57)}`);
  same('much room', text(hemotusap.suffix(1169, new Uint8Array(1 << 24)).subarray(0, 9)), '7');
  const both = new Uint8Array(64).fill(60);
  same('an input too', text(hemotusap.candidates(both, both)), 'C(omit3,5)\n');
}

// More than the module's memory has, so that it grows; every call before is answered as before.
function longInputs(hemotusap) {
  const long = new Uint8Array(5_000_000).fill(60);
  long.set([64, 67], long.length - 3);
  same('a long list', text(hemotusap.candidates(long)), text(hemotusap.candidates(TRIAD)));
  long[long.length - 1] = 144;
  refusedAs('its last', hemotusap.candidatesStrict(long), lib.NOT_A_KEY, 'not a key, at 4999999');
  same('a long text', hemotusap.listing(long).length, 0);
  same('lines far behind', text(hemotusap.candidateLine(long, lib.bytes('C\nF#\n'), 1, 7)), 'F#');
}

// What is opened has a function for each that the module exports, which are the header's, and nothing more.
function hidden(hemotusap, compiled) {
  const exported = WebAssembly.Module.exports(compiled).filter(({ kind }) => kind === 'function').map(({ name }) => name);
  const called = Object.keys(hemotusap).map((name) => `hemotusap_${name.replace(/[A-Z]/g, (letter) => `_${letter.toLowerCase()}`)}`);
  same('the calls', called.sort().join(' '), exported.sort().join(' '));
  same('functions', Object.values(hemotusap).every((call) => typeof call === 'function'), true);
  same('frozen', Object.isFrozen(hemotusap), true);
}

// `module` is the bytes of hemotusap.wasm.
export async function check(module) {
  const compiled = await WebAssembly.compile(module);
  same('what the module imports', WebAssembly.Module.imports(compiled).length, 0);
  for (const hemotusap of [await lib.open(), await lib.open(module), await lib.open(compiled)]) {
    hidden(hemotusap, compiled);
    refusals(hemotusap);
    badNumbers(hemotusap);
    badRanges(hemotusap);
    outputs(hemotusap);
    longInputs(hemotusap);
  }
}
