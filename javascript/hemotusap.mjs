// Hemotusap for pages and node: the calls of hemotusap.h, their names in camel case, over the module
// hemotusap.wasm, whose memory nobody else sees. What a call answers and when it refuses stands in
// hemotusap.h; its numbers are exported by their names there, without HEMOTUSAP_.
//
//     import { open, text } from './hemotusap.mjs';
//     const hemotusap = await open();
//     text(hemotusap.candidates(Uint8Array.of(60, 64, 67))); // C, Emi(b6,omit5)/C, G6sus(omit5)/C
//
// A range is a Uint8Array; for anything else a TypeError is thrown. An output may be left out: it is
// then a new one that has room for every answer. It may also be one of the inputs. These are copied,
// and where the engine has no memory for that, it throws a RangeError; nothing else is thrown.
//
// A number is any value. What is no whole number of 32 bits is taken as the highest of them, or where
// numbers may be below 0 as the lowest, which is a bad one wherever one can be bad: so 4294967441 is
// not 145. Such a lead is none, and such a candidate is not there.
//
// Where bytes are written, the answer is that part of the output. A refused call answers a Refusal,
// and its output holds what it held.
import * as numbers from './hemotusap-numbers.mjs';
export * from './hemotusap-numbers.mjs';

const PAGE = 65536;
const WORD = 8;

// As hemotusap.hpp has them.
const names = {
  [numbers.NOT_A_SET]: 'not a set',
  [numbers.BAD_CLASS]: 'bad class',
  [numbers.BAD_RANGE]: 'bad range',
  [numbers.TOO_MANY_PAIRS]: 'too many pairs',
  [numbers.BAD_PAIR_CLASS]: 'bad class of a pair',
  [numbers.BAD_PAIR_INTERVAL]: 'bad interval of a pair',
  [numbers.BAD_NOTE]: 'bad note',
  [numbers.BAD_MOVE]: 'bad move',
  [numbers.NOT_A_KEY]: 'not a key',
  [numbers.NO_ROOM]: 'no room',
};

// Why a call is refused, and at which place from 0, where one is told.
export class Refusal {
  constructor(number, place) {
    this.number = number;
    this.name = names[number];
    this.place = place;
    Object.freeze(this);
  }

  toString() {
    return this.place === undefined ? this.name : `${this.name}, at ${this.place}`;
  }
}

// A text of the library's from its bytes, and the bytes of one.
const decoder = new TextDecoder();
const encoder = new TextEncoder();
export const text = (bytes) => decoder.decode(bytes);
export const bytes = (text) => encoder.encode(text);

// The sets of a listing: two bytes each, the higher one first.
export function sets(listed) {
  return Array.from({ length: listed.length / 2 }, (_, at) => 256 * listed[2 * at] + listed[2 * at + 1]);
}

// The calls, over an instance of their own: of the module beside this file, or of one that is given
// as a WebAssembly.Module or by its bytes.
export async function open(module) {
  const opened = await WebAssembly.instantiate(module ?? (await bytesBeside()));
  const lender = new Lender((opened.instance ?? opened).exports);
  return Object.freeze({
    ...candidateCalls(lender),
    ...nameCalls(lender),
    ...noteCalls(lender),
    ...voicingCalls(lender),
  });
}

// Of a file node reads the bytes itself, since its fetch knows no such address.
async function bytesBeside() {
  const address = new URL('hemotusap.wasm', import.meta.url);
  if (address.protocol === 'file:') {
    const { readFile } = await import('node:fs/promises');
    return readFile(address);
  }
  const response = await fetch(address);
  if (!response.ok) throw new Error(`${address}: ${response.status} ${response.statusText}`);
  return response.arrayBuffer();
}

function candidateCalls(lender) {
  const { CANDIDATES_ROOM, NO_BASS } = numbers;
  const listing = (name, tell) => (codes, out) => lender.write(name, [checked(codes)], CANDIDATES_ROOM, out, tell);
  return {
    candidates: listing('candidates'),
    candidatesSharp: listing('candidates_sharp'),
    candidatesStrict: listing('candidates_strict', toldStrictly),
    candidatesStrictSharp: listing('candidates_strict_sharp', toldStrictly),
    // A part of the listing that the key calls for.
    candidateLine(flat, sharp, number, fifths) {
      const given = [checked(flat), checked(sharp), unsigned(number), signed(fifths)];
      const [isSharp, start, length] = lender.writeWords('candidate_line', given);
      return (isSharp ? sharp : flat).subarray(start, start + length);
    },
    candidateCount: (codes) => lender.answer('candidate_count', [checked(codes)]),
    // Its root, bass and set, or null where there is none of this number.
    candidate(codes, number) {
      const found = lender.answer('candidate', [checked(codes), unsigned(number)]);
      const bass = (found >> 16) & 15;
      return found === 0 ? null : { root: (found >> 12) & 15, bass: bass === 15 ? NO_BASS : bass, set: found & 4095 };
    },
  };
}

function nameCalls(lender) {
  return {
    quality(set) {
      const answer = lender.answer('quality', [unsigned(set)]);
      return answer < 0 ? told(answer) : answer;
    },
    suffix: (set, out) => lender.write('suffix', [unsigned(set)], numbers.SUFFIX_ROOM, out),
    listing: (suffix, out) => lender.write('listing', [checked(suffix)], numbers.LISTING_ROOM, out),
    tones: (root, set, out) => lender.write('tones', [unsigned(root), unsigned(set)], numbers.TONES_ROOM, out),
    harmony(root, bass, set, out) {
      return lender.write('harmony', [unsigned(root), unsigned(bass), unsigned(set)], numbers.HARMONY_ROOM, out);
    },
  };
}

// A note that is answered has a letter and an accidental.
function noteCalls(lender) {
  return {
    noteText(letter, accidental, out) {
      return lender.write('note_text', [unsigned(letter), signed(accidental)], numbers.NOTE_TEXT_ROOM, out);
    },
    getNote(letter, accidental, semitones, degree) {
      const given = [unsigned(letter), signed(accidental), unsigned(semitones), unsigned(degree)];
      return noted(lender.answer('get_note', given));
    },
    transpose(fromLetter, fromAccidental, letter, accidental, toLetter, toAccidental) {
      const pairs = [fromLetter, fromAccidental, letter, accidental, toLetter, toAccidental];
      return noted(lender.answer('transpose', pairs.map((number, at) => (at % 2 === 0 ? unsigned : signed)(number))));
    },
  };
}

function voicingCalls(lender) {
  return {
    voicing(root, bass, classes, intervals, lead, out) {
      const given = [unsigned(root), unsigned(bass), checked(classes), checked(intervals), unsigned(lead)];
      return lender.write('voicing', given, numbers.VOICING_ROOM, out);
    },
    voicingWithin(root, bass, lowest, highest, classes, intervals, lead, out) {
      const chord = [root, bass, lowest, highest].map(unsigned);
      const given = [...chord, checked(classes), checked(intervals), unsigned(lead)];
      return lender.write('voicing_within', given, numbers.VOICING_ROOM, out);
    },
  };
}

function unsigned(number) {
  return Number.isInteger(number) && number === number >>> 0 ? number : 0xffffffff;
}

function signed(number) {
  return Number.isInteger(number) && number === (number | 0) ? number : -0x80000000;
}

// What a number below 0 tells..
function told(answer) {
  return answer > -256 ? new Refusal(-answer) : new Refusal(Math.trunc(answer / -256), -(answer % 256));
}

// ..and one of a strict call, whose place may be above 255.
function toldStrictly(answer) {
  const first = -256 * numbers.NOT_A_KEY;
  return answer > first ? new Refusal(-answer) : new Refusal(numbers.NOT_A_KEY, first - answer);
}

function noted(answer) {
  return answer < 0 ? told(answer) : { letter: answer >> 4, accidental: (answer & 15) - 6 };
}

// By its tag, since an array of another frame is of another class.
function checked(range) {
  if (ArrayBuffer.isView(range) && range[Symbol.toStringTag] === 'Uint8Array') return range;
  throw new TypeError('a range has to be a Uint8Array');
}

// Lends the module's memory to one call after another, from its first free byte on.
class Lender {
  #exports;
  #memory;
  #first;
  #free;

  constructor(exports) {
    this.#exports = exports;
    this.#memory = new Uint8Array(exports.memory.buffer);
    this.#first = Number(exports.__heap_base.value);
  }

  // What a call answers that writes nothing.
  answer(name, given) {
    this.#begin();
    return this.#call(name, given);
  }

  // Of a call that counts the bytes it writes. More room than every answer takes would change nothing.
  write(name, given, most, out = new Uint8Array(most), tell = told) {
    this.#begin();
    const room = Math.min(checked(out).length, most);
    const start = this.#lent(room);
    const answer = this.#call(name, given, BigInt(start), BigInt(room));
    if (answer < 0) return tell(answer);
    out.set(this.#memory.subarray(start, start + answer));
    return out.subarray(0, answer);
  }

  // Of a call that writes two words: the answer, then these. The first free byte is where a word may begin.
  writeWords(name, given) {
    this.#begin();
    const start = this.#lent(2 * WORD);
    const answer = this.#call(name, given, BigInt(start), BigInt(start + WORD));
    return [answer, ...Array.from(new BigUint64Array(this.#memory.buffer, start, 2), Number)];
  }

  #begin() {
    this.#free = this.#first;
  }

  // A range that is given is passed as its start and its length, as is what the call writes.
  #call(name, given, ...written) {
    const passed = [];
    for (const each of given) {
      if (typeof each === 'number') passed.push(each);
      else passed.push(BigInt(this.#copied(each)), BigInt(each.length));
    }
    return Number(this.#exports[`hemotusap_${name}`](...passed, ...written));
  }

  #copied(range) {
    const start = this.#lent(range.length);
    this.#memory.set(range, start);
    return start;
  }

  #lent(length) {
    const start = this.#free;
    this.#free += length;
    const missing = this.#free - this.#memory.length;
    if (missing > 0) this.#grow(Math.ceil(missing / PAGE));
    return start;
  }

  // The standard counts the pages of such a memory in BigInt, and node before 24 in numbers.
  #grow(pages) {
    const { memory } = this.#exports;
    try {
      memory.grow(BigInt(pages));
    } catch (error) {
      if (!(error instanceof TypeError)) throw error;
      memory.grow(pages);
    }
    this.#memory = new Uint8Array(memory.buffer);
  }
}
