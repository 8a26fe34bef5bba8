// Sagebasket in a browser or in Node: the proved calls of sagebasket.wasm, with strings for code points. No rule of names is
// in this file: it copies code points in and answers out. README.md says how to use it, sagebasket.d.ts what each call gives.

export const EDITION_IN_FORCE = 4;

const CLASS_LETTERS = ['-', 'G', 'P'];
const KIND_LETTERS = ['H', 'K', 'J', 'S'];

// How much is handed over at most: one more than a call can take. What is longer is refused for its length, whatever it is.
const MOST_TEXT = 257;
const MOST_LABEL = 64;
const MOST_LINE = 1025;
// Where a state has its count, and the count that stands for any beyond 256 code points: no step changes that one.
const COUNT = 256;
const FULL = 257;

// SOURCE: the bytes of sagebasket.wasm, a Response, or a promise of one. Without it the file beside this one is taken.
export async function load(source = beside()) {
  const given = await source;
  if (given?.ok === false) throw new Error(`sagebasket.wasm: ${given.status} ${given.statusText}`);
  const bytes = typeof given?.arrayBuffer === 'function' ? await given.arrayBuffer() : given;
  const { instance } = await WebAssembly.instantiate(bytes, {});
  return new Sagebasket(new Module(instance.exports));
}

async function beside() {
  const url = new URL('sagebasket.wasm', import.meta.url);
  if (url.protocol !== 'file:') return fetch(url);
  // Node alone comes here: what bundles files for browsers is to leave it as it is
  const { readFile } = await import(/* webpackIgnore: true */ /* @vite-ignore */ 'node:fs/promises');
  return readFile(url);
}

function wantString(value, what) {
  if (typeof value !== 'string') throw new TypeError(`${what} must be a string`);
}

function wantNumber(value, what) {
  if (typeof value !== 'number') throw new TypeError(`${what} must be a number`);
  if (value >>> 0 !== value) throw new RangeError(`${what} must be a whole number from 0 to 4294967295`);
}

// The code points of a string; a lone surrogate stands for itself.
function* codePoints(text) {
  for (const c of text) yield c.codePointAt(0);
}

// Does an index of a string part the two halves of a code point?
function splits(text, at) {
  const half = (i) => text.charCodeAt(i) & 0xfc00;
  return at > 0 && half(at - 1) === 0xd800 && half(at) === 0xdc00;
}

const charOf = (c) => (c <= 0x10ffff ? String.fromCodePoint(c) : '\ufffd');
const fromPoints = (points) => Array.from(points, charOf).join('');
const fromOctets = (octets) => String.fromCharCode(...octets);

// UTF-8. A lone surrogate gets the three octets that its size asks for, so that it is refused: TextEncoder would put U+FFFD.
function utf8(text, most) {
  const octets = [];
  const tail = (c, shift) => octets.push(0x80 | ((c >> shift) & 0x3f));
  for (const c of codePoints(text)) {
    if (octets.length >= most) break;
    if (c < 0x80) octets.push(c);
    else if (c < 0x800) octets.push(0xc0 | (c >> 6));
    else if (c < 0x10000) octets.push(0xe0 | (c >> 12));
    else octets.push(0xf0 | (c >> 18));
    if (c >= 0x10000) tail(c, 12);
    if (c >= 0x800) tail(c, 6);
    if (c >= 0x80) tail(c, 0);
  }
  return octets.slice(0, most);
}

// The calls, and the places that are lent to them: these lie past what the module itself uses of its memory.
class Module {
  constructor(calls) {
    let at = calls.__heap_base.value;
    const lend = (Numbers, count) => {
      at = (at + 3) & ~3;
      const place = new Numbers(calls.memory.buffer, at, count);
      at += place.byteLength;
      return place;
    };
    this.calls = calls;
    this.answer = lend(Uint32Array, 12);
    this.state = lend(Uint32Array, 258);
    this.points = lend(Uint32Array, MOST_TEXT);
    this.others = lend(Uint32Array, MOST_TEXT);
    this.octets = lend(Uint8Array, MOST_LINE);
    this.ascii = lend(Uint8Array, 256);
  }

  // Puts the code points of a text where they are lent, and says how many: no more than these are handed over.
  lent(text, most, points = this.points) {
    let count = 0;
    for (const c of codePoints(text)) {
      if (count === most) break;
      points[count++] = c;
    }
    return BigInt(count);
  }

  // The last call's answer, and how much it wrote.
  told() {
    const [number, place, kind, kinds, length, count, ...places] = this.answer;
    const found = KIND_LETTERS.filter((_, bit) => kinds & (1 << bit)).join('');
    const labels = Array.from({ length: count }, (_, i) => ({ start: places[i], length: places[i + 3] }));
    return { number, place, class: CLASS_LETTERS[kind], kinds: found || '-', labels, length };
  }

  toldPoints() {
    return fromPoints(this.points.subarray(0, this.told().length));
  }

  toldAscii() {
    return fromOctets(this.ascii.subarray(0, this.told().length));
  }
}

class Sagebasket {
  EDITION_IN_FORCE = EDITION_IN_FORCE;
  #module;

  constructor(module) {
    this.#module = module;
  }

  isEdition(edition) {
    wantNumber(edition, 'an edition');
    return this.#module.calls.sagebasket_is_edition(edition) === 1;
  }

  check(text, edition = EDITION_IN_FORCE) {
    const answer = this.#typed(text, edition).look();
    return answer.number === 0 ? answer : { ...answer, text: '' };
  }

  toAscii(text, edition = EDITION_IN_FORCE) {
    return this.#typed(text, edition).toAscii();
  }

  mayBecome(text, edition = EDITION_IN_FORCE) {
    return this.#typed(text, edition).mayBecome();
  }

  acceptable(text) {
    wantString(text, 'a text');
    const { calls, points, answer } = this.#module;
    const yes = calls.sagebasket_acceptable(points.byteOffset, this.#module.lent(text, MOST_TEXT), answer.byteOffset);
    return { yes: yes === 1, read: answer[0] };
  }

  wish(first, second) {
    wantString(first, 'a text');
    wantString(second, 'a text');
    const { calls, points, others, answer } = this.#module;
    const count = this.#module.lent(first, MOST_TEXT);
    const otherCount = this.#module.lent(second, MOST_TEXT, others);
    calls.sagebasket_wish(points.byteOffset, count, others.byteOffset, otherCount, answer.byteOffset);
    const [won, number, place, otherNumber, otherPlace, length] = answer;
    // an accepted text has no character past FFFF, so that its code points are the string's
    const part = (won === 2 ? second : first).slice(0, length);
    return { won, first: { number, place }, second: { number: otherNumber, place: otherPlace }, part };
  }

  hostToAscii(text) {
    return this.#typed(text, EDITION_IN_FORCE).hostToAscii();
  }

  encode(label) {
    wantString(label, 'a label');
    const { calls, points, ascii, answer } = this.#module;
    calls.sagebasket_encode(points.byteOffset, this.#module.lent(label, MOST_LABEL), ascii.byteOffset, answer.byteOffset);
    const { number, place } = this.#module.told();
    return { number, place, text: this.#module.toldAscii() };
  }

  // What is no octet becomes FF, which no encoded label has.
  decode(encoded) {
    wantString(encoded, 'an encoded label');
    const { calls, octets, points, answer } = this.#module;
    const count = Math.min(encoded.length, MOST_LABEL);
    for (let i = 0; i < count; i++) octets[i] = Math.min(encoded.charCodeAt(i), 0xff);
    calls.sagebasket_decode(octets.byteOffset, BigInt(count), points.byteOffset, answer.byteOffset);
    const { number, place } = this.#module.told();
    return { number, place, text: this.#module.toldPoints() };
  }

  line(line) {
    if (!(line instanceof Uint8Array)) wantString(line, 'a line');
    const { calls, octets, ascii } = this.#module;
    const given = typeof line === 'string' ? utf8(line, MOST_LINE) : line.subarray(0, MOST_LINE);
    octets.set(given);
    const length = calls.sagebasket_line(octets.byteOffset, BigInt(given.length), ascii.byteOffset);
    return fromOctets(ascii.subarray(0, length - 1));
  }

  live(edition = EDITION_IN_FORCE) {
    wantNumber(edition, 'an edition');
    return new Live(this.#module, edition);
  }

  // Check, ASCII forms and hope of a whole text are those of a live check that read all of it.
  #typed(text, edition) {
    const live = this.live(edition);
    live.type(text);
    return live;
  }
}

// A live check has its own state and lends a copy of it to each call, so any number of them may be held at once.
class Live {
  #module;
  #edition;
  #state;
  #text; // what was read, where type() alone put it there; else null

  constructor(module, edition) {
    this.#module = module;
    this.#edition = edition;
    this.#fresh();
  }

  type(text) {
    wantString(text, 'a text');
    const known = this.#text;
    const goesOn = known !== null && text.startsWith(known) && !splits(text, known.length);
    if (!goesOn) this.#fresh();
    this.#steps(codePoints(goesOn ? text.slice(known.length) : text));
    this.#text = text;
  }

  // Two halves of a code point may be stepped one by one and are two code points then. A string cannot tell, so none is kept.
  step(codePoint) {
    wantNumber(codePoint, 'a code point');
    this.#steps([codePoint]);
    this.#text = null;
  }

  look() {
    const { calls, points, answer } = this.#module;
    calls.sagebasket_live_look(this.#lent(), points.byteOffset, answer.byteOffset);
    const { number, place, class: letter, labels } = this.#module.told();
    return { number, place, class: letter, labels, text: this.#module.toldPoints() };
  }

  lookHost() {
    const { calls, points, answer } = this.#module;
    calls.sagebasket_live_look_host(this.#lent(), points.byteOffset, answer.byteOffset);
    const { number, place } = this.#module.told();
    return { number, place, text: this.#module.toldPoints() };
  }

  mayBecome() {
    return this.#module.calls.sagebasket_live_may_become(this.#lent()) === 1;
  }

  toAscii() {
    const { calls, ascii, answer } = this.#module;
    calls.sagebasket_live_to_ascii(this.#lent(), ascii.byteOffset, answer.byteOffset);
    const { number, place, class: letter, kinds } = this.#module.told();
    return { number, place, class: letter, kinds, text: this.#module.toldAscii() };
  }

  hostToAscii() {
    const { calls, ascii, answer } = this.#module;
    calls.sagebasket_live_host_to_ascii(this.#lent(), ascii.byteOffset, answer.byteOffset);
    const { number, place } = this.#module.told();
    return { number, place, text: this.#module.toldAscii() };
  }

  #fresh() {
    const { calls, state } = this.#module;
    calls.sagebasket_live_fresh(this.#edition, state.byteOffset);
    this.#state = state.slice();
    this.#text = '';
  }

  #lent() {
    const { state } = this.#module;
    state.set(this.#state);
    return state.byteOffset;
  }

  #steps(points) {
    const { calls, state } = this.#module;
    const lent = this.#lent();
    for (const c of points) {
      if (state[COUNT] >= FULL) break;
      calls.sagebasket_live_step(lent, c);
    }
    this.#state.set(state);
  }
}
