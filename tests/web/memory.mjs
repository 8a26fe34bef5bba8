// What each call of the module does to the memory around what it is lent: nothing.

// Octets of a call's buffers, far enough from each other to see a slip.
const APART = 2048;
const FILL = 0x5c;

// Lends places for a call, makes it, and says which of the memory past the stack changed outside what it may write.
function strayed(exports, stack, sizes, call) {
  const memory = new Uint8Array(exports.memory.buffer);
  const base = (exports.__heap_base.value + 15) & ~15;
  memory.fill(FILL, base);
  const places = sizes.map(({ size, octets }, i) => {
    const at = base + APART * (i + 1);
    if (octets) memory.set(octets, at);
    return { at, size };
  });
  const before = memory.slice();
  call(...places.map(({ at }) => at));
  let stray = 0;
  for (let i = stack; i < memory.length; i++) {
    const lent = places.find(({ at, size }, k) => i >= at && i < at + size && !sizes[k].fixed);
    if (!lent && memory[i] !== before[i]) stray++;
  }
  const cut = (from) => places.map(({ at, size }) => from.slice(at, at + size));
  return { stray, before: cut(before), after: cut(memory) };
}

const octetsOf = (numbers) => new Uint8Array(Uint32Array.from(numbers).buffer);
const pointsOf = (text) => Array.from(text, (c) => c.codePointAt(0));

function stateOf(text, edition) {
  const state = new Uint32Array(258);
  state.set(pointsOf(text).slice(0, 256));
  state[256] = Math.min(pointsOf(text).length, 257);
  state[257] = edition;
  return octetsOf(state);
}

// `fixed` memory is only read. With 0 a buffer is written from its start and is as it was past that; with a refusal it is as it was.
function lookAtBuffer(tally, what, { stray, after, before }, buffer, answer, unit) {
  tally.want(`${what}: memory outside`, stray, 0);
  const numbers = new Uint32Array(after[answer].buffer);
  const written = numbers[0] === 0 ? numbers[4] * unit : 0;
  tally.want(`${what}: past what was written`, Buffer.compare(after[buffer].subarray(written), before[buffer].subarray(written)), 0);
}

function coders(tally, exports, stack) {
  const answer = { size: 48 };
  for (const label of ['あ', 'abc', '', 'あ'.repeat(63), '東京都'.repeat(5)]) {
    const points = pointsOf(label);
    const text = { size: 256, octets: octetsOf(points), fixed: true };
    const call = (t, out, a) => exports.sagebasket_encode(t, BigInt(points.length), out, a);
    const did = strayed(exports, stack, [text, { size: 63 }, answer], call);
    lookAtBuffer(tally, `encode ${label}`, did, 1, 2, 1);
  }
  for (const encoded of ['xn--l8j', 'XN--L8J', 'abc', '', 'xn--' + 'a'.repeat(59)]) {
    const octets = { size: 64, octets: Buffer.from(encoded), fixed: true };
    const call = (t, out, a) => exports.sagebasket_decode(t, BigInt(encoded.length), out, a);
    const did = strayed(exports, stack, [octets, { size: 252 }, answer], call);
    lookAtBuffer(tally, `decode ${encoded}`, did, 1, 2, 4);
  }
}

function lives(tally, exports, stack, text, edition) {
  const answer = { size: 48 };
  const state = { size: 1032, octets: stateOf(text, edition), fixed: true };
  const what = `${text.slice(0, 20)} by ${edition}`;
  for (const [call, size] of [['sagebasket_live_to_ascii', 192], ['sagebasket_live_host_to_ascii', 255]]) {
    const did = strayed(exports, stack, [state, { size }, answer], (s, out, a) => exports[call](s, out, a));
    lookAtBuffer(tally, `${call} of ${what}`, did, 1, 2, 1);
  }
  for (const call of ['sagebasket_live_look', 'sagebasket_live_look_host']) {
    const did = strayed(exports, stack, [state, { size: 1024 }, answer], (s, out, a) => exports[call](s, out, a));
    const length = new Uint32Array(did.after[2].buffer)[4];
    tally.want(`${call} of ${what}`, [did.stray, new Uint32Array(did.after[1].buffer).subarray(length).some((c) => c !== 0)], [0, false]);
  }
  tally.want(`may_become of ${what}`, strayed(exports, stack, [state], (s) => exports.sagebasket_live_may_become(s)).stray, 0);
  const open = { ...state, fixed: false };
  tally.want(`step of ${what}`, strayed(exports, stack, [open], (s) => exports.sagebasket_live_step(s, 0x3042)).stray, 0);
  tally.want(`fresh by ${edition}`, strayed(exports, stack, [open], (s) => exports.sagebasket_live_fresh(edition, s)).stray, 0);
}

function searches(tally, exports, stack) {
  for (const text of ['', 'abc.jp', 'う゛.jp', '!' + 'a'.repeat(255), 'a'.repeat(257)]) {
    const points = pointsOf(text);
    const lent = { size: 1028, octets: octetsOf(points), fixed: true };
    const { stray } = strayed(exports, stack, [lent, { size: 4 }], (t, read) => exports.sagebasket_acceptable(t, BigInt(points.length), read));
    tally.want(`the search box on ${text.slice(0, 20)}`, stray, 0);
  }
}

function wishes(tally, exports, stack) {
  const texts = ['', 'abc.jp', 'う゛.jp', 'ｶﾞ｡gifu．jp', 'a'.repeat(257)];
  for (const one of texts) for (const two of texts) {
    const lent = [one, two].map((text) => ({ size: 1028, octets: octetsOf(pointsOf(text)), fixed: true }));
    const call = (a, b, answer) => exports.sagebasket_wish(a, BigInt(pointsOf(one).length), b, BigInt(pointsOf(two).length), answer);
    const { stray, after } = strayed(exports, stack, [...lent, { size: 24 }], call);
    const unwritten = new Uint32Array(after[2].buffer).some((n) => n > 257);
    tally.want(`wishes ${one.slice(0, 20)}, ${two.slice(0, 20)}`, [stray, unwritten], [0, false]);
  }
}

export function lentMemory(tally, exports, stack) {
  coders(tally, exports, stack);
  searches(tally, exports, stack);
  wishes(tally, exports, stack);
  const texts = [
    '', 'abc.jp', 'あ.tokyo.jp', 'う゛.jp', 'a.b.あ', 'あ'.repeat(15) + '.jp', 'a'.repeat(256), 'a'.repeat(257),
    Array(127).fill('a').join('.'), 'ｶﾞ'.repeat(128),
  ];
  for (const text of texts) for (const edition of [1, 4, 9]) lives(tally, exports, stack, text, edition);
  const lines = [
    'a1\tABC.JP', `a\t${'あ'.repeat(15)}.kagoshima.jp`, '', 'b'.repeat(1025), `${'i'.repeat(32)}\t${'a'.repeat(63)}.kagoshima.jp`,
  ];
  for (const line of lines) {
    const octets = Buffer.from(line);
    const given = { size: 1025, octets, fixed: true };
    let length;
    const call = (t, out) => { length = exports.sagebasket_line(t, BigInt(octets.length), out); };
    const { stray, after: [, out] } = strayed(exports, stack, [given, { size: 256 }], call);
    const untouched = out.subarray(length).every((octet) => octet === FILL);
    tally.want(`line ${line.slice(0, 20)}`, [stray, untouched, out[length - 1]], [0, true, 10]);
  }
}
