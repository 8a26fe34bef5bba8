// The calls of web/sagebasket.js against the answers of `desk`, and what a caller may do wrong.
// usage: node tests/web/calls.mjs LINES ANSWERS        LINES is an input of `desk`, ANSWERS what it wrote
// Exits 1 where anything differs.
import fs from 'node:fs';
import { load, EDITION_IN_FORCE } from '../../web/sagebasket.js';
import { Tally, linesOf, nameOf } from './tally.mjs';
import { lentMemory } from './memory.mjs';

const STACK = 32768;
const WASM = new URL('../../web/sagebasket.wasm', import.meta.url);
const [linesFile, answersFile] = process.argv.slice(2);
if (!answersFile) {
  console.log('usage: node tests/web/calls.mjs LINES ANSWERS');
  process.exit(2);
}
const tally = new Tally();
const want = tally.want.bind(tally);

// load() hands out no instance; the stack's depth is read from its memory all the same
let memory;
const instantiate = WebAssembly.instantiate;
WebAssembly.instantiate = async (...given) => {
  const made = await instantiate(...given);
  memory ??= new Uint8Array(made.instance.exports.memory.buffer);
  return made;
};
const sagebasket = await load();
want('what lies where the stack will be', memory.subarray(0, STACK).some((octet) => octet !== 0), false);
memory.fill(0xa5, 0, STACK);

// A live check that is fed one code point at a time. What may become a name may do so at each step until it may not, and never again.
function stepped(name, live) {
  let hope = live.mayBecome();
  let revived = false;
  for (const c of name) {
    live.step(c.codePointAt(0));
    const now = live.mayBecome();
    revived ||= now && !hope;
    hope = now;
  }
  return { hope, revived };
}

function compareLabels(name, check, ascii) {
  const points = Array.from(check.text);
  const labels = check.labels.map(({ start, length }) => points.slice(start, start + length).join(''));
  want(`labels of ${name}`, labels.join('.'), check.text);
  const encoded = ascii.text.split('.');
  labels.forEach((label, i) => {
    if (/^[a-z0-9-]*$/.test(label)) {
      want(`encode ${label}`, sagebasket.encode(label), { number: 13, place: 0, text: '' });
      want(`ASCII label of ${name}`, encoded[i], label);
      return;
    }
    want(`encode ${label}`, sagebasket.encode(label), { number: 0, place: 0, text: encoded[i] });
    want(`decode ${encoded[i]}`, sagebasket.decode(encoded[i].toUpperCase()), { number: 0, place: 0, text: label });
  });
}

// First and second wish: beside one that is accepted, one that is refused, and none.
function compareWish(name, said) {
  const accepted = said.number === 0, part = accepted ? name.split(/[.．。｡]/)[0] : '';
  const fine = { number: 0, place: 0 }, short = { number: 8, place: 0 }, none = { number: 2, place: 0 };
  const before = { won: accepted ? 1 : 2, first: said, second: fine, part: accepted ? part : 'ＡＢ−Ｃ' };
  want(`${name} before another wish`, sagebasket.wish(name, 'ＡＢ−Ｃ。JP'), before);
  want(`${name} after another wish`, sagebasket.wish('ＡＢ−Ｃ。JP', name), { won: 1, first: fine, second: said, part: 'ＡＢ−Ｃ' });
  want(`${name} after a refused wish`, sagebasket.wish('ab.jp', name), { won: accepted ? 2 : 0, first: short, second: said, part });
  want(`${name} before none`, sagebasket.wish(name, ''), { won: accepted ? 1 : 0, first: said, second: none, part });
}

function compareName(name, [, number, place, letter, form, kinds]) {
  const said = { number: Number(number), place: Number(place), class: letter };
  const accepted = number === '0';
  const ascii = sagebasket.toAscii(name);
  want(`toAscii of ${name}`, ascii, { ...said, kinds, text: accepted ? form : '' });
  const check = sagebasket.check(name);
  want(`check of ${name}`, { number: check.number, place: check.place, class: check.class }, said);
  want(`label count of ${name}`, check.labels.length, { G: 2, P: 3, '-': 0 }[letter]);
  const live = sagebasket.live();
  const { hope, revived } = stepped(name, live);
  want(`live toAscii of ${name}`, live.toAscii(), ascii);
  const look = live.look();
  want(`look at ${name}`, accepted ? look : { ...look, text: '' }, check);
  want(`hope of ${name}`, [hope, revived, hope || !accepted], [sagebasket.mayBecome(name), false, true]);
  const host = live.lookHost(), hostAscii = live.hostToAscii();
  want(`host ${name}`, [host.number, host.place, hostAscii], [hostAscii.number, hostAscii.place, sagebasket.hostToAscii(name)]);
  want(`normal form of ${name}`, host.text, look.text);
  const length = Array.from(name).length;
  const read = said.number === 2 || said.number === 3 ? 0 : said.number === 4 ? said.place + 1 : length;
  want(`the search box on ${name}`, sagebasket.acceptable(name), { yes: accepted, read });
  compareWish(name, { number: said.number, place: said.place });
  if (accepted) compareLabels(name, check, ascii);
}

function compareLines() {
  const lines = linesOf(fs.readFileSync(linesFile)), answers = linesOf(fs.readFileSync(answersFile));
  want('answers to lines', answers.length, lines.length);
  const numbers = {};
  lines.forEach((line, i) => {
    const answer = Buffer.from(answers[i] ?? []).toString();
    want(`line ${i + 1}`, sagebasket.line(line), answer);
    const fields = answer.split('\t');
    numbers[fields[1]] = (numbers[fields[1]] ?? 0) + 1;
    if (fields[1] === '16') return;
    want(`line ${i + 1} as a string`, sagebasket.line(`${fields[0]}\t${nameOf(line)}`), answer);
    compareName(nameOf(line), fields);
  });
  return { count: lines.length, numbers };
}

// docs/RULES.md, 'Editions' and 'Nameserver host names'
function compareTables() {
  const editions = [
    ['', 2, 2, 2, 2], [' '.repeat(257), 3, 3, 3, 3], ['ABC.JP', 0, 0, 0, 0], ['ab--c.jp', 17, 17, 17, 17],
    ['〃.jp', 0, 4, 4, 4], ['・〃.jp', 0, 4, 4, 4], ['〃'.repeat(16) + '.jp', 9, 4, 4, 4],
    ['abc.nara.jp', 5, 5, 0, 0], ['abc.奈良.jp', 5, 5, 12, 0], ['abc.na', 11, 11, 11, 11],
  ];
  for (const [text, ...numbers] of editions) {
    for (const edition of [0, 1, 2, 3, 4, 5, 4294967295]) {
      const number = numbers[edition - 1] ?? 25;
      const told = [sagebasket.check(text, edition).number, sagebasket.toAscii(text, edition).number];
      want(`${text} by edition ${edition}`, told, [number, number]);
      want(`is ${edition} an edition`, sagebasket.isEdition(edition), edition >= 1 && edition <= 4);
    }
  }
  want('kinds of 〃.jp by edition 1', sagebasket.toAscii('〃.jp', 1).kinds, 'S');
  const hopes = [0, 1, 2, 3, 4, 5].map((edition) => sagebasket.mayBecome('abc.na', edition));
  want('abc.na may become', hopes, [false, false, false, true, true, false]);
  want('the edition in force', [sagebasket.EDITION_IN_FORCE, EDITION_IN_FORCE, sagebasket.check('〃.jp').number], [4, 4, 4]);
  const hosts = [
    ['1.2.3.4', 0, 0, '1.2.3.4'], ['A\uff42\u2212c\u3002\uff76\uff9e\uff61\uff2aP', 0, 0, 'ab-c.xn--mck.jp'],
    ['a.b', 5, 0, ''], ['a.b.c.', 6, 3, ''], ['a.b.-c', 7, 2, ''], ['a.ああ--あ.c', 17, 1, ''],
    ['a.b.' + 'あ'.repeat(16), 9, 2, ''], ['・.-a.b', 10, 0, ''], [Array(128).fill('a').join('.'), 19, 0, ''],
  ];
  for (const [text, number, place, ascii] of hosts) want(`host ${text}`, sagebasket.hostToAscii(text), { number, place, text: ascii });
}

function compareOdd() {
  want('a lone surrogate', sagebasket.check('a\ud800.jp'), { number: 4, place: 1, class: '-', labels: [], text: '' });
  want('past 257', sagebasket.check('a'.repeat(1e6)).number, 3);
  want('256 and 257 emoji', ['😀'.repeat(256), '😀'.repeat(257)].map((text) => sagebasket.check(text).number), [4, 3]);
  const pasted = ['', '!'.repeat(1e6), '!' + 'a'.repeat(255), '!' + 'a'.repeat(256), 'う゛.jp', 'ｶﾞ.jp', 'a\ud800.jp', '😀'.repeat(256), '😀'.repeat(257)];
  const answered = [[false, 0], [false, 0], [false, 1], [false, 0], [false, 2], [true, 5], [false, 2], [false, 1], [false, 0]];
  want('pasted', pasted.map((text) => Object.values(sagebasket.acceptable(text))), answered);
  const long = { number: 3, place: 256 };
  want('long wishes', sagebasket.wish('あ'.repeat(1e6), '.'.repeat(1e6)), { won: 0, first: long, second: long, part: '' });
  const half = { won: 2, first: { number: 4, place: 1 }, second: { number: 0, place: 0 }, part: 'ｶﾞ' };
  want('a part as it was typed', sagebasket.wish('a\ud800.jp', 'ｶﾞ｡gifu．jp'), half);
  want('a lone surrogate in a line', sagebasket.line('a\tb\udc00.jp'), '-\t16\t0\t-\t-\t-');
  want('1,024 octets', sagebasket.line('a\t' + 'b'.repeat(1022)), 'a\t3\t256\t-\t-\t-');
  want('1,025 octets', sagebasket.line('a\t' + 'b'.repeat(1020) + 'あ'), '-\t16\t0\t-\t-\t-');
  want('U+FFFD', sagebasket.line('a\t\ufffd.jp'), 'a\t4\t0\t-\t-\t-');
  want('a mebibyte', sagebasket.line(new Uint8Array(1 << 20)), '-\t16\t0\t-\t-\t-');
  want('a part of an array', sagebasket.line(Buffer.from('xxa\tABC.JPxx').subarray(2, 10)), 'a\t0\t0\tG\tabc.jp\t-');
  want('63 あ', sagebasket.encode('あ'.repeat(63)), { number: 14, place: 0, text: '' });
  for (const label of ['', 'abc', 'A' + 'あ', 'あ'.repeat(64), 'あ\ud800']) want(`encode ${label}`, sagebasket.encode(label).number, 13);
  for (const octets of ['', 'xn--', 'abc', 'xn--あ', 'xn--l8j\0', 'x'.repeat(64), 'xn--l8\u016a']) {
    want(`decode ${octets}`, sagebasket.decode(octets).number, 15);
  }
}

function compareMisuse() {
  for (const bad of [undefined, null, 1, {}, ['a'], new String('a.jp'), Symbol('a')]) {
    for (const call of ['check', 'toAscii', 'mayBecome', 'acceptable', 'hostToAscii', 'encode', 'decode', 'line']) {
      tally.throws(`${call} of no string`, TypeError, () => sagebasket[call](bad));
    }
    tally.throws('a first wish of no string', TypeError, () => sagebasket.wish(bad, 'a.jp'));
    tally.throws('a second wish of no string', TypeError, () => sagebasket.wish('a.jp', bad));
    tally.throws('type of no string', TypeError, () => sagebasket.live().type(bad));
  }
  const wrong = [['4', TypeError], [null, TypeError], [4n, TypeError], ...[-1, 1.5, NaN, Infinity, 2 ** 32].map((n) => [n, RangeError])];
  for (const [bad, Kind] of wrong) {
    for (const call of ['check', 'toAscii', 'mayBecome']) tally.throws(`${call} by ${bad}`, Kind, () => sagebasket[call]('a.jp', bad));
    tally.throws(`live by ${bad}`, Kind, () => sagebasket.live(bad));
    tally.throws(`isEdition of ${bad}`, Kind, () => sagebasket.isEdition(bad));
    tally.throws(`a step with ${bad}`, Kind, () => sagebasket.live().step(bad));
  }
  const live = sagebasket.live();
  live.type('abc');
  tally.throws('a wrong step', RangeError, () => live.step(-1));
  live.type('abc.jp');
  want('after a wrong step', live.look().number, 0);
}

// Live checks held at once, fed in turn, with whole-text calls between.
function compareLives() {
  const texts = ['コーヒーの佐々木.jp', 'abc.tokyo.jp', '-あ.jp', 'a.b.c.d', '〃.jp', 'a'.repeat(300)];
  const lives = texts.map((_, i) => sagebasket.live(i === 4 ? 1 : 4));
  for (let at = 0; at < 300; at++) {
    texts.forEach((text, i) => { if (at < text.length) lives[i].step(text.charCodeAt(at)); });
    sagebasket.check(texts[at % texts.length]);
  }
  texts.forEach((text, i) => want(`${text.slice(0, 20)} beside others`, lives[i].toAscii(), sagebasket.toAscii(text, i === 4 ? 1 : 4)));
  const live = sagebasket.live();
  // 256 code points are taken, and half a code point counts as one: what goes on from it must not count twice
  const long = 'a'.repeat(255);
  const typed = [`${long}\ud83d`, `${long}😀`, `${long}😀.jp`, `${long}\ud83d`, 'a'.repeat(301), 'abc.jp', 'abc', 'abc.jp'];
  for (const text of ['あ', 'あ.', 'あ.jp', 'い.jp', '', ...typed]) {
    live.type(text);
    const { text: form, ...said } = live.look(), { text: _, ...should } = sagebasket.check(text);
    want(`typed on to ${text.slice(0, 20)}`, said, should);
  }
  live.type(long);
  live.step(0xd83d);
  live.step(0xde00);
  want('halves, one by one', live.look().number, 3);
  live.type(`${long}😀`);
  want('the whole after its halves', live.look().number, 4);
  live.type('😀');
  live.step(0xffffffff);
  want('a number past 10FFFF', live.look().text, '😀\ufffd');
}

async function compareLoads() {
  const bytes = fs.readFileSync(WASM);
  const response = () => new Response(bytes);
  for (const source of [bytes, new Uint8Array(bytes), new Uint8Array(bytes).buffer, response(), Promise.resolve(response())]) {
    want('load', (await load(source)).check('abc.jp').number, 0);
  }
  const failing = [
    () => new Response(bytes, { status: 404 }), () => new Uint8Array(4), () => null, () => 'sagebasket.wasm',
    () => Promise.reject(new Error('none')),
  ];
  for (const source of failing) want('a load that fails', await load(source()).then(() => 'loaded', () => 'failed'), 'failed');
}

const { count, numbers } = compareLines();
compareTables();
compareOdd();
compareMisuse();
compareLives();
await compareLoads();
const { instance } = await instantiate(fs.readFileSync(WASM));
lentMemory(tally, instance.exports, STACK);
const unused = memory.subarray(0, STACK).findIndex((octet) => octet !== 0xa5);
want('the stack was used, and not to its end', unused > 0 && unused < STACK, true);
const told = Object.entries(numbers).map(([number, times]) => `${number}: ${times}`).join(', ');
const stack = `stack ${STACK - unused} of ${STACK} octets`;
console.log(`calls: ${count} lines (${told}), ${tally.compared} comparisons, ${tally.wrong} wrong, ${stack}`);
process.exit(tally.wrong ? 1 : 0);
