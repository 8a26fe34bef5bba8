// The wasm in Node: what it exports and asks for, how large it is as brotli sends it, and its answers to the lines of a batch, by sagebasket_line, by
// the live check, for the search box and as a wish, beside `desk`'s.
// usage: node tests/c/wasm.mjs WASM LINES ANSWERS
import { readFileSync } from 'node:fs';
import { brotliCompressSync } from 'node:zlib';

const CALLS = 'is_edition acceptable wish encode decode line live_fresh live_step live_look live_look_host live_may_become live_to_ascii live_host_to_ascii';
const PAGE = 65536;
const MOST_SENT = 10000;
const [wasm, linesFile, answersFile] = process.argv.slice(2);
const module = new WebAssembly.Module(readFileSync(wasm));
const wrong = (what) => {
    console.error(`tests/c: wasm: ${what}`);
    process.exit(1);
};

const sent = brotliCompressSync(readFileSync(wasm)).length; // at quality 11, its own default
if (sent > MOST_SENT) wrong(`it is ${sent} octets as brotli sends it`);
const names = WebAssembly.Module.exports(module).map((e) => e.name).sort();
const wanted = ['memory', '__heap_base', ...CALLS.split(' ').map((name) => `sagebasket_${name}`)].sort();
if (WebAssembly.Module.imports(module).length) wrong('it imports something');
if (names.join(' ') !== wanted.join(' ')) wrong(`it exports ${names.join(' ')}`);
const { exports: calls } = new WebAssembly.Instance(module);
if (calls.memory.buffer.byteLength !== PAGE) wrong('its memory is not one page');
let grown = true;
try {
    calls.memory.grow(1);
} catch {
    grown = false;
}
if (grown) wrong('its memory grows');

// What is lent stands behind the tables, each with room.
const heap = calls.__heap_base.value;
const line = heap, out = line + 4096, state = out + 256, form = state + 258 * 4, answer = form + 256 * 4, ascii = answer + 48, read = ascii + 256, other = read + 4;
if (other + 28 > PAGE) wrong('there is no room behind the tables');
const octets = new Uint8Array(calls.memory.buffer);
const words = new Uint32Array(calls.memory.buffer);
const tables = octets.slice(32768, heap);

const answerTo = (bytes) => {
    octets.set(bytes, line);
    const length = calls.sagebasket_line(line, BigInt(bytes.length), out);
    return Buffer.from(octets.slice(out, out + length)).toString('latin1');
};

// Yes or no for the search box, by number and place of the ASCII form.
const searched = (name, number, place) => {
    const points = Array.from(name, (c) => c.codePointAt(0));
    words.set(points, line / 4);
    const yes = calls.sagebasket_acceptable(line, BigInt(points.length), read);
    const count = number === 2 || number === 3 ? 0 : number === 4 ? place + 1 : points.length;
    if (yes !== Number(number === 0) || words[read / 4] !== count) wrong(`the search box reads ${words[read / 4]} of ${name}`);
};

// First and second wish: this name, and one that is accepted; this name after none.
const ACCEPTED = Array.from('ＡＢ−Ｃ。JP', (c) => c.codePointAt(0));
const SEPARATORS = [0x2e, 0xff0e, 0x3002, 0xff61];
const wished = (name, number, place) => {
    const points = Array.from(name, (c) => c.codePointAt(0));
    words.set(points, line / 4);
    words.set(ACCEPTED, other / 4);
    const length = number === 0 ? points.findIndex((c) => SEPARATORS.includes(c)) : 0;
    const asked = (one, count, two, counted, won, ...told) => {
        const got = [calls.sagebasket_wish(one, BigInt(count), two, BigInt(counted), answer), ...words.slice(answer / 4, answer / 4 + 6)];
        if (got.join() !== [won, won, ...told].join()) wrong(`of two wishes ${got} is told of ${name}`);
    };
    if (number === 0) asked(line, points.length, other, ACCEPTED.length, 1, 0, 0, 0, 0, length);
    else asked(line, points.length, other, ACCEPTED.length, 2, number, place, 0, 0, 4);
    asked(other, 0, line, points.length, number === 0 ? 2 : 0, 2, 0, number, place, length);
};

// The answer line by the live check, of a line that is not bad.
const byTyping = (id, name) => {
    calls.sagebasket_live_fresh(4, state);
    for (const c of name) calls.sagebasket_live_step(state, c.codePointAt(0));
    const number = calls.sagebasket_live_to_ascii(state, ascii, answer);
    const [again, place, nameClass, kinds, length] = words.slice(answer / 4, answer / 4 + 12);
    if (again !== number) wrong('another number is returned');
    if (calls.sagebasket_live_look(state, form, answer) !== number || words[answer / 4 + 1] !== place) wrong('look and ASCII form do not agree');
    if (number === 0 && calls.sagebasket_live_may_become(state) !== 1) wrong('an accepted name may not become one');
    searched(name, number, place);
    wished(name, number, place);
    const letters = [...'HKJS'].filter((_, bit) => (kinds >> bit) & 1).join('') || '-';
    const shown = number === 0 ? Buffer.from(octets.slice(ascii, ascii + length)).toString('latin1') : '-';
    return `${id}\t${number}\t${place}\t${'-GP'[nameClass]}\t${shown}\t${letters}\n`;
};

const input = readFileSync(linesFile);
const answers = readFileSync(answersFile, 'latin1').split(/(?<=\n)/);
let count = 0;
for (let at = 0; at < input.length; count++) {
    let end = input.indexOf(10, at);
    if (end < 0) end = input.length;
    const bytes = input.subarray(at, end).subarray(0, 4096); // longer lines are bad all the same
    const want = answers[count];
    if (answerTo(bytes) !== want) wrong(`line ${count + 1}: another answer than ${want}`);
    if (!want.startsWith('-\t16\t')) {
        const tab = bytes.indexOf(9);
        const got = byTyping(bytes.subarray(0, tab).toString('latin1'), bytes.subarray(tab + 1).toString('utf8'));
        if (got !== want) wrong(`line ${count + 1}: the live check says ${got} and not ${want}`);
    }
    at = end + 1;
}
if (count !== answers.length) wrong('there are more answers than lines');
if (Buffer.compare(tables, octets.slice(32768, heap))) wrong('its tables were written');
const touched = octets.slice(0, 32768).findIndex((octet) => octet !== 0);
console.log(`tests/c: wasm: ${count} lines by sagebasket_line, by the live check, for the search box and as a wish, as desk answers them; at most ${32768 - touched} octets of stack`);
