// The page: at each change of the field the live check is asked and its answer is shown. While an input method composes, the answer is
// shown too, muted; it counts, and is spoken, when the composition ends. Which name is right is decided by the proved calls alone.
import { load, EDITION_IN_FORCE } from './sagebasket.js';
import { answerWords, placeWords, kindWords, editionWords } from './words.js';
import { CLASS_WORDS, FAMILY_WORDS, EDITION_NOTES, EXAMPLES, GO_ON, NO_NAME } from './words.js';
import { pointed, drawn } from './place.js';
import { Attempts, same, changed } from './attempts.js';

const SPEAK_AFTER = 700; // milliseconds without a change
const KEEP_AFTER = 1500;
const MOST_DRAWN = 300; // code points: past 257 nothing is judged any more
const MOST_NAMED = 20; // of a label, in words; the mark shows all of it

const $ = (id) => document.getElementById(id);
const field = $('text'), edition = $('edition'), panel = $('answer'), form = $('form');
const attempts = new Attempts(storage());

let sagebasket, live;
let shown = null; // the answer to what stands in the field, composition aside
let runStart = null; // the answer before the first of several edits in a row
let lastKept = null; // here: the list may have been cleared since, or gone on in another window
let composing = false, speakLater, keepLater;

// A browser may forbid it, even by throwing.
function storage() {
  try {
    return window.localStorage;
  } catch {
    return null;
  }
}

function both(element, [ja, en]) {
  element.querySelector('[lang=ja]').textContent = ja;
  element.querySelector('[lang=en]').textContent = en;
}

function code(id, text) {
  $(id).querySelector('code').textContent = text === '' ? '—' : text;
}

// What the proved calls say of the text. Whether it can go on is asked, and never read from the number; of a host nobody says (null).
function judge(text) {
  live.type(text);
  const family = form.elements.family.value;
  if (family === 'host') {
    const { number, place, text: ascii } = live.hostToAscii();
    const normal = live.lookHost().text;
    return { text, family, edition: EDITION_IN_FORCE, number, place, class: '-', kinds: '-', normal, ascii, hope: null };
  }
  const { number, place, class: letter, kinds, text: ascii } = live.toAscii();
  const normal = live.look().text;
  return { text, family, edition: Number(edition.value), number, place, class: letter, kinds, normal, ascii, hope: live.mayBecome() };
}

// empty, good, open (refused as it is, but can go on), bad (it cannot), or refused as it is, where nobody says whether it can go on
function stateOf({ text, number, hope }) {
  if (text === '') return 'empty';
  if (number === 0) return 'good';
  if (hope === null) return 'refused';
  return hope ? 'open' : 'bad';
}

function wordsOfPlace(answer) {
  const points = Array.from(answer.text);
  const at = pointed(points, answer);
  const part = points.slice(at.start, at.end);
  if (at.what === 'character') return placeWords(at, part[0]);
  const cut = part.length > MOST_NAMED ? '…' : '';
  return placeWords(at, part.slice(0, MOST_NAMED).map(drawn).join('') + cut);
}

// The text with a mark where the answer points. It is put together from text nodes.
function drawText(element, answer) {
  const points = Array.from(answer.text);
  const { what, start, end } = pointed(points, answer);
  const draw = (from, to) => points.slice(from, Math.min(to, MOST_DRAWN)).map(drawn).join('');
  const nodes = [draw(0, points.length)];
  if (what === 'rest' || what === 'character' || what === 'label') {
    const mark = document.createElement('mark');
    mark.textContent = draw(start, end);
    nodes.splice(0, 1, draw(0, start), mark, draw(end, points.length));
  }
  if (points.length > MOST_DRAWN) nodes.push(`…（全 ${points.length} 文字）`);
  element.replaceChildren(...nodes);
}

function outlookOf(answer) {
  const state = stateOf(answer);
  if (answer.hope === null || state === 'empty' || state === 'good') return ['', ''];
  return answer.hope ? GO_ON : NO_NAME;
}

function draw(answer) {
  panel.dataset.state = stateOf(answer);
  panel.dataset.composing = composing;
  field.setAttribute('aria-invalid', String(!composing && panel.dataset.state === 'bad'));
  drawText($('marked'), answer);
  both($('words'), answerWords(answer));
  both($('outlook'), outlookOf(answer));
  $('outlook').hidden = outlookOf(answer)[0] === '';
  code('number', answer.number);
  code('place', answer.place);
  both($('place'), wordsOfPlace(answer));
  code('class', answer.class);
  both($('class'), CLASS_WORDS[answer.class]);
  code('kinds', answer.kinds);
  both($('kinds'), kindWords(answer.kinds));
  code('normal', answer.normal);
  code('ascii', answer.ascii);
}

function speak(answer) {
  const [words, place, outlook] = [answerWords(answer), wordsOfPlace(answer), outlookOf(answer)];
  const line = (i) => [words[i], place[i], outlook[i], answer.ascii].filter(Boolean).join(' ');
  both($('spoken'), [line(0), line(1)]);
}

// Keeps an attempt, unless there was nothing to try, or it was the last that was kept and nobody asked for it again.
function keep(answer, asked = false) {
  if (answer === null || answer.text === '') return;
  if (!asked && lastKept !== null && same(lastKept, answer)) return;
  const { normal, ...attempt } = answer;
  lastKept = answer;
  if (attempts.add(attempt)) drawAttempts();
}

function pauses() {
  clearTimeout(speakLater);
  clearTimeout(keepLater);
  if (composing || shown === null) return;
  speakLater = setTimeout(() => speak(shown), SPEAK_AFTER);
  keepLater = setTimeout(settle, KEEP_AFTER);
}

// What stands in the field is an attempt: the field paused, was left or was sent.
function settle() {
  clearTimeout(keepLater);
  runStart = null;
  if (!composing) keep(shown);
}

// Before an answer is gone it is kept, where the text was not just typed on at its end: when something was pasted, replaced or taken away
// in one go. Single characters that are taken away or put in between come in runs: of these the answer before the first is kept, unless
// it was said that the text can go on (of a host it never is), and where nothing is left in the end.
function leave(answer, now, pasted) {
  if (now === answer.text) return;
  const { taken, put } = changed(answer.text, now);
  if (pasted || taken > 1 || (taken === 1 && put > 0)) {
    keep(answer);
    runStart = null;
  } else if (now.startsWith(answer.text)) {
    runStart = null;
  } else if (runStart === null) {
    runStart = answer;
    if (stateOf(answer) !== 'open') keep(answer);
  }
  if (now === '') keep(runStart);
}

// The field changed, or what is asked of it.
function change(event) {
  if (!live) return;
  const answer = judge(field.value);
  draw(answer);
  if (!composing) {
    if (shown !== null) leave(shown, answer.text, /Paste|Drop/.test(event?.inputType ?? ''));
    shown = answer;
  }
  pauses();
}

// Another family or edition: the answer until now is an attempt of its own.
function choose() {
  settle();
  const family = form.elements.family.value;
  edition.disabled = family === 'host';
  both($('edition-note'), EDITION_NOTES[family]);
  $('example').textContent = EXAMPLES[family];
  live = sagebasket?.live(Number(edition.value));
  shown = null;
  change();
}

function make(tag, className, ...children) {
  const element = document.createElement(tag);
  element.className = className;
  element.append(...children);
  return element;
}

// A paragraph in both languages, with what stands before them.
function paragraph(className, before, [ja, en]) {
  const english = make('span', '', en);
  english.lang = 'en';
  return make('p', className, ...before, ja, ' ', english);
}

function attemptItem(attempt) {
  const item = make('li', '', make('p', 'typed'));
  item.dataset.state = stateOf(attempt);
  drawText(item.firstChild, attempt);
  item.append(paragraph('said', [make('code', '', String(attempt.number)), ' '], answerWords(attempt)));
  if (attempt.ascii) item.append(make('p', 'form', make('code', '', attempt.ascii)));
  const [family, place] = [FAMILY_WORDS[attempt.family], wordsOfPlace(attempt)];
  if (place[0]) item.append(paragraph('note', [], [`場所 ${attempt.place}：${place[0]}`, `Place ${attempt.place}: ${place[1]}`]));
  if (attempt.hope && attempt.number !== 0) item.append(paragraph('note', [], GO_ON));
  const by = [`${family[0]}・版 ${editionWords(attempt.edition)}`, `${family[1]}, edition ${attempt.edition}`];
  item.append(paragraph('note', [], attempt.family === 'host' ? family : by));
  return item;
}

// What was drawn stays, unless the list was cleared or comes from another window.
function drawAttempts(anew = false) {
  const list = attempts.list;
  if (anew) $('tried').replaceChildren();
  $('tried').append(...list.slice($('tried').children.length).map(attemptItem));
  $('none').hidden = list.length > 0;
  $('copy').disabled = $('clear').disabled = list.length === 0;
  both($('kept'), attempts.kept
    ? ['このブラウザーに保存し、再読み込みしても残ります。', 'The list is stored in this browser and outlasts a reload.']
    : ['このブラウザーには保存できません。再読み込みすると消えます。', 'This browser stores nothing: a reload loses the list.']);
}

// Where the clipboard is closed to the page, the list is shown and selected, to be copied by hand.
async function copy() {
  const count = attempts.list.length;
  const text = attempts.plain(wordsOfPlace);
  $('by-hand').hidden = true;
  try {
    await navigator.clipboard.writeText(text);
    both($('said'), [`${count} 件をコピーしました。`, `Copied: ${count}.`]);
  } catch {
    $('by-hand').value = text;
    $('by-hand').hidden = false;
    $('by-hand').select();
    both($('said'), ['下の欄からコピーしてください。', 'Copy it from the box below.']);
  }
}

function clear() {
  const count = attempts.list.length;
  if (!confirm(`一覧の ${count} 件を消しますか。元に戻せません。\nClear the list of ${count}? This cannot be undone.`)) return;
  attempts.clear();
  $('by-hand').hidden = true;
  drawAttempts(true);
  both($('said'), ['一覧を消しました。', 'The list is cleared.']);
  field.focus();
}

function send(event) {
  event.preventDefault();
  if (composing || shown === null) return;
  settle();
  keep(shown, true);
  clearTimeout(speakLater);
  speak(shown);
  // what was sent is judged as it stands, even where it could go on
  field.setAttribute('aria-invalid', String(shown.number !== 0));
}

function listen() {
  field.addEventListener('compositionstart', () => { composing = true; change(); });
  field.addEventListener('compositionend', () => { composing = false; change(); });
  field.addEventListener('input', change);
  field.addEventListener('blur', settle);
  window.addEventListener('pagehide', settle);
  document.addEventListener('visibilitychange', () => { if (document.hidden) settle(); });
  window.addEventListener('storage', () => { attempts.reread(); drawAttempts(true); });
  form.addEventListener('submit', send);
  edition.addEventListener('change', choose);
  for (const radio of form.elements.family) radio.addEventListener('change', choose);
  $('copy').addEventListener('click', copy);
  $('clear').addEventListener('click', clear);
}

// The page in one file carries the module itself.
function packed() {
  const block = $('wasm');
  return block ? Uint8Array.from(atob(block.textContent), (c) => c.charCodeAt(0)) : undefined;
}

async function start() {
  listen();
  drawAttempts();
  try {
    sagebasket = await load(packed());
    choose();
  } catch (error) {
    both($('words'), ['この環境では確認できません。', `The check cannot run here: ${error.message}`]);
  }
  document.documentElement.dataset.ready = 'true';
}

start();
