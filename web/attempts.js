// What was tried, oldest first. Nothing is written over; it is kept over a reload where the browser lets it.
import { answerWords, editionWords, FAMILY_WORDS } from './words.js';

const KEY = 'sagebasket-attempts';

// How many code points a change took away from a text and how many it put there: what stands between the common beginning and the
// common end.
export function changed(before, now) {
  const [old, young] = [Array.from(before), Array.from(now)];
  const least = Math.min(old.length, young.length);
  let head = 0;
  while (head < least && old[head] === young[head]) head++;
  let tail = 0;
  while (tail < least - head && old[old.length - 1 - tail] === young[young.length - 1 - tail]) tail++;
  return { taken: old.length - head - tail, put: young.length - head - tail };
}

export const same = (a, b) => a.text === b.text && a.family === b.family && a.edition === b.edition;

// Is it an attempt as this file keeps them? The browser's store may hold anything.
function isAttempt(a) {
  const strings = ['text', 'family', 'class', 'kinds', 'ascii'];
  const numbers = ['number', 'place', 'edition'];
  return a !== null && typeof a === 'object' && Object.hasOwn(FAMILY_WORDS, a.family) && [true, false, null].includes(a.hope)
    && strings.every((key) => typeof a[key] === 'string') && numbers.every((key) => Number.isSafeInteger(a[key]));
}

// One line, whatever was typed: what would break it or cannot be seen is written as its code point.
const oneLine = (text) => text.replace(/[\p{C}\p{Zl}\p{Zp}\\]/gu, (c) => `\\u{${c.codePointAt(0).toString(16).toUpperCase()}}`);

export class Attempts {
  #list;
  #store;
  // Is the list kept over a reload?
  kept = false;

  // STORE is the browser's localStorage, or null.
  constructor(store) {
    this.#store = store;
    this.#list = this.#read() ?? [];
    this.#write();
  }

  get list() {
    return this.#list;
  }

  // Another window may have kept attempts in the meantime: the stored list is the one that goes on, unless storing failed.
  reread() {
    if (this.kept) this.#list = this.#read() ?? this.#list;
  }

  // Adds an attempt, but not twice in a row the same. Says whether it was added.
  add(attempt) {
    this.reread();
    const last = this.#list.at(-1);
    if (last && same(last, attempt)) return false;
    this.#list = [...this.#list, attempt];
    this.#write();
    return true;
  }

  clear() {
    this.#list = [];
    this.#write();
  }

  #read() {
    try {
      const stored = JSON.parse(this.#store.getItem(KEY));
      return Array.isArray(stored) ? stored.filter(isAttempt) : null;
    } catch {
      return null;
    }
  }

  #write() {
    try {
      this.#store.setItem(KEY, JSON.stringify(this.#list));
      this.kept = true;
    } catch {
      this.kept = false;
    }
  }

  // The list for a ticket: a line for each, parted by tabs, below a line that names the columns. POINTS_AT words a place.
  plain(pointsAt) {
    const head = ['順', '入力', '対象', '版', '番号', '場所', '種別', 'ASCII 形', '文字の種類', '答え'];
    const rows = this.#list.map((a, i) => [
      i + 1, oneLine(a.text), FAMILY_WORDS[a.family][0], editionWords(a.edition), a.number, a.place, a.class, a.ascii || '-', a.kinds,
      oneLine([answerWords(a)[0], pointsAt(a)[0]].filter(Boolean).join(' ')),
    ]);
    return [head, ...rows].map((row) => row.join('\t') + '\n').join('');
  }
}
