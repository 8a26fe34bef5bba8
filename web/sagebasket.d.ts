/** The edition of the rules that is in force: 4, of 3 November 2014. */
export declare const EDITION_IN_FORCE = 4;

/** What every answer has. */
export interface Answer {
  /** 0 is accepted; any other is a refusal. docs/RULES.md has the numbers. */
  number: number;
  /** Where a refusal points: with 4 an index in the text, in code points; with 6, and of a host, a label; both from 0. */
  place: number;
  /** What the call gives; see there. Empty where there is none. */
  text: string;
}

/** General-use, prefecture, none. */
export type Class = 'G' | 'P' | '-';

/** H hiragana, K katakana, J kanji, S signs, those found in the leftmost label and in this order, or -. */
export type Kinds =
  | '-'
  | 'H' | 'K' | 'J' | 'S'
  | 'HK' | 'HJ' | 'HS' | 'KJ' | 'KS' | 'JS'
  | 'HKJ' | 'HKS' | 'HJS' | 'KJS'
  | 'HKJS';

/** Where a label stands in the normal form. Accepted names have no character past FFFF, so these index a string too. */
export interface LabelPlace {
  start: number;
  length: number;
}

/** Of a name: class and labels come with 0 only. */
export interface NameAnswer extends Answer {
  class: Class;
  labels: LabelPlace[];
}

/** Of the ASCII form of a name: class and kinds come with 0 only. */
export interface AsciiAnswer extends Answer {
  class: Class;
  kinds: Kinds;
}

/** Yes or no, and how many code points of the text were read. Ask its `yes`: an object is always true. */
export interface Searched {
  yes: boolean;
  read: number;
}

/** Number and place of a check. */
export interface Said {
  number: number;
  place: number;
}

/** Which of two wishes won, 0 for neither; what check says of each; the winner's part before its first separator, as it was typed. */
export interface Wish {
  won: 0 | 1 | 2;
  first: Said;
  second: Said;
  part: string;
}

/** The bytes of a file, or what has them as a Response does. */
export type Source = ArrayBuffer | ArrayBufferView | { arrayBuffer(): Promise<ArrayBuffer> };

/**
 * SOURCE is sagebasket.wasm: its bytes, a Response, or a promise of one. Without it the file beside this module is read, by
 * fetch or, from a file URL, by Node.
 */
export declare function load(source?: Source | PromiseLike<Source>): Promise<Sagebasket>;

/**
 * The calls. A text may be any string; a lone surrogate is a code point that is refused. An edition is a whole number from 0 to
 * 4294967295, and one that there is not is refused with 25. What is no string, or no number, is a TypeError; any other number a
 * RangeError.
 */
export interface Sagebasket {
  readonly EDITION_IN_FORCE: 4;
  isEdition(edition: number): boolean;
  /** With 0 `text` is the normal form. */
  check(text: string, edition?: number): NameAnswer;
  /** With 0 `text` is the ASCII form. */
  toAscii(text: string, edition?: number): AsciiAnswer;
  /** Is there a continuation of the text, the empty one included, that is accepted? */
  mayBecome(text: string, edition?: number): boolean;
  /**
   * For a search box: would check answer 0 by the edition in force? `read` is 0 where the length alone refuses (no code point, or
   * more than 256), the place of the first unfit character and one more where one stops it, else all.
   */
  acceptable(text: string): Searched;
  /**
   * First and second wish, by the edition in force, each judged as if it stood alone: the first wins where it is accepted, the second
   * where only that one is. `part` is empty exactly where neither won.
   */
  wish(first: string, second: string): Wish;
  /** With 0 `text` is the ASCII form of a nameserver's host name. */
  hostToAscii(text: string): Answer;
  /** The coder of one label: 0, 13 or 14. With 0 `text` is the encoding, with xn--. */
  encode(label: string): Answer;
  /** The decoder of one label: 0 or 15. With 0 `text` is the label. */
  decode(encoded: string): Answer;
  /**
   * The answer line of `desk` to a line, both without LF. An LF in the line is an octet as any other. A string is taken as UTF-8;
   * one with a lone surrogate gets 16.
   */
  line(line: string | Uint8Array): string;
  /** A live check. Any number of them may be held at once. */
  live(edition?: number): Live;
}

export interface Live {
  /** Sets the whole text typed so far. Where it continues the text before, only what was added is read. */
  type(text: string): void;
  /** One code point more: any whole number from 0 to 4294967295. */
  step(codePoint: number): void;
  /** What check says, but `text` is the normal form whatever the number is (none past 256 code points). */
  look(): NameAnswer;
  /** The same of a host; it goes by the edition in force. */
  lookHost(): Answer;
  mayBecome(): boolean;
  toAscii(): AsciiAnswer;
  hostToAscii(): Answer;
}
