// The answers in words, Japanese and English. Each number has its words here, and no rule.

const NAME = {
  0: ['登録の規則に合っています。', 'The name keeps the rules.'],
  2: ['名前を入力してください。', 'Type a name.'],
  3: ['256 文字を超えています。', 'The text has more than 256 characters.'],
  4: ['使えない文字があります。', 'A character cannot be used.'],
  5: [
    'ラベル（ドットで区切った部分）は 2 つか 3 つです。例：さくら.jp、さくら.tokyo.jp',
    'A name has two or three labels (the parts between dots), as さくら.jp or さくら.tokyo.jp.',
  ],
  6: ['空のラベルがあります。ドットが続くか、端にあります。', 'A label is empty: dots stand side by side or at an end.'],
  7: ['左端のラベルの最初と最後にハイフンは使えません。', 'The leftmost label cannot begin or end with a hyphen.'],
  8: ['左端のラベルは、英数字だけなら 3 文字以上です。', 'The leftmost label needs 3 characters or more where it has no Japanese one.'],
  9: [
    '左端のラベルが長すぎます。英数字だけなら 63 文字、日本語を含むなら 15 文字までです。',
    'The leftmost label is too long: at most 63 characters, or 15 where one is Japanese.',
  ],
  10: [
    '「・」を使うラベルには、「・」「ー」「〆」のほかに日本語の文字が要ります。',
    'A label with ・ needs a Japanese character besides ・, ー and 〆.',
  ],
  11: ['最後のラベルは jp です。', 'The last label must be jp.'],
  12: ['中央のラベルが都道府県名ではありません。', 'The middle label is not the name of a prefecture.'],
  14: ['ラベルの ASCII 形が 63 文字を超えています。', 'The ASCII form of a label has more than 63 characters.'],
  17: [
    '英数字だけのラベルでは、3 文字目と 4 文字目の両方をハイフンにできません（xn-- など）。',
    'A label with no Japanese character cannot have hyphens as its third and fourth characters, as xn-- has.',
  ],
  25: ['その版の規則はありません。', 'There is no such edition of the rules.'],
};

const HOST = {
  0: ['ホスト名の規則に合っています。', 'The host name keeps the rules.'],
  2: ['ホスト名を入力してください。', 'Type a host name.'],
  5: [
    'ホスト名にはラベル（ドットで区切った部分）が 3 つ以上要ります。例：ns1.さくら.jp',
    'A host name has three labels (the parts between dots) or more, as ns1.さくら.jp.',
  ],
  7: ['ラベルの最初と最後にハイフンは使えません。', 'A label cannot begin or end with a hyphen.'],
  9: [
    'ラベルが長すぎます。英数字だけなら 63 文字、日本語を含むなら 15 文字までです。',
    'A label is too long: at most 63 characters, or 15 where one is Japanese.',
  ],
  17: [
    'ラベルの 3 文字目と 4 文字目の両方をハイフンにはできません（xn-- など）。',
    'A label cannot have hyphens as its third and fourth characters, as xn-- has.',
  ],
  19: ['全体の ASCII 形が 253 文字を超えています。', 'The whole ASCII form has more than 253 characters.'],
};

const TWO_LABELS = [
  'この版では、ラベル（ドットで区切った部分）は 2 つです。例：さくら.jp',
  'In this edition a name has two labels (the parts between dots), as さくら.jp.',
];

// What older editions say otherwise.
const OLDER = {
  1: { 5: TWO_LABELS },
  2: { 5: TWO_LABELS },
  3: {
    12: [
      'この版では、中央のラベルはローマ字の都道府県名です。',
      'In this edition the middle label must be the name of a prefecture in Latin letters.',
    ],
  },
};

export function answerWords({ number, family, edition }) {
  if (family === 'host' && HOST[number]) return HOST[number];
  return OLDER[edition]?.[number] ?? NAME[number] ?? ['', ''];
}

export const GO_ON = ['まだ続けられます。', 'You can go on.'];
export const NO_NAME = ['この続きで登録できる名前にはなりません。', 'Nothing typed after this makes it a name.'];

export const CLASS_WORDS = {
  G: ['汎用 JP ドメイン名', 'General-use'],
  P: ['都道府県型 JP ドメイン名', 'Prefecture'],
  '-': ['', ''],
};

const KIND = {
  H: ['ひらがな', 'hiragana'],
  K: ['カタカナ', 'katakana'],
  J: ['漢字', 'kanji'],
  S: ['記号', 'signs'],
  '-': ['', ''],
};

export function kindWords(letters) {
  const words = Array.from(letters, (letter) => KIND[letter]);
  return [words.map(([ja]) => ja).join('・'), words.map(([, en]) => en).join(', ')];
}

export const FAMILY_WORDS = { name: ['ドメイン名', 'Domain name'], host: ['ホスト名', 'Host name'] };

export const EXAMPLES = { name: '例：さくら花店.jp、みどり歯科.tokyo.jp', host: '例：ns1.さくら花店.jp' };

export const EDITION_NOTES = {
  name: ['古い版は更新のときに選びます。', 'Older ones are for renewals.'],
  host: ['ホスト名はいつも現行の版で確かめます。', 'Hosts always go by the one in force.'],
};

const EDITION_DAY = { 1: '2003-07-10', 2: '2005-08-30', 3: '2012-07-16', 4: '2014-11-03' };
export const editionWords = (edition) => `${edition}（${EDITION_DAY[edition] ?? '—'}）`;

// A character to be named: with its code point, and by that alone where it cannot be seen.
function called(c) {
  const code = `U+${c.codePointAt(0).toString(16).toUpperCase().padStart(4, '0')}`;
  if (/[\p{C}\p{Z}]/u.test(c)) return [`（${code}）`, ` (${code})`];
  const seen = /\p{M}/u.test(c) ? `◌${c}` : c;
  return [`「${seen}」（${code}）`, ` “${seen}” (${code})`];
}

// What an answer points at, in words, counted from 1 as a person does. NAMED is the character or the label that it points at.
export function placeWords({ what, index }, named) {
  const nth = index + 1;
  const quoted = named === '' ? ['（空）', ' (empty)'] : [`「${named}」`, ` “${named}”`];
  switch (what) {
    case 'rest':
      return [`${nth} 文字目から`, `from character ${nth} on`];
    case 'character': {
      const [ja, en] = called(named);
      return [`${nth} 文字目${ja}`, `character ${nth}${en}`];
    }
    case 'label':
      return [`左から ${nth} 番目のラベル${quoted[0]}`, `label ${nth} from the left${quoted[1]}`];
    case 'whole':
      return ['全体', 'the whole text'];
    default:
      return ['', ''];
  }
}
