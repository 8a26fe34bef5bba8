// The answers that the page shows: to keys, to an input method, to names and hosts of every number.
const GO_ON = 'まだ続けられます。';
const NO_NAME = 'この続きで登録できる名前にはなりません。';

export async function keys(hands) {
  await hands.anew();
  await hands.shows('empty', { number: 2, state: 'empty', invalid: 'false', outlook: '', normal: '—', ascii: '—', marked: null });
  const trail = [[5, GO_ON], [5, GO_ON], [5, GO_ON], [6, GO_ON], [11, GO_ON], [0, '']];
  for (const [i, c] of Array.from('ABC.JP').entries()) {
    await hands.type(c);
    await hands.shows(`ABC.JP, key ${i + 1}`, { number: trail[i][0], outlook: trail[i][1], invalid: 'false' });
  }
  await hands.shows('ABC.JP', { state: 'good', normal: 'abc.jp', ascii: 'abc.jp', class: 'G', kinds: '-', words: '登録の規則に合っています。' });
  await hands.backspace();
  await hands.shows('ABC.J', { value: 'ABC.J', number: 11, marked: 'J', before: 'ABC.', outlook: GO_ON, state: 'open' });
  await hands.type('Q');
  await hands.shows('ABC.JQ', { number: 11, marked: 'JQ', outlook: NO_NAME, state: 'bad', invalid: 'true', where: '左から 2 番目のラベル「JQ」' });
  await hands.put('');
  await hands.shows('emptied', { number: 2, state: 'empty', invalid: 'false' });
}

// 'Go on' is asked of the call: the same number stands with either.
export async function outlooks(hands) {
  await hands.anew();
  const texts = [
    ['abc', 5, GO_ON], ['a.b.c.d', 5, NO_NAME], ['a', 5, GO_ON], ['-あ', 5, NO_NAME], ['あ-', 5, GO_ON],
    ['abc.', 6, GO_ON], ['.abc', 6, NO_NAME], ['ab.', 6, NO_NAME], ['abc.to', 11, GO_ON], ['abc.com', 11, NO_NAME],
    ['abc.tokyo.j', 11, GO_ON], ['abc.tokio.j', 11, NO_NAME], ['abc!', 4, NO_NAME], ['う゛', 4, NO_NAME],
  ];
  for (const [text, number, outlook] of texts) {
    await hands.put(text);
    await hands.shows(text, { number, outlook, state: outlook === GO_ON ? 'open' : 'bad', invalid: String(outlook !== GO_ON) });
  }
  await hands.put('さくら花店');
  await hands.shot('go-on');
}

export async function composition(hands) {
  await hands.anew();
  for (const text of ['n', 'に', 'にh', 'にほ', 'にほn', 'にほん', '日本']) {
    await hands.compose(text);
    await hands.shows(`composing ${text}`, { value: text, composing: 'true', number: 5, invalid: 'false' });
  }
  await hands.shot('composing');
  await hands.wait(2000);
  await hands.shows('a pause while composing', { spoken: '' });
  await hands.lists('a pause while composing', []);
  await hands.insert('日本');
  await hands.shows('committed', { value: '日本', composing: 'false', number: 5, state: 'open' });
  await hands.compose('！');
  await hands.shows('composing a wrong sign', { value: '日本！', number: 4, place: 2, marked: '！', composing: 'true', invalid: 'false' });
  await hands.compose('');
  await hands.shows('cancelled', { value: '日本', number: 5, composing: 'false' });
  await hands.lists('cancelled', []);
  await hands.compose('。ｊｐ');
  await hands.insert('。ｊｐ');
  await hands.shows('日本。ｊｐ', { number: 0, normal: '日本.jp', ascii: 'xn--wgv71a.jp', state: 'good', kinds: 'J', composing: 'false' });
  await hands.lists('typed on', []);
  await hands.wait(900);
  await hands.shows('spoken', { spoken: '登録の規則に合っています。 xn--wgv71a.jp' });
  await hands.selectAll();
  await hands.compose('か');
  await hands.insert('花.jp');
  await hands.shows('composed over', { value: '花.jp', number: 0 });
  await hands.lists('composed over', [['日本。ｊｐ', 0]]);
}

const NAMES = [
  ['う゛.jp', { number: 4, place: 1, marked: '゛', before: 'う', where: '2 文字目「゛」（U+309B）' }, 'unfit'],
  ['う゜.jp', { number: 4, place: 1, english: 'character 2 “゜” (U+309C)' }],
  ['東京😀店!.jp', { number: 4, place: 2, marked: '😀', before: '東京', where: '3 文字目「😀」（U+1F600）' }, 'emoji'],
  ['a b.jp', { number: 4, place: 1, marked: ' ', where: '2 文字目（U+0020）' }],
  ['あ\u202eb.jp', { number: 4, place: 1, marked: '▯', where: '2 文字目（U+202E）' }],
  ['か\u3099.jp', { number: 4, place: 1, where: '2 文字目「◌\u3099」（U+3099）' }],
  ['<b>x</b>.jp', { number: 4, place: 0, marked: '<', drawn: '<b>x</b>.jp' }],
  ['abc.jp.', { number: 6, place: 2, marked: '', before: 'abc.jp.', where: '左から 3 番目のラベル（空）' }, 'empty-label'],
  ['-あ.jp', { number: 7, place: 0, marked: '-あ', where: '左から 1 番目のラベル「-あ」' }],
  ['ab.jp', { number: 8, marked: 'ab' }],
  ['とても長い名前の店は十五字をこえる.jp', { number: 9, marked: 'とても長い名前の店は十五字をこえる' }, 'too-long'],
  ['a'.repeat(64) + '.jp', { number: 9, marked: 'a'.repeat(64), where: `左から 1 番目のラベル「${'a'.repeat(20)}…」` }],
  ['xn--l8j.jp', { number: 17, marked: 'xn--l8j', before: '' }],
  ['・.jp', { number: 10, marked: '・' }],
  ['はら。ｃｏｍ', { number: 11, marked: 'ｃｏｍ', before: 'はら。' }],
  ['はら小児科.tokio.jp', { number: 12, place: 0, marked: 'tokio', where: '左から 2 番目のラベル「tokio」' }, 'prefecture'],
  ['a.b.c.d', { number: 5, marked: null, where: '全体' }],
  ['ｶﾞ.jp', { number: 0, normal: 'ガ.jp', kinds: 'K', class: 'G', outlook: '', where: '' }],
  ['コーヒーの佐々木.tokyo.jp', { number: 0, class: 'P', kinds: 'HKJS', ascii: 'xn--u6jwlkhmerib3645ci4zb.tokyo.jp' }, 'accepted'],
  ['a'.repeat(256), { number: 5, marked: null, normal: 'a'.repeat(256) }],
  ['a'.repeat(257), { number: 3, place: 256, marked: 'a', normal: '—', where: '257 文字目から' }],
  ['a'.repeat(256) + '<i>x</i>', { number: 3, marked: '<i>x</i>' }],
  ['😀'.repeat(257), { number: 3, place: 256, marked: '😀', before: '😀'.repeat(256) }],
  ['あ'.repeat(400), { number: 3, marked: 'あ'.repeat(44), drawn: 'あ'.repeat(300) + '…（全 400 文字）' }, 'long'],
];

export async function names(hands) {
  await hands.anew();
  for (const [text, should, picture] of NAMES) {
    await hands.put(text);
    await hands.shows(text.slice(0, 20), { value: text, invalid: String(should.number !== 0), ...should });
    if (picture) await hands.shot(picture);
  }
}

const HOSTS = [
  ['ns1.さくら.jp', { number: 0, ascii: 'ns1.xn--y8jl1n.jp', class: '-', kinds: '-', words: 'ホスト名の規則に合っています。' }, 'host'],
  ['a.b', { number: 5, words: 'ホスト名にはラベル（ドットで区切った部分）が 3 つ以上要ります。例：ns1.さくら.jp' }],
  ['a.b.c.', { number: 6, place: 3, marked: '' }],
  ['a.b.-c', { number: 7, place: 2, marked: '-c', where: '左から 3 番目のラベル「-c」' }],
  ['😀.b.c', { number: 4, place: 0, marked: '😀' }],
  ['a．' + 'あ'.repeat(16) + '.jp', { number: 9, place: 1, marked: 'あ'.repeat(16), before: 'a．' }, 'host-refused'],
  ['a.ああ--あ.c', { number: 17, place: 1, marked: 'ああ--あ' }],
  ['a.b.・', { number: 10, place: 2, marked: '・' }],
  [Array(128).fill('a').join('.'), { number: 19, place: 0, marked: null, where: '全体' }],
];

export async function hosts(hands) {
  await hands.anew();
  await hands.family('host');
  await hands.shows('no host', { number: 2, words: 'ホスト名を入力してください。' });
  hands.tally.want('no edition for hosts', await hands.browser.value('document.getElementById("edition").disabled'), true);
  await hands.focus('text');
  for (const [text, should, picture] of HOSTS) {
    await hands.put(text);
    // of a host nobody says whether it can go on: no number makes it bad
    const state = should.number === 0 ? 'good' : 'refused';
    await hands.shows(`host ${text.slice(0, 20)}`, { outlook: '', invalid: 'false', state, ...should });
    if (picture) await hands.shot(picture);
  }
  await hands.enter();
  await hands.shows('a refused host, sent', { invalid: 'true', state: 'refused' });
}

export async function editions(hands) {
  await hands.anew();
  const table = [['〃.jp', 0, 4, 4, 4], ['abc.nara.jp', 5, 5, 0, 0], ['abc.奈良.jp', 5, 5, 12, 0], ['ab--c.jp', 17, 17, 17, 17]];
  for (const [text, ...numbers] of table) {
    await hands.put(text);
    for (const edition of [1, 2, 3, 4]) {
      await hands.edition(edition);
      await hands.shows(`${text} by edition ${edition}`, { number: numbers[edition - 1] });
    }
  }
  await hands.edition(2);
  await hands.put('abc.na');
  await hands.shows('abc.na by 2', { outlook: NO_NAME, number: 11 });
  await hands.put('abc.nara.jp');
  await hands.shows('abc.nara.jp by 2', { words: 'この版では、ラベル（ドットで区切った部分）は 2 つです。例：さくら.jp' });
  await hands.edition(3);
  await hands.put('abc.奈良.jp');
  await hands.shows('abc.奈良.jp by 3', { words: 'この版では、中央のラベルはローマ字の都道府県名です。' });
  await hands.family('host');
  await hands.family('name');
  await hands.shows('back from hosts', { number: 12 });
}
