// What was tried: nothing of it gets lost, whatever is done at the field.

export async function attempts(hands) {
  await hands.anew();
  await hands.lists('at first', []);
  await hands.type('abc.com');
  await hands.lists('while typing', []);
  await hands.selectAll();
  await hands.paste('あ.tokio.jp');
  await hands.lists('pasted over', [['abc.com', 11]]);
  await hands.put('');
  await hands.lists('emptied', [['abc.com', 11], ['あ.tokio.jp', 12]]);
  await hands.type('ab.jp');
  await hands.enter();
  await hands.enter();
  await hands.lists('Enter twice', [['abc.com', 11], ['あ.tokio.jp', 12], ['ab.jp', 8]]);
  await hands.shows('sent', { invalid: 'true', spoken: '左端のラベルは、英数字だけなら 3 文字以上です。 左から 1 番目のラベル「ab」 この続きで登録できる名前にはなりません。' });
  await hands.arrow('Home', 36);
  await hands.type('x');
  await hands.wait(1800);
  const four = [['abc.com', 11], ['あ.tokio.jp', 12], ['ab.jp', 8], ['xab.jp', 0]];
  await hands.lists('a pause', four);
  await hands.shot('attempts', true);
  await hands.type('y');
  await hands.browser.ask('Page.reload');
  await hands.browser.until('document.documentElement?.dataset.ready === "true" && document.getElementById("text").value === ""');
  await hands.lists('a reload', [...four, ['xyab.jp', 0]]);
}

// Small edits: the text that stood there before the first of them is kept, not each one on the way.
export async function edits(hands) {
  await hands.anew();
  await hands.type('abv');
  await hands.backspace();
  await hands.type('c.jp');
  await hands.lists('a slip while it could go on', []);
  await hands.backspace(3);
  await hands.lists('taken back', [['abc.jp', 0]]);
  await hands.type('.com');
  await hands.backspace(7);
  await hands.lists('taken back to nothing', [['abc.jp', 0], ['abc.com', 11]]);
  await hands.type('さくら');
  await hands.backspace(3);
  await hands.lists('left while it could go on', [['abc.jp', 0], ['abc.com', 11], ['さくら', 5]]);
  await hands.insert('花.jp');
  await hands.arrow('Home', 36);
  await hands.type('abc');
  await hands.lists('put in before', [['abc.jp', 0], ['abc.com', 11], ['さくら', 5], ['花.jp', 0]]);
  await hands.tab();
  await hands.lists('left', [['abc.jp', 0], ['abc.com', 11], ['さくら', 5], ['花.jp', 0], ['abc花.jp', 0]]);
}

// Nobody says of a host that it can go on, so what stood before the first of some small edits is kept.
export async function hostEdits(hands) {
  await hands.anew();
  await hands.family('host');
  await hands.focus('text');
  await hands.type('ns1.abv');
  await hands.lists('a host typed on', []);
  await hands.backspace();
  await hands.type('c.jp');
  await hands.lists('a slip in a host', [['ns1.abv', 5]]);
  await hands.enter();
  await hands.lists('a host sent', [['ns1.abv', 5], ['ns1.abc.jp', 0]]);
}

export async function families(hands) {
  await hands.anew();
  await hands.insert('a.b.c');
  await hands.family('host');
  await hands.lists('another family', [['a.b.c', 8]]);
  await hands.wait(1700);
  await hands.lists('a pause', [['a.b.c', 8], ['a.b.c', 0]]);
  await hands.family('name');
  await hands.edition(1);
  await hands.lists('another edition', [['a.b.c', 8], ['a.b.c', 0], ['a.b.c', 8]]);
  await hands.tab();
  await hands.lists('left', [['a.b.c', 8], ['a.b.c', 0], ['a.b.c', 8], ['a.b.c', 5]]);
}

const PLAIN = [
  '順\t入力\t対象\t版\t番号\t場所\t種別\tASCII 形\t文字の種類\t答え',
  '1\tう゛.jp\tドメイン名\t4（2014-11-03）\t4\t1\t-\t-\t-\t使えない文字があります。 2 文字目「゛」（U+309B）',
  '2\ta\\u{9}b\\u{5C}\\u{D800}.jp\tドメイン名\t4（2014-11-03）\t4\t1\t-\t-\t-\t使えない文字があります。 2 文字目（U+0009）',
  '3\tあ.tokyo.jp\tドメイン名\t4（2014-11-03）\t0\t0\tP\txn--l8j.tokyo.jp\tH\t登録の規則に合っています。',
  '4\tあ.tokyo.jp\tホスト名\t4（2014-11-03）\t0\t0\t-\txn--l8j.tokyo.jp\t-\tホスト名の規則に合っています。',
  '5\ta.b.あ\tホスト名\t4（2014-11-03）\t0\t0\t-\ta.b.xn--l8j\t-\tホスト名の規則に合っています。',
  '',
].join('\n');

export async function copying(hands) {
  const { browser, tally } = hands;
  await hands.anew();
  for (const text of ['う゛.jp', 'a\tb\\\ud800.jp', 'あ.tokyo.jp']) {
    // by a script: half a code point cannot be typed
    await browser.value(`(() => {
      const field = document.getElementById('text');
      field.value = ${JSON.stringify(text)};
      field.dispatchEvent(new Event('input'));
    })()`);
    await hands.enter();
  }
  await hands.family('host');
  await hands.focus('text');
  await hands.put('a.b.あ');
  await hands.enter();
  await hands.focus('copy');
  await hands.space();
  await browser.until(`document.querySelector('#said [lang=ja]').textContent !== ''`);
  tally.want('copied', await browser.value('navigator.clipboard.readText()'), PLAIN);
  await hands.shows('copied', { said: '5 件をコピーしました。' });
  await browser.value(`Object.defineProperty(navigator, 'clipboard', { value: undefined, configurable: true })`);
  await hands.enter();
  await browser.until(`!document.getElementById('by-hand').hidden`);
  const byHand = await browser.value(`(() => {
    const { id, value, selectionStart, selectionEnd } = document.activeElement;
    return [id, value, selectionStart, selectionEnd];
  })()`);
  tally.want('by hand', byHand, ['by-hand', PLAIN, 0, PLAIN.length]);
}

export async function clearing(hands) {
  const { browser, tally } = hands;
  await hands.anew();
  await hands.type('abc.com');
  await hands.enter();
  browser.agree = false;
  await hands.focus('clear');
  await hands.enter();
  await hands.lists('not cleared', [['abc.com', 11]]);
  browser.agree = true;
  await hands.enter();
  await hands.lists('cleared', []);
  tally.want('asked before', browser.asked.length, 2);
  tally.want('after it', [await hands.active(), await browser.value('document.getElementById("copy").disabled')], ['text', true]);
  await hands.again();
  await hands.lists('cleared for good', []);
  await hands.type('abc.com');
  await hands.enter();
  await hands.focus('clear');
  await hands.enter();
  await hands.enter();
  await hands.lists('tried once more', [['abc.com', 11]]);
}

export async function windows(hands) {
  const { browser } = hands;
  await hands.anew();
  await hands.type('abc.com');
  await hands.enter();
  const back = await browser.tab();
  await hands.again();
  await hands.lists('a second window', [['abc.com', 11]]);
  await hands.type('ab.jp');
  await hands.enter();
  await back();
  await browser.until(`document.querySelectorAll('#tried li').length === 2`);
  await hands.put('abc.jp');
  await hands.enter();
  await hands.lists('both windows', [['abc.com', 11], ['ab.jp', 8], ['abc.jp', 0]]);
  // what another window stored, before this one was told of it
  await browser.value(`(() => {
    const list = JSON.parse(localStorage.getItem('sagebasket-attempts'));
    localStorage.setItem('sagebasket-attempts', JSON.stringify([...list, { ...list[0], text: 'xyz.com' }]));
  })()`);
  await hands.put('-あ.jp');
  await hands.enter();
  await hands.again();
  await hands.lists('a list that went on', [['abc.com', 11], ['ab.jp', 8], ['abc.jp', 0], ['xyz.com', 11], ['-あ.jp', 7]]);
}

// A store that holds what is no list, or attempts that the page never kept.
export async function stores(hands) {
  const { browser } = hands;
  const store = async (held) => {
    await hands.anew();
    await browser.value(`localStorage.setItem('sagebasket-attempts', ${JSON.stringify(held)})`);
    await hands.again();
  };
  for (const held of ['no list', '{}', '[1, null, {"text": 1}]', 'null']) {
    await store(held);
    await hands.lists(`a store with ${held}`, []);
  }
  const kept = { text: 'abc', family: 'name', edition: 9, class: '-', kinds: '-', ascii: '', hope: false };
  const odd = [[12, 0], [4, 9], [6, -1], [99, 0]].map(([number, place]) => ({ ...kept, number, place }));
  await store(JSON.stringify(odd));
  await hands.lists('a store with odd attempts', odd.map(({ number }) => ['abc', number]));
  await hands.type('abc.jp');
  await hands.shows('with odd attempts', { number: 0 });
}

export async function noStore(hands) {
  const { browser } = hands;
  await hands.anew();
  const source = `Object.defineProperty(window, 'localStorage', { get() { throw new Error('no'); } })`;
  const { identifier } = await browser.ask('Page.addScriptToEvaluateOnNewDocument', { source });
  await hands.again();
  for (const text of ['abc.com', 'ab.jp']) {
    await hands.put(text);
    await hands.enter();
  }
  await hands.lists('without a store', [['abc.com', 11], ['ab.jp', 8]]);
  await hands.shows('without a store', { kept: 'このブラウザーには保存できません。再読み込みすると消えます。' });
  await browser.ask('Page.removeScriptToEvaluateOnNewDocument', { identifier });
}

// A store that is full: what was tried stays in this window, and the page says that a reload loses it.
export async function fullStore(hands) {
  const { browser } = hands;
  await hands.anew();
  await hands.type('abc.com');
  await hands.enter();
  await browser.value(`Storage.prototype.setItem = () => { throw new DOMException('full', 'QuotaExceededError'); }`);
  for (const text of ['ab.jp', 'abc.jp']) {
    await hands.put(text);
    await hands.enter();
  }
  await hands.lists('a full store', [['abc.com', 11], ['ab.jp', 8], ['abc.jp', 0]]);
  await hands.shows('a full store', { kept: 'このブラウザーには保存できません。再読み込みすると消えます。' });
}
