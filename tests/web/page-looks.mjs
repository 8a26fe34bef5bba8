// How the page can be used and seen: by the keyboard alone, by a screen reader, in the dark, on a narrow screen, from a disk.

export async function keyboard(hands) {
  const { browser, tally } = hands;
  await hands.anew();
  await hands.type('abc.com');
  await hands.enter();
  await browser.open(hands.url);
  const order = [];
  for (let i = 0; i < 6; i++) {
    await hands.tab();
    order.push(await hands.active());
  }
  tally.want('order of Tab', order, ['name', 'edition', 'text', 'submit', 'copy', 'clear']);
  for (let i = 0; i < 5; i++) await hands.tab(true);
  await hands.arrow('ArrowDown', 40);
  tally.want('arrows choose', [await hands.active(), await browser.value('document.getElementById("edition").disabled')], ['host', true]);
  await hands.tab();
  await hands.type('a.b.c');
  await hands.tab();
  await hands.space();
  await hands.lists('by keys alone', [['abc.com', 11], ['a.b.c', 0]]);
  tally.want('a focused element is outlined', await browser.value('getComputedStyle(document.activeElement).outlineStyle'), 'solid');
}

export async function reader(hands) {
  const { browser, tally } = hands;
  await hands.anew();
  await hands.insert('う゛.jp');
  await hands.wait(900);
  const { nodes } = await browser.ask('Accessibility.getFullAXTree');
  const found = (role) => nodes.filter((node) => node.role?.value === role && !node.ignored);
  const property = (node, name) => node.properties.find((p) => p.name === name)?.value.value;
  const [field] = found('textbox');
  tally.want('the field', [found('textbox').length, field.name.value, property(field, 'invalid')], [1, '確かめる名前 The name', 'true']);
  tally.want('its description', /使えない文字があります。.*2 文字目「゛」（U\+309B）/.test(field.description?.value), true);
  tally.want('the choices', found('radio').map((node) => node.name.value), ['ドメイン名 Domain name', 'ホスト名 Nameserver host']);
  tally.want('the group', found('group').map((node) => node.name.value), ['対象 What to check']);
  tally.want('the list of editions', found('combobox').map((node) => node.name.value), ['規則の版 Edition']);
  tally.want('buttons', found('button').map((node) => node.name.value), ['この名前を試す Try it', '一覧をコピー Copy the list', '一覧を消す Clear the list']);
  const headings = ['JP ドメイン名の確認 Check a JP domain name', '答え Answer', '試した名前 What was tried'];
  tally.want('headings', found('heading').map((node) => node.name.value), headings);
  tally.want('spoken politely', found('status').map((node) => property(node, 'live')), ['polite', 'polite']);
  await hands.shows('spoken', { spoken: '使えない文字があります。 2 文字目「゛」（U+309B） この続きで登録できる名前にはなりません。' });
  tally.want('one main part', found('main').length, 1);
}

const CONTRAST = `(() => {
  const rgb = (color) => color.match(/[\\d.]+/g).map(Number);
  const part = (v) => (v / 255 <= .03928 ? v / 255 / 12.92 : ((v / 255 + .055) / 1.055) ** 2.4);
  const light = ([r, g, b]) => .2126 * part(r) + .7152 * part(g) + .0722 * part(b);
  const ground = (e) => {
    const color = rgb(getComputedStyle(e).backgroundColor);
    return color.length < 4 || color[3] > 0 ? color : ground(e.parentElement);
  };
  const hasText = (e) => [...e.childNodes].some((node) => node.nodeType === 3 && node.data.trim());
  const poor = [];
  for (const e of document.querySelectorAll('main *')) {
    if (!hasText(e) || !e.checkVisibility() || e.closest(':disabled, .unseen')) continue;
    const [a, b] = [light(rgb(getComputedStyle(e).color)), light(ground(e))];
    const ratio = (Math.max(a, b) + .05) / (Math.min(a, b) + .05);
    if (ratio < 4.5) poor.push([e.tagName, e.id, e.textContent.slice(0, 20), ratio.toFixed(2)].join(' '));
  }
  return poor;
})()`;

// Every text stands out from its ground by 4.5 to 1, in each state.
export async function colours(hands) {
  const { browser, tally } = hands;
  for (const scheme of ['light', 'dark']) {
    await browser.ask('Emulation.setEmulatedMedia', { features: [{ name: 'prefers-color-scheme', value: scheme }] });
    await hands.anew();
    for (const [family, text] of [['host', 'a.b'], ['name', '-あ.jp'], ['name', 'さくら'], ['name', 'さくら.jp'], ['name', '']]) {
      await hands.family(family);
      await hands.focus('text');
      await hands.put(text);
      await hands.enter();
      tally.want(`contrast of the ${family} ${text}, ${scheme}`, await browser.value(CONTRAST), []);
    }
    tally.want('nothing moves: the answer has its colour at once', await browser.value('getComputedStyle(document.getElementById("answer")).transitionDuration'), '0s');
    await hands.put('はら小児科.tokio.jp');
    await hands.shot(scheme);
  }
  await browser.ask('Emulation.setEmulatedMedia', { features: [{ name: 'forced-colors', value: 'active' }] });
  await hands.put('う゛.jp');
  await hands.shot('forced-colors');
  await browser.ask('Emulation.setEmulatedMedia', { features: [] });
}

export async function narrow(hands) {
  const { browser, tally } = hands;
  await browser.ask('Emulation.setDeviceMetricsOverride', { width: 320, height: 640, deviceScaleFactor: 2, mobile: true });
  await hands.anew();
  await hands.put('はら小児科.tokio.jp');
  await hands.enter();
  await hands.put('う゛.jp');
  await hands.shot('narrow', true);
  for (const text of ['', 'さくら花店.jp', 'a'.repeat(63) + '.kagoshima.jp', 'あ'.repeat(300), 'はら小児科.tokio.jp', 'W'.repeat(257)]) {
    await hands.put(text);
    await hands.enter();
    const [wide, width] = await browser.value('[document.documentElement.scrollWidth, innerWidth]');
    tally.want(`320 wide, ${text.slice(0, 10)}`, [wide <= width, width], [true, 320]);
  }
  await hands.usualWindow();
}

// The page says so where its module does not come.
export async function broken(hands) {
  const { browser } = hands;
  const before = browser.problems.length;
  await hands.anew();
  await browser.ask('Network.setBlockedURLs', { urls: ['*.wasm'] });
  await hands.again();
  await hands.shows('no module', { words: 'この環境では確認できません。' });
  await hands.type('abc.jp');
  await hands.enter();
  await hands.lists('no module', []);
  await browser.ask('Network.setBlockedURLs', { urls: [] });
  // that a file was not loaded may be told, and is no fault here
  browser.problems.splice(before);
}
