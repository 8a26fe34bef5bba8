// What a person does at the page, and what the page shows then.
import path from 'node:path';

// put together in the page
const SHOWN = `(() => {
  const get = (s) => document.querySelector(s), text = (s) => get(s).textContent.trim();
  const mark = get('#marked mark'), { state, composing } = get('#answer').dataset;
  return {
    value: get('#text').value, state, composing, invalid: get('#text').getAttribute('aria-invalid'),
    number: +text('#number code'), place: +text('#place code'), where: text('#where-ja'), english: text('#where-en'),
    class: text('#class code'), kinds: text('#kinds code'), normal: text('#normal code'), ascii: text('#ascii code'),
    marked: mark && mark.textContent, before: mark && mark.previousSibling.textContent, drawn: get('#marked').textContent,
    words: text('#words [lang=ja]'), outlook: get('#outlook').hidden ? '' : text('#outlook [lang=ja]'),
    spoken: text('#spoken [lang=ja]'), said: text('#said [lang=ja]'), kept: text('#kept [lang=ja]'),
  };
})()`;
const LIST = `[...document.querySelectorAll('#tried li')].map((item) =>
  [item.querySelector('.typed').textContent, +item.querySelector('.said code').textContent])`;

const CONTROL = 2, SHIFT = 8;

export class Hands {
  constructor(browser, tally, url, shots) {
    Object.assign(this, { browser, tally, url, shots });
  }

  async shows(what, should) {
    const is = await this.browser.value(SHOWN);
    for (const key in should) this.tally.want(`${what}: ${key}`, is[key], should[key]);
  }

  async lists(what, should) {
    this.tally.want(`${what}: what was tried`, await this.browser.value(LIST), should);
  }

  async shot(name, whole) {
    if (this.shots) await this.browser.shot(path.join(this.shots, `${name}.png`), whole);
  }

  wait(milliseconds) {
    return new Promise((done) => setTimeout(done, milliseconds));
  }

  // The page as it is where nothing was tried yet, with the cursor in the field. What stood there is kept as the page is left, so the list
  // is cleared from a second one.
  async anew() {
    await this.browser.open(this.url);
    await this.browser.value('localStorage.clear()');
    await this.again();
  }

  async again() {
    await this.browser.open(this.url);
    await this.focus('text');
  }

  usualWindow() {
    return this.browser.ask('Emulation.setDeviceMetricsOverride', { width: 800, height: 900, deviceScaleFactor: 1, mobile: false });
  }

  focus(id) {
    return this.browser.value(`document.getElementById('${id}').focus()`);
  }

  active() {
    return this.browser.value('document.activeElement.id || document.activeElement.value || document.activeElement.type');
  }

  async type(text) {
    for (const c of text) await this.browser.key(c, { text: c });
  }

  insert(text) {
    return this.browser.ask('Input.insertText', { text });
  }

  compose(text) {
    return this.browser.ask('Input.imeSetComposition', { text, selectionStart: text.length, selectionEnd: text.length });
  }

  async backspace(times = 1) {
    for (let i = 0; i < times; i++) await this.browser.key('Backspace', { number: 8 });
  }

  enter() {
    return this.browser.key('Enter', { number: 13, text: '\r' });
  }

  space() {
    return this.browser.key(' ', { number: 32, text: ' ' });
  }

  tab(back = false) {
    return this.browser.key('Tab', { number: 9, modifiers: back ? SHIFT : 0 });
  }

  arrow(name, number) {
    return this.browser.key(name, { number });
  }

  selectAll() {
    return this.browser.key('a', { number: 65, modifiers: CONTROL, commands: ['selectAll'] });
  }

  async paste(text) {
    await this.browser.value(`navigator.clipboard.writeText(${JSON.stringify(text)})`);
    await this.browser.key('v', { number: 86, modifiers: CONTROL, commands: ['paste'] });
  }

  // Puts a text in place of what stands in the field.
  async put(text) {
    await this.selectAll();
    await (text === '' ? this.backspace() : this.insert(text));
  }

  family(value) {
    return this.browser.value(`document.querySelector('[value=${value}]').click()`);
  }

  edition(number) {
    return this.browser.value(`(() => {
      const list = document.getElementById('edition');
      list.value = '${number}';
      list.dispatchEvent(new Event('change'));
      document.getElementById('text').focus();
    })()`);
  }
}
