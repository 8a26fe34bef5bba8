// The page in a browser: keys, an input method, pasting, names, hosts, editions, what was tried, the keyboard alone, what a screen
// reader is told, colours, a narrow screen, the single file without a network, and names against the answers of `desk`.
// usage: node tests/web/page.mjs [SHOTS-FOLDER] [LINES ANSWERS COUNT]
//        SHOTS-FOLDER gets pictures ('' for none); COUNT lines of LINES, an input of `desk`, are compared with ANSWERS, what it wrote
// Debian's packages chromium and fonts-noto-cjk are enough; BROWSER names another program. Exits 1 where anything differs, and where the
// browser tells an error, a warning or a breach of the content security policy.
import fs from 'node:fs';
import { Browser, serve } from './browser.mjs';
import { Hands } from './hands.mjs';
import { Tally, linesOf, nameOf } from './tally.mjs';
import * as answers from './page-answers.mjs';
import * as tried from './page-attempts.mjs';
import * as looks from './page-looks.mjs';

const AT_ONCE = 500;
const [shots, linesFile, answersFile, count] = process.argv.slice(2);
const web = new URL('../../web/', import.meta.url);
const tally = new Tally();

// Names put into the field by a script, AT_ONCE to a page, and taken away again: each must then stand in the list.
async function compareLines(hands) {
  const given = linesOf(fs.readFileSync(linesFile)).slice(0, Number(count));
  const said = linesOf(fs.readFileSync(answersFile)).map((line) => Buffer.from(line).toString().split('\t'));
  // a field of one line takes no line's end out of a script's hands
  const names = given.map((line, i) => ({ line, fields: said[i] })).filter(({ fields }) => fields[1] !== '16')
    .map(({ line, fields }) => ({ name: nameOf(line), fields })).filter(({ name }) => !/[\r\n]/.test(name));
  for (let at = 0; at < names.length; at += AT_ONCE) {
    const some = names.slice(at, at + AT_ONCE);
    await hands.anew();
    const shown = await hands.browser.value(`(() => {
      const field = document.getElementById('text'), text = (id) => document.querySelector('#' + id + ' code').textContent;
      return ${JSON.stringify(some.map(({ name }) => name))}.map((name) => {
        for (const value of ['', name]) {
          field.value = value;
          field.dispatchEvent(new Event('input'));
        }
        return [text('number'), text('place'), text('class'), text('ascii').replace('—', '-'), text('kinds')];
      });
    })()`);
    some.forEach(({ name, fields }, i) => tally.want(`in the page ${name}`, shown[i], fields.slice(1)));
    await hands.focus('copy');
    const kept = some.map(({ name }) => name).filter((name) => name !== '').filter((name, i, all) => name !== all[i - 1]);
    const listed = await hands.browser.value('JSON.parse(localStorage.getItem("sagebasket-attempts")).map(({ text }) => text)');
    tally.want(`what was tried from ${at} on`, listed, kept);
  }
  return names.length;
}

// The file from a disk, with no network: it asks for nothing, and does what the page does.
async function single(browser) {
  await browser.ask('Network.emulateNetworkConditions', { offline: true, latency: 0, downloadThroughput: 0, uploadThroughput: 0 });
  const hands = new Hands(browser, tally, new URL('single.html', web).href, shots);
  browser.requests.length = 0;
  await hands.again();
  await hands.insert('そば処.京都.jp');
  await hands.shows('the single file', { number: 0, class: 'P', kinds: 'HJ', normal: 'そば処.京都.jp' });
  await hands.enter();
  await hands.put('う゛.jp');
  await hands.shows('the single file', { number: 4, place: 1, marked: '゛' });
  await hands.enter();
  await hands.lists('the single file', [['そば処.京都.jp', 0], ['う゛.jp', 4]]);
  await hands.shot('single');
  tally.want('asked for', browser.requests.filter((url) => !url.startsWith('data:')), [hands.url]);
  await browser.ask('Network.emulateNetworkConditions', { offline: false, latency: 0, downloadThroughput: -1, uploadThroughput: -1 });
}

// The policy is in force: what it forbids does not run.
async function policy(hands) {
  const { browser } = hands;
  const before = browser.problems.length;
  await hands.anew();
  const ran = await browser.value(`(() => {
    const script = document.createElement('script');
    script.textContent = 'window.ran = true';
    document.body.append(script);
    return window.ran === true;
  })()`);
  const told = browser.problems.splice(before).some((problem) => problem.includes('Content Security Policy'));
  tally.want('a script put into the page', { ran, told }, { ran: false, told: true });
}

const server = await serve(web.pathname);
const browser = await Browser.start();
let compared = 0;
try {
  if (shots) fs.mkdirSync(shots, { recursive: true });
  await browser.ask('Browser.grantPermissions', { permissions: ['clipboardReadWrite', 'clipboardSanitizedWrite'] });
  const hands = new Hands(browser, tally, server.url, shots);
  await hands.usualWindow();
  for (const part of [...Object.values(answers), ...Object.values(tried), ...Object.values(looks), policy]) {
    try {
      await part(hands);
    } catch (error) {
      tally.want(`${part.name} runs to its end`, error.message, '');
    }
  }
  if (linesFile) compared = await compareLines(hands);
  await single(browser);
} finally {
  await browser.close();
  server.close();
}
for (const problem of browser.problems) console.log('the browser tells:', problem);
const told = `${browser.problems.length} errors of the browser`;
console.log(`page: ${compared} names against desk, ${tally.compared} comparisons, ${tally.wrong} wrong, ${told}`);
process.exit(tally.wrong || browser.problems.length ? 1 : 0);
