// What sagebasket.d.ts says: this file must be taken by the compiler as it is, and each line below a @ts-expect-error must not be.
// usage: tsc --noEmit --strict --target es2022 --module node16 tests/web/types.mts        (Debian: node-typescript)
import { load, EDITION_IN_FORCE } from '../../web/sagebasket.js';
import type { Answer, AsciiAnswer, Kinds, Live, NameAnswer, Said, Sagebasket, Searched, Wish } from '../../web/sagebasket.js';

export async function use(): Promise<void> {
  const sagebasket: Sagebasket = await load();
  await load(new Uint8Array(8));
  await load(new ArrayBuffer(8));
  await load(fetch('sagebasket.wasm'));
  const edition: 4 = EDITION_IN_FORCE;
  const name: NameAnswer = sagebasket.check('abc.jp', edition);
  const start: number | undefined = name.labels[0]?.start;
  const ascii: AsciiAnswer = sagebasket.toAscii('abc.jp');
  const kinds: Kinds = ascii.kinds;
  const host: Answer = sagebasket.hostToAscii('a.b.c');
  const live: Live = sagebasket.live(3);
  live.type('abc');
  live.step(0x3042);
  const hope: boolean = live.mayBecome() && sagebasket.mayBecome('abc');
  const line: string = sagebasket.line(new Uint8Array(2)) + sagebasket.line('a\tb');
  const texts: string[] = [live.look(), live.lookHost(), live.toAscii(), live.hostToAscii()].map((answer: Answer) => answer.text);
  const coded: Answer[] = [sagebasket.encode('あ'), sagebasket.decode('xn--l8j')];
  const known: boolean = sagebasket.isEdition(4);
  const searched: Searched = sagebasket.acceptable('abc.jp');
  const read: number = searched.yes ? searched.read : 0;
  const wish: Wish = sagebasket.wish('abc.jp', 'あ.jp');
  const said: Said = wish.won === 2 ? wish.second : wish.first;
  console.log(start, kinds, host, hope, line, texts, coded, known, read, said.number, wish.part);

  // @ts-expect-error: a check tells no kinds
  name.kinds;
  // @ts-expect-error: a host has no class
  host.class;
  // @ts-expect-error: no name is of class H
  name.class === 'H';
  // @ts-expect-error: the letters have an order
  kinds === 'KH';
  // @ts-expect-error: a text is a string
  sagebasket.check(4);
  // @ts-expect-error: an edition is a number
  sagebasket.check('abc.jp', '4');
  // @ts-expect-error: hosts stay with the edition in force
  sagebasket.hostToAscii('a.b.c', 3);
  // @ts-expect-error: and so does the search box
  sagebasket.acceptable('abc.jp', 3);
  // @ts-expect-error: there is no third wish
  wish.won === 3;
  // @ts-expect-error: a wish has a second
  sagebasket.wish('abc.jp');
  // @ts-expect-error: a number is no source
  await load(4);
  // @ts-expect-error: it stays as it is
  sagebasket.EDITION_IN_FORCE = 3;
}
