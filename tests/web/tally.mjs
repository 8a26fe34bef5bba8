// What a test counts: comparisons, and the first differences of them in full.
import { isDeepStrictEqual } from 'node:util';

export class Tally {
  compared = 0;
  wrong = 0;

  want(what, is, should) {
    this.compared++;
    if (isDeepStrictEqual(is, should)) return;
    if (this.wrong++ < 20) console.log(`${what}: is ${JSON.stringify(is)}, should be ${JSON.stringify(should)}`);
  }

  // Does the call throw such an error?
  throws(what, Kind, call) {
    let thrown = null;
    try {
      call();
    } catch (error) {
      thrown = error;
    }
    this.want(what, thrown?.constructor.name ?? 'no error', Kind.name);
  }
}

// The lines of a file, as octets; a last one without LF counts.
export function linesOf(octets) {
  const lines = [];
  for (let at = 0; at < octets.length;) {
    const end = octets.indexOf(10, at) < 0 ? octets.length : octets.indexOf(10, at);
    lines.push(new Uint8Array(octets.subarray(at, end)));
    at = end + 1;
  }
  return lines;
}

// The name in a line, where the line is a good one.
export const nameOf = (line) => new TextDecoder('utf-8', { fatal: true, ignoreBOM: true }).decode(line.subarray(line.indexOf(9) + 1));
