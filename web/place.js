// Where an answer points in what was typed. Number and place come from the proved calls; this only finds the stretch of the text
// that they speak of, to draw a mark and to name it. Nothing is accepted or refused by it.

const SEPARATORS = new Set(['.', '\uff0e', '\u3002', '\uff61']);

// The labels as they were typed: where each starts and ends.
function labelStretches(points) {
  const labels = [];
  let start = 0;
  points.forEach((c, i) => {
    if (!SEPARATORS.has(c)) return;
    labels.push([start, i]);
    start = i + 1;
  });
  labels.push([start, points.length]);
  return labels;
}

const NOTHING = { what: 'nothing', index: 0, start: 0, end: 0 };

// A label that is not there cannot be pointed at: an answer that was stored may be anything.
function labelAt(labels, index) {
  if (labels[index] === undefined) return NOTHING;
  const [start, end] = labels[index];
  return { what: 'label', index, start, end };
}

// POINTS is the text, one code point to an entry. What an answer points at, and its start and end in the text: a character, the rest
// of the text, a label (and which), the whole text, or nothing.
export function pointed(points, { number, place }) {
  switch (number) {
    case 3:
      return { what: 'rest', index: place, start: place, end: points.length };
    case 4:
      return place in points ? { what: 'character', index: place, start: place, end: place + 1 } : NOTHING;
    case 5:
    case 19:
      return { ...NOTHING, what: 'whole' };
    // of a name 7, 8, 9, 17, 10 and 14 have place 0, which is the leftmost label
    case 6:
    case 7:
    case 8:
    case 9:
    case 10:
    case 14:
    case 17:
      return labelAt(labelStretches(points), place);
    case 11:
      return labelAt(labelStretches(points), labelStretches(points).length - 1);
    case 12:
      return labelAt(labelStretches(points), 1);
    default:
      return NOTHING;
  }
}

// Characters that cannot be seen, or that turn what stands around them, are drawn as a box.
export const drawn = (c) => (/\p{C}/u.test(c) ? '▯' : c);
