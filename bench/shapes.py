#!/usr/bin/env python3
"""Writes files of names as they may be typed, from real nouns: one file for each shape, and a mix of them.

usage: bench/shapes.py DIR COUNT

The nouns are the dictionary IPADIC's (Debian's package mecab-ipadic): organisations, proper nouns, places, people's names, common nouns, each
word once, in the dictionary's order. Taken are those of 1 to 15 characters that are kana and kanji, or these and `ー` or `々`. Nothing is
random: a file has COUNT words, spread evenly over those that have the shape, or all of them where there are fewer.

DIR/SHAPE and DIR/mix have lines `id TAB name`; DIR/mix.bare has the names of the mix alone. DIR/list has a line for each shape, its fields
parted by tabs: its file, what it is, the number that must answer each of its names, its share of the mix in hundredths, how many names, their
mean count of code points, the first of them.
"""
import csv
import pathlib
import re
import sys
import unicodedata

ROOT = pathlib.Path(__file__).resolve().parent.parent
DICTIONARY = pathlib.Path('/usr/share/mecab/dic/ipadic')
PARTS = ('Noun.org', 'Noun.proper', 'Noun.place', 'Noun.name', 'Noun')
KANA_KANJI = '\u3041-\u3093\u30A1-\u30F6\u4E00-\u9FA0'
USUAL = re.compile('[%s]{1,15}' % KANA_KANJI)
MARKED = re.compile('(?=.*[ー々])[%sー々]{1,15}' % KANA_KANJI)
KATAKANA = re.compile('[\u30A1-\u30F6]')
# what has a half-width form: katakana, ー, and the two marks that NFD parts from their base
HALF = {unicodedata.normalize('NFKC', chr(c)): chr(c) for c in range(0xFF66, 0xFFA0)}


def nouns():
    """Each noun and its reading in katakana."""
    found = {}
    for part in PARTS:
        with open(DICTIONARY / (part + '.csv'), encoding='euc_jp', newline='') as rows:
            for row in csv.reader(rows):
                found.setdefault(row[0], row[11])
    return found


def half(word):
    """The word with its katakana and ー in half width, ガ as two characters."""
    parted = KATAKANA.sub(lambda c: unicodedata.normalize('NFD', c[0]), word)
    return ''.join(HALF.get(c, c) for c in parted)


def latin(reading):
    """The reading in Latin letters, by the names that Unicode gives the kana: キャット is kyatto."""
    out, twice = '', False
    for c in reading.replace('ー', ''):
        *kind, sound = unicodedata.name(c).lower().split()
        if 'small' in kind and sound == 'tu':
            twice = True
            continue
        if 'small' in kind:
            out = out[:-1]
        out += sound[0] * twice + sound
        twice = False
    return out


def spread(words, count):
    """Count of the words, evenly spread, or all where there are fewer."""
    count = min(count, len(words))
    return [words[i * len(words) // count] for i in range(count)]


def main():
    out, count = pathlib.Path(sys.argv[1]), int(sys.argv[2])
    readings = nouns()
    usual = [w for w in readings if USUAL.fullmatch(w)]
    marked = [w for w in readings if MARKED.fullmatch(w)]
    halves = [half(w) for w in readings if (USUAL.fullmatch(w) or MARKED.fullmatch(w)) and half(w) != w]
    letters = [w for w in dict.fromkeys(latin(readings[w]) for w in usual) if re.fullmatch('[a-z]{3,63}', w)]
    lines = (ROOT / 'tables/prefectures.txt').read_text(encoding='utf-8').splitlines()
    prefectures = [line for line in lines if line and not line.startswith('#')]
    # file, what it is, number, share, words, and the name of the i-th word
    shapes = [
        ('usual', 'usual: kana and kanji, `.jp`', 0, 52, usual, lambda i, w: w + '.jp'),
        ('marked', 'with `ー` or `々`', 0, 8, marked, lambda i, w: w + '.jp'),
        ('circle', 'ends in `。jp`', 0, 5, usual, lambda i, w: w + '。jp'),
        ('wide', 'ends in full-width `．ｊｐ`', 0, 5, usual, lambda i, w: w + '．ｊｐ'),
        ('capitals', 'ends in `.JP`', 0, 5, usual, lambda i, w: w + '.JP'),
        ('half', 'half-width kana', 0, 5, halves, lambda i, w: w + '.jp'),
        ('prefecture', 'prefecture name', 0, 8, usual, lambda i, w: w + '.' + prefectures[i % len(prefectures)] + '.jp'),
        ('ascii', 'ASCII', 0, 6, letters, lambda i, w: w + '.jp'),
        ('unfit', 'refused: an unfit character', 4, 3, usual, lambda i, w: w + '!.jp'),
        ('bare', 'refused: no `.jp`', 5, 3, usual, lambda i, w: w),
    ]
    mix = []
    with open(out / 'list', 'w', encoding='utf-8') as table:
        for file, what, number, share, words, typed in shapes:
            names = [typed(i, w) for i, w in enumerate(spread(words, count))]
            write(out / file, names)
            mean = '%.1f' % (sum(map(len, names)) / len(names))
            print(file, what, number, share, len(names), mean, names[0], sep='\t', file=table)
            part = [typed(i, w) for i, w in enumerate(spread(words, count * share // 100))]
            mix += [((i + 0.5) / len(part), name) for i, name in enumerate(part)]
    # each shape evenly through the whole
    mixed = [name for _, name in sorted(mix)]
    write(out / 'mix', mixed)
    (out / 'mix.bare').write_text(''.join(name + '\n' for name in mixed), encoding='utf-8')


def write(path, names):
    path.write_text(''.join('n%d\t%s\n' % line for line in enumerate(names)), encoding='utf-8')


main()
