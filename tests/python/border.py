"""Every call of the Python module on every line of a batch, beside `desk`'s answers; then its bad use.

usage: border.py LINES ANSWERS       (run by tests/python/run, which says where module and library are)
"""
import sys
import threading

import sagebasket

NONE = (0, 5, 0xFFFFFFFF)
faults = 0


def same(what, got, want):
    """Says where something is not what it must be, at most twenty times."""
    global faults
    if got != want:
        faults += 1
        if faults <= 20:
            print('tests/python: %s: %r and not %r' % (what, got, want), file=sys.stderr)


def raises(what, error, call, *args):
    try:
        call(*args)
    except error:
        return
    except Exception as other:  # the wrong one is told
        same(what, type(other), error)
        return
    same(what, None, error)


def expected(answer):
    """An answer line as the module's answer."""
    number, place, name_class, ascii, kinds = answer.decode('ascii').rstrip('\n').split('\t')[1:]
    bare = {'-': ''}
    return sagebasket.AsciiForm(int(number), int(place), None if name_class == '-' else name_class, bare.get(kinds, kinds), bare.get(ascii, ascii))


def cut(form, accepted):
    """Where the labels stand."""
    labels, start = [], 0
    for label in form.split('.') if accepted else []:
        labels.append((start, len(label)))
        start += len(label) + 1
    return labels


def judge_forms(name, text, want, edition):
    """Check, ASCII form and live check of a text by an edition agree with what is wanted and with each other."""
    live = sagebasket.Live(edition).type(text)
    same('to_ascii', sagebasket.to_ascii(text, edition), want)
    same('to_ascii of UTF-8', sagebasket.to_ascii(name, edition), want)
    same('live to_ascii', live.to_ascii(), want)
    look, checked = live.look(), sagebasket.check(text, edition)
    same('check', checked[:3], want[:3])
    same('look', look[:3], want[:3])
    same('labels of the check', checked.labels, cut(checked.form, want.number == 0))
    same('labels of the look', look.labels, checked.labels)
    same('form of a refusal', checked.form, look.form if want.number == 0 else '')
    same('check of UTF-8', sagebasket.check(bytearray(name), edition), checked)
    same('may_become', sagebasket.may_become(text, edition), live.may_become())
    same('may_become of UTF-8', sagebasket.may_become(name, edition), live.may_become())
    same('typed', (live.count, live.edition), (min(len(text), 257), edition))
    return live, checked


def judge_labels(checked, ascii):
    """The labels of an accepted name, there and back."""
    for (start, length), code in zip(checked.labels, ascii.split('.')):
        label = checked.form[start:start + length]
        if label.isascii():
            same('an ASCII label', code, label)
            same('encode of ASCII', sagebasket.encode(label), (13, ''))
        else:
            same('encode', sagebasket.encode(label), (0, code))
            same('decode', sagebasket.decode(code.upper()), (0, label))
            same("Python's punycode", 'xn--' + label.encode('punycode').decode('ascii'), code)


def judge_search(name, text, want):
    """Yes or no for the search box, by number and place of the ASCII form."""
    read = {2: 0, 3: 0, 4: want.place + 1}.get(want.number, len(text))
    same('acceptable', sagebasket.acceptable(text), (want.number == 0, read))
    same('acceptable of UTF-8', sagebasket.acceptable(name), (want.number == 0, read))
    same('acceptable as yes or no', bool(sagebasket.acceptable(text)), want.number == 0)


SEPARATORS = '.．。｡'


def judge_wish(name, text, want):
    """First and second wish, beside one that is accepted and one that is refused, by number and place of the ASCII form."""
    said = (want.number, want.place)
    part = text[:min(map(text.index, set(SEPARATORS) & set(text)))] if want.number == 0 else ''
    same('wish before one', sagebasket.wish(text, 'ＡＢ−Ｃ。JP'), (1, said, (0, 0), part) if part else (2, said, (0, 0), 'ＡＢ−Ｃ'))
    same('wish after one', sagebasket.wish('ＡＢ−Ｃ。JP', name), (1, (0, 0), said, 'ＡＢ−Ｃ'))
    same('wish before none', sagebasket.wish(name, ''), (1 if part else 0, said, (2, 0), part))
    same('wish after none', sagebasket.wish('う゛.jp', text), (2 if part else 0, (4, 1), said, part))


def judge(number, line, answer):
    same('line', sagebasket.line(line), answer)
    name = line.split(b'\t', 1)[-1]
    try:
        text = name.decode('utf-8')
    except UnicodeDecodeError:
        same('not UTF-8', (sagebasket.check(name), sagebasket.to_ascii(name), sagebasket.host_to_ascii(name), sagebasket.may_become(name),
                           sagebasket.acceptable(name), sagebasket.wish(name, 'ABC.JP'), sagebasket.wish('', name)),
             ((16, 0, None, '', []), (16, 0, None, '', ''), (16, 0, ''), False, (False, 0), (2, (16, 0), (0, 0), 'ABC'), (0, (2, 0), (16, 0), '')))
        return
    bad = answer.startswith(b'-\t16\t')
    want = sagebasket.to_ascii(text) if bad else expected(answer)
    live, checked = judge_forms(name, text, want, sagebasket.IN_FORCE)
    judge_labels(checked, want.ascii)
    judge_search(name, text, want)
    judge_wish(name, text, want)
    host = sagebasket.host_to_ascii(text)
    same('host of UTF-8', sagebasket.host_to_ascii(name), host)
    same('live host', live.host_to_ascii(), host)
    same('look at a host', live.look_host(), (host.number, host.place, live.look().form))
    judge_forms(name, text, sagebasket.to_ascii(text, 1 + number % 3), 1 + number % 3)
    judge_forms(name, text, (sagebasket.AsciiForm(25, 0, None, '', '')), NONE[number % 3])


def bad_use():
    """What is no text, no edition, no step."""
    for wrong in (None, 1, 1.5, ['a'], memoryview(b'a'), object()):
        for call in (sagebasket.check, sagebasket.to_ascii, sagebasket.may_become, sagebasket.host_to_ascii, sagebasket.encode, sagebasket.decode,
                     sagebasket.line, sagebasket.acceptable, lambda text: sagebasket.wish(text, 'a'), lambda text: sagebasket.wish('a', text)):
            raises('%s of %r' % (call.__name__, wrong), TypeError, call, wrong)
    raises('encode of bytes', TypeError, sagebasket.encode, b'a')
    for wrong in ('4', None, 4.0, True, b'4'):
        for call in (sagebasket.is_edition, sagebasket.Live, lambda e: sagebasket.check('a', e), lambda e: sagebasket.may_become('a', e)):
            raises('the edition %r' % (wrong,), TypeError, call, wrong)
    for wrong in (-1, 1 << 32, 1 << 70):
        raises('the edition %d' % wrong, ValueError, sagebasket.to_ascii, 'a', wrong)
        raises('the step %d' % wrong, ValueError, sagebasket.Live().step, wrong)
    raises('a step of two', ValueError, sagebasket.Live().step, 'ab')
    raises('a step of none', ValueError, sagebasket.Live().step, '')
    raises('a step of bytes', TypeError, sagebasket.Live().step, b'a')
    raises('a number that is none', KeyError, sagebasket.meaning, 18)


def fixed():
    """Answers that stand in the documents, and texts that no line brings."""
    same('a surrogate', sagebasket.check('a\ud800.jp'), (4, 1, None, '', []))
    same('a surrogate in a line', sagebasket.line('a\t\ud800'), b'-\t16\t0\t-\t-\t-\n')
    same('a surrogate to the coder', sagebasket.encode('\ud800'), (13, ''))
    same('no text', sagebasket.check(''), (2, 0, None, '', []))
    same('no octets', sagebasket.to_ascii(b''), (2, 0, None, '', ''))
    same('257', sagebasket.check('a' * 257), (3, 256, None, '', []))
    same('a million', sagebasket.to_ascii('あ' * 1000000), (3, 256, None, '', ''))
    same('a million in the search box', sagebasket.acceptable('!' * 1000000), (False, 0))
    same('document 02', (sagebasket.acceptable('う゛.jp'), sagebasket.acceptable('ｶﾞ.jp')), ((False, 2), (True, 5)))
    same('a million wishes', sagebasket.wish('あ' * 1000000, '.' * 1000000), (0, (3, 256), (3, 256), ''))
    same('a part as it was typed', sagebasket.wish('ab.jp', 'ｶﾞ｡gifu．jp'), (2, (8, 0), (0, 0), 'ｶﾞ'))
    same('NUL', sagebasket.check('a\0b.jp'), (4, 1, None, '', []))
    same('NUL in UTF-8', sagebasket.check(b'a\0b.jp'), (4, 1, None, '', []))
    same('an odd number', sagebasket.Live().step(0xFFFFFFFF).look(), (4, 0, None, '\ufffd', []))
    same('document 01', sagebasket.check('ｶﾞ。gifu．jp'), (0, 0, 'P', 'ガ.gifu.jp', [(0, 1), (2, 4), (7, 2)]))
    same('edition 1', sagebasket.to_ascii('〃.jp', 1), (0, 0, 'G', 'S', 'xn--s6j.jp'))
    same('editions', [sagebasket.is_edition(e) for e in (0, 1, 2, 3, 4, 5, 0xFFFFFFFF)], [False, True, True, True, True, False, False])
    same('a long label', sagebasket.encode('あ' * 63), (14, ''))
    same('no encoded label', (sagebasket.decode('xn--'), sagebasket.decode(b'\xff'), sagebasket.decode('あ')), ((15, ''),) * 3)
    same('numbers with a meaning', sorted(sagebasket.MEANINGS), [0, *range(2, 18), 19, 25])


def threads(lines, answers):
    """Several threads at once."""
    def work():
        for line, answer in zip(lines, answers):
            same('line in a thread', sagebasket.line(line), answer)

    running = [threading.Thread(target=work) for _ in range(4)]
    for thread in running:
        thread.start()
    for thread in running:
        thread.join()


def main():
    with open(sys.argv[1], 'rb') as file:
        lines = file.read().split(b'\n')
    if lines[-1] == b'':
        lines.pop()
    with open(sys.argv[2], 'rb') as file:
        answers = file.read().splitlines(keepends=True)
    same('how many answers', len(answers), len(lines))
    fixed()
    bad_use()
    for number, (line, answer) in enumerate(zip(lines, answers)):
        judge(number, line, answer)
    threads(lines[:2000], answers[:2000])
    print('tests/python: %d lines by every call, %d faults' % (len(lines), faults))
    sys.exit(1 if faults else 0)


main()
