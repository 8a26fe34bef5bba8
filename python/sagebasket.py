"""Sagebasket: the name rules of the .jp registry, proved, from Python.

    >>> import sagebasket
    >>> sagebasket.check('ABC.JP')
    Checked(number=0, place=0, name_class='G', form='abc.jp', labels=[(0, 3), (4, 2)])
    >>> sagebasket.to_ascii('あ.tokyo.jp')
    AsciiForm(number=0, place=0, name_class='P', kinds='H', ascii='xn--l8j.tokyo.jp')

A text is a str, whose code points are taken as they are, lone surrogates too; or bytes (also bytearray), which are taken for UTF-8 and
answered with 16 where they are not. The number of an answer is 0 where the text is accepted, and otherwise says why not (`meaning`).
A place counts from 0. A refused text has no class (None), no kinds (''), no labels ([]) and no form ('').

The library is libsagebasket.so.0. It is looked for by the variable SAGEBASKET_LIBRARY, then beside this file, then by the system's loader.
The calls keep nothing, so any threads may call at once; a Live is for one thread at a time.

What the calls of the library answer and write is proved. This module, ctypes and the compiler are not: tests compare all of it with `desk`.

`python3 -m sagebasket NAME...` judges names: `desk`'s fields, but the name in place of the id.
"""
from __future__ import annotations

import ctypes
import os
import sys
from typing import Iterable, List, NamedTuple, Optional, Tuple, Union

Text = Union[str, bytes, bytearray]
Labels = List[Tuple[int, int]]

IN_FORCE = 4
MOST = 256
LIBRARY = 'libsagebasket.so.0'
MEANINGS = {
    0: 'accepted',
    2: 'the text has no code point',
    3: 'the text has more than 256 code points',
    4: 'a character is neither period, ASCII set nor Japanese',
    5: 'it has too few labels or too many',
    6: 'a label is empty',
    7: 'a label begins or ends with a hyphen',
    8: 'the leftmost label is ASCII with fewer than 3 characters',
    9: 'a label is ASCII with more than 63 characters, or Japanese with more than 15',
    10: 'a label has a middle dot and no Japanese character but the three exceptions',
    11: 'the last label is not jp',
    12: 'the middle label is no prefecture label',
    13: 'the label cannot be encoded',
    14: 'the encoded label has more than 63 octets',
    15: 'it is no encoded label',
    16: 'it is not UTF-8, or a bad line',
    17: 'a label has hyphens in its third and fourth places, as if it were encoded',
    19: 'the ASCII form has more than 253 octets',
    25: 'there is no such edition',
}


class Checked(NamedTuple):
    """What the check says of a name; of a look, `form` is the normal form whatever the number. A label is (start, length) in the form."""
    number: int
    place: int
    name_class: Optional[str]
    form: str
    labels: Labels


class AsciiForm(NamedTuple):
    """The ASCII form of a name, its class ('G' general-use, 'P' prefecture) and the kinds in its leftmost label (letters of 'HKJS')."""
    number: int
    place: int
    name_class: Optional[str]
    kinds: str
    ascii: str


class Acceptable(NamedTuple):
    """Is a text acceptable, and how many of its code points were read? As a truth value it is `yes`."""
    yes: bool
    read: int

    def __bool__(self) -> bool:
        return self.yes


class Wish(NamedTuple):
    """Which of two wishes won (1, 2, or 0 for neither), number and place of the check of each, and the winner's part before its first
    separator, as it was typed."""
    won: int
    first: Tuple[int, int]
    second: Tuple[int, int]
    part: str


class HostForm(NamedTuple):
    """The ASCII form of a host."""
    number: int
    place: int
    ascii: str


class HostLook(NamedTuple):
    """What the rules of a host say of what was typed, and its normal form whatever the number."""
    number: int
    place: int
    form: str


class Encoded(NamedTuple):
    """The encoding of a label: 0, 13 or 14."""
    number: int
    ascii: str


class Decoded(NamedTuple):
    """The label that was encoded: 0 or 15."""
    number: int
    label: str


class _Answer(ctypes.Structure):
    _fields_ = [('number', ctypes.c_uint32), ('place', ctypes.c_uint32), ('name_class', ctypes.c_uint32), ('kinds', ctypes.c_uint32),
                ('length', ctypes.c_uint32), ('label_count', ctypes.c_uint32), ('label_start', ctypes.c_uint32 * 3),
                ('label_length', ctypes.c_uint32 * 3)]


class _Wishes(ctypes.Structure):
    _fields_ = [(name, ctypes.c_uint32)
                for name in ('won', 'first_number', 'first_place', 'second_number', 'second_place', 'part_length')]


class _State(ctypes.Structure):
    _fields_ = [('text', ctypes.c_uint32 * 256), ('count', ctypes.c_uint32), ('edition', ctypes.c_uint32)]


# What each call takes: n a number, c code points with their count, o octets with their count, b a buffer, a an answer, s a state, r room for
# one number, w what is told of two wishes.
_CALLS = {
    'is_edition': 'n', 'check': 'ncba', 'to_ascii': 'ncba', 'may_become': 'nc', 'host_to_ascii': 'cba', 'check_utf8': 'noba',
    'to_ascii_utf8': 'noba', 'host_to_ascii_utf8': 'oba', 'encode': 'cba', 'decode': 'oba', 'line': 'ob', 'live_fresh': 'ns',
    'live_step': 'sn', 'live_look': 'sba', 'live_look_host': 'sba', 'live_may_become': 's', 'live_to_ascii': 'sba',
    'live_host_to_ascii': 'sba', 'acceptable': 'cr', 'wish': 'ccw',
}
_TYPES = {
    'n': [ctypes.c_uint32], 'c': [ctypes.c_char_p, ctypes.c_size_t], 'o': [ctypes.c_char_p, ctypes.c_size_t], 'b': [ctypes.c_void_p],
    'a': [ctypes.POINTER(_Answer)], 's': [ctypes.POINTER(_State)], 'r': [ctypes.POINTER(ctypes.c_uint32)],
    'w': [ctypes.POINTER(_Wishes)],
}


def _load() -> ctypes.CDLL:
    """The library, with the types of its calls."""
    beside = os.path.join(os.path.dirname(os.path.abspath(__file__)), LIBRARY)
    library = ctypes.CDLL(os.environ.get('SAGEBASKET_LIBRARY') or (beside if os.path.exists(beside) else LIBRARY))
    for name, takes in _CALLS.items():
        call = getattr(library, 'sagebasket_' + name)
        call.argtypes = [kind for letter in takes for kind in _TYPES[letter]]
        call.restype = None if name in ('live_fresh', 'live_step') else ctypes.c_uint32
    return library


_library = _load()


def _number(n: int, what: str) -> int:
    if not isinstance(n, int) or isinstance(n, bool):
        raise TypeError('%s is an int, not %s' % (what, type(n).__name__))
    if not 0 <= n <= 0xFFFFFFFF:
        raise ValueError('%s is a number of 32 bits, not %d' % (what, n))
    return n


def _codes(text: str) -> bytes:
    """The code points of a text, 32 bits to each, in this machine's order. What follows the last is not read."""
    return text.encode('utf-32-le' if sys.byteorder == 'little' else 'utf-32-be', 'surrogatepass')


def _str(text: Text) -> Optional[str]:
    """The text of a str, or of bytes that are UTF-8; None of other bytes."""
    if isinstance(text, (bytes, bytearray)):
        try:
            return text.decode('utf-8')
        except UnicodeDecodeError:
            return None
    if not isinstance(text, str):
        raise TypeError('a text is str or bytes, not %s' % type(text).__name__)
    return text


def _ask(name: str, buffer, text: Text, *edition: int) -> _Answer:
    """The answer of the call of this name on a text."""
    answer = _Answer()
    if isinstance(text, str):
        getattr(_library, 'sagebasket_' + name)(*edition, _codes(text), len(text), buffer, answer)
    elif isinstance(text, (bytes, bytearray)):
        getattr(_library, 'sagebasket_%s_utf8' % name)(*edition, bytes(text), len(text), buffer, answer)
    else:
        raise TypeError('a text is str or bytes, not %s' % type(text).__name__)
    return answer


def _form(answer: _Answer, buffer) -> str:
    """What was written: code points or octets of ASCII. A number that is no code point of Python's stands as FFFD."""
    return ''.join(chr(c) if c <= 0x10FFFF else '\ufffd' for c in buffer[:answer.length])


def _class(answer: _Answer) -> Optional[str]:
    return (None, 'G', 'P')[answer.name_class]


def _kinds(answer: _Answer) -> str:
    return ''.join(letter for bit, letter in enumerate('HKJS') if answer.kinds >> bit & 1)


def _checked(answer: _Answer, buffer) -> Checked:
    labels = list(zip(answer.label_start, answer.label_length))[:answer.label_count]
    return Checked(answer.number, answer.place, _class(answer), _form(answer, buffer), labels)


def _ascii_form(answer: _Answer, buffer) -> AsciiForm:
    return AsciiForm(answer.number, answer.place, _class(answer), _kinds(answer), _form(answer, buffer))


def meaning(number: int) -> str:
    """What a number says, in words."""
    return MEANINGS[number]


def is_edition(edition: int) -> bool:
    """Is there an edition of this number? 1 to 4 are: of 2003, 2005, 2012 and 2014."""
    return bool(_library.sagebasket_is_edition(_number(edition, 'an edition')))


def check(text: Text, edition: int = IN_FORCE) -> Checked:
    """The check of a name by an edition, with its normal form. A number that is no edition is answered with 25."""
    form = (ctypes.c_uint32 * 256)()
    return _checked(_ask('check', form, text, _number(edition, 'an edition')), form)


def to_ascii(text: Text, edition: int = IN_FORCE) -> AsciiForm:
    """The ASCII form of a name by an edition."""
    ascii = (ctypes.c_uint8 * 192)()
    return _ascii_form(_ask('to_ascii', ascii, text, _number(edition, 'an edition')), ascii)


def may_become(text: Text, edition: int = IN_FORCE) -> bool:
    """May the text yet become a name: is some continuation of it accepted? Bytes that are not UTF-8 may not."""
    edition = _number(edition, 'an edition')
    given = _str(text)
    return given is not None and bool(_library.sagebasket_may_become(edition, _codes(given), len(given)))


def acceptable(text: Text) -> Acceptable:
    """Would the check answer 0, by the edition in force? Reading stops at the first unfit character, and a text that is too long is not read at
    all; `read` counts code points. Bytes that are not UTF-8 are not acceptable, and none is read."""
    given = _str(text)
    if given is None:
        return Acceptable(False, 0)
    given = given[:MOST + 1]  # past that the length alone refuses
    read = ctypes.c_uint32()
    yes = _library.sagebasket_acceptable(_codes(given), len(given), read)
    return Acceptable(bool(yes), read.value)


def wish(first: Text, second: Text) -> Wish:
    """First and second wish, by the edition in force: the first wins where it is accepted, the second where only that one is. Each is
    judged as if it stood alone. Bytes that are not UTF-8 are refused with 16."""
    given = [_str(text) for text in (first, second)]
    lent = [(text or '')[:MOST + 1] for text in given]  # past that the length alone refuses
    told = _Wishes()
    won = _library.sagebasket_wish(_codes(lent[0]), len(lent[0]), _codes(lent[1]), len(lent[1]), told)
    said = [(told.first_number, told.first_place), (told.second_number, told.second_place)]
    checks = [(16, 0) if text is None else check for text, check in zip(given, said)]
    return Wish(won, checks[0], checks[1], lent[won == 2][:told.part_length])


def host_to_ascii(text: Text) -> HostForm:
    """The ASCII form of a nameserver's host name."""
    ascii = (ctypes.c_uint8 * 255)()
    answer = _ask('host_to_ascii', ascii, text)
    return HostForm(answer.number, answer.place, _form(answer, ascii))


def encode(label: str) -> Encoded:
    """The encoding of one label by RFC 3492, with the prefix xn--."""
    if not isinstance(label, str):
        raise TypeError('a label is str, not %s' % type(label).__name__)
    ascii, answer = (ctypes.c_uint8 * 63)(), _Answer()
    _library.sagebasket_encode(_codes(label), len(label), ascii, answer)
    return Encoded(answer.number, _form(answer, ascii))


def decode(ascii: Text) -> Decoded:
    """The label that an encoded one stands for. What is not ASCII is no encoded label."""
    if isinstance(ascii, str):
        ascii = ascii.encode('utf-8', 'surrogatepass')
    if not isinstance(ascii, (bytes, bytearray)):
        raise TypeError('an encoded label is str or bytes, not %s' % type(ascii).__name__)
    label, answer = (ctypes.c_uint32 * 63)(), _Answer()
    _library.sagebasket_decode(bytes(ascii), len(ascii), label, answer)
    return Decoded(answer.number, _form(answer, label))


def line(line: Text) -> bytes:
    """The line that `desk` answers to a line `id TAB name` without its LF; the answer has its LF."""
    if isinstance(line, str):
        line = line.encode('utf-8', 'surrogatepass')
    if not isinstance(line, (bytes, bytearray)):
        raise TypeError('a line is str or bytes, not %s' % type(line).__name__)
    out = (ctypes.c_uint8 * 256)()
    return bytes(out[:_library.sagebasket_line(bytes(line), len(line), out)])


class Live:
    """The live check: what the rules say of all that was typed, after each code point.

        >>> live = Live()
        >>> live.type('ab').look().number, live.may_become()
        (5, True)
    """

    def __init__(self, edition: int = IN_FORCE) -> None:
        self._state = _State()
        _library.sagebasket_live_fresh(_number(edition, 'an edition'), self._state)

    def step(self, c: Union[int, str]) -> Live:
        """One code point more: a number of 32 bits, or a character."""
        if isinstance(c, str):
            if len(c) != 1:
                raise ValueError('a step takes one character, not %d' % len(c))
            c = ord(c)
        _library.sagebasket_live_step(self._state, _number(c, 'a code point'))
        return self

    def type(self, text: Iterable[Union[int, str]]) -> Live:
        """The code points of a text, one by one."""
        for c in text:
            self.step(c)
        return self

    @property
    def count(self) -> int:
        """How many code points were typed; 257 stands for more than 256."""
        return self._state.count

    @property
    def edition(self) -> int:
        """The edition that the state was given."""
        return self._state.edition

    def look(self) -> Checked:
        """What the check says, with the normal form whatever the number."""
        form, answer = (ctypes.c_uint32 * 256)(), _Answer()
        _library.sagebasket_live_look(self._state, form, answer)
        return _checked(answer, form)

    def look_host(self) -> HostLook:
        """What the rules of a host say, with the normal form whatever the number."""
        form, answer = (ctypes.c_uint32 * 256)(), _Answer()
        _library.sagebasket_live_look_host(self._state, form, answer)
        return HostLook(answer.number, answer.place, _form(answer, form))

    def may_become(self) -> bool:
        """May what was typed yet become a name?"""
        return bool(_library.sagebasket_live_may_become(self._state))

    def to_ascii(self) -> AsciiForm:
        """The ASCII form of what was typed."""
        ascii, answer = (ctypes.c_uint8 * 192)(), _Answer()
        _library.sagebasket_live_to_ascii(self._state, ascii, answer)
        return _ascii_form(answer, ascii)

    def host_to_ascii(self) -> HostForm:
        """The ASCII form of what was typed as a host."""
        ascii, answer = (ctypes.c_uint8 * 255)(), _Answer()
        _library.sagebasket_live_host_to_ascii(self._state, ascii, answer)
        return HostForm(answer.number, answer.place, _form(answer, ascii))


def main() -> int:
    """Judges the names that it is given; 1 where one is refused."""
    if len(sys.argv) < 2:
        print('usage: python3 -m sagebasket NAME...', file=sys.stderr)
        return 2
    refused = 0
    for name in map(os.fsencode, sys.argv[1:]):
        got = to_ascii(name)
        refused |= got.number != 0
        fields = (str(got.number), str(got.place), got.name_class or '-', got.ascii or '-', got.kinds or '-', meaning(got.number))
        sys.stdout.buffer.write(name + b'\t' + '\t'.join(fields).encode('ascii') + b'\n')
    return int(refused)


if __name__ == '__main__':
    sys.exit(main())
