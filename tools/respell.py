#!/usr/bin/env python3
"""Respells the repository's own definitions and lemmas as today's Rattle spells names: words in snake case, joined by underscores. The names of the
registry's grammar (JA-label, EXCEPTION-char, ..) keep the spelling of their document.

usage: tools/respell.py        at the top, once, after the kit's port.py and before any edit by hand

Each row of tools/respell.tsv has the old spelling and the new. Turned are whole words alone: in .antt files and must-fail edits everywhere but in prose;
in .rt files in clauses, ghost items and comments' code spans; in pages in code spans. Functions of src/, exported names, strings, inputs and outputs stay.
"""
import pathlib
import re

TOP = pathlib.Path(__file__).resolve().parent.parent
ROWS = dict(line.split('\t') for line in (TOP / 'tools/respell.tsv').read_text(encoding='utf-8').splitlines())
WORD = re.compile(r'[^\s(){}.;,@"«»`]+')
SPAN = re.compile(r'`[^`\n]+`')
COMMENT = re.compile(r'(?m)(?:(?<=\s)|^)--(?=\s).*$|^--.*$')
GHOST = re.compile(r'ghost use\b[^;]*;|\b(?:requires|ensures)\b(?:\s+\w+)?\s*\{|\bghost\s+\w+\s*:\s*\{')
CAMEL = re.compile(r'^[a-z][a-z0-9]*[A-Z]')


def words(text, is_proof=False):
    """Every word of code. Behind a dot a proof of a function names a step, which is spelled as the source has it."""
    def turn(m):
        word = m.group(0)
        if word not in ROWS:
            return word
        if is_proof and m.start() and text[m.start() - 1] == '.' and ROWS[word].endswith('_lem'):
            return word
        return ROWS[word]
    return WORD.sub(turn, text)


def prose(text):
    """Code spans, and words in camel case, which no sentence has."""
    def camel(m):
        return ROWS[m.group(0)] if CAMEL.match(m.group(0)) and m.group(0) in ROWS else m.group(0)
    return WORD.sub(camel, SPAN.sub(lambda m: words(m.group(0)), text))


def antt(text, is_proof):
    out, at = [], 0
    for m in COMMENT.finditer(text):
        out += [words(text[at:m.start()], is_proof), prose(m.group(0))]
        at = m.end()
    return ''.join(out) + words(text[at:], is_proof)


def closing(text, at):
    depth = 0
    while at < len(text):
        depth += {'{': 1, '}': -1}.get(text[at], 0)
        at += 1
        if not depth:
            break
    return at


def rt(text):
    out, at = [], 0
    while True:
        m = GHOST.search(text, at)
        if not m:
            break
        end = m.end() if m.group(0).endswith(';') else closing(text, m.end() - 1)
        out += [text[at:m.start()], words(text[m.start():end])]
        at = end
    text = ''.join(out) + text[at:]
    return re.sub(r'//[^\n]*', lambda m: prose(m.group(0)), text)


def renamed_crate():
    """The kit has a library named unicode: the repository's own becomes utf8."""
    if (TOP / 'crates/unicode').is_dir():
        (TOP / 'crates/unicode').rename(TOP / 'crates/utf8')
    for path in [*TOP.glob('crates/**/*'), TOP / 'crates.txt']:
        if path.is_file() and path.suffix in ('.antt', '.rt', '.edit', '.txt') and 'out' not in path.parts:
            old = path.read_text(encoding='utf-8')
            new = re.sub(r'\bRattle\.unicode\b', 'Rattle.utf8', re.sub(r'\bunicode::', 'utf8::', old))
            if path.name == 'crates.txt':
                new = re.sub(r'\bunicode\b(?=[^#\n]*#|:)', 'utf8', new)
            if new != old:
                path.write_text(new, encoding='utf-8')


def main():
    renamed_crate()
    for path in sorted(TOP.glob('crates/**/*')):
        if not path.is_file() or 'out' in path.parts:
            continue
        turn = {'.antt': lambda t: antt(t, path.name == 'Proof.antt'), '.rt': rt, '.edit': words}.get(path.suffix)
        if turn:
            old = path.read_text(encoding='utf-8')
            new = turn(old)
            if new != old:
                path.write_text(new, encoding='utf-8')
    for path in sorted(TOP.glob('**/*.md')):
        if 'out' not in path.parts and 'target' not in path.parts and path.name != 'PORT.md':
            old = path.read_text(encoding='utf-8')
            new = SPAN.sub(lambda m: words(m.group(0)), old)
            if new != old:
                path.write_text(new, encoding='utf-8')


main()
