#!/usr/bin/env python3
"""Brings definitions and lemmas to today's spelling: tools/port/respell.py [FOLDER]

Run once, in the folder of the repository (default: here), after the kit's own port script. tools/port/names.tsv has a row for each name: old, a tab, new.
Whole words turn alone, in specs/ and proofs/, in the contracts and ghost items of src/. Text in quotes stays, and so do
comments, but for a word with a capital inside it. Names of functions, fields and modules in src/ are not in the table.
"""
import os
import re
import sys

HERE = os.path.dirname(os.path.abspath(__file__))
WORD = re.compile(r'[^\s(){}.;,@"«»]+')
ANTT = re.compile(r'("(?:[^"\\\n]|\\.)*")|((?:(?<=\s)|(?<=^))--[^\n]*)', re.M)
RUST = re.compile(r'("(?:[^"\\]|\\.)*")|(//[^\n]*)')
HUMP = re.compile(r'[a-z0-9][A-Z]')


def turner(table):
    def turn(text):
        return WORD.sub(lambda m: table.get(m[0], m[0]), text)

    def comment(text):
        return re.sub(r"[A-Za-z0-9'_-]+", lambda m: table.get(m[0], m[0]) if HUMP.search(m[0]) else m[0], text)

    def whole(text, quiet):
        out, at = [], 0
        for m in quiet.finditer(text):
            out.append(turn(text[at : m.start()]))
            out.append(m[1] if m[1] is not None else comment(m[2]))
            at = m.end()
        out.append(turn(text[at:]))
        return ''.join(out)

    return whole


def main():
    root = sys.argv[1] if len(sys.argv) > 1 else '.'
    with open(os.path.join(HERE, 'names.tsv'), encoding='utf-8') as rows:
        table = dict(line.rstrip('\n').split('\t') for line in rows if line.strip())
    whole = turner(table)
    changed = 0
    for folder, below, files in os.walk(os.path.join(root, 'crates')):
        below[:] = [d for d in below if d != 'out']
        for name in files:
            quiet = ANTT if name.endswith('.antt') else RUST if name.endswith('.rt') else None
            if quiet is None:
                continue
            path = os.path.join(folder, name)
            with open(path, encoding='utf-8') as f:
                old = f.read()
            new = whole(old, quiet)
            if new != old:
                changed += 1
                with open(path, 'w', encoding='utf-8') as f:
                    f.write(new)
    print(f'respell: {len(table)} names, {changed} files changed')


if __name__ == '__main__':
    main()
