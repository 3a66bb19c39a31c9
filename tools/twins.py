#!/usr/bin/env python3
"""Lists functions of crates/*/src that are the same but for names and numbers: candidates for one generic function.

    python3 tools/twins.py [FOLDER]

Names are numbered in the order in which they appear, clauses and comments are left out, and bodies of fewer than three lines are not listed.
"""
import glob
import re
import sys

KEEP = {
    'fn', 'pub', 'let', 'mut', 'if', 'else', 'while', 'for', 'in', 'loop', 'match', 'return', 'as', 'self', 'break', 'continue',
}


def functions(text):
    """The name and the code of each function, without clauses and comments."""
    lines = text.split('\n')
    i = 0
    while i < len(lines):
        m = re.match(r'( *)(pub )?(extern "C" )?fn (\w+)', lines[i])
        if not m:
            i += 1
            continue
        indent, code, j = m.group(1), [], i
        while j < len(lines):
            line = lines[j]
            if not re.match(r' *(requires|ensures|//|#)', line):
                code.append(line)
            j += 1
            if line == indent + '}' or line.endswith(';') and len(code) == 1:
                break
        yield m.group(4), code
        i = j


def shape(code):
    """The code with its names numbered and its numbers left out."""
    names = {}

    def word(m):
        w = m.group(0)
        if w in KEEP:
            return w
        if re.fullmatch(r'[ui](8|16|32|64)|usize', w):
            return 'T'
        if w[0].isdigit():
            return '0'
        return names.setdefault(w, 'n%d' % len(names))

    return re.sub(r'\w+', word, ' '.join(' '.join(code).split()))


def main():
    root = sys.argv[1] if len(sys.argv) > 1 else '.'
    groups = {}
    for path in sorted(glob.glob(root + '/crates/*/src/*.rt')):
        crate = path.split('/crates/')[1].split('/')[0]
        with open(path) as f:
            text = f.read()
        for name, code in functions(text):
            if len(code) >= 5:
                groups.setdefault(shape(code), []).append('%s::%s' % (crate, name))
    twins = [g for g in groups.values() if len(g) > 1]
    for g in twins:
        print(', '.join(g))
    print('%d groups, %d functions' % (len(twins), sum(len(g) for g in twins)))


main()
