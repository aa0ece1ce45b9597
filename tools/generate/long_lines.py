#!/usr/bin/env python3
"""Breaks the lines of proofs that have more than 200 characters, at a blank with few open brackets, before an operator or after `=`, `in` or `;`
if there is one. It moves blanks and line ends alone, so a proof is the same text to the prover. Run it at the top of the repository after proofs
were written, and then `rt fmt` in the crates that it changed, which indents what it broke; tools/generate/tables.py does both for the proofs that it writes.
It leaves a comment, and a line without such a blank.

    tools/generate/long_lines.py CRATE..         prints the file and the length of each line that it leaves"""
import glob
import re
import sys

# a line of a proof has at most MOST characters, and a part of a longer one at most AIM
MOST, AIM = 200, 160
CONNECTIVES = {'→', '∙', '⊎', '×'}
OPERATORS = {'≡', '++', '∷', '≤', '+', '*', '&&', '||'}
# what stays on the line of the word after it
OPENING = {'λ', 'let', 'rw', 'elim', 'record', 'not', 'pub', 'abbrev', 'unfoldable'}


def blanks(line):
    """The blanks of a line outside its strings, each with the number of brackets that are open there."""
    depth, string, at = 0, False, 0
    while at < len(line):
        char = line[at]
        if string:
            at += char == '\\'
            string = char != '"'
        elif char == '"':
            string = True
        elif char in '([{':
            depth += 1
        elif char in ')]}':
            depth -= 1
        elif char == ' ':
            yield at, depth
        at += 1


def price(line, at, depth):
    """How bad a break at a blank is, the least being the best; none if there may be no break."""
    before, after = line[:at].rsplit(' ', 1)[-1], line[at + 1:].split(' ', 1)[0]
    lambda_at = line.rfind('λ', 0, at)
    if before in OPENING or before.endswith('λ') or lambda_at >= 0 and not re.search(r'\.(\s|$)', line[lambda_at:at]):
        return None
    worth = 20 * depth
    if after in CONNECTIVES:
        worth -= 28 if depth == 0 else 10
    elif after in OPERATORS:
        worth -= 6
    worth -= {'=': 12, 'in': 16}.get(before, 6 if before.endswith(';') else 0)
    worth += 8 if before in CONNECTIVES | OPERATORS else 10 if before == ':' else 0
    return worth + (60 if after in ('=', ':') else 0)


def parts_of_list(line):
    """An import of many names as several imports of the same module."""
    found = re.fullmatch(r'((?:pub )?use [^{]*\.)\{(.*)\}', line)
    if not found:
        return [line]
    head, lists = found.group(1), [[]]
    for name in found.group(2).split(', '):
        if len(head) + 2 + len(', '.join(lists[-1] + [name])) > AIM:
            lists.append([])
        lists[-1].append(name)
    return [f'{head}{{{", ".join(names)}}}' for names in lists]


def parts(line):
    """The parts of a line that has more than MOST characters."""
    text = line.lstrip()
    if text.startswith(('use ', 'pub use ')):
        return parts_of_list(line)
    if text.startswith('--'):
        return [line]
    indent, done = len(line) - len(text), []
    while len(line) > AIM:
        start = len(line) - len(line.lstrip())
        found = [(price(line, at, depth), at) for at, depth in blanks(line) if start + 20 < at <= AIM]
        # a full line is worth a little
        found = [(worth - (at - start) / 12, at) for worth, at in found if worth is not None]
        if not found:
            break
        at = min(found)[1]
        done.append(line[:at].rstrip())
        line = ' ' * (indent + 4) + line[at + 1:].lstrip()
    return done + [line]


def broken(text, most=MOST):
    """A text with the lines that have more than `most` characters in parts."""
    return '\n'.join(part for line in text.split('\n') for part in (parts(line) if len(line) > most else [line]))


def main():
    if len(sys.argv) == 1:
        sys.exit(__doc__)
    for path in sorted(path for name in sys.argv[1:] for path in glob.glob(f'crates/{name}/proofs/**/*.antt', recursive=True)):
        with open(path, encoding='utf-8') as file:
            text = file.read()
        new = broken(text)
        if new != text:
            with open(path, 'w', encoding='utf-8') as file:
                file.write(new)
        for number, line in enumerate(new.split('\n'), 1):
            if len(line) > MOST:
                print(f'{path}:{number}: {len(line)} characters')


if __name__ == '__main__':
    main()
