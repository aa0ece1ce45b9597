"""Reads the edits that tools/trials/mutants tries: crates/CRATE/must-fail/NAME.edit and the blocks of mutants/CRATE.edits.

A mutant is an edit that makes the body of a function wrong, so the prover has to reject it. A control is an edit that changes the text of a
function and not its meaning, so the prover has to accept it. A block of mutants/CRATE.edits has these lines:

    mutant: NAME           or `control: NAME`
    clause: GOAL           the goal for which a mutant is rejected, as the prover names it; may be left out, and may occur more than once
    file: src/FILE.rt      a file of the crate
    old: TEXT              TEXT is one line, and stands once in the file
    new: TEXT              TEXT takes its place

Further pairs of `old` and `new`, with or without a `file` before them, apply to what the pairs before them made. A file NAME.edit, which the
kit reads too, has the same lines but for the first, and each clause after a `#`. The name of a control is that of the function that it
changes, and if several functions have this name, a hyphen and a word follow.

`fault` says why an edit can no longer be applied, that it changes the text of an SQL statement, or which name of a new text has no meaning
where the edit puts it, so that the edited text cannot be compiled. It does not find each such name: it knows no types, and a name counts as
known if it occurs elsewhere, a variable in its function, any other name in its file."""

import collections
import glob
import os
import re

WORD = re.compile(r"(?<![\w'])[A-Za-z_]\w*")
FUNCTION = re.compile(r'\bfn (\w+)')
LITERAL = re.compile(r'//[^\n]*|b?"(?:\\.|[^"\\])*"|b?\'(?:\\.|[^\'\\])\'', re.DOTALL)
CLAUSE = re.compile(r'\b(?:requires|ensures|ghost)\b')
SQL = re.compile(r'"(?:SELECT|INSERT|UPDATE|DELETE|CREATE|DROP|ALTER|PRAGMA) (?:\\.|[^"\\])*"', re.DOTALL)
KEYWORDS = set('''as bool break char const continue crate else enum false fn for i128 i16 i32 i64 i8 if impl in isize let loop match mod move
    mut pub ref return self Self static str struct super trait true type u128 u16 u32 u64 u8 unsafe use usize where while'''.split())
# names that every file knows
COMMON = set('''Err FnMut From Into Iterator None Ok Option Result Some String Vec core drop format matches prove std vec'''.split())
# a name in these places of a new text is bound there, or is that of a field
BINDINGS = [r'\blet\s+([^=;]*?)=', r'\bfor\s+([^{]*?)\s+in\b', r'\|([^|]*)\|', r'([^{};]*?)=>', r'\b(\w+)\s*:(?!:)', r'\bfn (\w+)']


class Edit:
    """A mutant or a control of a crate: where it stands, its clauses, and its pairs of an old and a new text with their files."""

    def __init__(self, kind, name, place):
        self.kind, self.name, self.place = kind, name, place
        self.clauses, self.pairs, self.unread, self.file = [], [], [], ''

    @property
    def is_of_gate(self):
        return self.place.endswith('.edit')

    def read(self, line):
        """Reads a line after the first."""
        word, _, text = line.partition(':')
        text = text.removeprefix(' ')
        if word in ('clause', '# clause'):
            self.clauses.append(text.strip())
        elif word == 'file':
            self.file = text.strip()
        elif word == 'old':
            self.pairs.append((self.file, text, None))
        elif word == 'new' and self.pairs and self.pairs[-1][2] is None:
            self.pairs[-1] = (*self.pairs[-1][:2], text)
        elif line.strip() and not line.startswith('#'):
            self.unread.append(line)

    def text(self):
        """The text of a file NAME.edit."""
        return ''.join(f'file: {file}\nold: {old}\nnew: {new}\n' for file, old, new in self.pairs)


def edits_of(top, crate):
    """The edits of a crate that the gate tries, and those of mutants/."""
    return gate_edits(top, crate) + blocks(f'{top}/mutants/{crate}.edits')


def gate_edits(top, crate):
    found = []
    for path in sorted(glob.glob(f'{top}/crates/{crate}/must-fail/*.edit')):
        found.append(Edit('mutant', os.path.basename(path)[:-len('.edit')], path))
        for line in read(path).split('\n'):
            found[-1].read(line)
    return found


def blocks(path):
    found = []
    for at, line in enumerate(read(path).split('\n'), 1):
        head = re.fullmatch(r'(mutant|control): (\S+)\s*', line)
        if head:
            found.append(Edit(head[1], head[2], f'{path}:{at}'))
        elif found:
            found[-1].read(line)
        elif line.strip() and not line.startswith('#'):
            raise SystemExit(f'{path}:{at}: a line before the first block: {line}')
    return found


def blank(text):
    """A text of the same length, with spaces for its comments, strings, clauses and ghost items."""
    text = LITERAL.sub(lambda it: ' ' * len(it.group()), text)
    at = CLAUSE.search(text)
    while at:
        end = text.find(';' if text.startswith('ghost use', at.start()) else '{', at.start())
        depth, end = 0, len(text) if end < 0 else end
        while end < len(text):
            depth += (text[end] == '{') - (text[end] == '}')
            end += 1
            if depth == 0:
                break
        text = text[:at.start()] + ' ' * (end - at.start()) + text[end:]
        at = CLAUSE.search(text, end)
    return text


def around(text, start, end):
    """The range of the function with this place."""
    heads = [it.start() for it in FUNCTION.finditer(text)]
    return max([it for it in heads if it <= start], default=0), min([it for it in heads if it >= end], default=len(text))


def is_known(text, start, end, word, crates):
    """True if a name in the new text from `start` to `end` has, or may have, a meaning there."""
    name, before, after = word.group(), text[:word.start()].rstrip(), text[word.end():].lstrip()
    if name in KEYWORDS or name in COMMON or name == '_' or before.endswith(('::', '#')) or (before.endswith('.') and not before.endswith('..')):
        return True
    if any(name in WORD.findall(it) for at in BINDINGS for it in re.findall(at, text[start:end])):
        return True
    if name.startswith('brk_') and after.startswith('::'):
        return name in crates
    if name[0].isupper() or after.startswith(('(', '::', '!(', '<')):
        low, high = 0, len(text)
    else:
        low, high = around(text, start, end)
    return bool(re.search(rf'(?<![\w.]){name}\b(?!\()' if low else rf'\b{name}\b', text[low:start] + ' ; ' + text[end:high]))


def strange_in_code(text, old, new, crates):
    """The first name of a new text in a source file that has no meaning there, or that the text after it has lost by it, or nothing."""
    start = text.find(new)
    end, text = start + len(new), blank(text)
    for name in re.findall(r'\blet (?:mut )?(\w+)', old):
        if not re.search(rf'\b{name}\b', text[:start][around(text, start, end)[0]:] + new) and re.search(rf'(?<![\w.]){name}\b', text[end:around(text, start, end)[1]]):
            return name
    return next((it.group() for it in WORD.finditer(text, start, end) if not is_known(text, start, end, it, crates)), None)


def strange_in_proof(top, crate, file, new, sources):
    """The first name of a new text in a proof file that is in no file of its crate, or not called in its function, or nothing."""
    for name, kind, module, rest in re.findall(r'Rattle\.(brk_\w+)\.(specs|proofs)\.([A-Z]\w*)((?:\.\w+)?)', new):
        path = f'{top}/crates/{name}/{kind}/{module}.antt'
        if not os.path.isfile(path) or rest and not re.search(rf'\b{rest[1:]}\b', read(path)):
            return f'Rattle.{name}.{kind}.{module}{rest}'
    *module, function, _ = file.split('/')[1:]
    source = sources.get(f'src/{"/".join(module)}.rt') or read(f'{top}/crates/{crate}/src/{"/".join(module)}.rt')
    text = blank(source)
    heads = [it.start() for it in FUNCTION.finditer(text) if it.group(1) == function]
    body = ' '.join(text[slice(*around(text, it, it + 1))] for it in heads)
    return next((it for it in re.findall(r'\bc\.(\w+)\.(?:ensures|result|new)\b', new) if heads and not re.search(rf'\b{it}\b', body)), None)


def read(path):
    if not os.path.isfile(path):
        return ''
    with open(path, encoding='utf-8') as file:
        return file.read()


def crates_below(top, crate):
    """The crates that a crate names in crates.txt."""
    for line in read(f'{top}/crates.txt').split('\n'):
        name, _, below = line.partition(':')
        if name.split()[:1] == [crate]:
            return set(below.split())
    return set()


def fault(top, crate, edit):
    """Says why an edit of a crate cannot be applied, that it changes an SQL text, or which name of a new text has no meaning, or nothing."""
    if edit.unread or not edit.pairs or any(new is None for _, _, new in edit.pairs):
        return f'this line is not read: {edit.unread[0]}' if edit.unread else 'it has no pair of an old and a new text'
    texts = {file: read(f'{top}/crates/{crate}/{file}') for file, _, _ in edit.pairs}
    for file, old, new in edit.pairs:
        count = texts[file].count(old)
        if count != 1:
            return f'in {file} stands {count} times, and not once: {old}'
        if is_other_sql(texts[file], texts[file].replace(old, new)):
            return 'it changes the text of an SQL statement'
        texts[file] = texts[file].replace(old, new)
    for file, old, new in edit.pairs:
        if file.startswith('src/') and texts[file].count(new) == 1:
            strange = strange_in_code(texts[file], old, new, crates_below(top, crate))
        else:
            strange = strange_in_proof(top, crate, file, new, texts) if file.startswith('proofs/') else None
        if strange:
            return f'in {file} nothing is named {strange}'
    return None


def is_other_sql(before, after):
    """Whether a text has a statement of SQL in place of another. The proofs have each byte of it, so an edit of it is rejected whatever it means."""
    before, after = (collections.Counter(SQL.findall(it)) for it in (before, after))
    return bool(before - after and after - before)
