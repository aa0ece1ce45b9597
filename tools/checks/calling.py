"""What the pages CALLING.md quote: it stands in the source that is named above it, and each public function of a source of the crate is quoted.

Quotes are shortened as the page says under "Contracts"; so source and quote are compared in one short form, the clauses of a function in the part of
the source from its signature to the next function."""
import re

from checks.clauses import DEFINITION

SOURCE = re.compile(r'(?:### |From )?((?:src|crates)/[\w/]+\.rt)\b')
LEFT_OUT = re.compile(r" S\.Store (?:S S'|store store') result")
ROW = re.compile(r'\| `(\w+)` \| (\w+/specs/\w+\.antt) \| (.*) \|$')


def short(text):
    """A text of code in the short form."""
    text = re.sub(r'\s+', ' ', re.sub(r'^\s*//.*$', '', text, flags=re.M))
    for pattern, to in ((r'\bself\.(?:old|now)\b', 'S'), (r'\bself\.new\b', "S'"), (r'(?<![\w.])([a-z]\w*)\.(?:old|now)\b', r'\1'),
                        (r'(?<![\w.])([a-z]\w*)\.new\b', r"\1'"), (r'\bpub ', ''), (r'(?<=[(,] )mut |(?<=\()mut (?=\w+:)', ''),
                        (r'\( ', '('), (r',? \)', ')')):
        text = re.sub(pattern, to, text)
    return LEFT_OUT.sub('', text)


def comments(text):
    return ' '.join(line.strip().lstrip('/!').strip() for line in text.split('\n') if line.strip().startswith('//'))


class Source:
    def __init__(self, text):
        self.text, self.code, self.comments = text, short(text), comments(text)
        self.part = self.code

    def has(self, line, numbered):
        """Whether a quoted line stands in the source; that of a function makes its part the one of the lines below."""
        quote, _, comment = line.strip().partition('// ') if '// the contract of' not in line else (line.partition('  //')[0].strip(), '', '')
        if not (comment.strip().rstrip('.') in self.comments):
            return False
        quote = short(quote).strip()
        if quote.startswith(('fn ', 'struct ', 'enum ', 'trait ', 'type ', 'impl')):
            quote = re.sub(r'^fn \w+::', 'fn ', quote)
            start = self.code.find(quote)
            after = self.code.find(' fn ', start + len(quote))
            self.part = self.code[start:after if quote.startswith('fn ') and after > 0 else None] if start >= 0 else ''
            return start >= 0
        clause = re.fullmatch(r'(requires ?|)(ensures|\w*)(?:: )(.*)', quote)
        if clause and line.startswith('  ') and (found := self.has_clause(clause, numbered)):
            return found
        ghost = re.fullmatch(r'ghost (\w+)(: | = )(.*)', quote)
        quote = f'ghost {ghost[1]}{ghost[2]}{{ {ghost[3]} }}' if ghost else quote
        return quote in self.part

    def has_clause(self, clause, numbered):
        kind, name, text = clause[1].strip() or 'ensures', clause[2].replace('ensures', ''), clause[3]
        text = numbered.get(text, text)
        return f'{" ".join(filter(None, (kind, name)))} {{ {text} }}' in self.part


def faults_of(tree, page):
    home, lines = page.rpartition('/')[0], tree.text(page).split('\n')
    numbered = {f'({number})': short(text) for number, text in re.findall(r'^(\d+)\. `(.*)`$', tree.text(page), re.M)}
    path, kind, quoted, above = None, None, {}, None
    for number, line in enumerate(lines, 1):
        found = SOURCE.match(line)
        if line.startswith('```'):
            kind = None if kind else line[3:]
        elif kind is None and found:
            path = found[1] if found[1].startswith('crates') else f'{home}/{found[1]}'
            if path not in tree.files:
                yield page, number, f'no source {path}'
                path = None
            else:
                above = Source(tree.text(path))
                quoted.setdefault(path, number)
        elif kind == 'text' and line and not above.has(line, numbered):
            yield page, number, f'not in {path}: {line.strip()}'
        elif kind == 'rust' and not line.startswith(('#![', 'use ', 'ghost use ')) and line not in above.text.split('\n'):
            yield page, number, f'not in {path}: {line.strip()}'
        elif row := ROW.match(line):
            yield from ((page, number, fault) for fault in faults_of_row(tree, *row.groups()))
    for path, number in quoted.items():
        for name in re.findall(r'^ *pub fn (\w+)', tree.text(path), re.M) if path.startswith(f'{home}/') else ():
            if not re.search(rf'^ *fn (?:\w+::)?{name}\b|^- `{name}`: ', tree.text(page), re.M):
                yield page, number, f'no contract of {name}, a public function of {path}'


def faults_of_row(tree, word, path, meaning):
    """A row of the table of definitions: the definition is in its file, as are the first sentence above it and its fields."""
    text = tree.text(f'crates/{path}') if f'crates/{path}' in tree.files else ''
    if not any(found[2] == word for found in map(DEFINITION.match, text.split('\n')) if found):
        yield f'no definition {word} in crates/{path}'
    said, _, fields = meaning.partition(' Fields: ')
    if said.rstrip('.') not in ' '.join(line.strip()[3:] for line in text.split('\n') if line.strip().startswith('-- ')):
        yield f'not in crates/{path}: {said}'
    yield from (f'no field {field} of {word}' for field in re.findall(r'`(\w+)`', fields) if not re.search(rf'^\s+pub {field} :', text, re.M))


def check(tree):
    pages = [name for name in tree.pages if name.endswith('/CALLING.md')]
    return [fault for page in pages for fault in faults_of(tree, page)], f'{len(pages)} pages that quote contracts'
