"""The functions, clauses and parts that the rows of docs/PROMISES.md cite, each in the files of its row; and the numbers there of the definitions on
which they rest.

A row cites `FUNCTION`: `CLAUSE` (`PART`); without a clause it rests on all clauses. A clause rests on each definition of crates/*/specs that its text
names, by a `use` line or in the same file, and so does a definition; of two definitions with one name on both. Lines are those without comments."""
import collections
import re
import textwrap

PAGE = 'docs/PROMISES.md'
BEGIN, END = '<!-- Written by tools/check --write. -->', '<!-- The end of what it writes. -->'
BLOCK = re.compile(rf'<!-- Written by tools/[^\n]*-->\n.*{END}', re.S)
MODEL = ('brk_money', 'brk_model', 'brk_model_explain', 'brk_model_http')

SPECS = re.compile(r'crates/(\w+)/specs/(?!Lib\.)(\w+)\.antt')
USE = re.compile(r'^\s*(?:ghost )?use Rattle\.([^;{\s]*?)(?:\.\{([^}]*)\}| as (\w+))?;?\s*$', re.M)
DEFINITION = re.compile(r'((?:abbrev|unfoldable|pub|record|data)(?: (?:pub|record|data))*) (\S+)')
# names with points between them; not after a point
PATH = re.compile(r'(?<![\w.])[^\W\d]\w*(?:\.\w+)*')
LITERAL = re.compile(r'"(?:\\.|[^"\\])*"')
# in a source: an implementation or a trait, its end, a `use` in it, the value of a ghost, a function
ITEM = re.compile(r'^(?:(?:pub )?(?:impl|trait)\b(?P<owner>.*)|(?P<end>\}$)|(?P<use>    ghost use [^;]*;)|    ghost (?P<ghost>\w+) = (?=\{)'
                  r'| *(?:pub(?:\(crate\))? )?(?:const )?fn (?P<function>\w+))', re.M)
CLAUSE = re.compile(r'^\s+(?P<kind>requires|ensures)(?: (?P<name>\w+))? (?=\{)', re.M)


class Scope:
    """The names that the `use` lines of a text import, each with what it has elsewhere, and the names of modules."""

    def __init__(self, text):
        self.names, self.modules = {}, {'Rattle'}
        for path, items, alias in USE.findall(text):
            for item in filter(None, (item.strip() for item in items.split(','))):
                name, _, other = item.partition(' as ')
                self.names[other or name] = name
            if not items:
                self.modules.add(alias or path.rpartition('.')[2])

    def named(self, text):
        """What a text names, operators too."""
        found = set()
        for path in PATH.findall(LITERAL.sub('', text)):
            first, *rest = path.split('.')
            if first in self.names:
                found.add(self.names[first])
            elif first in self.modules and rest:
                found.add(rest[-1] if first == 'Rattle' else rest[0])
        return found | {name for other, name in self.names.items() if '◌' in other and other.strip('◌') in text}


class Definition:
    """A definition of a file of specs: its lines without comments, and the names that it gives."""

    def __init__(self, file, kinds, name, line):
        self.file, self.kinds, self.name, self.lines = file, kinds.split(), name, [line]

    def names(self, kind, pattern):
        """Its own name and, if it is of a kind, those of its values or fields."""
        return [self.name, *(re.findall(pattern, '\n'.join(self.lines[1:]), re.M) if kind in self.kinds else ())]

    def values(self):
        return self.names('data', r'^\s+(\S+) :')

    def fields(self):
        return self.names('record', r'^\s+(?:pub )?(\w+) :')


class Specs:
    """All definitions of the repository by their names, and what each rests on."""

    def __init__(self, tree):
        self.by_name, self.rests_on = collections.defaultdict(set), {}
        for path in tree.files:
            if found := SPECS.fullmatch(path):
                self.read(found.groups(), tree.text(path))

    def read(self, file, text):
        scope, found, indent, last = Scope(text), [], '', None
        for line in (line for line in text.split('\n') if line.strip() and not line.strip().startswith('--')):
            # the definitions of a module are indented
            begins = DEFINITION.match(line) or line.startswith(indent) and DEFINITION.match(line[len(indent):])
            if line.startswith(('use ', 'infix', 'module ')):
                indent, last = '  ' if line.startswith('module ') else indent, None
            elif begins:
                last = Definition(file, *begins.groups(), line)
                found.append(last)
            elif last:
                last.lines.append(line)
        scope.names.update((name, name) for definition in found for name in definition.values())
        for definition in found:
            self.rests_on[definition] = scope.named('\n'.join(definition.lines))
            for name in definition.values():
                self.by_name[name].add(definition)

    def closed(self, names):
        """All names on which some names rest, and these."""
        seen, left = set(), set(names)
        while left:
            seen |= left
            left = set().union(*(self.rests_on[one] for name in left if name in self.by_name for one in self.by_name[name])) - seen
        return seen

    def definitions(self, names):
        return {one for name in names if name in self.by_name for one in self.by_name[name]}


def inside_braces(text, at):
    """The text between the brace at a place and the one that closes it."""
    depth = 0
    for end in range(at, len(text)):
        depth += (text[end] == '{') - (text[end] == '}')
        if depth == 0:
            return text[at + 1:end]
    return text[at + 1:]


class Function:
    """A function of a source: its names, and what it requires and its clauses name, by their names ('' without one). The ghosts that its `impl`
    gives to a trait count as clauses."""

    def __init__(self, names, contract, scope, ghosts):
        self.names, self.required, self.clauses = names, set(), collections.defaultdict(set)
        for name, text in ghosts.items():
            self.clauses[name] |= scope.named(text)
        for match in CLAUSE.finditer(contract):
            said = scope.named(inside_braces(contract, match.end()))
            if match['kind'] == 'requires':
                self.required |= said
            else:
                self.clauses[match['name'] or ''] |= said

    def rests_on(self, clauses=()):
        return self.required.union(*(said for name, said in self.clauses.items() if not clauses or name in clauses))


def owners_of(head, text):
    """The types, and the trait, of the head of an implementation or a trait; of one that another type names, that type too."""
    while '<' in head and (shorter := re.sub(r'<[^<>]*>', '', head)) != head:
        head = shorter
    names = [word for word in re.findall(r'\w+', head.split('{')[0].split(':')[0]) if word != 'for']
    return names + [alias for alias, name in re.findall(r'^(?:pub )?type (\w+)(?:<[^=]*>)? = (\w+)', text, re.M) if name in names]


def functions_of(text):
    """The functions of a source. One of an `impl` is named by its type, and by its trait if it has one."""
    text = re.sub(r'^\s*//.*\n', '', text, flags=re.M)
    imported = '\n'.join(line for line in text.split('\n') if line.startswith('ghost use'))
    owners, own, ghosts, items = [], '', {}, [*ITEM.finditer(text)]
    for item, after in zip(items, [*(item.start() for item in items[1:]), len(text)]):
        if item['owner'] is not None or item['end']:
            owners, own, ghosts = owners_of(item['owner'] or '', text), '', {}
        elif item['use']:
            own += item['use'] + '\n'
        elif item['ghost']:
            ghosts[item['ghost']] = inside_braces(text, item.end())
        else:
            names = {item['function'], *(f'{owner}::{item["function"]}' for owner in owners)}
            yield Function(names, text[item.start():after], Scope(f'{imported}\n{own}'), ghosts)


class Cited:
    """A part of the cell `Clause` of a row, between semicolons: the functions or definitions that it names, their clauses, and parts in brackets."""

    def __init__(self, text):
        def words(part):
            return re.findall(r'`([\w:]+)`', part)

        self.parts = [word for group in re.findall(r'\(([^()]*)\)', text) for word in words(group)]
        names, _, clauses = re.sub(r'\([^()]*\)', '', text.replace('::', '\0')).partition(':')
        self.names, self.clauses = words(names.replace('\0', '::')), words(clauses)
        self.is_same, self.has_like = 'the same functions' in text, ' like' in text

    def is_like(self, function):
        """Whether a function has a clause of this name, with a definition that is named in brackets."""
        has_clause = not self.clauses or set(function.clauses) & set(self.clauses)
        return has_clause and (not self.parts or function.rests_on() & set(self.parts))


class Row:
    """A row of the page: the number of its line, the parts of its clause, its files, and of these the sources and the files of definitions."""

    def __init__(self, number, clause, files, tree):
        self.number, self.files = number, ', '.join(files)
        self.cited = [Cited(part) for part in re.findall(r'(?:[^;()]|\([^()]*\))+', clause)]
        self.sources = [name for file in files for name in tree.files if name.endswith('.rt') and f'{name}/'.startswith(f'crates/{file}/')]
        self.specs = [found.groups() for found in (SPECS.fullmatch(f'crates/{file}') for file in files) if found]
        self.types = {name for path in self.sources for name in re.findall(r'\b(?:struct|enum|type) (\w+)', tree.text(path))}


def rows_of(tree):
    """The rows of the tables with clauses: in the last two cells the clause and the files, or `the same`."""
    files = []
    for number, line in enumerate(tree.text(PAGE).split('\n'), 1):
        cells = line.strip('| ').split(' | ') if line.startswith('| ') else []
        if len(cells) >= 3 and re.match(r'\[`|the same', cells[-1]):
            files = re.findall(r'\[`([^`]+)`\]', cells[-1]) or files
            yield Row(number, cells[-2], files, tree)


class Promises:
    """What the rows of the page rest on, and what is wrong with them."""

    def __init__(self, tree):
        self.tree, self.specs, self.functions, self.faults = tree, Specs(tree), {}, []
        # what is cited: functions with their clauses, and what they rest on, first that of the table above this heading
        self.rows, self.cited, self.typed, self.start, before = 0, set(), set(), set(), []
        first = tree.text(PAGE).partition('\n## Assumptions\n')[0].count('\n')
        for row in rows_of(tree):
            self.rows += 1
            before = [function for part in row.cited for function in self.read(row, part, before)]
            self.typed |= self.start if row.number <= first else set()

    def functions_of(self, path):
        if path not in self.functions:
            self.functions[path] = list(functions_of(self.tree.text(path)))
        return self.functions[path]

    def read(self, row, part, before):
        """Adds what a part of a row rests on; `before` are the functions of the row before. Returns its functions."""
        at_hand = [function for path in row.sources for function in self.functions_of(path)]
        cited = list(before) if part.is_same else [function for function in at_hand if function.names & set(part.names)]
        cited += [function for function in at_hand if part.has_like and function not in cited and part.is_like(function)]
        # definitions that are named themselves; parts, if there is nothing that they are parts of
        found = self.defined(row, part.names) or (set() if cited else self.defined(row, part.parts))
        for function in cited:
            clauses = set(function.clauses) & set(part.clauses)
            self.cited.update((function, name) for name in clauses or function.clauses)
            found |= function.rests_on(clauses)
        self.start |= found
        self.faults += [(PAGE, row.number, f'no {fault} in {row.files}') for fault in self.lacks(row, part, cited, found)]
        return cited

    def defined(self, row, words):
        return {word for word in words if any(one.file in row.specs for one in self.specs.definitions([word]))}

    def lacks(self, row, part, cited, found):
        """Yields each name that is no function or definition of the row's files, each clause that none of the functions has, and each part that is
        not in what they rest on."""
        inside = self.specs.closed(found)
        inside |= {name for one in self.specs.definitions(inside) for name in one.values() + one.fields()}
        functions, clauses = inside.union(*(function.names for function in cited)), {name for function in cited for name in function.clauses}
        for kind, words, known in (('function', part.names, functions), ('clause', part.clauses, clauses), ('part', part.parts, inside)):
            yield from (f'{kind} {word}' for word in words if word not in known | row.types)

    def block(self):
        """What the page has between its marks."""
        definitions, typed = (self.specs.definitions(self.specs.closed(names)) for names in (self.start, self.typed))
        sentences = [
            f'{self.rows} rows name {len(self.cited)} clauses of {len({function for function, _ in self.cited})} functions.',
            f'They rest on {counts(definitions)}.',
            f'Of these, {counts({one for one in definitions if one.file[0] in MODEL})}, {", ".join(f"`{crate}`" for crate in MODEL)}, say what is '
            'booked, asked, explained and served. The others say how records, tables, a store, a desk and the program represent it.',
            f'The rows of the first table alone, "What a user types", rest on {counts(typed)}.',
        ]
        return '\n'.join([BEGIN, '', *(textwrap.fill(line, 100, initial_indent='- ', subsequent_indent='  ') for line in sentences), '', END])

    def written(self):
        return BLOCK.sub(lambda _: self.block(), self.tree.text(PAGE))


def counts(definitions):
    files = {definition.file for definition in definitions}
    lines = sum(len(definition.lines) for definition in definitions)
    return f'{len(definitions):,} definitions, {lines:,} lines in {len(files)} files of {len({crate for crate, _ in files})} crates'


def check(tree):
    promises, found = Promises(tree), BLOCK.search(tree.text(PAGE))
    if not found or promises.written() != tree.text(PAGE):
        number = tree.text(PAGE)[:found.start()].count('\n') + 1 if found else 1
        promises.faults.append((PAGE, number, f'other numbers than tools/check --write writes between {BEGIN} and {END}'))
    return promises.faults, f'{len(promises.cited)} clauses'


def write(tree):
    text = Promises(tree).written()
    if text != tree.text(PAGE):
        with open(PAGE, 'w', encoding='utf-8') as file:
            file.write(text)
