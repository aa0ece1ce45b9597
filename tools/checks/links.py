"""Links of the pages: each leads to a file, a folder or a heading; and in the pages of docs, those at the top and examples/reports/README.md
each path is a link. A path is a file or a folder, named from the top or from crates/: in back quotes, or plain if it begins with docs/,
brk_NAME/ or the like. In docs and examples it is in square brackets, `[docs/OPERATING.md, "Restore"]`, and the list at the end of the page says
where it leads; at the top it has the whole link. Headings and blocks of code have no links."""
import os
import re
import textwrap

from checks.tree import ITEM, is_code, plain

WIDTH = 100
LIST = '<!-- Where the paths of this page lead, written by tools/check --write. -->'
LIST_FOUND = re.compile(r'\n<!-- Where the paths of this page lead.*-->\n')
# the page that tools/generate/definitions.py writes has no such links
GENERATED = 'docs/DEFINITIONS.md'
PAGES = re.compile(r'(?:README|CHANGELOG|CONTRIBUTING|SECURITY)\.md|docs/(?:(?:formats|laboratory)/)?[^/]+\.md|examples/reports/README\.md')

CODE = re.compile(r'(?<!`)(`+)(?!`)(.+?)(?<!`)\1(?!`)', re.S)
INLINE = re.compile(r'!?\[(?:[^\[\]]|\[[^\[\]]*\])*\]\([^)]*\)', re.S)
LABEL = re.compile(r'\[([^\[\]]+)\](?!\()')
DEFINED = re.compile(r'^\[([^\]]+)\]: (\S+)$', re.M)
PATH = re.compile(r'(?<![\w/.:\[-])(?:(?:docs|tools|examples|door|completions|crates|mutants|\.ci|brk_\w+)(?:/[\w.-]+)+'
                  r'|(?:README|CHANGELOG|CONTRIBUTING|SECURITY)\.md(?![\w/]))')
QUOTED = re.compile(r'[\w.-]+(?:/[\w.-]+)+/?|(?:README|CHANGELOG|CONTRIBUTING|SECURITY)\.md|crates\.txt|HANDLES|LICENSE')
AFTER = re.compile(r',?\s+\(?"([^"]+)"\)?')
BEFORE = re.compile(r'"([^"]+)"\s+(?:in|of)\s+$')


def is_fixed(line, code):
    """Whether a line has no paths that become links."""
    return code or not line.strip() or bool(re.match(r'#+ |\s*<!--|\[[^\]]+\]: ', line))


class Page:
    """A page, with the list at its end apart."""

    def __init__(self, name, tree):
        self.name, self.tree, self.home = name, tree, os.path.dirname(name)
        found = LIST_FOUND.search(tree.text(name))
        body, listed = (tree.text(name)[:found.start()], tree.text(name)[found.end():]) if found else (tree.text(name), '')
        self.listed = dict(DEFINED.findall(listed))
        # what was written below the list belongs above it
        below = DEFINED.sub('', listed).strip('\n')
        self.text = body.rstrip('\n') + (f'\n\n{below}' if below else '') + '\n'
        lines = self.text.split('\n')
        self.fixed = [is_fixed(line, code) for line, code in zip(lines, is_code(lines))]
        # the page with blanks in place of the lines that have no links
        self.prose = '\n'.join(' ' * len(line) if fixed else line for line, fixed in zip(lines, self.fixed))
        self.used = {}
        for match in LABEL.finditer(self.prose) if self.home else ():
            label = ' '.join(match[1].split())
            if target := self.target_of(label):
                self.used[label] = target

    def fragment(self, whole, section):
        """The fragment of a section of a page, which may be named up to a colon; None if the page has no such heading."""
        section = plain(' '.join(section.split())).rstrip('.,')
        known = self.tree.headings(whole) if whole.endswith('.md') else ()
        return next((at for heading, at in known if section in (heading, heading.split(':')[0])), None)

    def target_of(self, label):
        """Where a label leads, if it is a path with or without a section; None otherwise."""
        ahead, behind = re.fullmatch(r'"([^"]+)" (?:in|of) (.+)', label), re.fullmatch(r'(\S+?),? \(?"([^"]+)"\)?', label)
        section, path = ahead.groups() if ahead else (behind[2], behind[1]) if behind else (None, label)
        bare = path.strip('`')
        whole = self.tree.whole(bare) if PATH.fullmatch(bare) or path != bare and QUOTED.fullmatch(bare) else None
        fragment = whole and section and self.fragment(whole, section)
        return self.link(whole, fragment) if whole and (fragment or not section) else None

    def link(self, whole, fragment):
        return os.path.relpath(whole, self.home or '.') + (f'#{fragment}' if fragment else '')

    def bare(self):
        """Yields the start and the end of each path that is in no link, and the whole path."""
        spans = [match.span() for match in CODE.finditer(self.prose)]
        taken = [match.span() for match in INLINE.finditer(self.prose)]
        taken += [match.span() for match in LABEL.finditer(self.prose) if ' '.join(match[1].split()) in self.used]
        quoted = [(match.span(), match[2]) for match in CODE.finditer(self.prose) if QUOTED.fullmatch(match[2])]
        named = [((match.start(), match.start() + len(path)), path) for match in PATH.finditer(self.prose)
                 if (path := match[0].rstrip('.-'))[-1] != '/' and not any(begin <= match.start() < end for begin, end in spans)]
        for (start, end), path in quoted + named:
            whole = self.tree.whole(path)
            if whole and whole != self.name and not any(begin < end and start < stop for begin, stop in taken):
                yield start, end, whole

    def written(self):
        """The page with each path as a link, and the list at its end."""
        text = self.text
        for start, end, whole in sorted(self.bare(), reverse=True):
            after, before = AFTER.match(text, end), BEFORE.search(text[:start])
            fragment = None
            if after and (fragment := self.fragment(whole, after[1])):
                # a bracket that closes more than the section stays outside
                end = after.end() - (text[after.end() - 1] == ')' and '(' not in text[start:after.end()])
            elif before and (fragment := self.fragment(whole, before[1])):
                start = before.start()
            label, target = text[start:end], self.link(whole, fragment)
            if self.home:
                self.used[' '.join(label.split())] = target
            text = f'{text[:start]}[{label}]' + ('' if self.home else f'({target})') + text[end:]
        text = wrapped(text, self.text)
        if not self.used:
            return text
        listed = sorted(self.used.items(), key=lambda entry: (entry[0].replace('`', '').replace('"', ''), entry))
        return f'{text}\n{LIST}\n\n' + ''.join(f'[{label}]: {target}\n' for label, target in listed)

    def faults(self):
        bare = list(self.bare())
        for start, end, _ in bare:
            yield self.name, self.text.count('\n', 0, start) + 1, f'{self.text[start:end]} is no link; tools/check --write makes it one'
        if self.home and not bare:
            for label in {label for label, _ in set(self.used.items()) ^ set(self.listed.items())}:
                yield self.name, self.text.count('\n') + 1, f'the list at the end: [{label}]; tools/check --write writes it anew'


def filled(paragraph):
    """The lines of a paragraph, wrapped anew; as they were if a line would begin with a mark of a list."""
    first = paragraph[0]
    indent = ITEM.match(first)[0] if ITEM.match(first) else first[:len(first) - len(first.lstrip())]
    lines = textwrap.wrap(' '.join(' '.join(paragraph)[len(indent):].split()), WIDTH, initial_indent=indent,
                          subsequent_indent=' ' * len(indent), break_long_words=False, break_on_hyphens=False)
    return paragraph if any(re.match(r'\s*(?:[-+*#>|=]+|\d+[.)])\s', line) for line in lines[1:]) else lines


def wrapped(text, before):
    """A page in which each paragraph that is new and has a line that is too long is wrapped anew."""
    lines, out, paragraph = text.split('\n'), [], []
    for line, code in [*zip(lines, is_code(lines)), ('', False)]:
        fixed = is_fixed(line, code) or line.startswith('|')
        if paragraph and (fixed or ITEM.match(line)):
            fits = max(map(len, paragraph)) <= WIDTH or '\n'.join(paragraph) in before
            out += paragraph if fits else filled(paragraph)
            paragraph = []
        (out if fixed else paragraph).append(line)
    return '\n'.join(out[:-1])


def broken(name, tree):
    """Yields each link of a page that leads nowhere."""
    lines = tree.text(name).split('\n')
    for number, (line, code) in enumerate(zip(lines, is_code(lines)), 1):
        listed = re.fullmatch(r'\[[^\]]+\]: (\S+)', line)
        for target in () if code else [listed[1]] if listed else re.findall(r'\]\(([^)\s]+)\)', CODE.sub('', line)):
            path, _, fragment = target.partition('#')
            whole = os.path.normpath(os.path.join(os.path.dirname(name), path)) if path else name
            if re.match(r'[a-z]+:', target):
                continue
            if whole not in tree.paths:
                yield name, number, f'{target} does not exist'
            elif fragment and fragment not in (at for _, at in tree.headings(whole)):
                yield name, number, f'{target}: there is no such heading'


def pages_of(tree):
    return [Page(name, tree) for name in tree.pages if PAGES.fullmatch(name) and name != GENERATED]


def check(tree):
    faults = [fault for name in tree.pages for fault in broken(name, tree)]
    faults += [fault for page in pages_of(tree) for fault in page.faults()]
    count = sum(len(re.findall(r'\]\(|^\[[^\]]+\]: ', tree.text(name), re.M)) for name in tree.pages)
    return faults, f'{count:,} links of {len(tree.pages)} pages'


def write(tree):
    for page in pages_of(tree):
        text = page.written()
        if text != tree.text(page.name):
            with open(page.name, 'w', encoding='utf-8') as file:
                file.write(text)
