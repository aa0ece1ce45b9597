"""Sections that a text names: `docs/X.md, "S"`, `"S" in docs/X.md`, and `("S")` of its own page. Each page of docs/formats begins with a list of its
sections; it, and each page of docs/laboratory, has at most 5,000 words. READMEs of crates, which are read apart, name sections of pages alone."""
import re

from checks.tree import is_code, plain

MOST_WORDS = 5000
PAGE = r'(?:\[[^\]]*\]\(|\[)?(docs/[\w/]+\.md)[\])]?'
BEHIND = re.compile(PAGE + r',? \(?((?:"[^"]+"\]?(?:, | and )?)+)')
AHEAD = re.compile(r'"([^"]+)" (?:in|of) ' + PAGE)
OWN = re.compile(r'\(("[A-Z][^"()]*"(?:, "[A-Z][^"()]*")*)\)')


def prose_of(tree, page):
    lines = tree.text(page).split('\n')
    return '\n'.join('' if code else line for line, code in zip(lines, is_code(lines)))


def named_in(text):
    """Yields each section that a text names: the page (None for its own) and the section."""
    flat = ' '.join(text.split())
    for match in BEHIND.finditer(flat):
        yield from ((match[1], section) for section in re.findall(r'"([^"]+)"', match[2]))
    yield from ((match[2], match[1]) for match in AHEAD.finditer(flat))
    for match in OWN.finditer(flat):
        if not re.search(r'docs/[\w/]+\.md\]? $', flat[:match.start()]):
            yield from ((None, section) for section in re.findall(r'"([^"]+)"', match[1]))


def sections_of(tree, page):
    """What a page has as sections: headings, also up to a colon, bold heads of items, and links in tables."""
    text = tree.text(page)
    names = [heading for heading, _ in tree.headings(page)]
    names += [heading.split(':')[0] for heading in names]
    names += [name.rstrip('.') for name in re.findall(r'\*\*([^*]+)\*\*', text)]
    names += [name for line in text.split('\n') if line.startswith('|') for name in re.findall(r'\[([^\]]+)\]\([^)]*\)', line)]
    return {' '.join(plain(name).split()) for name in names}


def faults_of(tree, page):
    for target, section in named_in(prose_of(tree, page)):
        other = target or page
        if target is None and page.startswith('crates/'):
            continue
        if other not in tree.paths:
            yield f'{target} does not exist'
        elif plain(section.rstrip(',.')) not in sections_of(tree, other):
            yield f'{other} has no section "{section}"'
    if page.startswith('docs/formats/'):
        listed = re.findall(r'(?m)^- \[(.+)\]\(#', tree.text(page).split('\n## ')[0])
        sections = [line[3:] for line in prose_of(tree, page).split('\n') if line.startswith('## ')]
        if listed != sections:
            yield f'its contents are not its sections: {sorted(set(listed) ^ set(sections)) or "another order"}'
    words = len(tree.text(page).split())
    if page.startswith(('docs/formats/', 'docs/laboratory/')) and words > MOST_WORDS:
        yield f'it has {words:,} words, and not {MOST_WORDS:,} at most'


def check(tree):
    faults = [(page, 1, fault) for page in tree.pages for fault in faults_of(tree, page)]
    return faults, 'the sections that they name'
