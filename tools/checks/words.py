"""Phrases of pages and of comments that docs/GLOSSARY.md has replaced; not among the checks of a run without words."""
import re

GONE = ['a stop leaves', 'could leave before', 'could be left before', 'want of memory', 'undisturbed', 'lets go', 'takes no memory',
        'needless zero', 'in types', 'tests of form', 'acts once', 'hands out', 'keeps the books', 'books of a base',
        'is that of', 'are those of', 'is told']
PHRASE = re.compile(rf'\b(?:{"|".join(GONE)})\b', re.I)


def has_text(name):
    return name.endswith('.md') or name.endswith(('.rt', '.antt')) and '/proofs/' not in name and 'brk_tests' not in name


def check(tree):
    names = [name for name in tree.files if has_text(name)]
    faults = [(name, number, f'{phrase!r} was replaced') for name in names for number, line in enumerate(tree.text(name).split('\n'), 1)
              if name.endswith('.md') or line.strip().startswith(('--', '//')) for phrase in PHRASE.findall(line)]
    return faults, f'the words of {len(names)} files'
