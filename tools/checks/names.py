"""Back-quoted names and paths of the pages: each is in the tree."""
import os
import re

# names that no file of the tree holds: of other programs, and of examples
FOREIGN = {'b_id', 'urllib'}
FOLDERS = ('crates', 'docs', 'tools', 'mutants', 'examples', 'door', 'completions', 'src', 'specs', 'proofs', '.ci')
# whose words are no names of the tree
NO_SOURCES = ('docs/brk.1', 'tools/checks/names.py')


def words_of(tree):
    """The words of all files but the pages, and the parts of all paths."""
    words = {word for path in tree.paths for part in path.split('/') for word in (part, part.split('.')[0])}
    for name in tree.files:
        if not name.endswith('.md') and name not in NO_SOURCES:
            words.update(re.findall(r'\w+', tree.text(name)))
    return words


def has_path(tree, path, home):
    """Whether there is a path from the top, from crates/, or from the folder of the page. A part in capitals stands for any name."""
    path = path.rstrip('/')
    return bool(re.search(r'(^|/)[A-Z]{4,}(/|$)', path) or tree.whole(path) or f'{home}/{path}' in tree.paths)


def has_word(words, word):
    return any(known.startswith(word) for known in words) if word.endswith('_') else word in words or word in FOREIGN


def check(tree):
    words, faults, count = words_of(tree), [], 0
    for page in tree.pages:
        for number, line in enumerate(tree.text(page).split('\n'), 1):
            for span in re.findall(r'`([^`]+)`', line):
                is_path, is_name = re.fullmatch(r'[\w.-]+(/[\w.-]+)+/?', span), re.fullmatch(r'[A-Za-z_]\w*(::\w+)*(\(\))?', span)
                count += bool(is_path or is_name)
                if is_path and span.startswith((*(f'{folder}/' for folder in FOLDERS), 'brk_')) and not has_path(tree, span, os.path.dirname(page)):
                    faults.append((page, number, f'no path {span}'))
                if is_name and not all(has_word(words, word) for word in re.findall(r'\w+', span)):
                    faults.append((page, number, f'no name {span}'))
    return faults, f'{count:,} names'
