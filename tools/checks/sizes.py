"""The lines of src of each crate of crates.txt: 100 to 2,000. A program may have fewer, and so may a crate whose specs have more lines."""
import re

FEWEST, MOST = 100, 2000


def lines_of(tree, folder):
    return sum(tree.text(name).count('\n') for name in tree.files if name.startswith(folder) and name.endswith(('.rt', '.antt')))


def check(tree):
    faults, crates = [], re.findall(r'^(\w+)(?: [^:\n]*)?:', tree.text('crates.txt'), re.M)
    for crate in crates:
        lines = lines_of(tree, f'crates/{crate}/src/')
        may_be_small = f'crates/{crate}/src/main.rt' in tree.files or lines_of(tree, f'crates/{crate}/specs/') > lines
        if lines > MOST or lines < FEWEST and not may_be_small:
            number = tree.text('crates.txt')[:re.search(rf'^{crate}\b', tree.text('crates.txt'), re.M).start()].count('\n') + 1
            faults.append(('crates.txt', number, f'{crate} has {lines:,} lines of src, and not {FEWEST} to {MOST:,}'))
    return faults, f'{len(crates)} crates'
