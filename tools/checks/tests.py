"""The tests of each crate of tests: a transcript runs them, and counts as many as the crate has."""
import re

SOURCE = re.compile(r'crates/(brk_tests\w*)/src/.*\.rt')
TRANSCRIPT = re.compile(r'crates/brk_tests_cases/data/.*\.txt')
TEST = re.compile(r'^ *run_test!\(', re.M)
RUN = re.compile(r'^tests (\w+)\n> (\d+) passed, 0 failed$', re.M)


def check(tree):
    listed = {}
    for path in tree.files:
        if (found := SOURCE.fullmatch(path)) and (number := len(TEST.findall(tree.text(path)))):
            listed[found[1]] = listed.get(found[1], 0) + number
    faults, run = [], set()
    for path in filter(TRANSCRIPT.fullmatch, tree.files):
        for found in RUN.finditer(tree.text(path)):
            run.add(found[1])
            if (number := listed.get(found[1], 0)) != int(found[2]):
                faults.append((path, tree.text(path)[:found.end()].count('\n') + 1, f'{found[1]} has {number} tests, and not {found[2]}'))
    faults += [(f'crates/{crate}/src/lib.rt', 1, f'no transcript runs {crate}') for crate in listed if crate not in run]
    return faults, f'{sum(listed.values())} tests'
