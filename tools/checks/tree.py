"""The files of the tree as the checks read them: those that git lists, new ones too, with the headings of its pages."""
import functools
import os
import re
import subprocess
import sys

MARK = re.compile(r'\s*(```|~~~)')
ITEM = re.compile(r'\s*(?:- |\* |\d+\. )')


def is_code(lines):
    """Whether each line is in a block of code: between fences, or indented by four or more after a blank line."""
    found, fence, content, before_is_blank, inside = [], None, 0, True, False
    for line in lines:
        mark, indent = MARK.match(line), len(line) - len(line.lstrip())
        if fence or mark:
            found.append(True)
            fence = None if fence and mark and mark[1] == fence else fence or mark[1]
            continue
        inside = inside if not line.strip() else indent >= content + 4 and (inside or before_is_blank)
        found.append(inside)
        if line.strip() and not inside:
            item = ITEM.match(line)
            content = len(item[0]) if item else 0 if before_is_blank and indent < content else content
        before_is_blank = not line.strip()
    return found


def plain(heading):
    return heading.replace('`', '').strip()


def headings(text):
    """Each heading of a page with the fragment by which a link names it; one that is taken has a number behind it."""
    taken, lines = {}, text.split('\n')
    for line, code in zip(lines, is_code(lines)):
        if not code and re.match(r'#+ ', line):
            heading = plain(line.lstrip('#'))
            name = re.sub(r'[^\w\- ]', '', heading.lower()).replace(' ', '-')
            number = taken[name] = taken.get(name, -1) + 1
            yield heading, f'{name}-{number}' if number else name


def listed():
    """The files that git lists, also those that are not added yet."""
    try:
        done = subprocess.run(['git', 'ls-files', '-z', '--cached', '--others', '--exclude-standard'], capture_output=True, text=True, check=True)
    except (OSError, subprocess.CalledProcessError) as error:
        sys.exit(f'tools/check: git cannot list the files: {getattr(error, "stderr", "") or error}'.strip())
    return [name for name in done.stdout.split('\0') if name and os.path.isfile(name)]


class Tree:
    def __init__(self):
        self.files = listed()
        self.pages = [name for name in self.files if name.endswith('.md')]
        # files and folders
        self.paths = {name[:end] for name in self.files for end in [*(at.start() for at in re.finditer('/', name)), len(name)]}

    @functools.cache
    def text(self, name):
        """The text of a file; none of one that has no text."""
        try:
            with open(name, encoding='utf-8') as file:
                return file.read()
        except UnicodeDecodeError:
            return ''

    @functools.cache
    def headings(self, page):
        return list(headings(self.text(page)))

    def whole(self, path):
        """The path from the top of a path from the top or from crates/; None if there is none."""
        path = path.rstrip('/')
        return next((at for at in (path, f'crates/{path}') if at in self.paths), None)
