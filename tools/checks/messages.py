"""The messages of the program, with their exit statuses: those of crates/brk_cli_exit/specs are in the table of docs/OPERATING.md, "Messages", and
in docs/brk.1, and no others."""
import re

PAGE, MAN = 'docs/OPERATING.md', 'docs/brk.1'
SPECS = ('crates/brk_cli_exit/specs/Ending.antt', 'crates/brk_cli_exit/specs/Lines.antt')
# an equation: its innermost ending, and its status or its text
STATUS = re.compile(r'^exit_status[^=\n]* \(?(\w+\.[A-Z]\w*)[^=\n]*= (\d+)$', re.M)
LINE = re.compile(r'^error_line[^=\n]* \(?(\w+\.[A-Z]\w*)[^=\n]*= codes "(brk: [^"\\]*)', re.M)
ROW = re.compile(r'\| ([\d, ]+) \| `(brk: [^`]*)`')
# a status in the man page, or a message below it
TOLD = re.compile(r'^\\fB(?:(\d+)|(brk: [^\\]*))\\fR', re.M)


def check(tree):
    texts = [tree.text(name) for name in SPECS]
    statuses = {ending: status for text in texts for ending, status in STATUS.findall(text)}
    # a text ends before its first variable; the endings of a stream have the status of `Serve`
    known = {(line, statuses.get(ending, statuses['ending.Serve'])) for text in texts for ending, line in LINE.findall(text)}
    table = [(number, *found.groups()) for number, line in enumerate(tree.text(PAGE).split('\n'), 1) if (found := ROW.match(line))]
    told, status = [], None
    for found in TOLD.finditer(tree.text(MAN).partition('.SH EXIT STATUS')[2]):
        status = found[1] or status
        told += [(1, status, found[2])] if found[2] else []
    faults = [fault for page, rows in ((PAGE, table), (MAN, told)) for fault in compared(page, rows, known)]
    return faults, f'{len(known)} messages'


def compared(page, rows, known):
    """Yields each row that no ending has, and each message that no row has."""
    met = set()
    for number, status, message in rows:
        fits = {(text, at) for text, at in known if at == status and (message == text or text.endswith(' ') and message.startswith(text))}
        met |= fits
        if not fits:
            yield page, number, f'no ending has the status {status} and the line {message}'
    yield from ((page, 1, f'no line {message} with the status {status}') for message, status in sorted(known - met))
