"""Tries edits of a crate several at a time, for tools/trials/mutants: each check has at most one edit of each function.

A function is proved by its own body and the contracts of what it calls, so an edit of another function changes nothing in its proof. So a
check reads the crate with up to MOST edits, and proves the functions that they change and those that these call (`rattle check --only`). A
mutant is rejected if the prover reports an error in its function or in the answers of that function. One for which it reports none, or
only that a name is missing, which says nothing of a contract, is tried alone, by the kit's `must_fail`, which proves the whole crate. So is
one that changes anything else, such as a constant, on which other functions may rest.

It calls functions of the kit's rt (tried on kit 13f) over the libraries in the folders out/ of the tree, which `rt check` built."""
import os
import re
import tempfile

import edits

MOST = 12
FUNCTION = re.compile(r'^( *)(?:pub(?:\(\w+\))? )?(?:const )?fn (\w+)')
IMPL = re.compile(r'^impl(?:<(.*?)>)? (?:(?:\w+::)*(\w+)(?:<(.*)>)? for )?(?:\w+::)*(\w+)')
ERROR = re.compile(r'^(note: )?(?:\./)?((?:src|proofs|specs)/\S+?):(\d+):\d+: (.*)')
# an error that says that a name is missing, and nothing of a contract
NAME = re.compile(r'is not in scope|has no field|has no `|was not admitted|error\[')
FLAGS = ['--jobs', '1']


def of_impl(impl):
    """The name that the prover has for an impl: that of its type, of its trait, and of the types that it gives the trait."""
    params, trait, given, kind = impl.groups()
    own = {it.split(':')[0].strip() for it in (params or '').split(',')}
    return ''.join([kind, trait or '', *(it.strip() for it in (given or '').split(',') if it.strip() not in own)])


def function_at(file, text, place):
    """The function in which a place of a file of src/ is, by the name by which the prover finds it: a method with its impl, which the prover has below
    the module of its type, which need not be that of the file; any other with its module."""
    lines = text[:place + 1].split('\n')
    for at in range(len(lines) - 1, -1, -1):
        found = FUNCTION.match(lines[at])
        if found:
            impl = next((it for line in reversed(lines[:at]) for it in [IMPL.match(line)] if it), None) if found[1] else None
            module = file[len('src/'):-len('.rt')].replace('/', '::').removesuffix('::mod')
            return '::'.join([*([of_impl(impl)] if impl else [module] * (module != 'lib')), found[2]])
    return ''


def place_of_answers(file):
    """The name of the function whose answers are in a file of proofs/: they are in a folder with its name."""
    return '::'.join(file.split('/')[1:-1])


class Change:
    """An edit of a crate, with the functions and the other files that it changes."""

    def __init__(self, folder, edit):
        self.folder, self.edit, self.functions, self.others = folder, edit, set(), set()
        for file, old, _ in edit.pairs:
            text = edits.read(f'{folder}/{file}')
            if file.startswith('src/'):
                self.functions.add(function_at(file, text, max(text.find(old), 0)))
            else:
                self.others.add(file)

    def applied(self, texts):
        """The changed texts with this edit, or nothing if it cannot be applied to them."""
        texts = dict(texts)
        for file, old, new in self.edit.pairs:
            text = texts.get(file) or edits.read(f'{self.folder}/{file}')
            if text.count(old) != 1:
                return None
            texts[file] = text.replace(old, new)
        return texts

    def changes(self, place):
        """Whether it changes the function with this name. The answers of a method are in a folder below that of its module."""
        return any(place == it or it[:1].isupper() and place.endswith(f'::{it}') for it in self.functions)

    def is_of_functions(self):
        """Whether it changes functions and, beside them, their answers alone."""
        return '' not in self.functions and all(map(self.changes, map(place_of_answers, self.others)))

    def error_in(self, errors):
        """The first error in a function of this edit that says more than that a name is missing, or else the first."""
        own = [error for place, error in errors if self.changes(place)]
        return next((it for it in own if not NAME.search(it)), own[0] if own else None)


def errors_of(said, texts, folder):
    """The errors of a check, each with its function, in their order."""
    found, lines = [], said.split('\n')
    for line, after in zip(lines, [*lines[1:], '']):
        it = ERROR.match(line)
        if it and (it[1] or 'error' in it[4]):
            if it[2].startswith('src/'):
                text = texts.get(it[2]) or edits.read(f'{folder}/{it[2]}')
                own = text.split('\n')
                at = int(it[3])
                while own[at - 1].lstrip().startswith('#['):
                    # the prover has a function with an attribute begin there
                    at += 1
                function = function_at(it[2], text, len('\n'.join(own[:at])))
            else:
                function = place_of_answers(it[2])
            # the prover breaks a long line before "has no field"
            found.append((function, f'{line} {after.strip()}' if after.startswith('  has no ') else line))
    return found


def called_in(folder):
    """The names of the functions of a crate, each with those of all that it leads to, by the names that its text calls."""
    calls = {}
    for at, _, names in os.walk(f'{folder}/src'):
        for name in filter(lambda it: it.endswith('.rt'), names):
            parts = re.split(r'\bfn (\w+)', edits.blank(edits.read(f'{at}/{name}')))
            for function, text in zip(parts[1::2], parts[2::2]):
                calls.setdefault(function, set()).update(re.findall(r'\b(\w+)\(', text))
    for function in calls:
        found, left = set(), [function]
        while left:
            new = {it for it in calls.get(left.pop(), ()) if it in calls} - found
            found |= new
            left += new
        calls[function] = found
    return calls


def changed_by(edit):
    return edit.functions | edit.others


def are_different(edit, other):
    """Whether two edits change different functions and files of proofs."""
    return not changed_by(edit) & changed_by(other)


def are_apart(calls):
    """Whether two edits are different, and no function with one leads to one with the other."""

    def names(edit):
        return {it.split('::')[-1] for it in edit.functions}

    return lambda edit, other: are_different(edit, other) and not any(
        a in calls.get(b, ()) or b in calls.get(a, ()) for a in names(edit) for b in names(other))


def group_of(waiting, may_join):
    """Takes edits that may be tried together off the list. Returns them with the texts that they make."""
    group, texts, rest = [], {}, []
    for edit in waiting:
        is_one = len(group) < MOST and all(may_join(edit, other) for other in group)
        changed = edit.applied(texts) if is_one else None
        if changed is None:
            rest.append(edit)
        else:
            group.append(edit)
            texts = changed
    waiting[:] = rest
    return group, texts


def check_functions(rt, crate, group, texts, kept):
    """Checks the functions of a group of edits, and those that they call, in a copy of the crate with these texts, over what the folder `kept` has."""
    asked = sorted({it for edit in group for it in edit.functions if it})
    return rt.checked(crate, texts, [*FLAGS, *(word for it in asked for word in ('--only', it))], kept)


def error_of_edit(rt, change, errors, texts):
    error = change.error_in(errors)
    return None if error is None or NAME.search(error) or getattr(rt, 'unread', lambda *_: False)(error, texts) else error


def errors_of_edits(rt, crate, changes):
    """Yields each change with the error for which the prover rejects its function, or with nothing. The prover may report no error in a function that calls
    one with an edit: such changes are tried once more apart from each other, and at last each by itself."""
    waiting = [it for it in changes if it.is_of_functions()]
    yield from ((it, None) for it in changes if not it.is_of_functions())
    with tempfile.TemporaryDirectory(prefix='together-') as kept:
        for may_join in (are_different, are_apart(called_in(crate.folder)), lambda edit, other: False):
            again = []
            while waiting:
                group, texts = group_of(waiting, may_join)
                if not group:
                    # none of these can be applied
                    break
                ran = check_functions(rt, crate, group, texts, kept)
                is_answer = ran.returncode == 1 and re.search(r'^only=\d+ proved=\d+$', ran.stdout, re.MULTILINE)
                errors = errors_of(ran.stdout, texts, crate.folder) if is_answer else []
                for change in group:
                    error = error_of_edit(rt, change, errors, texts)
                    if error or len(group) == 1:
                        yield change, error
                    else:
                        again.append(change)
            yield from ((it, None) for it in waiting)
            waiting = again


class Trial:
    """The tries of the edits of a crate of a tree."""

    def __init__(self, rt, top, name):
        self.rt = rt
        rt.rtlib.Crate = rt.Crate
        self.crate = next(it for it in rt.rtlib.crates_below(top) if it.name == name)

    def changes(self, found):
        return [Change(self.crate.folder, it) for it in found]

    def accepts(self, controls):
        """Whether the functions of these controls, of which each changes another function, are proved."""
        waiting = self.changes(controls)
        with tempfile.TemporaryDirectory(prefix='together-') as kept:
            while waiting:
                group, texts = group_of(waiting, are_different)
                if not group or check_functions(self.rt, self.crate, group, texts, kept).returncode:
                    return False
        return True

    def results(self, mutants):
        """Tries mutants several at a time. Yields each with whether it was rejected, and the error in its function or what the kit says of it."""
        for change, error in errors_of_edits(self.rt, self.crate, self.changes(mutants)):
            yield change.edit, *((True, error) if error else self.alone(change.edit))

    def alone(self, mutant):
        """What the kit says of a mutant that it tries alone: whether it was rejected, and for what."""
        with tempfile.TemporaryDirectory(prefix='together-') as folder:
            path = f'{folder}/{mutant.name}.edit'
            with open(path, 'w', encoding='utf-8') as file:
                file.write(mutant.text())
            kind, text = self.rt.must_fail(self.crate, path, FLAGS)
        return kind in (self.rt.REFUSED, self.rt.AT_LIMIT), text.partition('.edit: ')[2]
