#!/usr/bin/env python3
"""edits.py [--all] [CRATE | EDIT]..   Tries must-fail edits, many of them with one check.

An edit, crates/X/must-fail/Y.edit.md, is a wrong program that the prover has to refuse; `rt ci` tries those that end in
.edit. Without arguments, all are tried except those of a crate whose sum is in tests/data/edits-refused.tsv: the sum of
its files without comments, of its line in crates.txt, of the crates that it uses, and of the kit. A crate enters that
list when all its edits are refused. Twins, right programs of the same shape, have to be proved. They are tried with
--all, or if their edit or crate is named.

If an edit's old text isn't in its file exactly once, the run fails at once. Then the crates are proved; nothing else
may run over the tree meanwhile. Edits of different functions are put into one copy of their crate, which is checked
once. An edit is refused if the check refuses a changed function for a duty of its contract. Edits without a verdict are
tried again together. If none of them gets one, each is tried alone, and any function may then be refused. The last line
is 'N passed, M failed, K skipped'; skipped are the edits of the crates in the list.
"""
import argparse
import collections
import concurrent.futures
import functools
import hashlib
import pathlib
import re
import subprocess
import sys
import tempfile

sys.dont_write_bytecode = True
from building import CRATES, TOP
from prove import LANES, PARTS, Wrong, copy_of, crates, end, prove_all, rt, with_those_below

REFUSED = TOP / 'tests/data/edits-refused.tsv'
# The lines that the sum of a crate leaves out, by the suffix of the file: comments, empty lines, and twins.
LEFT_OUT = {'.rt': rb'\s*(?://.*)?', '.antt': rb'\s*(?:--.*)?', '.md': rb'(?:twin:|#) .*'}
# The most edits that share a check.
TOGETHER = 32
HEAD = '# Written by tools/edits.py alone: the crates whose edits were all refused, each with its sum.\n'

FUNCTION = re.compile(r'^( *)(?:pub(?:\(\w+\))? )?(?:unsafe )?(?:extern "C" )?fn (\w+)', re.MULTILINE)
# The head of an `impl` block: its parameters, its trait, if it has one, and its type.
IMPL = re.compile(r'^impl(<[^{]*?>)? (?:([^{]*?) for )?([^{]*?)(?:\s+where\s[^{]*)?\s\{$', re.MULTILINE)
# A refused function and its goal, if its proof is searched.
SEARCHED = re.compile(r'^fn (\S+): no proof: .*`search` did not prove `([^`]+)`', re.MULTILINE)
WRITTEN = re.compile(r'^((?:note: .*\n)*)fn (\S+): not proved', re.MULTILINE)
# A goal that search didn't prove, in the notes before the line of its function.
NOTED = re.compile(r'^note: src/\S+: it is not proved [^`]*\(`([^`]+)`\)', re.MULTILINE)
# A goal that a written proof doesn't prove, and the folder of the function.
ERROR = re.compile(r'^(?:\./)?proofs/(\S+)/\w+\.antt:\d+:\d+: error: `([^`]+)`: (.*)', re.MULTILINE)
# The last line of a check that failed.
ENDED = re.compile('^(?:logic=not-proved|only=)', re.MULTILINE)
# An open goal of any function.
TOLD = re.compile(r'^(?:note: src/\S+: it is not proved .*|(?:\./)?proofs/\S+: error: .*)', re.MULTILINE)
# A proof that fails for a name that the edit removed: it says little about a contract.
ONLY_NAMES = re.compile('has no field|is not in scope|has no `|was not admitted')
# The duties of a function: its result and its effects, its loop invariants, those of a value that it makes, and the
# requirements of its calls. Other goals are about overflow and indices.
OWED = re.compile('returns|loop|clause|invariant|requires')


class Edit:
    """An edit, from the lines `new`, or its twin, from the lines `twin`, with the functions that it changes."""

    def __init__(self, path, word='new'):
        self.path, self.crate, self.is_twin = path, path.parent.parent.name, word == 'twin'
        # Edits of one kind may share a check.
        self.kind = self.crate, self.is_twin
        self.name = f'{self.crate}/{path.name}{", twin" * self.is_twin}'
        self.pairs, file, old = [], None, None
        for head, text in re.findall('^(file|old|new|twin): ?(.*)$', path.read_text(encoding='utf-8'), re.MULTILINE):
            if head == 'file':
                file = text
            elif head == 'old':
                old = text
            elif head == word:
                self.pairs.append((file, old, text))
        self.functions = {name for file, old, _ in self.pairs for name in self.functions_at(file, old)}

    def functions_at(self, file, old):
        """Returns the name of the function around a text of a file, or the end of that name, or nothing."""
        path = self.path.parent.parent / file
        text = path.read_text(encoding='utf-8') if path.is_file() else ''
        at = text.find(old)
        function = block_around(FUNCTION, text, at, len(old))
        if function is None:
            return []
        block = block_around(IMPL, text, function.start(), 0)
        modules = [it for it in pathlib.PurePath(file).with_suffix('').parts[1:] if it not in ('lib', 'main', 'mod')]
        # A method without a trait is named after the module of its type, which may be another one.
        modules = modules if block is None or block[2] else []
        return ['::'.join([*modules, *([] if block is None else [name_of(block)]), function[2]])]


def changed_by(edits):
    """Returns the files that edits of one crate change, with their new texts."""
    texts = {}
    for edit in edits:
        for file, old, new in edit.pairs:
            path = CRATES / edit.crate / file
            text = texts.get(file) or (path.read_text(encoding='utf-8') if path.is_file() else '')
            if text.count(old) != 1:
                raise Wrong(f'{edit.name}: {file} has this text {text.count(old)} times, not once: {old}')
            texts[file] = text.replace(old, new)
    return texts


def are_current(edits):
    """Fails unless each edit applies."""
    stale = []
    for edit in edits:
        try:
            changed_by([edit])
        except Wrong as wrong:
            stale.append(str(wrong))
    if stale:
        raise Wrong('\n'.join(stale))


def block_around(head, text, at, length):
    """Returns the last block with such a head around a position; it ends in a brace alone, indented as the head."""
    for found in reversed(list(head.finditer(text, 0, max(at + length, 0)))):
        indent = re.match(' *', found[0])[0]
        if at < text.find(f'\n{indent}}}\n', found.end()):
            return found
    return None


def name_of(block):
    """Returns the part of a function's name that its `impl` block adds: the type, the trait and their arguments."""
    parameters = re.findall(r'[<,]\s*([A-Z]\w*)', block[1] or '')
    # An argument follows its module.
    given = (re.sub(r'(?<=[<, ])(?:\w+::)*(\w+)::(\w+)', r'\1\2', of) for of in (block[3], block[2] or ''))
    words = [word for of in given for word in re.findall(r"&|(?<!['\w])(?:\w+::)*(\w+)", of)]
    return ''.join(word[0].upper() + word[1:] if word else 'Ref' for word in words if word not in parameters)


# Checks of edits


def check(edits, is_alone, uses):
    """Checks a crate with these edits. Returns the output, and whether it is proved. Only the changed functions are
    checked, unless `rt` has one under another name; for a twin or an edit that is tried alone, all are."""
    names = [] if is_alone or edits[0].is_twin else sorted({name for edit in edits for name in edit.functions})
    with tempfile.TemporaryDirectory() as folder:
        crate = copy_of(edits[0].crate, pathlib.Path(folder), uses)
        for file, text in changed_by(edits).items():
            (crate / file).write_text(text, encoding='utf-8')
        ran = rt(crate, 'check', *(f'--only={name}' for name in names))
        if names and ran.returncode == 2:
            ran = rt(crate, 'check')
    return ran.stdout, ran.returncode == 0


def goals_of(said):
    """Returns the functions that a check refuses, each with an open goal of its duties."""
    goals = dict(SEARCHED.findall(said))
    shown = {folder.replace('/', '::'): goal for folder, goal, why in ERROR.findall(said) if not ONLY_NAMES.search(why)}
    for notes, function in WRITTEN.findall(said):
        found = [*NOTED.findall(notes), shown.get(function.partition('::')[2], '')]
        goals.setdefault(function, next(filter(OWED.search, found), ''))
    return {function: goal for function, goal in goals.items() if OWED.search(goal)}


def verdicts(edits, is_alone, uses):
    """Returns a verdict for each edit of a check: whether it is right, and why; None if there is none yet."""
    said, is_proved = check(edits, is_alone, uses)
    if is_alone:
        return [verdict_alone(edits[0], said, is_proved)]
    if edits[0].is_twin:
        return [(True, 'proved') if is_proved else None for _ in edits]
    goals = goals_of(said) if ENDED.search(said) else {}
    own = [[f'{function}: {goal}' for function, goal in goals.items()
            if any(f'::{function}'.endswith(f'::{name}') for name in edit.functions)] for edit in edits]
    return [(True, f'refused: {it[0]}') if it else None for it in own]


def verdict_alone(edit, said, is_proved):
    if edit.is_twin:
        return is_proved, 'proved' if is_proved else f'NOT PROVED:\n{said[-3000:]}'
    if is_proved or not ENDED.search(said):
        return False, 'PROVED' if is_proved else f'NO VERDICT:\n{said[-3000:]}'
    # Functions that call one another share their goals.
    told = [f'{function}: {goal}' for function, goal in goals_of(said).items()]
    told += [line[:160] for line in TOLD.findall(said) if not ONLY_NAMES.search(line)]
    return (True, f'refused: {told[0]}') if told else (False, f'REFUSED, but not for what it does:\n{said[-3000:]}')


def go_together(edits):
    """Returns whether edits change functions of different names, and apply one after the other."""
    names = [name for edit in edits for name in edit.functions]
    try:
        return len(set(names)) == len(names) and all(it.functions for it in edits) and changed_by(edits) is not None
    except Wrong:
        return False


def batches(edits, size):
    """Groups edits of one crate, at most this many in each."""
    made = []
    for edit in edits:
        group = next((it for it in made if len(it) < size and go_together([*it, edit])), None)
        if group is None:
            made.append(group := [])
        group.append(edit)
    return made


def try_all(edits, uses):
    """Tries edits until each has a verdict. Returns the verdicts by their edits."""
    found, left, alone = {}, edits, set()
    with concurrent.futures.ThreadPoolExecutor(LANES) as lanes:
        while left:
            kinds = collections.defaultdict(list)
            for edit in left:
                kinds[edit.kind].append(edit)
            groups = [it for kind in kinds for it in batches(kinds[kind], 1 if kind in alone else TOGETHER)]
            groups.sort(key=len, reverse=True)
            are_alone = [edit.kind in alone or not rest and (edit.is_twin or not edit.functions)
                         for edit, *rest in groups]
            tried = lanes.map(functools.partial(verdicts, uses=uses), groups, are_alone)
            for edit, it in (pair for group, verdict in zip(groups, tried) for pair in zip(group, verdict)):
                if it is not None:
                    found[edit] = it
                    print(f'{edit.name}: {it[1]}', flush=True)
            alone |= {kind for kind, of_kind in kinds.items() if found.keys().isdisjoint(of_kind)}
            left = [edit for edit in left if edit not in found]
    return found


# Which edits


def sum_of(name, uses, kit):
    """Returns the sum of all that the edits of a crate depend on, without their twins."""
    lines, made = (TOP / 'crates.txt').read_text(encoding='utf-8'), hashlib.sha256(kit)
    for crate in with_those_below([name], uses):
        made.update(re.search(rf'^{crate}\b[^#\n]*', lines, re.MULTILINE)[0].encode())
        folders = [CRATES / crate / part for part in (*PARTS, *['must-fail'] * (crate == name))]
        for file in (it for folder in folders for it in sorted(folder.rglob('*')) if it.is_file()):
            made.update(f'\n{file.relative_to(TOP)}\n'.encode() + b''.join(lines_of(file)))
    return made.hexdigest()


def lines_of(file):
    """Returns the lines of a file that are part of the sum of its crate."""
    left_out = re.compile(LEFT_OUT.get(file.suffix, b'(?!)'))
    return (line for line in file.read_bytes().splitlines(keepends=True) if not left_out.fullmatch(line.rstrip(b'\n')))


def read_list():
    """Returns the crates all of whose edits were refused, each with its sum."""
    lines = REFUSED.read_text(encoding='ascii').splitlines() if REFUSED.is_file() else []
    return dict(line.split('\t') for line in lines if not line.startswith('#'))


def write_list(sums):
    REFUSED.write_text(HEAD + ''.join(f'{name}\t{it}\n' for name, it in sorted(sums.items())), encoding='ascii')


def file_of(word):
    """Returns the path of a named edit."""
    path = pathlib.Path(word).resolve()
    if path.parent.name != 'must-fail' or not path.is_file():
        raise Wrong(f'{word} is neither a crate nor a must-fail edit')
    return path


def run(options):
    """Tries the chosen edits, and updates the list. Returns 'passed', 'failed' or 'skipped' for each."""
    uses, before = crates(), read_list()
    kit = subprocess.run(['rt', 'version'], check=True, stdout=subprocess.PIPE).stdout
    every = {name: sorted((CRATES / name / 'must-fail').glob('*.edit*')) for name in uses}
    files = {name: [it for it in paths if it.suffix == '.md'] for name, paths in every.items()}
    sums = {name: sum_of(name, uses, kit) for name in uses if files[name]}
    named = [file_of(word) for word in options.words if word not in uses]
    asked = [name for name in sums if name in options.words or not options.words]
    whole = [name for name in asked if options.all or options.words or before.get(name) != sums[name]]
    edits = [Edit(path) for path in dict.fromkeys([*named, *(it for name in whole for it in files[name])])]
    with_twins = [*named, *(it for name in whole for it in every[name] if options.all or options.words)]
    twins = [it for path in dict.fromkeys(with_twins) if (it := Edit(path, 'twin')).pairs]
    paths = dict.fromkeys([*named, *(it for name in asked for it in every[name])])
    are_current(Edit(path, word) for path in paths for word in ('new', 'twin'))
    prove_all(dict.fromkeys(edit.crate for edit in [*edits, *twins]), uses)
    found = try_all([*edits, *twins], uses)
    failed = {edit.crate for edit, (is_right, _) in found.items() if not is_right}
    after = {**before, **{name: sums[name] for name in whole}}
    after = {name: it for name, it in after.items() if name in sums and name not in failed}
    if after != before:
        write_list(after)
    skipped = sum(len(files[name]) for name in asked if name not in whole)
    return ['passed' if is_right else 'failed' for is_right, _ in found.values()] + ['skipped'] * skipped


def main():
    parser = argparse.ArgumentParser(description=__doc__.partition('   ')[2].partition('\n')[0])
    parser.add_argument('--all', action='store_true')
    parser.add_argument('words', nargs='*')
    try:
        end(run(parser.parse_args()))
    except Wrong as wrong:
        print(wrong)
        end(['failed'])


if __name__ == '__main__':
    main()
