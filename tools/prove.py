#!/usr/bin/env python3
"""prove.py [CRATE]..   Proves crates over kept work, each after those that it uses, and builds them.

`rt ci` keeps no proofs, so everything after it is built over this one. Without arguments, the crates are those that are
tested and installed: the library for C and the programs; programs that `rt ci` built stay as they are. Each crate is
proved by one process, several side by side; nothing else may run over the tree meanwhile. The last line is 'N passed, M
failed, K skipped'.
"""
import concurrent.futures
import os
import pathlib
import shutil
import subprocess
import sys
import tempfile

sys.dont_write_bytecode = True
from building import CRATES, TOP, build

PARTS = ('src', 'specs', 'proofs')
INSTALLED = ('subst_c', 'subst_filter', 'subst_cli')
LANES = int(os.environ.get('RT_JOBS') or len(os.sched_getaffinity(0)))


class Wrong(Exception):
    """An unproved crate, or an edit that can't be tried."""


def end(results):
    """Prints how often 'passed', 'failed' and 'skipped' occur, and exits: with status 1 if any failed."""
    print('{} passed, {} failed, {} skipped'.format(*map(results.count, ('passed', 'failed', 'skipped'))))
    sys.exit(1 if 'failed' in results else 0)


def crates():
    """Returns the crates of crates.txt, each with those of them that it uses."""
    lines = [line.partition('#')[0] for line in (TOP / 'crates.txt').read_text(encoding='utf-8').splitlines()]
    rows = [(words[0].split()[0], words[2].split()) for line in lines if (words := line.partition(':'))[1]]
    names = {name for name, _ in rows}
    return {name: [it for it in uses if it in names] for name, uses in rows}


def with_those_below(names, uses):
    """Returns these crates and all that they use, each after those that it uses."""
    found = []
    for name in names:
        found += [it for it in [*with_those_below(uses[name], uses), name] if it not in found]
    return found


def is_library(name):
    return (CRATES / name / 'src/lib.rt').is_file()


def rt(crate, *words):
    """Runs `rt` in the folder of a crate, with one process."""
    return subprocess.run(['rt', *words, '--jobs=1'], cwd=crate, stdin=subprocess.DEVNULL, stdout=subprocess.PIPE,
                          stderr=subprocess.STDOUT, encoding='utf-8', errors='replace')


def copy_of(name, folder, uses):
    """Copies a crate over its kept work, with links to files that a check doesn't change. Returns its path."""
    (folder / 'crates').mkdir()
    shutil.copy(TOP / 'crates.txt', folder)
    for other in uses:
        (folder / 'crates' / other / 'src').mkdir(parents=True)
    links = '-al' if folder.stat().st_dev == TOP.stat().st_dev else '-a'
    for below in with_those_below([name], uses):
        shutil.rmtree(folder / 'crates' / below)
        subprocess.run(['cp', links, CRATES / below, folder / 'crates' / below], check=True)
    crate = folder / 'crates' / name
    for part in PARTS:
        if (crate / part).is_dir():
            shutil.rmtree(crate / part)
            shutil.copytree(CRATES / name / part, crate / part)
    return crate


def prove(name, uses):
    """Proves a crate, and builds it if it is a library. Works in a copy, since no two runs of `rt` may work over one
    library at a time, and then replaces the kept work."""
    with tempfile.TemporaryDirectory() as folder:
        crate, kept = copy_of(name, pathlib.Path(folder), uses), CRATES / name / 'out'
        ran = rt(crate, 'lib' if is_library(name) else 'check')
        if ran.returncode != 0:
            raise Wrong(f'{name} is not proved:\n{ran.stdout[-3000:]}')
        if kept.is_dir():
            shutil.move(kept, pathlib.Path(folder) / 'before')
        shutil.move(crate / 'out', kept)


def prove_all(names, uses):
    """Proves crates, each after those that it uses."""
    wanted = with_those_below(names, uses)
    with concurrent.futures.ThreadPoolExecutor(LANES) as lanes:
        running, done = {}, set()
        while len(done) < len(wanted):
            for name in wanted:
                if name not in running and done.issuperset(uses[name]):
                    running[name] = lanes.submit(prove, name, uses)
            left = [it for name, it in running.items() if name not in done]
            concurrent.futures.wait(left, return_when=concurrent.futures.FIRST_COMPLETED)
            for name, it in running.items():
                if it.done() and name not in done:
                    it.result()
                    print(f'{name}: proved', flush=True)
                    done.add(name)


def main():
    uses, names = crates(), sys.argv[1:] or INSTALLED
    programs = [name for name in names if not is_library(name)]
    try:
        prove_all([name for name in with_those_below(names, uses) if is_library(name)], uses)
    except Wrong as wrong:
        print(wrong)
        end(['failed'])
    end(['passed' if build(name) else 'failed' for name in programs] + ['passed'] * (len(names) - len(programs)))


if __name__ == '__main__':
    main()
