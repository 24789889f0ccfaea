"""Paths of the repository, and the proofs and builds of its programs."""
import functools
import pathlib
import re
import shutil
import subprocess
import sys

TOP = pathlib.Path(__file__).resolve().parent.parent
CRATES = TOP / 'crates'
# The crates of the programs, by their installed names.
PROGRAMS = {'subst': 'subst_cli', 'subst_filter': 'subst_filter'}
# The arguments of a program's run, if it needs any.
ARGUMENTS = {'subst_filter': ['bytes'], 'subst_vectors': ['data/variables.tsv']}


@functools.lru_cache(None)
def version():
    """Returns the version of this project."""
    return subprocess.run([TOP / 'tools/version'], check=True, stdout=subprocess.PIPE, text=True).stdout.rstrip('\n')


def path_of(crate):
    """Returns the path of the program of a crate."""
    return CRATES / crate / 'out' / crate


def newest_source():
    """Returns the time of the newest change to the sources of the programs."""
    files = [TOP / 'crates.txt']
    for part in ('src', 'specs', 'proofs'):
        files += CRATES.glob(f'*/{part}/**/*')
    return max(file.stat().st_mtime for file in files)


def builds_of(crate):
    """Returns the paths of a program as the two compilers of `rt ci` build it, or only the first's, unless the second's
    is newer than the sources."""
    other = path_of(crate).with_suffix('.by-rattle')
    has_other = other.exists() and other.stat().st_mtime >= newest_source()
    return [path_of(crate), other] if has_other else [path_of(crate)]


def build(crate):
    """Proves and builds the program of a crate, unless it is newer than the sources. Returns whether it exists."""
    path = path_of(crate)
    if path.exists() and path.stat().st_mtime >= newest_source():
        return True
    print(f'{crate}: proving and building the program', flush=True)
    ran = subprocess.run(['rt', 'run', '--', *ARGUMENTS.get(crate, [])], cwd=CRATES / crate, stdin=subprocess.DEVNULL,
                         stdout=subprocess.PIPE, stderr=subprocess.STDOUT)
    if ran.returncode != 0:
        sys.stdout.write(ran.stdout.decode(errors='replace'))
    return ran.returncode == 0


def copy_library(folder):
    """Copies the library's crates into a repository, without the output of `rt`. Returns their lines of crates.txt."""
    lines = re.search(r'^subst_error:.*^subst:.*?\n', (TOP / 'crates.txt').read_text(encoding='utf-8'), re.M | re.S)[0]
    for crate in re.findall(r'^\w+', lines, re.MULTILINE):
        shutil.copytree(CRATES / crate, folder / 'crates' / crate, ignore=shutil.ignore_patterns('out'))
    return lines
