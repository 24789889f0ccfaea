"""The completions, the man pages, and the examples of the documents, which are run as they are written.

An example is a block of commands, in lines that begin with `$ `, and of their output, also on standard error: a
`console` block of a document, or lines between .EX and .EE of a man page. All examples of a document run in one shell,
in a folder with the files that the document shows, as docs/C.md does, and with the files of tools/install below PREFIX.
"""
import functools
import os
import pathlib
import re
import subprocess

import completions
from building import PROGRAMS, TOP, path_of
from filled import ROFF, filled
from tests.installed import prefix
from tests.support import SECONDS, Built, Case, needs, ran

# A separator after the output of each command.
MARK = '\x01'
# A file of a document, named at the beginning of the paragraph before it.
FILE = re.compile(r'^`(\w+\.\w+)`(?:[^\n]+\n)+\n```(?:c|python)\n(.*?)^```$', re.MULTILINE | re.DOTALL)
# The recipes that have to run in each shell.
RECIPES = 'docs/ENVSUBST.md'


def options():
    """Returns the options of subst in their source: the letter, if there is one, the long name, and the help."""
    return {(it.letter, it.name, it.text) for it in completions.options()}


def names():
    return set(completions.words(completions.options()))


def written(shell, path):
    """Writes a shell's completion to a file. Returns its path."""
    pathlib.Path(path).write_text(completions.SHELLS[shell](), encoding='utf-8')
    return os.path.abspath(path)


def offered_by_bash(words):
    """Returns the offers of bash for the last of these arguments. If there is none, bash offers files, if allowed."""
    script = '. "$0"; compopt() { printf "%s " "$@"; }; COMP_WORDS=("$@"); COMP_CWORD=$(($# - 1)); _subst; ' \
        'printf "%s " "${COMPREPLY[@]}"'
    return ran(['bash', '-c', script, written('bash', 'subst.bash'), 'subst', *words.split()]).split()


def offered_by_fish(words):
    """Returns the offers of fish for the last argument of a command line, without their help."""
    script = f"source {written('fish', 'subst.fish')}; complete -C 'subst {words}'"
    printed = ran(['fish', '-c', script], env={**os.environ, 'HOME': os.getcwd()})
    return [line.split('\t')[0] for line in printed.splitlines()]


class Completions(Case):
    """Completions of the arguments of subst."""

    def assert_offers(self, offered, *pairs):
        """Fails the test unless these are the offers after these arguments."""
        for words, wanted in pairs:
            self.assertEqual(offered(words), wanted, words)

    def test_completions_have_all_options(self):
        """Options are in quoted texts, in which quotes are escaped."""
        for shell, line in (('zsh', r"(?:\{-(\w)\+?,)?--([\w-]+)=?(?:\}')?\[(.*)\]"),
                            ('fish', r"complete -c subst(?: -s (\w))? -l ([\w-]+).* -d '(.*)'")):
            text = completions.SHELLS[shell]().replace(r"'\''", "'").replace(r"\'", "'")
            self.assertEqual(set(re.findall(line, text)), options(), shell)

    def test_bash_offers_options_files_or_nothing(self):
        self.assertEqual(set(offered_by_bash('-')), names())
        files, nothing = [], ['+o', 'bashdefault', '+o', 'default']
        folders = [*nothing, '-o', 'dirnames']
        self.assert_offers(
            offered_by_bash, ('--in', ['--in-place']), ('file', files), ('a --in', ['--in-place']), ('-- --in', files),
            ('-f f', files), ('-ef -', files), ('--values = f', files), ('-o f', files), ('--output = f', files),
            ('-s A', nothing), ('-es A = b', nothing), ('-sA = b : c', nothing), ('--set A', nothing),
            ('--set = A = b', nothing), ('--set =', nothing), ('--only A', nothing), ('--only = A', nothing),
            ('-O f', folders), ('-eO f', folders), ('--output-folder f', folders), ('--output-folder = f', folders),
            ('--escape j', [*nothing, 'json']), ('--escape = s', [*nothing, 'sh']),
            ('--escape =', [*nothing, 'json', 'sh']), ('--escape x', nothing), ('--nested =', [*nothing, 'json']),
            ('--rows f', files), ('--rows-format t', [*nothing, 'tsv']), ('--separator f', nothing))

    @needs('zsh')
    def test_zsh_loads_its_completion(self):
        ran(['zsh', '-f', '-n', written('zsh', '_subst')])
        script = 'fpath=($0 $fpath); autoload -Uz compinit; compinit -D -u; print $_comps[subst]'
        self.assertEqual(ran(['zsh', '-f', '-c', script, os.getcwd()]), '_subst\n')

    @needs('fish')
    def test_fish_offers_options_files_or_nothing(self):
        ran(['fish', '-n', written('fish', 'subst.fish')])
        self.assertEqual(set(offered_by_fish('-')), names())
        pathlib.Path('values.env').touch()
        pathlib.Path('folder').mkdir()
        self.assert_offers(
            offered_by_fish, ('va', ['values.env']), ('-f va', ['values.env']), ('-o va', ['values.env']), ('-s va', []),
            ('--only va', []), ('-O fo', ['folder/']), ('--escape j', ['json']))


class Pages(Case):
    """The man pages of the programs."""

    def assert_no_warnings(self, *command):
        """Fails the test if a program prints anything about a page."""
        for name in PROGRAMS:
            pathlib.Path(f'{name}.1').write_text(filled(TOP / f'docs/{name}.1.in'), encoding='utf-8')
            end = subprocess.run([*command, f'{name}.1'], timeout=SECONDS, stdout=subprocess.PIPE,
                                 stderr=subprocess.PIPE, text=True)
            said = end.stderr + (end.stdout if command[0] == 'mandoc' else '')
            self.assertEqual((end.returncode, said), (0, ''), name)

    @needs('man')
    def test_man_has_no_warnings_of_the_pages(self):
        self.assert_no_warnings('man', '--warnings', '-E', 'UTF-8', '-l', '-Tutf8', '-Z')

    @needs('mandoc')
    def test_mandoc_has_no_warnings_of_the_pages(self):
        self.assert_no_warnings('mandoc', '-Tlint', '-Wwarning')

    def test_page_of_subst_has_all_options(self):
        heads = re.findall(r'^\.TP\n(\..*)', (TOP / 'docs/subst.1.in').read_text(encoding='utf-8'), re.MULTILINE)
        found = re.findall(r'(?<![\w-])--?[a-zA-Z][\w-]*', '\n'.join(heads).replace(r'\-', '-'))
        self.assertEqual(set(found), names())


def examples(path):
    """Returns the commands of a document, each with its expected output."""
    text = (TOP / path).read_text(encoding='utf-8')
    if path.endswith('.in'):
        meant = {written: character for character, written in ROFF.items()}
        text = re.sub('|'.join(map(re.escape, meant)), lambda match: meant[match[0]], filled(TOP / path))
    blocks = re.findall(r'^(?:```console|\.EX)\n(.*?)^(?:```|\.EE)$', text, re.MULTILINE | re.DOTALL)
    return re.findall(r'^\$ (.*\n)((?:(?!\$ ).*\n)*)', ''.join(blocks), re.MULTILINE)


def documents():
    """Returns the documents that have examples."""
    paths = [str(path.relative_to(TOP)) for path in (TOP / 'README.md', *sorted((TOP / 'docs').rglob('*.*')))]
    return [path for path in paths if path.endswith(('.md', '.1.in')) and examples(path)]


class Examples(Built):
    """The help, and the examples of the documents."""
    programs = PROGRAMS.values()

    def test_help_has_all_options(self):
        printed = ran([path_of('subst_cli'), '--help'])
        line = r'^  (?:-(\w), |    )--([\w-]+)(?: <[^>]*>)?\s+(.*)$'
        self.assertEqual(set(re.findall(line, printed, re.MULTILINE)), options())

    def assert_prints(self, path, shell='bash'):
        """Fails the test unless the examples of a document print the expected output."""
        for name, text in FILE.findall((TOP / path).read_text(encoding='utf-8')):
            pathlib.Path(name).write_text(text, encoding='utf-8')
            self.need_to_run('cc', '--version')
        wanted, below = examples(path), prefix('', '--library', '--python')
        script = 'exec 2>&1\n' + ''.join(f'{command}printf "{MARK}"\n' for command, _ in wanted)
        env = {'PATH': f'{below}/bin:/usr/local/bin:/usr/bin:/bin', 'LC_ALL': 'C.UTF-8', 'PREFIX': str(below)}
        printed = ran([shell, '-c', script], env=env).split(MARK)
        for (command, output), found in zip(wanted, printed):
            self.assertEqual(found, output, command)
        self.assertEqual(len(printed), len(wanted) + 1)

    @needs('dash')
    def test_recipes_print_what_is_written_by_dash(self):
        self.assert_prints(RECIPES, 'dash')


for document in documents():
    setattr(Examples, f'test_examples_of_{re.sub("[^A-Za-z0-9]", "_", document)}_print_what_is_written',
            functools.partialmethod(Examples.assert_prints, document))
