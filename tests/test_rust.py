"""The crate of rust/ over the installed library, and the package of tools/crate.

Cargo takes other crates from the packages librust-.. of Debian if they are installed, and else from its own cache. It
never downloads any.
"""
import functools
import os
import pathlib
import re
import shutil
import subprocess
import tempfile

from building import TOP, version
from tests.installed import prefix
from tests.support import SCRATCH, Built, ended, needs, ran

# The directory of Debian's crates, and the configuration by which cargo finds them.
DEBIAN = pathlib.Path('/usr/share/cargo/registry')
CONFIGURATION = f'''[source.crates-io]
replace-with = "debian"
[source.debian]
directory = "{DEBIAN}"
'''
# The page with the line of Cargo.toml and the program that are tried here.
PAGE = TOP / 'docs/RUST.md'
BLOCK = re.compile(r'^```(?:toml|rust)\n(.*?)^```$', re.DOTALL | re.MULTILINE)
PACKAGE = '''[package]
name = "greeting"
version = "0.1.0"
edition = "2021"

'''
FEATURES = ([], ['--features', 'json,toml,yaml'], ['--all-features'])


@functools.lru_cache(None)
def home():
    """Returns a folder for what cargo builds, with its configuration."""
    folder = pathlib.Path(tempfile.mkdtemp(dir=SCRATCH.name))
    if DEBIAN.is_dir():
        (folder / 'config.toml').write_text(CONFIGURATION, encoding='utf-8')
    return folder


def environment(**variables):
    """Returns the environment of cargo with these variables, and no other place of the library."""
    usual = {'CARGO_HOME': str(home()), 'RUSTUP_HOME': os.environ.get('RUSTUP_HOME') or os.path.expanduser('~/.rustup'),
             'CARGO_TARGET_DIR': str(home() / 'target'), 'PKG_CONFIG_PATH': '', **variables}
    if not DEBIAN.is_dir():
        usual['CARGO_HOME'] = os.environ.get('CARGO_HOME') or os.path.expanduser('~/.cargo')
    return {**{name: value for name, value in os.environ.items() if name != 'SUBST_LIB_DIR'}, **usual}


@needs('cargo', 'rustc')
class Crate(Built):
    """The crate, in a copy beside the rows of answers."""

    def setUp(self):
        super().setUp()
        shutil.copytree(TOP / 'rust', 'rust', ignore=shutil.ignore_patterns('target', 'lib', 'Cargo.lock'))
        os.symlink(TOP / 'crates', 'crates')
        os.chdir('rust')
        end = ended(['cargo', 'metadata', '--offline', '--all-features', '--format-version=1'], env=environment())
        if end.returncode != 0:
            self.assertRegex(end.stdout, 'no matching package|offline')
            self.skipTest(f'cargo has not all crates offline: {end.stdout.strip().splitlines()[0]}')

    def cargo(self, *words, **variables):
        """Runs cargo over the installed library."""
        where = {'SUBST_LIB_DIR': str(prefix() / 'lib'), **variables}
        return ran(['cargo', *words, '--offline'], env=environment(**where), timeout=1200)

    def test_all_tests_pass_and_examples_run(self):
        for features in FEATURES:
            with self.subTest(features):
                said = self.cargo('test', *features)
                self.assertIn('Doc-tests subst', said)
                self.assertNotIn('warning', said)

    def test_documentation_has_no_warnings(self):
        self.cargo('doc', '--no-deps', '--all-features', RUSTDOCFLAGS='-D warnings')

    def test_clippy_has_no_warnings(self):
        self.need_to_run('cargo', 'clippy', '--version')
        for features in FEATURES:
            self.cargo('clippy', '--all-targets', *features, RUSTFLAGS='-D warnings')

    def test_versions_are_those_of_the_library(self):
        self.assertIn(f'\nversion = "0.3.8+libsubst.{version()}"\n', pathlib.Path('Cargo.toml').read_text('utf-8'))
        self.assertIn(f'const VERSION: &str = "{version()}";', pathlib.Path('build.rs').read_text('utf-8'))

    def test_a_library_that_is_not_found_is_reported(self):
        for variables, message in (({}, 'error: no libsubst.a: set SUBST_LIB_DIR'),
                                   ({'SUBST_LIB_DIR': '/none'}, "error: SUBST_LIB_DIR: /none/libsubst.a isn't there")):
            end = ended(['cargo', 'check', '--offline'], env=environment(**variables), timeout=600)
            self.assertNotEqual(end.returncode, 0)
            self.assertIn(message, end.stdout)

    def assert_greets(self, path, **variables):
        """Fails the test unless the program of docs/RUST.md runs over the crate at this path."""
        dependency, main = BLOCK.findall(PAGE.read_text('utf-8'))
        os.makedirs('greeting/src')
        written = PACKAGE + dependency.replace('vendor/subst', path)
        pathlib.Path('greeting/Cargo.toml').write_text(written, encoding='utf-8')
        pathlib.Path('greeting/src/main.rs').write_text(main, encoding='utf-8')
        said = ran(['cargo', 'run', '--quiet', '--offline'], cwd='greeting', env=environment(**variables), timeout=600)
        self.assertEqual(said, 'Hello dear world!\n')

    def test_a_program_changes_over_by_one_line(self):
        self.need_to_run('pkg-config', '--version')
        self.assert_greets(os.getcwd(), PKG_CONFIG_PATH=str(prefix() / 'lib/pkgconfig'))

    def test_tools_crate_refuses_other_arguments(self):
        for words in ([], [''], ['--prefix'], ['a', 'b', 'c']):
            end = subprocess.run([TOP / 'tools/crate', *words], stderr=subprocess.PIPE, text=True)
            self.assertEqual((end.returncode, end.stderr), (2, 'usage: tools/crate FOLDER [PREFIX]\n'), words)

    def test_a_package_has_the_library_and_its_licences(self):
        said = ran([TOP / 'tools/crate', 'made', prefix()])
        self.assertEqual(said, f'{os.path.abspath("made/subst")}\n')
        copied = {'lib/libsubst.a': prefix() / 'lib/libsubst.a', 'LICENSE': TOP / 'LICENSE',
                  'LICENSES-OF-THE-LIBRARY': prefix() / 'share/doc/libsubst/copyright'}
        for name, path in copied.items():
            self.assertEqual(pathlib.Path('made/subst', name).read_bytes(), path.read_bytes())
        self.assert_greets(os.path.abspath('made/subst'))
