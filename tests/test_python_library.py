"""The package for Python over the library, as tools/install puts them below a prefix, and as pip installs the wheel
into a new environment, if Python can make one. The tests of python/test_subst.py are run over each.
"""
import importlib.util
import os
import pathlib
import re
import runpy
import shutil
import sys
import sysconfig
import unittest
import zipfile

from building import TOP
from filled import filled
from tests.installed import CC, has_fast, packages, prefix
from tests.support import Built, ended, ran

GREETING = '''import subst
print(subst.__file__, subst.fill_in("Hello $name!", {"name": "world"}), subst._library.in_c is not None)'''


def wheel(folder):
    """Makes the wheel in a folder. Returns its path."""
    return pathlib.Path(ran([TOP / 'tools/wheel', folder], timeout=None).splitlines()[-1])


class PythonLibrary(Built):
    """The installed package."""

    def assert_passes(self, python, folder, **variables):
        """Fails the test unless Python finds the package in a folder, and all of its tests pass."""
        ours = 'SUBST_LIBRARY', 'SUBST_FAST', 'PYTHONPATH'
        inherited = {name: value for name, value in os.environ.items() if name not in ours}
        options = {'env': {**inherited, **variables}, 'timeout': 600}
        greeting = ran([python, '-B', '-c', GREETING], **options)
        self.assertEqual(greeting, f"{folder / 'subst/__init__.py'} Hello world! {has_fast()}\n")
        shutil.copy(TOP / 'python/test_subst.py', '.')
        end = ended([python, '-B', 'test_subst.py', '-v'], **options)
        self.assertEqual(end.returncode, 0, end.stdout)
        self.assertRegex(end.stdout, r'\nRan [1-9]\d+ tests')
        for name, why in re.findall(r"^(\w+) .*(?:\n.*)? \.\.\. skipped '(.*)'$", end.stdout, re.MULTILINE):
            with self.subTest(name):
                self.skipTest(why)

    def test_the_package_below_a_prefix_passes_its_tests(self):
        folder = packages(prefix())
        self.assert_passes(sys.executable, folder, PYTHONPATH=str(folder))

    def test_letters_by_dask(self):
        """The program of docs/LETTERS.md, by the first Python that has Dask, makes a file of letters of each of rows."""
        pythons = (it for it in (sys.executable, '/usr/bin/python3') if shutil.which(it))
        python = next((it for it in pythons if ended([it, '-c', 'import dask.bag']).returncode == 0), None)
        if python is None:
            self.skipTest('Dask is not installed')
        page = (TOP / 'docs/LETTERS.md').read_text(encoding='utf-8')
        for name, text in (('letters.py', re.search(r'^```python\n(.*?)^```$', page, re.MULTILINE | re.DOTALL)[1]),
                           ('a.jsonl', '{"name":"Ann"}\n{"name":"Zo\u00eb","city":"Paris"}\n'), ('b.jsonl', '{"name":"$x"}')):
            pathlib.Path(name).write_text(text, encoding='utf-8')
        ran([python, '-B', 'letters.py'], env={**os.environ, 'PYTHONPATH': str(packages(prefix()))}, timeout=600)
        written = [pathlib.Path(f'letters/{number}.txt').read_text(encoding='utf-8') for number in range(2)]
        self.assertEqual(written, ['Dear Ann in town\nDear Zo\u00eb in Paris', 'Dear $x in town'])

    def test_without_a_compiler_the_package_has_no_module_in_c(self):
        said = ran([TOP / 'tools/install', '--python', os.path.abspath('prefix')], env={**os.environ, 'CC': 'none'})
        self.assertIn('tools/install: the package has no module in C: that needs none and ', said)
        self.assertEqual([*pathlib.Path('prefix').rglob('_fast*')], [])

    @unittest.skipUnless(has_fast(), 'there is no Python.h')
    def test_the_module_in_c_has_no_warnings(self):
        pathlib.Path('subst.h').write_text(filled(TOP / 'include/subst.h.in'), encoding='utf-8')
        warnings = '-Wall -Wextra -Wpedantic -Wconversion -Wshadow -Wstrict-prototypes -Werror'.split()
        headers = f'-I{sysconfig.get_paths()["include"]}'
        ran([CC, '-std=c99', *warnings, headers, '-I.', '-fsyntax-only', TOP / 'python/fast.c'])

    def test_a_wheel_is_made_again_with_the_same_bytes(self):
        self.assertTrue(wheel('a').read_bytes() == wheel('b').read_bytes())

    def test_the_platform_of_a_wheel_is_that_of_its_library(self):
        platform_of = runpy.run_path(str(TOP / 'python/backend.py'))['platform_of']
        for names, platform in ((b'GLIBC_2.14\0GLIBC_2.2.5', 'manylinux_2_14'), (b'', 'linux'),
                                (b'GLIBC_2.9\0GLIBC_2.10', 'manylinux_2_10'), (b'GLIBC_PRIVATE', 'linux'),
                                (b'GLIBC_2.14\0GLIBC_ABI_DT_RELR', 'linux'), (b'GLIBC_2.2.5', 'manylinux_2_5')):
            self.assertEqual(platform_of(b'\0libc.so.6\0' + names + b'\0'), f'{platform}_x86_64')
        path = wheel('wheel')
        with zipfile.ZipFile(path) as archive:
            library = archive.extract('subst/libsubst.so.0')
            tags = [archive.read(name).decode() for name in archive.namelist() if name.endswith('/WHEEL')]
        needed = re.findall(r'GLIBC_2\.(\d+)', ran(['objdump', '-T', library]))
        tag = f'{"cp38-abi3" if has_fast() else "py3-none"}-manylinux_2_{max(map(int, needed))}_x86_64'
        self.assertTrue(path.name.endswith(f'-{tag}.whl'), path)
        self.assertRegex(tags[0], f'\nTag: {tag}\n')

    @unittest.skipIf(importlib.util.find_spec('ensurepip') is None, 'Python has no ensurepip')
    def test_a_wheel_installs_into_a_clean_environment(self):
        ran([sys.executable, '-m', 'venv', 'venv'], timeout=600)
        python = os.path.abspath('venv/bin/python')
        ran([python, '-m', 'pip', '--disable-pip-version-check', 'install', '--no-index', wheel('wheel')], timeout=600)
        self.assert_passes(python, next(pathlib.Path('venv').resolve().glob('lib/python3*/site-packages')))
