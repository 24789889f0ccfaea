"""Releases: tools/install, tools/deb, tools/licences and tools/release.

`dpkg` inspects, installs and removes packages, below a folder in place of a system, and `lintian` checks them.
"""
import functools
import gzip
import io
import os
import pathlib
import re
import subprocess
import sys
import tarfile
import tempfile

import completions
from building import PROGRAMS, TOP, path_of, version
from filled import filled
from tests.installed import CC, Compiling, has_fast, packages
from tests.support import SCRATCH, Built, Case, ended, needs, ran

USAGES = {'install': 'usage: tools/install [--static | --library | --python | --uninstall] PREFIX\n',
          'deb': 'usage: tools/deb FOLDER [subst | libsubst0 | libsubst-dev | python3-subst]..\n',
          'release': 'usage: tools/release [--untested] FOLDER\n', 'wheel': 'usage: tools/wheel FOLDER\n'}
# The folders of libraries and of Python's modules below /usr, and the latter below another prefix.
DEBIAN_LIBRARIES, PYTHON = 'lib/x86_64-linux-gnu', 'lib/python3/dist-packages'


def install(*words, **variables):
    """Runs tools/install, which takes long if it has to prove a program first."""
    return ran([TOP / 'tools/install', *words], timeout=None, env={**os.environ, **variables})


def licences(*words):
    return ran([TOP / 'tools/licences', *words], stderr=subprocess.DEVNULL).encode()


def copies():
    """Returns the files of tools/install below a prefix besides programs and licences: their bytes by their paths."""
    texts = {'share/bash-completion/completions/subst': completions.bash(),
             'share/zsh/site-functions/_subst': completions.zsh(),
             'share/fish/vendor_completions.d/subst.fish': completions.fish(),
             **{f'share/man/man1/{name}.1': filled(TOP / f'docs/{name}.1.in') for name in PROGRAMS}}
    return {path: text.encode() for path, text in texts.items()}


def bytes_of(paths):
    """Returns the bytes of files by other names for them."""
    return {name: pathlib.Path(path).read_bytes() for name, path in paths.items()}


class Installing(Compiling):
    """Tests that install and pack."""

    def assert_refused(self, command, text, **options):
        """Fails the test unless a command ends with status 1 and this text."""
        end = ended(command, **options)
        self.assertEqual(end.returncode, 1, end.stdout)
        self.assertIn(text, end.stdout)

    def assert_files(self, folder, wanted):
        """Fails the test unless a folder has exactly these files, each with these bytes, compressed or not, if they are
        given."""
        files = [path for path in pathlib.Path(folder).rglob('*') if not path.is_dir()]
        found = bytes_of({str(path.relative_to(folder)): path for path in files})
        found.update({path: gzip.decompress(data) for path, data in found.items() if path.endswith('.gz')})
        self.assertEqual(found.keys(), wanted.keys(), folder)
        self.assertFalse([path for path, data in wanted.items() if data not in (None, found[path])], folder)

    def assert_programs_run(self, folder):
        """Fails the test unless the programs in a folder work without a loader."""
        for name in PROGRAMS:
            self.assertNotIn(b'/ld-linux', pathlib.Path(folder, name).read_bytes(), name)
        script = '"$0/subst" --version && printf "Hello \\$name!" | "$0/subst_filter" text name=world'
        self.assertEqual(ran(['sh', '-c', script, folder]), f'subst {version()}\nHello world!')

    def need_static_library(self):
        self.need_to_compile(CC, '-static')

    def need_a_commit(self):
        """Skips the test unless the whole tree is committed."""
        end = ended(['git', 'status', '--porcelain'], cwd=TOP)
        if end.returncode or end.stdout:
            self.skipTest('the tree has changes that are not committed')


class Scripts(Case):
    """Usage messages of the scripts."""

    def test_scripts_refuse_other_arguments(self):
        options = {'install': ('--static', '--library', '--python', '--uninstall'), 'release': ('--untested',)}
        for tool, usage in USAGES.items():
            for words in ([], ['--prefix'], ['a', 'b'], [''], *([option] for option in options.get(tool, ()))):
                end = subprocess.run([TOP / 'tools' / tool, *words], stderr=subprocess.PIPE, text=True)
                self.assertEqual((end.returncode, end.stderr), (2, usage), (tool, words))

    def test_install_prints_its_help(self):
        self.assertTrue(ran([TOP / 'tools/install', '--help']).startswith(USAGES['install']))


class Installed(Installing, Built):
    """Installing and removing."""
    programs = PROGRAMS.values()

    def test_install_puts_programs_pages_and_completions_below_a_prefix(self):
        install('prefix')
        install('/usr', DESTDIR=os.path.abspath('stage'))
        programs = bytes_of({f'bin/{name}': path_of(crate) for name, crate in PROGRAMS.items()})
        files = {**programs, **copies(), 'share/doc/subst/copyright': licences(*PROGRAMS.values())}
        self.assert_files('stage/usr', files)
        self.assert_files('prefix', {**files, 'share/subst/installed': None})

    def test_install_links_static_programs(self):
        self.need_static_library()
        install('--static', 'prefix')
        self.assert_programs_run('prefix/bin')

    def test_install_lists_what_it_installs(self):
        said, count = install('listed').splitlines(), len(copies()) + len(PROGRAMS) + 1
        self.assertEqual(said[-count - 1:-count], ['installed:'])
        self.assertTrue(all(os.path.isfile(line.strip()) for line in said[-count:]), said)

    def test_uninstall_removes_what_was_installed_and_nothing_else(self):
        theirs = {'lib/other.so': b'a', 'share/doc/other/copyright': b'b'}
        for path, data in theirs.items():
            pathlib.Path('used', path).parent.mkdir(parents=True)
            pathlib.Path('used', path).write_bytes(data)
        for words in ([], ['--python'], ['--library'], ['--library']):
            install(*words, 'used')
        install('--library', 'used', LIBDIR=DEBIAN_LIBRARIES)
        ran([sys.executable, '-c', 'import subst; print(subst.check("$a"))'],
            env={'PYTHONPATH': str(packages(pathlib.Path('used')))})
        install('--uninstall', 'used')
        self.assert_files('used', theirs)
        folders = {str(path.relative_to('used')) for path in pathlib.Path('used').rglob('*') if path.is_dir()}
        self.assertEqual(folders, {'lib', 'share', 'share/doc', 'share/doc/other'})
        self.assert_refused([TOP / 'tools/install', '--uninstall', 'used'], 'nothing that this script installed')


def paragraphs(text):
    """Returns the paragraphs of a copyright file without the first, each as its fields: the first line and its
    continuation."""
    fields = r'^([\w-]+): *(.*\n)((?: .*\n)*)'
    return [{name: (line.strip(), more) for name, line, more in re.findall(fields, f'{it}\n', re.MULTILINE)}
            for it in text.split('\n\n')[1:]]


class Licences(Installing):
    """The licences of linked libraries."""

    def assert_all_licences(self, text, crates):
        """Fails the test unless a copyright file has each crate once, and a text for each licence."""
        all_ = paragraphs(text)
        files = ' '.join(it['Files'][0] for it in all_ if 'Files' in it).split()
        self.assertFalse([crate for crate in crates if files.count(f'rattle/{crate}/*') != 1])
        texts = {it['License'][0] for it in all_ if it['License'][1].strip()}
        cited = {name for it in all_ if not it['License'][1] for name in re.split(r',? (?:and|or) ', it['License'][0])}
        self.assertTrue(cited)
        self.assertLessEqual(cited, texts)

    def test_licences_are_those_of_all_that_is_linked(self):
        library = ['std', 'core', 'json', 'serde_json', 'serde', 'ryu', 'itoa', 'fast_float', 'toml', 'toml_parser',
                   'toml_writer', 'indexmap', 'memchr', 'simdutf8', 'unicode_width', 'ucd_table']
        self.assert_all_licences(licences('subst_c').decode(), library)
        self.assert_all_licences(licences('--debian', 'subst_cli').decode(), [*library, 'clap', 'strsim'])
        self.assertNotIn(b'rattle/clap/', licences('subst_c'))
        self.assertIn(b'Files: libc.a\n', licences('--static', 'subst_filter'))
        self.assert_refused([TOP / 'tools/licences', '--static'], 'no licence of the C library is found',
                            env={**os.environ, 'LIBC_LICENCE': 'none'})

    def test_a_licence_without_a_text_is_missed(self):
        """Uses a kit with one crate, which uses another one."""
        for name, uses in (('made_up', 'dep below\n'), ('below', '')):
            os.makedirs(f'kit/rattle/{name}')
            os.makedirs(f'kit/rlibs/{name}.rlib')
            pathlib.Path(f'kit/rlibs/{name}.rlib/format').write_text(f'crate {name}\n{uses}', encoding='utf-8')
        os.makedirs('kit/bin')
        rt = pathlib.Path('kit/bin/rt')
        rt.write_text(f'#!/bin/sh\necho {os.getcwd()}/kit/START-HERE.md\n', encoding='utf-8')
        rt.chmod(0o755)
        options = {'env': {**os.environ, 'PATH': f"{os.getcwd()}/kit/bin:{os.environ['PATH']}"}}
        command = [TOP / 'tools/licences', 'made_up']
        self.assert_refused(command, 'no text of a licence: below made_up\n', **options)
        granted = 'Copyright (c) 2001 Me\n\nPermission is hereby granted, free of charge.\n'
        pathlib.Path('kit/rattle/made_up/LICENSE').write_text(granted, encoding='utf-8')
        self.assert_refused(command, 'no text of a licence: below\n', **options)
        other = pathlib.Path('kit/rattle/below/LICENSE')
        other.write_text('Do as you like.\n', encoding='utf-8')
        self.assert_refused(command, 'what licence is this?', **options)
        other.write_text('UNICODE LICENSE V3\n', encoding='utf-8')
        printed = ran(command, **options)
        self.assert_all_licences(printed, ['made_up', 'below'])
        self.assertIn('Copyright: 2001 Me\n', printed)
        self.assert_refused([TOP / 'tools/licences', 'not_there'], 'there is no crate not_there', **options)


@functools.lru_cache(None)
def made_packages():
    return deb(tempfile.mkdtemp(dir=SCRATCH.name))


def deb(folder, **options):
    """Makes the packages in a folder. Returns their paths by their names."""
    said = ran([TOP / 'tools/deb', folder], timeout=None, **options)
    return {os.path.basename(path).split('_')[0]: path for path in re.findall(r'^/.*\.deb$', said, re.MULTILINE)}


def dpkg(*words):
    """Runs dpkg as any user may, with the folder `root` as its system, and without this system's exclusions."""
    forced = ['--force-not-root', '--force-script-chrootless', '--force-depends', '--path-include=*', '--log=/dev/null']
    path = f"{os.environ['PATH']}:/usr/sbin:/sbin"
    return ran(['dpkg', f"--root={os.path.abspath('root')}", *forced, *words], env={**os.environ, 'PATH': path})


@needs('dpkg-deb')
class DebianPackages(Installing, Built):
    """The packages of tools/deb."""
    programs = PROGRAMS.values()

    def setUp(self):
        super().setUp()
        self.need_static_library()

    def assert_readable(self, package):
        """Fails the test unless the files of a package are root's, with their usual permissions."""
        files = subprocess.run(['dpkg-deb', '--fsys-tarfile', package], check=True, stdout=subprocess.PIPE).stdout
        for file in tarfile.open(fileobj=io.BytesIO(files)):
            mode = 0o777 if file.issym() else 0o755 if file.isdir() or '/bin/' in file.name else 0o644
            self.assertEqual((file.mode, file.uid, file.gid), (mode, 0, 0), file.name)

    def test_deb_makes_the_same_packages_again(self):
        again = deb('again', env={**os.environ, 'TZ': 'Asia/Tokyo'}, preexec_fn=lambda: os.umask(0o77))
        self.assertEqual([*again], ['subst', 'libsubst0', 'libsubst-dev', 'python3-subst'])
        for name, package in made_packages().items():
            of = 'all' if name == 'python3-subst' and not has_fast() else 'amd64'
            self.assertRegex(package, rf'^/.*/{name}_{re.escape(version())}(~\d+)?_{of}\.deb$')
            self.assertTrue(pathlib.Path(package).read_bytes() == pathlib.Path(again[name]).read_bytes(), name)
            self.assert_readable(package)

    @needs('lintian')
    def test_packages_have_no_errors_of_lintian(self):
        said = ran(['lintian', '--allow-root', '--tag-display-limit', '0', *made_packages().values()], timeout=None)
        self.assertEqual(re.findall('^[EW]: .*', said, re.MULTILINE), [])

    @needs('dpkg')
    def test_deb_is_installed_and_removed(self):
        install('--static', 'linked')
        files = {**bytes_of({f'bin/{name}': f'linked/bin/{name}' for name in PROGRAMS}),
                 'share/doc/subst/copyright': licences('--debian', '--static', *PROGRAMS.values()),
                 'share/doc/subst/changelog.gz': None, 'share/lintian/overrides/subst': None}
        for path, data in copies().items():
            files[f'{path}.gz' if '/man1/' in path else path.replace('site-functions', 'vendor-completions')] = data
        for folder in ('info', 'updates', 'triggers'):
            os.makedirs(f'root/var/lib/dpkg/{folder}')
        for file in ('status', 'available'):
            pathlib.Path('root/var/lib/dpkg', file).touch()
        for word in ('--remove', '--purge'):
            dpkg('--install', made_packages()['subst'])
            self.assert_files('root/usr', files)
            self.assert_programs_run('root/usr/bin')
            self.assertEqual(dpkg('--verify', 'subst'), '')
            dpkg(word, 'subst')
            self.assertEqual(os.listdir('root'), ['var'], word)

    @needs('pkg-config')
    def test_packages_of_the_library_work_together(self):
        names = ('libsubst0', 'libsubst-dev', 'python3-subst')
        for name in names:
            ran(['dpkg-deb', '--extract', made_packages()[name], 'system'])
        usr = pathlib.Path('system/usr').resolve()
        module = {f'{PYTHON}/subst/{path.name}': path for path in (TOP / 'python/subst').glob('*.py*')}
        module[f'{PYTHON}/subst/py.typed'] = TOP / 'python/subst/py.typed'
        libraries = ('libsubst.so.0', 'libsubst.so', 'libsubst.a', 'pkgconfig/subst.pc')
        files = {**bytes_of(module), 'include/subst.h': None, **{f'{DEBIAN_LIBRARIES}/{it}': None for it in libraries},
                 **({f'{PYTHON}/subst/_fast.abi3.so': None} if has_fast() else {}),
                 **{f'share/doc/{name}/changelog.gz': None for name in names},
                 **{f'share/doc/{name}/copyright': licences('--debian', 'subst_c') for name in names},
                 'share/doc/python3-subst/copyright': licences()}
        self.assert_files(usr, files)
        loaded = {**os.environ, 'LD_LIBRARY_PATH': str(usr / DEBIAN_LIBRARIES), 'PYTHONPATH': str(usr / PYTHON)}
        code = 'import subst; print(subst.fill_in("Hello $name!", {"name": "world"}), subst._library.in_c is not None)'
        self.assertEqual(ran([sys.executable, '-B', '-c', code], env=loaded), f'Hello world! {has_fast()}\n')
        found = {**os.environ, 'PKG_CONFIG_SYSROOT_DIR': 'system',
                 'PKG_CONFIG_LIBDIR': f'system/usr/{DEBIAN_LIBRARIES}/pkgconfig'}
        words = ran(['pkg-config', '--cflags', '--libs', 'subst'], env=found).split()
        source = '#include <subst.h>\nint main(void) { return subst_version() != SUBST_VERSION; }\n'
        pathlib.Path('caller.c').write_text(source, encoding='utf-8')
        ran([CC, 'caller.c', '-o', 'caller', *words])
        ran(['./caller'], env=loaded)


class RefusedRelease(Installing):
    """Trees that tools/release refuses."""

    def test_release_refuses_what_is_not_committed_or_not_released(self):
        self.need_a_commit()
        ran(['git', 'clone', '-q', TOP, 'clone'])
        pathlib.Path('clone/new').touch()
        self.assert_refused(['clone/tools/release', 'made'], 'not committed')
        pathlib.Path('clone/new').unlink()
        pathlib.Path('clone/CHANGELOG.md').write_text(f'## {version()}, not released yet\n', encoding='utf-8')
        self.assert_refused(['clone/tools/release', '--untested', 'made'], 'not committed')
        ran(['git', '-c', 'user.name=a', '-c', 'user.email=a@localhost', 'commit', '-qam', 'a'], cwd='clone')
        self.assert_refused(['clone/tools/release', 'made'], f'{version()} is not released yet')
        self.assertFalse(os.path.exists('made'))


class Release(Installing, Built):
    """The files that tools/release makes of a commit."""
    programs = PROGRAMS.values()

    @needs('dpkg-deb')
    def test_release_makes_the_same_again(self):
        self.need_a_commit()
        self.need_static_library()
        for folder in ('made', 'made_again'):
            said = ran([TOP / 'tools/release', '--untested', folder], timeout=None)
            self.assertIn('untested, and not to be handed on: ', said)
        sums = [pathlib.Path(folder, 'SHA256SUMS').read_text(encoding='utf-8') for folder in ('made', 'made_again')]
        self.assertEqual(*sums)
        ran(['sha256sum', '-c', 'SHA256SUMS'], cwd='made')
        self.assertEqual({line.split()[1] for line in sums[0].splitlines()} | {'SHA256SUMS'}, set(os.listdir('made')))
        name = f'subst-{version()}'
        for archive in (name, f'{name}-x86_64-linux'):
            ran(['tar', '-xzf', f'made/{archive}.tar.gz'])
        self.assert_programs_run(f'{name}-x86_64-linux/bin')
        self.assertEqual(ran([f'{name}/tools/version']), f'{version()}\n')
        self.assert_refused([TOP / 'tools/release', '--untested', 'made'], 'is not empty')
        ran(['sh', '-e', 'link.sh'], cwd=f'{name}-x86_64-linux/objects')
        self.assert_programs_run(f'{name}-x86_64-linux/objects')
