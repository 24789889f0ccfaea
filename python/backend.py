"""Makes the wheel of the package, with the library in it, as tools/wheel says. By pyproject.toml, pip makes it so too.
"""
import base64
import hashlib
import os
import pathlib
import re
import subprocess
import sys
import tempfile
import zipfile

TOP = pathlib.Path(__file__).resolve().parent.parent
LIBRARY, FAST = 'subst/libsubst.so.0', 'subst/_fast.abi3.so'
METADATA = '''Metadata-Version: 2.1
Name: subst
Version: {version}
Summary: Shell-like variables in texts and byte strings
License: BSD-2-Clause
Platform: linux_x86_64
Requires-Python: >=3.8
License-File: LICENSE
Description-Content-Type: text/markdown

`subst.fill_in("Hello $name!", {{"name": "world"}})` fills in `$name`, `${{name}}`, `${{name?}}` and `${{name:default}}`.
`help(subst)` says more.
'''
WHEEL = 'Wheel-Version: 1.0\nGenerator: subst\nRoot-Is-Purelib: false\nTag: {tag}\n'
# The time of all files, which is the first that an archive can have.
TIME = (1980, 1, 1, 0, 0, 0)


def printed(*command, **variables):
    """What a command prints."""
    return subprocess.run(command, check=True, cwd=TOP, env={**os.environ, **variables}, stdin=subprocess.DEVNULL,
                          stdout=subprocess.PIPE).stdout


def installed():
    """The package and the library, as tools/install puts them below a prefix, in one folder."""
    with tempfile.TemporaryDirectory() as prefix:
        for option in ('--library', '--python'):
            printed('tools/install', option, prefix, LIBDIR='python/subst', PYTHONDIR='python')
        found = {path: pathlib.Path(prefix, 'python', path) for path in (LIBRARY, FAST)}
        found.update((f'subst/{path.name}', path) for path in pathlib.Path(prefix, 'python/subst').glob('*.py*'))
        found['subst/py.typed'] = pathlib.Path(prefix, 'python/subst/py.typed')
        return {name: path.read_bytes() for name, path in found.items() if path.exists()}


def platform_of(data):
    """Returns the platform of libraries: manylinux with the greatest GLIBC_2.N that they need, but not below 2.5, which
    installers don't know. It is linux_x86_64 if they need another version of a symbol, or none."""
    needed = [re.match(rb'2\.(\d+)(?:\.\d+)?$', it) for it in re.findall(rb'(?<=\0)GLIBC_([^\0]+)(?=\0)', data)]
    return f'manylinux_2_{max(5, *(int(it[1]) for it in needed))}_x86_64' if needed and all(needed) else 'linux_x86_64'


def tag_of(found):
    """Returns the tag of the wheel with these files: with the module in C, that of CPython's stable interface."""
    return ('cp38-abi3-' if FAST in found else 'py3-none-') + platform_of(found[LIBRARY] + found.get(FAST, b''))


def files(version):
    """The files of the wheel, but the list of them, by their paths."""
    found = installed()
    about = f'subst-{version}.dist-info'
    found[f'{about}/METADATA'] = METADATA.format(version=version).encode()
    found[f'{about}/WHEEL'] = WHEEL.format(tag=tag_of(found)).encode()
    found[f'{about}/licenses/LICENSE'] = (TOP / 'LICENSE').read_bytes()
    found[f'{about}/licenses/LICENSES-OF-THE-LIBRARY'] = printed(sys.executable, 'tools/licences', 'subst_c')
    return dict(sorted(found.items()))


def record(found, path):
    """The list of these files, with their sums, and of itself without."""
    rows = []
    for name, data in found.items():
        digest = base64.urlsafe_b64encode(hashlib.sha256(data).digest()).rstrip(b'=').decode()
        rows.append(f'{name},sha256={digest},{len(data)}\n')
    return ''.join([*rows, f'{path},,\n']).encode()


def build_wheel(wheel_directory, config_settings=None, metadata_directory=None):
    """Makes the wheel in a folder, and returns its name. It is called so by pip."""
    version = printed('tools/version').decode().strip()
    found, path = files(version), f'subst-{version}.dist-info/RECORD'
    found[path] = record(found, path)
    name = f'subst-{version}-{tag_of(found)}.whl'
    os.makedirs(wheel_directory, exist_ok=True)
    with zipfile.ZipFile(os.path.join(wheel_directory, name), 'w', zipfile.ZIP_DEFLATED) as archive:
        for file, data in found.items():
            entry = zipfile.ZipInfo(file, TIME)
            entry.compress_type, entry.external_attr, entry.create_system = zipfile.ZIP_DEFLATED, 0o100644 << 16, 3
            archive.writestr(entry, data)
    return name


if __name__ == '__main__':
    print(os.path.join(os.path.abspath(sys.argv[1]), build_wheel(sys.argv[1])))
