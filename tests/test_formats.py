"""The formats that `subst` reads files in: --format, its short forms, and the endings of --auto."""
import errno
import os

from tests.subst import (FORMS, NO_NAME, PROGRAM, Subst, failed, failed_since, in_each_form, missing, read, subst, told,
                         write)
from tests.support import run_with_hints, shown

# The value that each file of a folder gets, which is other text in each format.
VALUE = 'a "b" #\n'
# Files of a folder, with what they give.
FILES = {
    'motd.txt': (b'$A', VALUE.encode()),
    'web.json': (b'{"a": "$A", "$A": 1}', b'{"a": "a \\"b\\" #\\n", "$A": 1}'),
    'conf.d/web.toml': (b'a = "$A" # $A\n', b'a = "a \\"b\\" #\\n" # $A\n'),
    'conf.d/web.yaml': (b'a: $A # $A\n', b'a: "a \\"b\\" #\\n" # $A\n'),
    'conf.d/deep/web.yml': (b'$A: "$A"\n', b'$A: "a \\"b\\" #\\n"\n'),
    'conf.d/README': (b'# $A', b'# ' + VALUE.encode()),
    '.hidden.json': (b'["$A"]', b'["a \\"b\\" #\\n"]'),
}
# Names of files, with the suffix of --strip, and the format that --auto reads them in.
NAMES = (
    ('a.json', '', 'json'), ('.json', '', 'json'), ('a.b.json', '', 'json'), ('a.yaml', '', 'yaml'),
    ('a.yml', '', 'yaml'), ('a', '', 'text'), ('json', '', 'text'), ('a.json.in', '', 'text'), ('a.JSON', '', 'text'),
    ('a.Yml', '', 'text'), ('a.jsonl', '', 'text'), ('a.json ', '', 'text'), ('ajson', '', 'text'),
    ('a.ymlx', '', 'text'), ('a.json.txt', '', 'text'), ('a.txt.json', '', 'json'), ('a.json5', '', 'text'),
    ('a.json.in', '.in', 'json'), ('a.yaml.in', '.in', 'yaml'), ('a.yml.in', '.in', 'yaml'), ('a.in', '.in', 'text'),
    ('a.json', '.in', 'json'), ('a.json', '.json', 'text'), ('a.yaml.json', '.json', 'yaml'), ('a.in.json', '.in', 'json'),
    ('a.json.in.in', '.in', 'text'), ('a.json.in.in', '.in.in', 'json'), ('a.json.tmpl', '.in', 'text'),
    ('a.json-tmpl', '-tmpl', 'json'), ('a.jsonx', 'x', 'json'), ('a.json', 'on', 'text'),
)


def make(files):
    """Writes files, below folders that are made, in the order of their names."""
    for name in sorted(files):
        os.makedirs(os.path.dirname(name) or '.', exist_ok=True)
        write(name, files[name])


def make_templates(suffix=''):
    make({f'templates/{name}{suffix}': source for name, (source, _) in FILES.items()})


class Formats(Subst):
    """A format for all files."""

    def test_format_is_its_short_form(self):
        for words, _ in FORMS:
            name = ''.join(words).replace('--', '') or 'text'
            for source in (b'\xff', b'"$A"', b'["$A"]', b'a = "$A"', b'a: $A', b'a: "$A"\n', b'\xef\xbb\xbf["$A"]'):
                wanted = subst([*words, '-sA="'], source)
                for option in ([f'--format={name}'], ['--format', name]):
                    self.assertEqual(subst([*option, '-sA="'], source), wanted, f'{option}: {shown(source)}')

    def test_format_that_is_none(self):
        for name in ('', 'xml', 'JSON', 'json ', 'yml', 'Auto', 'jso', 'json,toml'):
            self.assert_wrong([f'--format={name}'], '--format must be json, toml, yaml, text, bytes or auto')
        option = '--format <json|toml|yaml|text|bytes|auto>'
        self.assert_wrong(['--format=json', '--format=json'], f"the argument '{option}' cannot be used multiple times")
        text = f"subst: error: a value is required for '{option}' but none was supplied\n\n"
        self.assert_ends(subst(['--format']), 2, errors=(text + "For more information, try '--help'.\n").encode())

    def test_format_and_a_short_form(self):
        """Two are wrong arguments, also where they say the same."""
        option = '--format <json|toml|yaml|text|bytes|auto>'
        for name in ('json', 'toml', 'yaml', 'bytes', 'auto'):
            self.assert_wrong([f'--format={name}', f'--{name}'], f"the argument '{option}' cannot be used with '--{name}'",
                              usage=option)
            self.assert_wrong([f'--{name}', f'--format={name}'], f"the argument '--{name}' cannot be used with '{option}'",
                              usage=f'--{name}')


class Auto(Subst):
    """The format of each file by its ending."""

    def test_folder_of_mixed_files(self):
        """Text, JSON, TOML and YAML are one command."""
        make_templates()
        for at, words in enumerate((['--auto'], ['--format=auto'], ['--format', 'auto'])):
            self.assert_done([*words, '-e', '-O', f'out{at}', 'templates'], env={'A': VALUE})
            for name, (source, output) in FILES.items():
                self.assert_file(f'out{at}/{name}', output)
                self.assert_file(f'templates/{name}', source)

    def test_folder_of_mixed_files_in_its_place(self):
        for word in ('-i', '--in-place'):
            make_templates()
            self.assert_done(['--auto', word, f'-sA={VALUE}', 'templates'])
            for name, (_, output) in FILES.items():
                self.assert_file(f'templates/{name}', output)

    def test_check_of_mixed_files(self):
        make_templates()
        self.assert_done(['--auto', '--check', f'-sA={VALUE}', 'templates'])
        faults = (missing('A', 'templates/.hidden.json:1:4', '["$A"]', '   ^', '/0'),
                  missing('A', 'templates/conf.d/README:1:4', '# $A', '   ^'),
                  missing('A', 'templates/conf.d/deep/web.yml:1:7', '$A: "$A"', '      ^', '$A'),
                  missing('A', 'templates/conf.d/web.toml:1:7', 'a = "$A" # $A', '      ^', 'a'),
                  missing('A', 'templates/conf.d/web.yaml:1:5', 'a: $A # $A', '    ^', 'a'),
                  missing('A', 'templates/motd.txt:1:2', '$A', ' ^'),
                  missing('A', 'templates/web.json:1:9', '{"a": "$A", "$A": 1}', '        ^', '/a'))
        self.assert_refused(['--auto', '--check', 'templates'], b'', *faults)
        # A file that is no document of its ending is refused as such.
        write('templates/conf.d/web.toml', b'{}')
        end = subst(['--auto', '--check', f'-sA={VALUE}', 'templates'])
        self.assertEqual(end.status, 1)
        self.assertTrue(end.errors.startswith(b'templates/conf.d/web.toml:1:1: error: '), shown(end.errors))

    def test_names_of_mixed_files(self):
        make({'a.json': b'\xef\xbb\xbf{"$B": "$A"}', 'b.txt': b'$B', 'c.yml': b'$B: $C'})
        self.assert_done(['--auto', '--names', 'a.json', 'b.txt', 'c.yml'], output=b'A\ta.json:1:10\trequired\n'
                         b'B\tb.txt:1:2\trequired\nC\tc.yml:1:6\trequired\n')

    def test_several_files_are_one_output(self):
        make({name: source for name, (source, _) in FILES.items()})
        wanted = b''.join(output for _, output in FILES.values())
        self.assert_done(['--auto', f'-sA={VALUE}', *FILES], output=wanted)
        self.assert_done(['--auto', f'-sA={VALUE}', '-o', 'new', *FILES])
        self.assert_file('new', wanted)
        write('bad.json', b'["$B"]')
        write('bad', b'["$B"')
        self.assert_refused(['--auto', '-sA=', 'web.json', 'bad.json', 'bad'], b'',
                            missing('B', 'bad.json:1:4', '["$B"]', '   ^', '/0'),
                            missing('B', 'bad:1:4', '["$B"', '   ^'))

    def test_endings(self):
        outputs = {'text': b'"""', 'json': b'"\\""', 'yaml': b'"\\""'}
        for name, suffix, form in NAMES:
            write(name, b'"$A"')
            words = ['--auto', '-sA="', *([f'--strip={suffix}'] if suffix else [])]
            self.assert_done([*words, '-O', 'out', name])
            new = f'out/{name[:-len(suffix)] if suffix and name.endswith(suffix) else name}'
            self.assert_file(new, outputs[form])
            os.remove(new)
            self.assert_done([*words, '-i', name])
            self.assert_file(name, outputs[form])
            os.remove(name)
        write('a.toml', b'a="$A"')
        write('a.toml.in', b'a="$A"')
        self.assert_done(['--auto', '-sA="', 'a.toml', 'a.toml.in'], output=b'a="\\""a="""')
        # The folders of a path have no ending.
        make({'a.json/b': b'"$A"'})
        self.assert_done(['--auto', '-sA="', 'a.json/b'], output=b'"""')

    def test_standard_input_is_text(self):
        for words in ([], ['-'], ['/dev/stdin']):
            self.assert_done(['--auto', '-sA="', *words], b'["$A"]', b'["""]')
        self.assert_refused(['--auto'], b'\xff', told('<stdin>:1:1', 'invalid UTF-8', '\ufffd', '^'))

    def test_forms_of_other_tools(self):
        make({'a.json': b'["$A $B ${A:-x}", "$$"]', 'b.yml': b'- $A $B\n- ${A:-x}', 'c': b'"$A $B ${A:-x}$'})
        self.assert_done(['--auto', '-sA="', '--only=A', '--shell', 'a.json', 'b.yml', 'c'],
                         output=b'["\\" $B \\"", "$$"]- "\\" $B"\n- "\\"""" $B "$')
        self.assert_done(['--auto', '-sA="', '--envsubst', '--optional', 'a.json', 'c'],
                         output=b'["\\"  ${A:-x}", "$$"]""  ${A:-x}$')
        self.assert_done(['--auto', '-sA="', '--escape=json', 'c', '--known'], output=b'"\\" $B ${A:-x}$')

    def test_hints(self):
        """Of another tool's default in a text, and not in a document."""
        make({'a.json': b'["${A:-x}"]', 'a': b'["${A:-x}"]'})
        end = run_with_hints(PROGRAM, ['--auto', '-sA=1', 'a.json'], name='subst')
        self.assert_ends(end, 0, b'["1"]')
        end = run_with_hints(PROGRAM, ['--auto', '-sA=1', 'a.json', 'a'], name='subst')
        hint = b"a:1:7: hint: this default begins with '-'; use --shell for shell-style defaults\n"
        self.assert_ends(end, 0, b'["1"]["1"]', hint)
        self.assert_ends(subst(['--auto', '-sA=1', '--check', '--strict', 'a.json']), 0)


class InPlaceOfFolders(Subst):
    """Folders whose files --in-place replaces."""

    def test_folder_in_its_place(self):
        make_templates()
        os.chmod('templates/motd.txt', 0o640)
        self.assert_done(['-i', '-sA=1', 'templates'])
        for name, (source, _) in FILES.items():
            self.assert_file(f'templates/{name}', source.replace(b'$A', b'1'))
        self.assert_mode('templates/motd.txt', 0o640)
        self.assert_files('motd.txt', 'web.json', 'conf.d', '.hidden.json', folder='templates')
        self.assert_files('web.toml', 'web.yaml', 'deep', 'README', folder='templates/conf.d')

    def test_strip_is_a_filter_that_renames_nothing(self):
        make({'t/a.json.in': b'["$A"]', 't/b.json': b'["$A"]', 't/deep/c.in': b'$A', 't/deep/d': b'$', 'e': b'$A'})
        self.assert_done(['-i', '--auto', '--strip=.in', '-sA="', 't', 'e'])
        for file, data in (('t/a.json.in', b'["\\""]'), ('t/b.json', b'["$A"]'), ('t/deep/c.in', b'"'),
                           ('t/deep/d', b'$'), ('e', b'"')):
            self.assert_file(file, data)
        self.assert_files('a.json.in', 'b.json', 'deep', folder='t')
        self.assert_files('c.in', 'd', folder='t/deep')
        self.assert_files('t', 'e')
        for words in (['-i', '--strip=', 't'], ['--strip=.in', 't'], ['--strip=.in', '--auto', 'e']):
            self.assert_wrong(words, '--strip needs a suffix, and one of --output-folder, --in-place, --check or --names')
        self.assert_wrong(['-o', 'new', '--strip=.in'],
                          "the argument '--output <FILE>' cannot be used with '--strip <SUFFIX>'", usage='--output <FILE>')
        hint = b"subst: hint: no file name ends in '.tmpl' (--strip)\n"
        end = run_with_hints(PROGRAM, ['-i', '--strip=.tmpl', 't'], name='subst')
        self.assert_ends(end, 0, errors=hint)

    def test_folder_in_which_some_are_refused(self):
        make({'t/a': b'$A', 't/b': b'$', 't/c/d': b'$A$B'})
        self.assert_failed(['-i', '-sA=1', 't', 'nothing'], told('t/b:1:1', NO_NAME, '$', '^'),
                           missing('B', 't/c/d:1:4', '$A$B', '   ^'), failed('nothing', errno.ENOENT))
        for file, data in (('t/a', b'1'), ('t/b', b'$'), ('t/c/d', b'$A$B')):
            self.assert_file(file, data)

    def test_links_of_a_folder(self):
        make({'t/a': b'$A', 'other/b': b'$A', 'c': b'$A'})
        os.symlink('../other', 't/folder')
        os.symlink('../c', 't/link')
        os.symlink('a', 't/twice')
        os.symlink('nothing', 't/dangling')
        os.mkfifo('t/fifo')
        self.assert_failed(['-i', '-sA=$A$A', 't'], failed('t/dangling', errno.ENOENT),
                           failed_since('t/fifo', 'not a regular file'))
        for file in ('t/a', 'other/b', 'c'):
            self.assert_file(file, b'$A$A')
        self.assertTrue(all(map(os.path.islink, ('t/folder', 't/link', 't/twice'))), 'a link was replaced')

    def test_folder_and_its_files_are_filled_in_once(self):
        make({'t/a': b'$A', 't/b': b'$A'})
        self.assert_done(['-i', '-sA=$A$A', 't/a', 't', './t/b', 't/'])
        for file in ('t/a', 't/b'):
            self.assert_file(file, b'$A$A')

    def test_empty_folder(self):
        os.mkdir('t')
        self.assert_done(['-i', 't'])
        self.assert_files(folder='t')
