"""Variables of `subst` in bytes, texts and documents."""
import json
import os

from faults import missing_brace, unexpected
from tests.subst import NO_NAME, PROGRAM, UNREADABLE, Subst, in_each_form, missing, read, subst, told, toml_of, write
from tests.support import run_with_hints

# Sources that aren't UTF-8, with the position of the first invalid byte, and its line.
NOT_UTF8 = (
    (b'\xff', '1:1', '\ufffd', '^'),
    (b'$\nab\xe2\x82', '2:3', 'ab\ufffd', '  ^'),
    (b'\xc3\xa4\xed\xa0\x80.', '1:2', '\u00e4\ufffd\ufffd\ufffd.', ' ^'),
)
# A JSON document, and its output if A is a quote, a line feed and a backslash.
JSON = (b'{ "$A" : "$A",\r\n\t"b":[1.50, -0, 1E30,"\\u0024A",null ],"b": "\\/\\u0041", "c":{"a":["${A}\\n"]}}\r\n')
FILLED_JSON = (b'{ "$A" : "\\"\\n\\\\",\r\n\t"b":[1.50, -0, 1E30,"\\"\\n\\\\",null ],"b": "\\/\\u0041", '
               b'"c":{"a":["\\"\\n\\\\\\n"]}}\r\n')
# Texts that are no documents, with their fault.
NO_JSON = (
    (b'{"a": "$x",}', told('<stdin>:1:12', 'a trailing comma', '{"a": "$x",}', ' ' * 11 + '^')),
    (b'{"a": 1,\n "b" 2}', told('<stdin>:2:6', 'invalid JSON', ' "b" 2}', ' ' * 5 + '^')),
    (b'', told('<stdin>:1:1', 'EOF while parsing', '', '^')),
)
# Texts of one line that aren't JSON, with the column and the text of the error. The error of a trailing comma is
# at the bracket after it.
MISTAKES = (
    ('[1,]', 4, 'a trailing comma'),
    ('[[1 , ], "$x"]', 7, 'a trailing comma'),
    ('// x', 1, 'a comment'),
    ('["$x", /* x */ 2]', 8, 'a comment'),
    ('{ /* x */ "a": 1}', 3, 'a comment'),
    ('{"a" /* x */: 1}', 6, 'a comment'),
    ('{"a": "//"} // x', 13, 'a comment'),
    ('{"a": /x}', 7, 'invalid JSON'),
    ('{} {}', 4, 'a second document'),
    ('["$x"]]', 7, 'a second document'),
    ('"a" "\\ud800"', 5, 'a second document'),
    ('[1} ]', 5, 'invalid JSON'),
    ('["\\ud800\\n"]', 3, 'a lone surrogate'),
    ('["ab\\\\\\ud83d\\ude00 \\uDC00x"]', 20, 'a lone surrogate'),
    ('{"\\uDbff\\uDBff": 1}', 3, 'a lone surrogate'),
    ('["\\ud8zz"]', 2, 'invalid JSON'),
    ('{"a": $x}', 7, 'a variable outside a string'),
    ('{$x: 1}', 2, 'a variable outside a string'),
    ('["$x", ${x}]', 8, 'a variable outside a string'),
    ('{"a": 1$x}', 7, 'invalid JSON'),
    ('{1: 2}', 3, 'invalid JSON'),
    ('[1e999,]', 8, 'number out of range'),
)
NO_VALUE = 'invalid value, expected a string, number, boolean, date-time, array or inline table'
# TOML documents with an error in the last line, the column and the text of the error, and whether there is a hint.
UNQUOTED = (
    ('a = $x', 5, NO_VALUE, True),
    ('# $x\na = [1, ${x}]', 9, NO_VALUE, True),
    ('a = {b = $}', 10, NO_VALUE, True),
    ('a = x$y', 5, NO_VALUE, False),
    ('a = # $x', 5, NO_VALUE, False),
    ('a = 1 $x', 7, 'unexpected key or value, expected newline, `#`', False),
    ('$a = 1', 1, 'invalid key, expected letters, numbers, `-`, `_` or a quoted key', False),
)
NO_TOML = (
    (b'a = "$x"\na = 2\n', told('<stdin>:2:1', 'duplicate key', 'a = 2', '^^^^^')),
    (b'\n$a = 1', told('<stdin>:2:1', 'invalid key, expected letters, numbers, `-`, `_` or a quoted key', '$a = 1',
                       '^')),
)
# A TOML document, and its output if A is 1.
TOML = (b'# "$A"\r\nb   =\t\'$A\' # $A\r\n"$A" = +1_000\n[t]\nd = 1979-05-27\nn = ["${A}", 1.50,\n  """\n$A""",]\n'
        b'\'a\' = """\nb\\\n  c"""\n')
FILLED_TOML = (b'# "$A"\r\nb   =\t\'1\' # $A\r\n"$A" = +1_000\n[t]\nd = 1979-05-27\nn = ["1", 1.50,\n  """\n1""",]\n'
               b'\'a\' = """\nb\\\n  c"""\n')
# Texts that aren't YAML, with their fault.
NO_YAML = (
    (b'a:\n  b: $x\n\tc: 2\n', told('<stdin>:3:1', 'invalid YAML: a tab in the indentation', ' c: 2', '^')),
    (b'a: {{ .x }}\n', told('<stdin>:1:5', "invalid YAML: a collection as a key isn't supported; is this a Helm or "
                            'Jinja template?', 'a: {{ .x }}', '    ^')),
    (b'a: "$x\n', told('<stdin>:1:4', "invalid YAML: a missing closing quote", 'a: "$x', '   ^')),
    (b'- a: b: c\n', told('<stdin>:1:6', 'invalid YAML: a key or an item in place of a value; quote values that '
                          "contain ': '", '- a: b: c', '     ^')),
)
# A file of YAML documents, and its output if A is "b: c".
YAML = (b'# "$A"\r\nb  :\t$A # $A\r\n"$A": &a !t \'$A\'\r\nc:\r\n- "$A"\r\n- *a\r\n- |  # $A\r\n  x $A\r\n'
        b'--- {$A: [ $A,\r\n1.50 ]}\r\n')
FILLED_YAML = (b'# "$A"\r\nb  :\t"b: c" # $A\r\n"$A": &a !t \'b: c\'\r\nc:\r\n- "b: c"\r\n- *a\r\n- |  # $A\r\n'
               b'  x b: c\r\n--- {$A: [ "b: c",\r\n1.50 ]}\r\n')
ALL = b'$A ${A} \\$A \\. $B ${B} ${A:x} ${A?} $AB $1 $$ ${ $(A) $'


class Forms(Subst):
    """Options for the kind of a source."""

    def test_bytes(self):
        plain = bytes(byte for byte in range(256) if byte not in b'\\$')
        self.assert_done(['--bytes', '-sA=\u00e4'], plain + b'$A\\$', plain + '\u00e4$'.encode())
        self.assert_done(['--bytes', '-sA=1', '--only=A'], b'\xff\\$A$B\\', b'\xff\\1$B\\')
        self.assert_done(['--bytes', '-sA=1', '--envsubst'], b'\xff\\$A$1\\', b'\xff\\1$1\\')
        self.assert_refused(['--bytes'], b'\xff\xe4$A', missing('A', '<stdin>:1:4', '\ufffd\ufffd$A', '   ^'))
        self.assert_refused(['--bytes'], b'${A\xff', told('<stdin>:1:4', unexpected(r"'\xFF'"), '${A\ufffd', '   ^'))

    def test_text_that_is_not_utf8(self):
        for source, place, line, carets in NOT_UTF8:
            for words in ('', '--only=A', '--envsubst', '--json', '--toml', '--yaml', '--names', '--check'):
                self.assert_refused(words.split(), source, told(f'<stdin>:{place}', 'invalid UTF-8', line, carets))

    def test_json(self):
        self.assert_done(['--json', '-sA="\n\\'], JSON, FILLED_JSON)
        for text, output in ((b' "$A" ', b' "1" '), (b'{}', b'{}'), (b'[\r\n]', b'[\r\n]'), (b'null', b'null'),
                             (b'{"k":"$A","k":"\\u0031"}\n', b'{"k":"1","k":"\\u0031"}\n')):
            self.assert_done(['--json', '-sA=1'], text, output)
        text = b'["\\\\d $A ${A} ${A:-x} \\u0024B"]'
        self.assert_done(['--json', '--envsubst', '-sA=1', '-sB=2'], text, b'["\\\\d 1 1 ${A:-x} 2"]')
        self.assert_done(['--json', '--only=B', '-sB=2'], text, b'["\\\\d $A ${A} ${A:-x} 2"]')

    def test_placeholders_of_strings_that_are_nested(self):
        for option, text in (('--json', b'{"a":{"b":["$S ${H}",{"c":"$H"}]}}'),
                             ('--toml', b'[t.u]\na = [["$S ${H}"], {b.c = "$H"}]\n'),
                             ('--yaml', b't:\n  u:\n  - - $S ${H}\n    - {b: "$H", c: [$H]}\n')):
            only = text.replace(b'${H}', b'h').replace(b'$H', b'h')
            self.assert_done([option, '--only=H', '-sH=h', '-sS=s'], text, only)
            for words in ([], ['--envsubst']):
                self.assert_done([option, *words, '-sH=h', '-sS=s'], text, only.replace(b'$S', b's'))

    def test_faults_of_json(self):
        line = r'{"a": "\u0041\"$x", "b/~": [1, "$x ${y"], "c": {"": "$x"}}'
        self.assert_refused(['--json'], b'\n' + line.encode(),
                            missing('x', '<stdin>:2:17', line, '                ^', '/a'),
                            told('<stdin>:2:37', f'/b~1~0/1: {missing_brace()}', line, ' ' * 36 + '^'),
                            missing('x', '<stdin>:2:55', line, ' ' * 54 + '^', '/c/'))
        # If a key occurs twice, both strings are filled in.
        line = '{"a": "$x", "a": "$y"}'
        self.assert_refused(['--json'], line.encode(), missing('x', '<stdin>:1:9', line, ' ' * 8 + '^', '/a'),
                            missing('y', '<stdin>:1:20', line, ' ' * 19 + '^', '/a'))
        line = r'["\\ \\$a \u0024b"]'
        self.assert_refused(['--json', '--envsubst'], line.encode(),
                            missing('a', '<stdin>:1:9', line, '        ^', '/0'),
                            missing('b', '<stdin>:1:17', line, '                ^', '/0'))

    def test_fault_of_a_document_that_is_a_string(self):
        self.assert_refused(['--json'], b'"$x"', missing('x', '<stdin>:1:3', '"$x"', '  ^'))

    def test_texts_that_are_no_documents(self):
        for option, rows in (('--json', NO_JSON), ('--toml', NO_TOML), ('--yaml', NO_YAML)):
            for source, message in rows:
                for words in ([], ['--names'], ['--check']):
                    self.assert_refused([option, *words], source, message)

    def test_mistakes_in_json(self):
        for line, column, what in MISTAKES:
            message = told(f'<stdin>:2:{column}', what, line, ' ' * (column - 1) + '^')
            for words in ([], ['--names'], ['--check']):
                self.assert_refused(['--json', *words], b'\n' + line.encode() + b'\n', message)
        write('a', b'[1,]')
        for words in (['-i', 'a'], ['-o', 'b', 'a'], ['-O', 'c', 'a']):
            self.assert_refused(['--json', *words], b'', told('a:1:4', 'a trailing comma', '[1,]', '   ^'))
        self.assertEqual((read('a'), os.listdir()), (b'[1,]', ['a']))

    def test_depth_of_documents(self):
        for option, start, levels in (('--json', '', 127), ('--toml', 'a = ', 80)):
            text = start + '[' * levels + '"$A"' + ']' * levels
            self.assert_done([option, '-sA=1'], text.encode(), text.replace('$A', '1').encode())
            end = subst([option], (start + '[' * (levels + 1) + ']' * (levels + 1)).encode())
            self.assertEqual((end.status, end.output), (1, b''))
            self.assertIn(f':1:{len(start) + levels + 1}: error: nested deeper than {levels} levels\n'.encode(), end.errors)
        # Brackets in strings don't count.
        self.assert_done(['--json'], text := b'["' + b'[' * 200 + b'\\"{"]', text)

    def test_variable_outside_a_string_of_toml(self):
        for text, column, what, is_hinted in UNQUOTED:
            *before, line = text.split('\n')
            place = f'<stdin>:{len(before) + 1}:{column}'
            end = run_with_hints(PROGRAM, ['--toml'], text.encode() + b'\n')
            self.assertEqual((end.status, end.output), (1, b''))
            self.assertTrue(end.errors.startswith(f'{place}: error: {what}\n  {line}\n'.encode()), f'{text}')
            hint = f'{place}: hint: put the variable in quotes\n'.encode()
            self.assertEqual(end.errors.endswith(hint), is_hinted, f'{text}')
            self.assertEqual(b'hint' in end.errors, is_hinted, f'{text}')

    def test_json_with_a_byte_order_mark(self):
        mark = b'\xef\xbb\xbf'
        self.assert_done(['--json', '-sA=1'], mark + b'{"a": "$A"}\n', mark + b'{"a": "1"}\n')
        self.assert_done(['--json', '--names'], mark + b'\n["$A"]', b'A\t<stdin>:2:4\trequired\n')
        self.assert_refused(['--json'], mark + b'[\n"$A"]', missing('A', '<stdin>:2:3', '"$A"]', '  ^', '/0'))
        self.assert_refused(['--json'], mark + b'[\n1,]', told('<stdin>:2:3', 'a trailing comma', '1,]', '  ^'))
        self.assert_refused(['--json'], mark + b'["\xff"]', told('<stdin>:1:3', 'invalid UTF-8', '["\ufffd"]', '  ^'))

    def test_toml(self):
        self.assert_done(['--toml', '-sA=1'], TOML, FILLED_TOML)
        self.assert_done(['--toml', '--envsubst', '-sA=1'], b"a = '\\$A$1'\n", b"a = '\\1$1'\n")
        self.assert_done(['--toml'], b'')

    def test_faults_of_toml(self):
        lines = ('[a.b]', '"k k" = "$x"', '[[t]]', 'x = ["a", "\\u00e4$y"]')
        self.assert_refused(['--toml'], '\n'.join(lines).encode(),
                            missing('x', '<stdin>:2:11', lines[1], '          ^', 'a.b."k k"'),
                            missing('y', '<stdin>:4:19', lines[3], '                  ^', 't[0].x[1]'))

    def test_yaml(self):
        self.assert_done(['--yaml', '-sA=b: c'], YAML, FILLED_YAML)
        self.assert_done(['--yaml', '--envsubst', '-sA=1'], b"a: '\\$A$1'\n", b"a: '\\1$1'\n")
        self.assert_done(['--yaml', '--shell', '-sA=1'], b'a: ${A:+$$x}${B:-y}\n', b'a: $xy\n')
        self.assert_done(['--yaml', '--known', '-sA=1'], b'a: $A $B\n', b'a: 1 $B\n')
        self.assert_done(['--yaml', '--only=A', '-sA=1', '-sB=2'], b'a: $A $B\n', b'a: 1 $B\n')
        self.assert_done(['--yaml', '--escape=json', '-sA="'], b'a: "$A"\n', b'a: "\\\\\\""\n')
        for text in (b'', b'# $A', b'a:', b'- $A:\n'):
            self.assert_done(['--yaml', '-sA=1'], text, text)
        self.assert_done(['--yaml', '--check', '-sA=1'], YAML)

    def test_yaml_with_a_byte_order_mark(self):
        mark = b'\xef\xbb\xbf'
        self.assert_done(['--yaml', '-sA=1'], mark + b'a: $A\n', mark + b'a: 1\n')
        self.assert_done(['--yaml', '--names'], mark + b'\n- $A', b'A\t<stdin>:2:4\trequired\n')
        self.assert_refused(['--yaml'], mark + b'- $A', missing('A', '<stdin>:1:4', '- $A', '   ^', '[0]'))
        self.assert_refused(['--yaml'], mark + b'- "\xff"', told('<stdin>:1:4', 'invalid UTF-8', '- "\ufffd"', '   ^'))
        # A mark after the start is a character that not every reader accepts.
        what = 'invalid YAML: a character that some YAML readers reject'
        self.assert_refused(['--yaml'], b'a: ' + mark, told('<stdin>:1:4', what, 'a: \\u{feff}', '   ' + 8 * '^'))

    def test_faults_of_yaml(self):
        """Each fault is at its own position, within its value."""
        lines = ('a:', '  k k: $x', '- b', '--- # 2', '"c d":', '- - "e"', '  - {f: [g, \'$y $z\']}')
        self.assert_refused(['--yaml'], '\n'.join(lines[:2] + lines[3:]).encode(),
                            missing('x', '<stdin>:2:9', lines[1], '        ^', 'a.k k'),
                            missing('y', '<stdin>:6:15', lines[6], '              ^', '2:"c d"[0][1].f[1]'),
                            missing('z', '<stdin>:6:18', lines[6], '                 ^', '2:"c d"[0][1].f[1]'))
        message = told('<stdin>:1:4', f'a: {NO_NAME}', 'a: $', '   ^')
        for words in ([], ['--names'], ['--check']):
            self.assert_refused(['--yaml', *words], b'a: $', message)
        self.assert_refused(['--yaml'], b'$x', missing('x', '<stdin>:1:2', '$x', ' ^'))
        write('good.yaml', b'- $A\n')
        write('bad.yaml', b'- $B\n')
        refused = missing('B', 'bad.yaml:1:4', '- $B', '   ^', '[0]')
        for words in (['-i'], ['-Oout']):
            self.assert_refused(['--yaml', '-sA=x: y', *words, 'bad.yaml', 'good.yaml'], b'', refused)
        self.assertEqual((read('bad.yaml'), read('good.yaml'), read('out/good.yaml')),
                         (b'- $B\n', b'- "x: y"\n', b'- "x: y"\n'))

    def test_only(self):
        taken = b'1 1 \\1 \\. $B ${B} 1 1 $AB $1 $$ ${ $(A) $'
        both = taken.replace(b'$B ${B}', b'2 2')
        variables = ['-sA=1', '-sB=2']
        for names in ('A', '$A', '${A}', ' A, ', 'A,A', ',A,'):
            self.assert_done(['--only', names, *variables], ALL, taken)
        for words in (['--only=A,B'], ['--only=A B'], ['--only=$B\t${A}\n'], ['--only=A', '--only', 'B']):
            self.assert_done([*words, *variables], ALL, both)
        for words in (['--only='], ['--only', ''], ['--only', ' , ', '--only=']):
            self.assert_wrong([*words, *variables], '--only needs a name', source=ALL)
        self.assert_done(['--only=', '--only=A', *variables], ALL, taken)
        self.assert_done(['--only=1', '-s1=x'], b'$1 ${1} $12', b'x x $12')
        for name in ('a-b', '$', '${}', '${A', '$A}', '{A}', '\u00e4', '$$A'):
            self.assert_wrong(['--only', f'A,{name}'], f"'{name}' of --only is not a variable name")

    def test_envsubst(self):
        taken = b'1 1 \\1 \\. 2 2 ${A:x} ${A?} 3 $1 $$ ${ $(A) $'
        self.assert_done(['--envsubst', '-sA=1', '-sB=2', '-sAB=3'], ALL, taken)
        self.assert_refused(['--envsubst', '-sA=$A\\'], b'$A $_a $1',
                            missing('_a', '<stdin>:1:5', '$A $_a $1', '    ^^'), env={})

    def test_places_are_those_in_the_text_that_was_given(self):
        lines = (r'\$\. $$ $1 \$A', r'{\} $Q${A?}: \\${Q}')
        source = '\n'.join(lines).encode()
        faults = (missing('A', '<stdin>:1:14', lines[0], '             ^'),
                  missing('Q', '<stdin>:2:6', lines[1], '     ^'),
                  missing('Q', '<stdin>:2:18', lines[1], '                 ^'))
        for words in (['--envsubst'], ['--only=A,Q'], ['--envsubst', '--bytes'], ['--only=A,Q', '--bytes']):
            self.assert_refused(words, source, *faults)
            self.assert_done([*words, '--names'], source, b'A\t<stdin>:1:14\trequired\nQ\t<stdin>:2:6\trequired\n')


class ChosenNames(Subst):
    """Options that choose names."""

    def test_known(self):
        source = b'root /srv/${APP}$uri; ${APP:x} $1 \\$APP $EMPTY$$'
        for words in (['-e'], ['-sAPP=shop', '-sEMPTY=']):
            for form, default in (([], b'shop'), (['--envsubst'], b'${APP:x}')):
                output = b'root /srv/shop$uri; ' + default + b' $1 \\shop $$'
                self.assert_done(['--known', *form, *words], source, output, env={'APP': 'shop', 'EMPTY': ''})
        self.assert_done(['--known', '-e'], source, source.replace(b'${APP:x}', b'x'), env={})
        self.assert_done(['--known', '--no-empty', '-sEMPTY='], b'$EMPTY', b'$EMPTY')
        self.assert_done(['--known', '--json', '-sA="'], b'["$A $B", {"k": "${A}"}]', b'["\\" $B", {"k": "\\""}]')
        self.assert_done(['--known', '--bytes', '-sA=1'], b'\xff$A$B', b'\xff1$B')
        self.assert_refused(['--known', '-e'], b'$A $B', told('<stdin>:1:2', f'{UNREADABLE}A', '$A $B', ' ^'),
                            env={b'A': b'\xff'})

    def test_optional(self):
        for words in (['--envsubst', '--optional'], ['--only=A,B,a1', '--optional'], ['--shell', '--optional'],
                      ['--shell']):
            self.assert_done([*words, '-sA=1'], b'[$A][${B}][$a1] $1 \\$B $', b'[1][][] $1 \\ $')
            self.assert_done([*words, '-sA=1', '-sB=real'], b'$A$B', b'1real')
            self.assert_done([*words, '-sX=', '--bytes'], b'\xff$A.', b'\xff.')
            self.assert_done([*words, '-sX=', '--json'], b'["$A", "$A $B"]', b'["", " "]')
            self.assert_done([*words, '-sX=', '--check'], b'$A')
            self.assert_done([*words, '--names'], b'\n\\ ${A}', b'A\t<stdin>:2:5\toptional\n')
        self.assert_refused(['--envsubst', '--optional', '-e'], b'\\ $B $A',
                            told('<stdin>:1:7', f'{UNREADABLE}A', '\\ $B $A', '      ^'), env={b'A': b'\xff'})
        for words in ([], ['--json']):
            self.assert_wrong(['--optional', *words], '--optional needs --envsubst, --shell, --only or --known')
        for words in ([], ['--shell'], ['--envsubst'], ['--only=A'], ['--known']):
            self.assert_wrong(['--optional', '--strict', *words], "--strict can't be used with --optional")

    def test_strict(self):
        """With `--shell`; elsewhere an unset variable is an error without it."""
        fault = missing('B', '<stdin>:1:10', '$A ${A} $B', ' ' * 9 + '^')
        for words in (['--shell'], ['--compose', '--only=A,B'], ['--envsubst'], ['--only=A,B'], []):
            self.assert_refused([*words, '--strict', '-sA=1'], b'$A ${A} $B', fault)
            self.assert_done([*words, '--strict', '--names'], b'${A}', b'A\t<stdin>:1:3\trequired\n')
        self.assert_done(['--shell', '--strict', '--known', '-sA=1'], b'$A $B ${B-d}', b'1 $B d')

    def test_names_that_begin_so(self):
        source = b'$APP_A ${APP_1} ${APP_} $APP $APPLE \\$B_1'
        for names in ('APP_*', '$APP_*', '${APP_*}', ' A APP_*,', 'APP_*,$APP_1'):
            for words in ([], ['--envsubst'], ['--shell']):
                given = [f'-s{name}={at}' for at, name in enumerate(('APP_A', 'APP_1', 'APP_', 'APP', 'APPLE'), 1)]
                self.assert_done(['--only', names, *words, *given], source, b'1 2 3 $APP $APPLE \\$B_1')
        self.assert_done(['--only=1*', '-s1=x', '-s12=y'], b'$1 $12 $21', b'x y $21')
        self.assert_done(['--only=A*', '--names'], b'$AB ${A:d} $B',
                         b'AB\t<stdin>:1:2\trequired\nA\t<stdin>:1:7\tdefault\td\n')
        self.assert_done(['--only=A,B', '--names'], b'$A? ${B?}',
                         b'A\t<stdin>:1:2\trequired\nB\t<stdin>:1:7\toptional\n')
        for name in ('*', '$*', '${*}', '*A', 'A**', 'A*B', 'A-*', '$A*}', '\u00e4*'):
            self.assert_wrong(['--only', f'A,{name}'], f"'{name}' of --only is not a variable name")

    def test_options_that_need_variables(self):
        write('file', b'$A')
        write('empty', b'')
        os.mkdir('folder')
        sources = (['-e'], ['-sB='], ['-fempty'], ['-ffolder'], ['--set-file=B=empty'], ['--default=B='],
                   ['--defaults=empty'])
        for option, more in (('--known', []), ('--known', ['--envsubst']), ('--known', ['--optional']), ('--shell', []),
                             ('--compose', []), ('--shell', ['--only=A']), ('--optional', ['--envsubst']), ('--optional', ['--only=A'])):
            text = f"{option} needs variables; use -e for the environment's"
            for words in ([], ['-o', 'new'], ['-O', 'new'], ['-i'], ['--check'], ['--no-empty'], ['--json'],
                          ['--no-empty', '--escape=sh']):
                self.assert_wrong([option, *more, *words, 'file'], text)
            for words in sources:
                self.assert_done([option, *more, '--check', *words, 'file'], env={})
            if option != '--known':
                self.assert_done([option, *more, '--names', 'file'], output=b'A\tfile:1:2\toptional\n')
        for words in (['--envsubst'], ['--only=A'], []):
            self.assert_done([*words, '--check'], b'')
        self.assert_file('file', b'$A')
        self.assert_files('file', 'empty', 'folder')


def splits(text):
    """Splits a text. Each part `$N..` is a variable."""
    parts = text.split('$N')
    found = parts[:1]
    for part in parts[1:]:
        digits = len(part) - len(part.lstrip('0123456789'))
        found += [f'$N{part[:digits]}', part[digits:]]
    return found


def mapped(change, tree):
    if isinstance(tree, str):
        return change(tree)
    if isinstance(tree, list):
        return [mapped(change, item) for item in tree]
    return {key: mapped(change, item) for key, item in tree.items()}


class Unchanged(Subst):
    """Text that must stay as it is, and text that must not be in an output."""

    def test_values_are_never_templates(self):
        for words, source in in_each_form('$A ${A} ${x:$A}'):
            wanted = source.replace(b'${x:$A}', b'$A').replace(b'${A}', b'$A').replace(b'$A', b'$B')
            self.assert_done([*words, '-sA=$B', '-sB=secret'], source, wanted)
            self.assert_done([*words, '-sA=${B:$B}', '-sB=secret'], source, wanted.replace(b'$B', b'${B:$B}'))

    def test_environment_is_taken_where_it_is_asked_for(self):
        for words, source in in_each_form('$HOME'):
            for more in ([], ['--only=HOME'], ['--envsubst']):
                self.assertEqual(subst([*words, *more], source, env={'HOME': 'secret'}).status, 1, f'{words} {more}')
                self.assert_done([*words, *more, '-e'], source, source.replace(b'$HOME', b'shown'),
                                 env={'HOME': 'shown'})
        for words, source in in_each_form('${HOME?}${HOME:d}'):
            self.assert_done(words, source, source.replace(b'${HOME?}${HOME:d}', b'd'), env={'HOME': 'secret'})

    def test_value_that_is_not_utf8_is_never_left_out(self):
        for text in ('${BAD?}', '${BAD:d}', '${BAD:}', '${A:${BAD:d}}'):
            for words, source in in_each_form(text):
                end = subst([*words, '-e'], source, env={b'BAD': b'\xff'})
                self.assertTrue((end.status, end.output) == (1, b'') and f'{UNREADABLE}BAD'.encode() in end.errors,
                                f'{words} {text}')

    def test_names_that_are_not_listed_stay(self):
        """At any depth, at any length, and after any number of members, items and tables."""
        long = 'x' * 2000
        names = {f'N{number}': f'v{number}' for number in range(100)}
        strings = [f'{long}$S ${{H}}{long}', *(f'$N{number}$S' for number in range(100))]
        tree = {'a': {'b': {'c': strings, **{f'k{number}': {'d': ['$S ${H}', '$H']} for number in range(300)}}}}
        known = lambda text: ''.join(names.get(part[1:], part) for part in splits(text))
        filled = lambda text: known(text).replace('${H}', 'h').replace('$H', 'h')
        words = ['-sH=h', '-sS=secret', *(f'-s{name}={value}' for name, value in names.items())]
        only = f'--only=H,{",".join(names)}'
        for kind, source in (('json', json.dumps(tree)), ('toml', toml_of(tree))):
            every = lambda text: filled(text).replace('$S', 'secret')
            for more, change in ((only, filled), ('--envsubst', every)):
                self.assert_tree(subst([f'--{kind}', more, *words], source.encode()), kind, mapped(change, tree))
