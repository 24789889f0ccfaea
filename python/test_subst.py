"""Tests of the package subst, over the library that it finds. If the package has its module in C, they are run again by
ctypes alone. tests/test_vectors.py compares its answers to all stored rows, and the text of every fault.
"""
import collections.abc
import concurrent.futures
import copy
import ctypes
import doctest
import gc
import itertools
import os
import pathlib
import pickle
import re
import shutil
import subprocess
import sys
import tempfile
import threading
import time
import unittest
from unittest import mock

import subst
from subst import (DocumentError, FaultKind, Forms, ShellError, ShellForm, SubstError, Template, Variable, VariableKind,
                   _library, _source, _style)

MIB = 1 << 20
# Lengths of values around the sizes of the memory that is kept.
SIZES = (64 * 1024 - 1, 64 * 1024, MIB, 3 * MIB + 1)


def load_tests(loader, tests, _pattern):
    tests.addTests(doctest.DocTestSuite(subst))
    if _library.in_c is not None:
        for case in (it for it in Case.__subclasses__() if it is not Package):
            again = type(f'{case.__name__}ByCtypes', (case,), {'setUp': by_ctypes})
            tests.addTests(loader.loadTestsFromTestCase(again))
    return tests


def by_ctypes(test):
    """Lets a test run by ctypes alone."""
    for patch in (mock.patch.object(subst, '_in_c', None), mock.patch.object(_source, '_in_c', None),
                  mock.patch.dict(subst._kept, {str: {}, bytes: {}})):
        patch.start()
        test.addCleanup(patch.stop)


def encoded(variables):
    return {name.encode(): value.encode() for name, value in variables.items()}


def resident():
    """Returns the bytes of memory that this process uses."""
    return int(pathlib.Path('/proc/self/statm').read_text().split()[1]) * os.sysconf('SC_PAGE_SIZE')


class Case(unittest.TestCase):
    """A case, and what all tests share."""

    def refused(self, call, *arguments, **more):
        """Returns the SubstError that a call raises."""
        with self.assertRaises(SubstError) as caught:
            call(*arguments, **more)
        return caught.exception


class Results(Case):
    """Outputs of sources."""

    def expect(self, source, variables, wanted):
        """Expects this output in each way, for a text and for its bytes."""
        for source, variables, wanted in ((source, variables, wanted),
                                          (source.encode(), encoded(variables), wanted.encode())):
            template = Template(source)
            for found in (subst.fill_in(source, variables), *(template.fill_in(variables) for _ in range(4)),
                          *template.fill_in_each([variables] * 2)):
                self.assertEqual(found, wanted)
                self.assertIs(type(found), type(source))
            self.assertIsNone(subst.check(source))
            self.assertEqual(subst.missing(source, variables), [])

    def test_each_way(self):
        for source, variables, wanted in (
                ('', {'a': '1'}, ''),
                ('Hello', {}, 'Hello'),
                (r'\$ä ${a}${b?} ${c:<$d>}', {'é': 'x', 'a': r'→$c', 'd': ''}, '$ä →$c <>'),
                ('\0$a\0', {'a': '\0\0', '\0': 'x'}, '\0\0\0\0'),
                ('$a0 $a1999', {f'a{number}': str(number) for number in range(2000)}, '0 1999'),
                (''.join(f'${{{at}:x}}' for at in range(64)), {f'{at}': 'v' for at in range(32)}, 32 * 'v' + 32 * 'x'),
                ('$a' * 1024, {'a': 'é' * 512}, 'é' * (MIB // 2)),
                ('$a' * 8, {'a': 'x' * MIB}, 'x' * 8 * MIB),
                ('ä$a' * 40000, {'a': 'ö', 'b': 'x'}, 'äö' * 40000),
                *(('$a', {'a': 'x' * length}, 'x' * length) for length in (0, *range(1000, 1050), *SIZES)),
                *(('$a' * 3, {'a': 'x' * length}, 'x' * length * 3) for length in range(330, 350))):
            self.expect(source, variables, wanted)

    def test_bytes_that_are_not_utf8(self):
        variables = {b'a': b'\xc3', b'\xfe': b''}
        self.assertEqual(subst.fill_in(b'\xff$a\x80', variables), b'\xff\xc3\x80')
        self.assertEqual(Template(b'\xff$a').fill_in_each([variables]), [b'\xff\xc3'])

    def test_other_types_of_these_kinds(self):
        class Text(str):
            pass
        self.assertEqual(subst.fill_in(Text('$a'), {Text('a'): Text('1')}), '1')
        class Longer(bytes):
            def __len__(self):
                return 1 << 30
        self.assertEqual(subst.fill_in(Longer(b'$a'), {Longer(b'a'): Longer(b'1')}), b'1')
        class Shorter(str):
            def __len__(self):
                return 1
        self.assertEqual(subst.fill_in('$a$b', {'a': Shorter('12'), 'b': '3'}), '123')
        with mock.patch.dict(os.environ, {'SUBST_TEST': 'x'}):
            self.assertEqual(subst.fill_in(b'$SUBST_TEST', os.environb), b'x')

    def test_what_is_taken_as_bytes(self):
        for kind in (bytes, bytearray, memoryview):
            template = Template(kind(b'$a'))
            self.assertEqual((template.source, type(template.source)), (b'$a', bytes))
            for found in (subst.fill_in(kind(b'$a'), {b'a': kind(b'1')}), template.fill_in({b'a': kind(b'1')})):
                self.assertEqual((found, type(found)), (b'1', bytes))
            self.assertEqual(subst.variables(kind(b'$a')), [(VariableKind.REQUIRED, b'a', 1)])
        self.assertEqual(subst.fill_in(memoryview(b'a$')[::-1], {b'a': memoryview(b'21')[::-1]}), b'12')

    def test_mapping_that_changes(self):
        template, variables = Template('$a ${b:-}'), {'a': 'first', 'b': 'x'}
        rows = [variables]
        for value in ('second', '3', '', 'é' * 2000, '4', 'last', ''):
            for call in (lambda: subst.fill_in('$a ${b:-}', variables), lambda: template.fill_in(variables),
                         lambda: template.fill_in_each(rows)[0], lambda: subst.fill_in('$a ${b:-}' + ' ' * MIB, variables)):
                self.assertEqual(call().rstrip(), f'{variables["a"]} {variables.get("b", "-")}')
            variables['a'] = value
            if value == 'last':
                del variables['b']

    def test_keyword_arguments(self):
        self.assertEqual(subst.fill_in('$source $variables', source='a', variables='b'), 'a b')
        self.assertEqual(subst.fill_in('$a $b', {'a': '1', 'b': '2'}, b='3'), '1 3')
        self.assertEqual(subst.fill_in(b'$a', a=b'1'), b'1')
        self.assertEqual(Template('$self').fill_in(self='1'), '1')
        self.assertEqual(Template('$a $b').missing({'a': ''}, b=''), [])
        self.assertEqual(subst.missing('$a $b', b=''), [(VariableKind.REQUIRED, 'a', 1)])
        self.assertEqual(subst.fill_in_json('["$a"]', a='1'), '["1"]')
        self.assertEqual(subst.fill_in_toml('a = "$a"', {'a': '2'}, a='1'), 'a = "1"')
        self.assertEqual(subst.fill_in_yaml('a: $a', {'a': '2'}, a='1'), 'a: 1')


class Asked(Case):
    """Lookups in a mapping."""

    class Mapping(collections.abc.Mapping):
        """A mapping with a value for each name, which records the lookups."""

        def __init__(self):
            self.asked = []

        def __getitem__(self, name):
            self.asked.append(name)
            return name.upper()

        def __iter__(self):
            raise AssertionError('its names are not asked for')

        def __len__(self):
            raise AssertionError('its length is not asked for')

    def asked(self, call):
        """Returns the result of a call, and the names that it looks up."""
        variables = self.Mapping()
        return call(variables), variables.asked

    def test_each_name_once_in_order(self):
        source = r'$b ${a:$c} \$a $b${d?}$a'
        names = ['b', 'a', 'c', 'd']
        self.assertEqual(self.asked(lambda it: subst.fill_in(source, it)), ('B A $a BDA', names))
        template = Template(source)
        for _ in range(3):
            self.assertEqual(self.asked(template.fill_in), ('B A $a BDA', names))
        self.assertEqual(self.asked(lambda it: template.fill_in_each([it, it])), (['B A $a BDA'] * 2, names * 2))
        self.assertEqual(self.asked(template.missing), ([], names))
        self.assertEqual(self.asked(lambda it: template.fill_in(it, a='x')), ('B x $a BDx', ['b', 'c', 'd']))
        self.assertEqual(self.asked(lambda it: subst.fill_in(source.encode(), it)), (b'B A $a BDA', [
            name.encode() for name in names]))
        self.assertEqual(self.asked(lambda it: subst.fill_in('$a $b ' * MIB, it)), ('A B ' * MIB, ['a', 'b']))

    def test_names_of_documents(self):
        text = '{"$k": ["\\u0024\\u0061b", "\\\\$e $c", "${d:x}"]}'
        self.assertEqual(self.asked(lambda it: subst.fill_in_json(text, it))[1], ['k', 'ab', 'e', 'c', 'd'])
        text = 'a = """$na\\\n  me \\U00000024b"""\nc = \'\\\\$d\' # $e'
        self.assertEqual(self.asked(lambda it: subst.fill_in_toml(text, it))[1], ['name', 'b', 'd', 'e'])
        text = 'a: "\\x24k\\u0061b $b\\/"\nc: \'\\\\$d\'\n# ${e\\\nf: $g\n'
        self.assertEqual(self.asked(lambda it: subst.fill_in_yaml(text, it))[1], ['kab', 'b', 'd', 'ef', 'g'])

    def test_mappings_that_make_values(self):
        class Upper(dict):
            def __missing__(self, name):
                return name.upper()
        for variables in (collections.defaultdict(lambda: 'x', b='y'), Upper(b='y')):
            value = variables['a']
            self.assertEqual(subst.fill_in('$a$b', variables), f'{value}y')
            self.assertEqual(Template('$a$b').fill_in_each([variables]), [f'{value}y'])
            self.assertEqual(subst.fill_in_json('["$a$b"]', variables), f'["{value}y"]')

    def test_values_that_are_not_named(self):
        variables = {'a': '1', 'b': 2, 'c': '\udc80', 3: None, '\ud800': ''}
        for source in ('$a', '$a' * MIB):
            self.assertEqual(subst.fill_in(source, variables), source.replace('$a', '1'))
        self.assertEqual(Template('$a').fill_in_each([variables]), ['1'])
        self.assertEqual(subst.fill_in_json('["$a"]', variables), '["1"]')
        with mock.patch.dict(os.environb, {b'SUBST_TEST': b'\xff', b'SUBST_OTHER': b'x'}):
            self.assertEqual(subst.fill_in('$SUBST_OTHER', os.environ), 'x')
            self.assertRaises(UnicodeEncodeError, subst.fill_in, '$SUBST_TEST', os.environ)

    def test_mapping_that_raises(self):
        class Broken(self.Mapping):
            def __getitem__(self, name):
                raise ZeroDivisionError(name)
        class Name(str):
            __hash__ = str.__hash__
            def __eq__(self, other):
                raise ZeroDivisionError(str(other))
        template = Template('$a')
        for variables in (Broken(), collections.ChainMap({}, Broken()), {Name('a'): 'x'}):
            for call in (template.fill_in, template.missing, lambda it: subst.fill_in('$a', it),
                         lambda it: template.fill_in_each([{'a': 'x'}, it]), lambda it: subst.fill_in_json('"$a"', it)):
                with self.assertRaisesRegex(ZeroDivisionError, '^a$') as caught:
                    call(variables)
                self.assertIsNone(caught.exception.__context__)

    def test_dict_that_changes_at_a_lookup(self):
        """A key that is compared by a method of its own may call the package, and change the dict."""
        for kind, source, a, b, value in ((str, '$a$b', 'a', 'b', 'é'), (bytes, b'$a$b', b'a', b'b', b'x')):
            template = Template(source)
            class Name(kind):
                __hash__ = kind.__hash__
                def __eq__(self, other):
                    nested.append(template.fill_in({a: a, b: b}))
                    nested.append(subst.fill_in(source, {a: a, b: b}))
                    variables[a] = a
                    return kind.__eq__(self, other)
            for call in (template.fill_in, lambda it: subst.fill_in(source, it),
                         lambda it: template.fill_in_each([it])[0]):
                nested, variables = [], {a: value * 3000, Name(b): b}
                self.assertEqual(call(variables), value * 3000 + b)
                self.assertEqual(({*nested}, variables), ({a + b}, {a: a, b: b}))

    def test_many_names(self):
        for count in (0, 1, 15, 16, 17, 65, 1000):
            source = ''.join(f'<$a{number}>' for number in range(count)) * 2
            for kind in (str, bytes):
                text, variables = source, {f'a{number}': f'é{number}' for number in range(count)}
                wanted = ''.join(f'<é{number}>' for number in range(count)) * 2
                if kind is bytes:
                    text, variables, wanted = text.encode(), encoded(variables), wanted.encode()
                self.assertEqual((subst.fill_in(text, variables), Template(text).fill_in(variables)), (wanted, wanted))
                self.assertEqual(len(subst.missing(text)), 2 * count)

    def test_mapping_that_fills_in_itself(self):
        template = Template('$a$b')
        class Nested(self.Mapping):
            def __getitem__(self, name):
                return name if name == 'a' else template.fill_in({'a': 'x', 'b': 'y'})
        for _ in range(4):
            self.assertEqual(template.fill_in(Nested()), 'axy')


class Choices(Case):
    """The choice of names, and of optional variables."""

    def test_only(self):
        text = 'C:\\dir $HOST ${PORT} $HOSTS ${PORT:1} $ ${ {}:\\$é'
        for names in (['PORT', 'HOST'], {'PORT', 'HOST', 'é', '', 'a b'}, iter(('HOST', 'PORT'))):
            self.assertEqual(subst.fill_in(text, {'HOST': 'h\\$', 'PORT': '1'}, only=names),
                             text.replace('$HOST ${PORT}', 'h\\$ 1'))
        self.assertEqual(subst.fill_in(text, only=[]), text)
        self.assertEqual(subst.fill_in('$name $5', {'5': 'v'}, only=['5']), '$name v')
        self.assertEqual(subst.fill_in(text.encode(), {b'PORT': b'1'}, only=[b'PORT']),
                         text.replace('${PORT}', '1').encode())
        template = Template('\\é$a $b', only=['b', 'a'])
        self.assertEqual(repr(template), "Template('\\\\é$a $b', only=['a', 'b'])")
        self.assertEqual(template.variables(), [(VariableKind.REQUIRED, 'a', 3), (VariableKind.REQUIRED, 'b', 6)])
        self.assertEqual(template.missing({'a': ''}), [(VariableKind.REQUIRED, 'b', 6)])
        self.assertEqual(template.fill_in_each([{'a': '1', 'b': '2'}]), ['\\é1 2'])

    def test_only_refused(self):
        for wide in ('é', '中'):
            error = self.refused(subst.fill_in, f'\\\r\n\t\\{wide}$$a ${{b}} $c\n', {'a': ''}, only=['a', 'b'])
            column = 10 if wide == 'é' else 11
            self.assertEqual((error.position, error.length, error.line, error.column, error.name), (12, 1, 2, column, 'b'))
            self.assertEqual(error.highlighting, f'  \t\\{wide}$$a ${{b}} $c\n  {" " * (column - 1)}^\n')
        error = self.refused(subst.fill_in, '$' * 60 + '$b', {}, only=['b'])
        self.assertEqual((error.position, error.highlighting), (61, ''))
        error = self.refused(subst.fill_in, b'\xff$b', {}, only=[b'b'])
        self.assertEqual((error.position, error.line, error.highlighting), (2, None, ''))

    def test_options_of_wrong_types(self):
        """The message says what an option must be, and where a variable of its name has to go."""
        flags = {name: ('a bool', ('z', b'', '', 0, 1, None)) for name in ('optional', 'no_empty', 'known')}
        only = 'names, each str as the source is', ('ab', b'ab', ['a', b'b'], [1], 1)
        wrong = {**flags, 'only': only, 'forms': ('one of Forms', ('SHELL', None, 1.5))}
        documents = subst.fill_in_json, subst.fill_in_toml, subst.fill_in_yaml
        for calls, names in (((subst.fill_in, Template, subst.fill_in_tree), 'only optional no_empty'),
                             ((subst.from_envsubst,), 'only optional'), ((subst.missing, *documents), 'no_empty'),
                             ((subst.fill_in_by_style,), 'only known optional no_empty forms')):
            for call, name in itertools.product(calls, names.split()):
                wanted, values = wrong[name]
                for value in values:
                    more = {'forms': Forms.OWN, name: value} if call is subst.fill_in_by_style else {name: value}
                    with self.assertRaisesRegex(TypeError, f'^{name} is an option, which must be {wanted}; pass a '
                                                           'variable of this name in the mapping$'):
                        call('', **more)
        for name in ('optional', 'no_empty'):
            self.assertRaises(TypeError, subst.fill_in, 'x' * MIB, {}, **{name: ''})
            self.assertEqual(subst.fill_in(f'x ${name}', {name: 'z'}), 'x z')
            self.assertEqual(Template(f'x ${name}').fill_in(**{name: 'z'}), 'x z')

    def test_optional(self):
        for source, wanted in (('[$a] [${a}] [${a?}] [${a:x$b}] [${c:$d}]', '[] [] [] [x] [v]'), ('$a$a{$a}', '{}'),
                               ('é$a', 'é'), (r'\$a', '$a')):
            self.assertEqual(subst.fill_in(source, {'c': 'v'}, optional=True), wanted)
            template = Template(source.encode(), optional=True)
            self.assertEqual(template.fill_in({b'c': b'v'}), wanted.encode())
            self.assertEqual(template.missing({}), [])
        self.assertEqual(Template('é$a ${b:}', optional=True).variables(),
                         [(VariableKind.OPTIONAL, 'a', 2), (VariableKind.WITH_DEFAULT, 'b', 6)])
        self.assertEqual(self.refused(Template, 'é$').position, self.refused(Template, 'é$').position)
        self.assertEqual(subst.fill_in('$a $b', optional=True, only=['a']), ' $b')

    def test_no_empty(self):
        template = Template(b'${a:x}', no_empty=True)
        for value in (b'', b'1', bytearray(), memoryview(b''), b'2') * 2:
            wanted = bytes(value) or b'x'
            self.assertEqual(template.fill_in({b'a': value}), wanted)
            self.assertEqual(template.fill_in_each([{b'a': value}, {}]), [wanted, b'x'])
        empty = {'a': '', 'b': '1'}
        self.assertEqual(subst.fill_in('${a?}${a:x}$b', empty, no_empty=True), 'x1')
        self.assertEqual(subst.fill_in('[$a$b]' + ' ' * MIB, empty, no_empty=True, optional=True)[:3], '[1]')
        self.assertEqual(subst.fill_in('${a:x}', no_empty=True, a=''), 'x')
        self.assertEqual(subst.fill_in('$b', empty, no_empty=True, b=''), '1')
        self.assertEqual(subst.fill_in('$a', os.environ, no_empty=True, only=[]), '$a')
        self.assertEqual(subst.fill_in_tree(['${a:x}$b', {}], empty, no_empty=True), ['x1', {}])
        self.assertEqual(subst.fill_in_json('["${a:x}"]', empty, no_empty=True), '["x"]')
        self.assertEqual(subst.fill_in_toml('a = "${a:x}"', empty, no_empty=True), 'a = "x"')
        self.assertEqual(subst.fill_in_yaml(b'a: ${a:x}', no_empty=True, a=b''), b'a: x')
        for text, wanted in (('${a-x}${b+y}', 'xy'), ('$a', '$a'), ('${a+y}', '')):
            found = subst.fill_in_by_style(text, empty, forms=Forms.SHELL, known=True, no_empty=True)
            self.assertEqual(found, wanted)
        wanted = [(VariableKind.REQUIRED, 'a', 1)]
        self.assertEqual(subst.missing('$a$b', empty, no_empty=True), wanted)
        self.assertEqual(Template('$a$b', no_empty=True).missing(empty), wanted)
        for call, source in ((subst.fill_in, '$a'), (subst.fill_in_tree, '$a'), (subst.fill_in_json, '"$a"')):
            self.assertEqual(self.refused(call, source, empty, no_empty=True).name, 'a')
            with self.assertRaisesRegex(TypeError, "^the value of 'a' must be str as the source is, not "):
                call(source, {'a': b''}, no_empty=True)
        self.assertEqual(self.refused(Template('$a', no_empty=True).fill_in_each, [{'a': '1'}, {'a': ''}]).row, 1)

    def test_from_envsubst(self):
        text = '$5 ${5} $a ${b_1} ${c:x} $$ \\ é ${'
        template = subst.from_envsubst(text)
        self.assertEqual(template, '\\$5 \\${5} $a ${b_1} \\${c:x} \\$\\$ \\\\ é \\${')
        self.assertEqual(subst.fill_in(template, a='1', b_1='2'), text.replace('$a', '1').replace('${b_1}', '2'))
        self.assertEqual(subst.from_envsubst(text.encode(), only=[b'a', b'5'], optional=True),
                         template.replace('$a ${b_1}', '${a?} \\${b_1}').encode())
        for text, only, required, optional in (
                ('$5 \\n ${name}$b ${1}$', None, '\\$5 \\\\n ${name}$b \\${1}\\$', '\\$5 \\\\n ${name?}${b?} \\${1}\\$'),
                ('$name ${name} $names \\$5', ['name'], '$name ${name} \\$names \\\\\\$5',
                 '${name?} ${name?} \\$names \\\\\\$5'),
                ('\\', None, '\\\\', '\\\\')):
            self.assertEqual(subst.from_envsubst(text, only=only), required)
            self.assertEqual(subst.from_envsubst(text, only=only, optional=True), optional)

    def test_from_shell(self):
        text = '$a:${b}:${c:-é$a}:${d:?no d} $$ \\ {}'
        template = subst.from_shell(text)
        self.assertEqual(template, '${a?}:${b?}:${c:é${a?}}:${d} \\$ \\\\ {}')
        self.assertEqual(subst.fill_in(template, a='1', d='4'), '1::é1:4 $ \\ {}')
        for given, wanted in ((text.encode(), template.encode()), (bytearray(b'\xff$$'), b'\xff\\$'), ('', ''),
                              ('$a' * MIB, '${a?}' * MIB)):
            found = subst.from_shell(given)
            self.assertTrue(found == wanted and type(found) is type(wanted), wanted[:99])

    def test_places_of_a_shell(self):
        """A missing variable is placed in the template, or by a style in the text."""
        text = 'é $$ ${a:-x} ${b:?no b}'
        template = subst.from_shell(text)
        self.assertEqual(self.refused(subst.fill_in, template, no_empty=True, b='').position, template.index('b}'))
        for forms in (Forms.SHELL, Forms.COMMON):
            self.assertEqual(self.refused(subst.fill_in_by_style, text, forms=forms).position, text.index('b:'))

    def test_forms_of_a_shell(self):
        texts = ('$1', '${}', '${a-b}', '${a?b}', '${a=b}', '${a+b}', '${a:=b}', '${a:+b}', '${a:1}', '${a#b}',
                 '${a%b}', '${a/b/c}', '${a!}', '${a:?{}}', '${a:-{}}', '${a:-$b')
        said = {'$1': "a dollar that begins no variable can't be given here",
                '${}': "`${` without a name can't be given here",
                '${a:+b}': "`:+` of a shell's variable can't be given here",
                '${a:-{}}': "an opening brace in a default can't be given here",
                '${a:-$b': "a variable without its closing brace can't be given here"}
        for form, text in (*zip(ShellForm, texts), (ShellForm.DOLLAR, '$(b)'), (ShellForm.NO_NAME, '${1}')):
            at = text.index('{}') if form is ShellForm.BRACE else 0
            for before, place in (('é\né ', (2, 3 + at)), (b'\xff ', (None, None))):
                source = before + (text if isinstance(before, str) else text.encode())
                with self.assertRaises(ShellError) as caught:
                    subst.from_shell(source)
                error = caught.exception
                self.assertEqual((error.form, error.position, error.length), (form, len(before) + at, 1), text)
                self.assertEqual((error.line, error.column), place)
                self.assertEqual(error.message, said.get(text, error.message))
                self.assertRegex(str(error), f"^{re.escape(error.message)} [(]{'line' if place[0] else 'byte'} ")
                self.assertEqual(vars(pickle.loads(pickle.dumps(error))), vars(error))
        self.assertEqual(len(texts), len(ShellForm))

    def test_styles(self):
        text = '$a ${a} ${a?} ${a:x} ${b:-<${c-d}>} ${a+1} ${b:+2} $$ \\$1 {'
        for forms, wanted in ((Forms.OWN, 'v v v v ${b:-<${c-d}>} ${a+1} ${b:+2} $$ \\$1 {'),
                              (Forms.ENVSUBST, 'v v ${a?} ${a:x} ${b:-<${c-d}>} ${a+1} ${b:+2} $$ \\$1 {'),
                              (Forms.SHELL, 'v v v ${a:x} <d> 1  $$ \\$1 {')):
            self.assertEqual(subst.fill_in_by_style(text, {'a': 'v'}, forms=forms, only=['a', 'b', 'c']), wanted)
            self.assertEqual(subst.fill_in_by_style(text.encode(), {b'a': b'v'}, forms=forms, only=[b'a', b'b', b'c']),
                             wanted.encode())
        for source, wanted in (('$a$b${c:-$a}', '1$b1'), ('${b?m}', None), ('$a^', '1^')):
            if wanted:
                self.assertEqual(subst.fill_in_by_style(source, {}, forms=Forms.SHELL, known=True, a='1'), wanted)
            else:
                self.refused(subst.fill_in_by_style, source, {}, forms=Forms.SHELL, known=True, a='1')
        self.assertEqual(subst.fill_in_by_style('é$$${a:-{"k": 1}}$b', forms=2, optional=True), 'é${"k": 1}')
        self.assertEqual(subst.fill_in_by_style('$a $b', {'a': '1', 'b': 5}, forms=Forms.OWN, only=['a']), '1 $b')
        self.assertEqual(subst.fill_in_by_style('$a:${b:-c}', {'a': '', 'b': ''}, forms=Forms.COMMON), ':c')
        self.assertEqual(subst.fill_in_by_style('$a' * MIB, {'a': 'v'}, forms=Forms.ENVSUBST), 'v' * MIB)

    def test_style_refused(self):
        said = self.refused(subst.fill_in, '$a').message
        for text, variables, message, position in (
                ('é\n$b ${a:?must be $b}', {'b': '1'}, f'{said}: must be 1', 7),
                ('é\n$b ${a:?must be $b}', {'b': '1', 'a': ''}, '$a is empty: must be 1', 7),
                ('${a?${b=}}', {}, f'{said}: ${{b=}}', 2), ('${a?$b${a?}}', {'b': ' '}, f'{said}: $b${{a?}}', 2),
                ('${a?$b$b}', {'b': 'long ' * 9}, f'{said}: {"long " * 18}', 2),
                ('${a?}', {}, said, 2), ('${b:-${c}$a}', {'c': ''}, said, 10), ('$a', {}, said, 1)):
            error = self.refused(subst.fill_in_by_style, text, variables, forms=Forms.SHELL)
            self.assertEqual((error.message, error.name, error.position, error.length), (message, 'a', position, 1))
            self.assertEqual((error.kind, error.highlighting.splitlines()[1].strip()), (FaultKind.NO_SUCH_VARIABLE, '^'))
        error = self.refused(subst.fill_in_by_style, b'\xff${a?\xff}', forms=Forms.SHELL)
        self.assertEqual((error.message, error.position, error.line), (f'{said}: \ufffd', 3, None))
        for text, forms, form, position in (('é ${a^}', Forms.SHELL, ShellForm.OTHER, 2),
                                            ('é ${a:{}', Forms.OWN, ShellForm.BRACE, 6),
                                            ('${b:-$a}$1', Forms.COMMON, ShellForm.DOLLAR, 8)):
            with self.assertRaises(ShellError) as caught:
                subst.fill_in_by_style(text, forms=forms)
            self.assertEqual((caught.exception.form, caught.exception.position), (form, position))

    def test_style_types(self):
        self.assertRaises(ValueError, subst.fill_in_by_style, '', forms=4)
        self.assertRaises(TypeError, subst.fill_in_by_style, '')
        self.assertRaises(TypeError, subst.fill_in_by_style, '', forms=Forms.OWN, only=['a'], known=True)
        with self.assertRaisesRegex(TypeError, "the value of 'a' must be str as the source is, not int"):
            subst.fill_in_by_style('$a', {'a': 1}, forms=Forms.OWN)

    def test_equal_templates(self):
        same = [Template('$a'), Template('$a', only=None), pickle.loads(pickle.dumps(Template('$a')))]
        self.assertEqual((len({*same}), same[0]), (1, same[1]))
        other = [same[0], Template(b'$a'), Template('$b'), Template('$a', only=['a']), Template('$a', only=['b']),
                 Template('$a', optional=True), Template('$a', only=['a'], optional=True),
                 Template('$a', no_empty=True), Template('$a', optional=True, no_empty=True)]
        self.assertEqual(len({*other}), len(other))
        for template in other:
            made = pickle.loads(pickle.dumps(template))
            self.assertEqual((made, hash(made), repr(made)), (template, hash(template), repr(template)))
        self.assertNotEqual(same[0], '$a')


class Trees(Case):
    """Trees of dict and list."""

    def test_tree(self):
        pair = ('$a', ['$a'])
        tree = {'$a': ['$a', b'$a', 1.5, None, True, pair, {}, []], 'b': {'c': '${d:e}'}, 1: '\\$'}
        before = copy.deepcopy(tree)
        found = subst.fill_in_tree(tree, {'a': 'x'})
        self.assertEqual(found, {'$a': ['x', b'$a', 1.5, None, True, pair, {}, []], 'b': {'c': 'e'}, 1: '$'})
        self.assertEqual(tree, before)
        self.assertIs(found['$a'][5], pair)
        self.assertIsNot(found['$a'][7], tree['$a'][7])
        self.assertEqual(subst.fill_in_tree('$a', a='x'), 'x')
        self.assertEqual(subst.fill_in_tree(['$a', '$b'], only=iter('a'), optional=True), ['', '$b'])
        self.assertEqual(subst.fill_in_tree(['$a'], only=[]), ['$a'])

    def test_refused(self):
        error = self.refused(subst.fill_in_tree, {'a': ['', {'b~/': 'é$c'}], 'd': '$'}, {})
        alone = self.refused(subst.fill_in, 'é$c', {})
        self.assertEqual((error.message, error.args[1:]), (f'/a/1/b~0~1: {alone.message}', alone.args[1:]))
        self.assertEqual(self.refused(subst.fill_in_tree, '$', {}).args, self.refused(subst.fill_in, '$', {}).args)


class Templates(Case):
    """Templates, which are expanded for several rows."""

    def test_rows(self):
        letter = Template('Dear ${name:friend},')
        rows = [{'name': 'Ann'}, {}, {'name': ''}, {'name': 'Zoë', 'x': 'y'}]
        self.assertEqual(letter.fill_in_each(iter(rows)), ['Dear Ann,', 'Dear friend,', 'Dear ,', 'Dear Zoë,'])
        self.assertEqual(letter.fill_in_each([]), [])
        self.assertEqual(Template(b'').fill_in_each([{}, {b'a': b'1'}]), [b'', b''])

    def test_large(self):
        rows = [{'a': letter * 4096} for letter in 'abcd' * 64]
        self.assertEqual(Template('$a').fill_in_each(rows), [row['a'] for row in rows])
        self.assertEqual(Template('x' * MIB).fill_in_each([{}] * 20), ['x' * MIB] * 20)

    def test_many_rows(self):
        rows = [{'a': str(number)} for number in range(10000)]
        self.assertTrue(Template('<${a}${b?}>').fill_in_each(rows) == [f'<{number}>' for number in range(10000)])
        del rows[9998]['a']
        error = self.refused(Template('$a').fill_in_each, rows)
        self.assertEqual((error.row, error.name), (9998, 'a'))

    def test_row_that_is_refused(self):
        error = self.refused(Template('é$a').fill_in_each, [{'a': '1'}, {'a': '2'}, {'b': '3'}, {}])
        self.assertEqual((error.row, error.kind, error.position), (2, FaultKind.NO_SUCH_VARIABLE, 2))
        self.assertIsNone(self.refused(Template('$a').fill_in, {}).row)

    def test_template(self):
        template = Template('$a')
        self.assertEqual((template.source, repr(template)), ('$a', "Template('$a')"))
        self.assertEqual(repr(Template(b'$a')), "Template(b'$a')")
        with self.assertRaises(AttributeError):
            template.source = '$b'

    def test_copies(self):
        """A copy has the options of its template, and cells of its own, also after the template was expanded."""
        for template, row, wanted, name in (
                (Template('é$a${b:$a}'), {'a': 'x'}, 'éxx', 'a'), (Template(b'\xff$a'), {b'a': b'\xfe'}, b'\xff\xfe', 'a'),
                (Template('$a $b \\', only=['b']), {'b': 'x'}, '$a x \\', 'b'),
                (Template(bytearray(b'$a $b'), only=[b'a', b'b'], optional=True), {b'b': b'x'}, b' x', None),
                (Template('${a:x}$b', no_empty=True), {'a': '', 'b': 'y'}, 'xy', 'b'),
                (Template('$a' * 3000), {'a': 'é'}, 'é' * 3000, 'a')):
            for _ in range(4):
                made = [copy.copy(template), copy.deepcopy({'letter': template})['letter']]
                made += [pickle.loads(pickle.dumps(template, number)) for number in range(pickle.HIGHEST_PROTOCOL + 1)]
                for other in (template, *made, pickle.loads(pickle.dumps(made[-1]))):
                    self.assertEqual((other, hash(other), repr(other)), (template, hash(template), repr(template)))
                    self.assertEqual((other.fill_in(row), other.fill_in_each([row] * 2)), (wanted, [wanted] * 2))
                    self.assertEqual((other.missing(row), other.variables()), ([], template.variables()))
                    self.assertEqual(self.refused(other.fill_in, {}).name if name else None, name)

    def test_lists(self):
        source = 'ä$a ${b?} ${c:x$a${d}}'
        wanted = [(VariableKind.REQUIRED, 'a', 2), (VariableKind.OPTIONAL, 'b', 6),
                  (VariableKind.WITH_DEFAULT, 'c', 12), (VariableKind.REQUIRED, 'a', 16),
                  (VariableKind.REQUIRED, 'd', 19)]
        self.assertEqual(subst.variables(source), wanted)
        self.assertEqual(Template(source).missing({'d': ''}), [wanted[0], wanted[3]])
        of_bytes = [(kind, name.encode(), position + 1) for kind, name, position in wanted]
        self.assertEqual(Template(source.encode()).variables(), of_bytes)
        first = subst.variables(source)[0]
        self.assertEqual((type(first), type(first.kind)), (Variable, VariableKind))
        self.assertEqual([it.position for it in subst.variables('é$a' * 50000)], list(range(2, 150000, 3)))


class Faults(Case):
    """Refused sources, and their errors."""

    def expect(self, kind, source, part):
        """Expects this fault, at this part, from each call that finds it, in a text and in its bytes."""
        for source, part in ((source, part), (source.encode(), part.encode())):
            calls = [(subst.fill_in, source, {}), (lambda: Template(source).fill_in_each([{}]),)]
            if kind is not FaultKind.NO_SUCH_VARIABLE:
                calls += [(subst.check, source), (Template, source), (subst.variables, source),
                          (subst.missing, source, {})]
            for call in calls:
                error = self.refused(*call)
                self.assertIs(error.kind, kind)
                self.assertEqual((error.position, error.length), (source.rindex(part), len(part)))
                self.assertEqual(str(error), str(self.refused(*calls[0])))
                self.assertEqual(error.name, 'name' if kind is FaultKind.NO_SUCH_VARIABLE else None)

    def test_each_call(self):
        self.expect(FaultKind.INVALID_ESCAPE_SEQUENCE, 'ä\\é!', '\\é')
        self.expect(FaultKind.UNEXPECTED_CHARACTER, 'ä${a→}', '→')
        self.expect(FaultKind.NO_SUCH_VARIABLE, 'ä${b:$name}', 'name')

    def test_places(self):
        for source in ('a\r\nb\nä中 ${}\n', 'a\r\nb\nä中 ${}\n'.encode()):
            error = self.refused(subst.check, source)
            self.assertEqual((error.line, error.column, error.highlighting), (3, 5, '  ä中 ${}\n      ^^\n'))
        error = self.refused(subst.check, 'é\n' * (MIB // 2) + '$')
        self.assertEqual((error.position, error.line, error.column, error.highlighting),
                         (MIB, MIB // 2 + 1, 1, '  $\n  ^\n'))
        error = self.refused(subst.check, b'\xff\n${a\x81}')
        self.assertEqual((error.position, error.length, error.line, error.column, error.highlighting),
                         (5, 1, None, None, ''))

    def test_texts(self):
        error = self.refused(subst.fill_in, 'server\n root /srv/$app;', {})
        self.assertEqual((error.line, error.column, error.name), (2, 13, 'app'))
        self.assertTrue(error.message.endswith(': $app'))
        self.assertEqual(str(error), f'{error.message} (line 2, column 13)')
        error = self.refused(subst.fill_in, b'\xff $app', {})
        self.assertEqual(str(error), f'{error.message} (byte 3)')

    def test_long_text(self):
        name = 'n' * 5000
        error = self.refused(subst.fill_in, f'${name}', {})
        self.assertEqual((error.position, error.length), (1, 5000))
        self.assertEqual(error.name, name)
        self.assertTrue(error.message.endswith(f'${name}'))

    def test_error_is_a_value_error_that_is_kept(self):
        error = self.refused(Template('$a').fill_in_each, [{}])
        self.assertIsInstance(error, ValueError)
        for other in (copy.copy(error), pickle.loads(pickle.dumps(error))):
            self.assertEqual((str(other), vars(other)), (str(error), vars(error)))


class Documents(Case):
    """Documents of JSON, TOML and YAML, whose strings are filled in."""

    def test_filled_in(self):
        variables = {'a': 'x"\\é', 'b': '$a', 'name': 'world', 'quote': 'a"b'}
        for call, text, wanted in (
                (subst.fill_in_json, '{ "$a":1.50,"é": "${b} \\u0041", "c":["\\u0041"] }\r\n',
                 '{ "$a":1.50,"é": "$a \\u0041", "c":["\\u0041"] }\r\n'),
                (subst.fill_in_json, '"$a"', '"x\\"\\\\é"'),
                (subst.fill_in_json, '[null , -0, 1E2]', '[null , -0, 1E2]'),
                (subst.fill_in_json, '{ "$name" : "${name}\\u0041","b":[1.50, -0,"\\u0041"],\r\n"c":"$quote"}\n',
                 '{ "$name" : "world\\u0041","b":[1.50, -0,"\\u0041"],\r\n"c":"a\\"b"}\n'),
                (subst.fill_in_json, f'["$a"{" " * MIB}]', f'["x\\"\\\\é"{" " * MIB}]'),
                (subst.fill_in_toml, '# $a\r\n"é".x = "$b"  # é\r\nc = 1_0', '# $a\r\n"é".x = "$a"  # é\r\nc = 1_0'),
                (subst.fill_in_toml,
                 '# $name\r\n"$name" = \'\'\'${name}\'\'\' # $name\r\nb = [ 1_0, "\\u0041" ]\r\nc = "$quote"',
                 '# $name\r\n"$name" = \'\'\'world\'\'\' # $name\r\nb = [ 1_0, "\\u0041" ]\r\nc = "a\\"b"'),
                (subst.fill_in_toml, '', ''),
                (subst.fill_in_yaml,
                 '# $a\r\n$name: &a ${name} # $name\r\n"é": [*a, \'$quote\', "${a}\\x41"]\r\n',
                 '# $a\r\n$name: &a world # $name\r\n"é": [*a, \'a"b\', "x\\"\\\\éA"]\r\n'),
                (subst.fill_in_yaml, '--- $name\n---\n- |\n $b\n', '--- world\n---\n- |\n $a\n'),
                (subst.fill_in_yaml, 'a: "$name\\n"  # $name\nb: [$none, \\$a]', 'a: "world\\n"  # $name\nb: [x, $a]'),
                (subst.fill_in_yaml, '', '')):
            self.assertEqual(call(text, {**variables, 'none': 'x'}), wanted)
            for kind in (bytes, bytearray, memoryview):
                found = call(kind(text.encode()), encoded({**variables, 'none': 'x'}))
                self.assertEqual((found, type(found)), (wanted.encode(), bytes))

    def test_values_of_yaml_get_double_quotes(self):
        for before, value, after in (('$x', 'a: b', '"a: b"'), ('$x', '', '""'), ('[$x]', 'a, b', '["a, b"]'),
                                     ("'$x'", "it's", "'it''s'"), ("'$x'", 'l1\nl2', '"l1\\nl2"'),
                                     ('"$x"', 'a"b\\c', '"a\\"b\\\\c"'), ('|\n  $x\n', ' x', '" x\\n"\n')):
            self.assertEqual(subst.fill_in_yaml(f'a: {before}', x=value), f'a: {after}')

    def test_refused(self):
        for call, text, said, start in (
                (subst.fill_in_json, '{"é":\n "\\u0041é $none", "a": "$"}', '/é: ', 'none'),
                (subst.fill_in_json, '{"b": ["\\u0041 \\u0024none"], "a": "$x"}', '/b/0: ', 'none'),
                (subst.fill_in_json, '"é\\\\é"', '', '\\\\é'),
                (subst.fill_in_toml, "a = 'b\\x'", 'a: ', '\\x'),
                (subst.fill_in_toml, '[t]\nb = [\'\', """\n\\u0041 \\u0024none"""]\na = \'$x\'', 't.b[1]: ', 'none'),
                (subst.fill_in_toml, 'b = "é"\nc = """\nä\\u0024none"""\na = "$"', 'c: ', 'none'),
                (subst.fill_in_toml, "[t]\na = ['$none']", 't.a[0]: ', 'none')):
            error = self.refused(call, text, {})
            alone = self.refused(subst.fill_in, '$none' if start == 'none' else start[-2:], {})
            self.assertEqual((error.message, error.kind, error.name), (said + alone.message, alone.kind, alone.name))
            self.assertEqual((error.position, error.length), (text.index(start), len(start)))
            lines = text[:error.position].split('\n')
            self.assertEqual((error.line, error.column), (len(lines), len(lines[-1]) + 1))
            self.assertEqual((error.highlighting, error.row), ('', None))
            data, part = text.encode(), start.encode()
            of_bytes = self.refused(call, data, {})
            self.assertEqual((str(of_bytes), of_bytes.name), (str(error), error.name))
            self.assertEqual((of_bytes.position, of_bytes.length), (data.index(part), len(part)))

    def test_refused_in_yaml(self):
        """The span of a fault is its own, within its value."""
        for text, said, start, kind, name in (
                ('é: 1\nb: [$a, "é $none"]', 'b[1]: ', 'none', FaultKind.NO_SUCH_VARIABLE, 'none'),
                ('- a: x$a # c\n- b\\x', '[1]: ', '\\x', FaultKind.INVALID_ESCAPE_SEQUENCE, None),
                ('$none', '', 'none', FaultKind.NO_SUCH_VARIABLE, 'none'),
                ('a: 1\n---\n$none', '2: ', 'none', FaultKind.NO_SUCH_VARIABLE, 'none'),
                ('a: 1\n---\nb:\n  c: ${\n', '2:b.c: ', '${', FaultKind.MISSING_VARIABLE_NAME, None)):
            error = self.refused(subst.fill_in_yaml, text, {'a': '1'})
            alone = self.refused(subst.fill_in, '$none' if start == 'none' else start, {})
            self.assertEqual((error.message, error.kind, error.name), (said + alone.message, kind, name))
            self.assertEqual((error.position, error.length), (text.index(start), len(start)))
            lines = text[:error.position].split('\n')
            self.assertEqual((error.line, error.column), (len(lines), len(lines[-1]) + 1))
            self.assertEqual((error.highlighting, error.row), ('', None))

    def test_no_yaml(self):
        for text, position, length, said in (
                ('é: 1\n\tb: 2', 5, 1, 'a tab in the indentation'), ('a: $none\nb', 9, 1, None),
                ('a: b: c', 3, 1, None), ('- "$none', 2, 1, 'a missing closing quote'), ('%YAML 1.2', 0, 1, None)):
            with self.assertRaises(DocumentError) as caught:
                subst.fill_in_yaml(text, {})
            error = caught.exception
            self.assertEqual((error.position, error.length), (position, length), text)
            self.assertIn(said or '', error.message)
            self.assertEqual(vars(pickle.loads(pickle.dumps(error))), vars(error))

    def test_no_document(self):
        for call, text, position, line, column in (
                (subst.fill_in_json, '', 0, 1, 1), (subst.fill_in_json, '["é",\n é]', 7, 2, 2),
                (subst.fill_in_json, '{"a": "$none", "a"}', 18, 1, 19), (subst.fill_in_json, '["$none",\n]', 10, 2, 1),
                (subst.fill_in_toml, 'a = "é"\nb = $none', 12, 2, 5),
                (subst.fill_in_toml, "a = '$none'\nb = ]", 16, 2, 5)):
            with self.assertRaises(DocumentError) as caught:
                call(text, {})
            error = caught.exception
            self.assertEqual((error.position, error.line, error.column), (position, line, column), text)
            self.assertEqual(str(error), f'{error.message} (line {line}, column {column})')
            self.assertEqual(vars(pickle.loads(pickle.dumps(error))), vars(error))

    def test_types(self):
        for call in (subst.fill_in_json, subst.fill_in_toml, subst.fill_in_yaml):
            with self.assertRaisesRegex(TypeError, '^the document must be str or bytes, not int$'):
                call(1, {})
            with self.assertRaisesRegex(TypeError, 'must be str as the source is, not bytes'):
                call('"$a"', {'a': b''})
            with self.assertRaisesRegex(TypeError, 'must be bytes as the source is, not str'):
                call(b'"$a"', {b'a': ''})

    def test_bytes_that_are_not_utf8(self):
        for call in (subst.fill_in_json, subst.fill_in_toml, subst.fill_in_yaml):
            with self.assertRaises(DocumentError) as caught:
                call('é = "'.encode() + b'\xc3\n$a"', {b'a': b'\xff'})
            self.assertEqual(caught.exception.args, ('invalid UTF-8', 6, 1, None, None))
            with self.assertRaisesRegex(UnicodeDecodeError, "invalid start byte in the value of b'b'$") as caught:
                call(b'"a" = "$a$b"', {b'a': 'é'.encode(), b'b': b'x\xff'})
            self.assertEqual(caught.exception.args[:4], ('utf-8', b'x\xff', 1, 2))

    def test_not_confirmed(self):
        library = mock.Mock(**{'subst_json.return_value': 8, 'subst_yaml.return_value': 8})
        with mock.patch.object(_source, '_library', library):
            for call in (subst.fill_in_json, subst.fill_in_yaml):
                self.assertRaisesRegex(RuntimeError, 'not confirmed', call, '""', {})


class Types(Case):
    """Wrong types of sources and variables."""

    def calls(self, source, variables):
        yield lambda: subst.fill_in(source, variables)
        yield lambda: subst.missing(source, variables)
        yield lambda: Template(source).fill_in(variables)
        yield lambda: Template(source).fill_in_each([variables, variables])
        yield lambda: Template(source).missing(variables)

    def expect(self, source, variables, text):
        for call in self.calls(source, variables):
            with self.assertRaises(TypeError) as caught:
                call()
            self.assertEqual(str(caught.exception), text)

    def test_sources(self):
        for source in (0, None, 1.5, True, ['a'], {}, pathlib.Path('a'), object()):
            text = f'the source must be str or bytes, not {type(source).__name__}'
            self.expect(source, {}, text)
            for call in (subst.check, subst.variables, subst.from_shell, Template):
                with self.assertRaisesRegex(TypeError, text):
                    call(source)

    def test_variables(self):
        for variables in (None, 1, [('a', '1')], 'a', (), {'a'}):
            self.expect('a', variables, f'variables must be a mapping, not {type(variables).__name__}')
        with self.assertRaises(TypeError):
            Template('a').fill_in_each({'a': '1'})
        with self.assertRaises(TypeError):
            Template('a').fill_in_each(1)

    def test_values(self):
        for word in (b'a', 0, None, bytearray(b'a')):
            self.expect('$b', {'b': word}, f"the value of 'b' must be str as the source is, not {type(word).__name__}")
        self.expect('$a$b', {'a': '', 'b': b''}, "the value of 'b' must be str as the source is, not bytes")
        for word in ('1', 0, None):
            self.expect(b'${a:}', {b'a': word}, f"the value of b'a' must be bytes as the source is, not {type(word).__name__}")
        for source, name in (('$a', b'a'), (b'$a', 'a')):
            self.assertEqual(self.refused(subst.fill_in, source, {name: source}).name, 'a')

    def test_surrogates(self):
        for source, variables in (('\udc80', {}), ('$a', {'a': '\udfff'})):
            for call in self.calls(source, variables):
                said = "surrogates not allowed in the value of 'a'$" if variables else 'surrogates not allowed$'
                with self.assertRaisesRegex(UnicodeEncodeError, said) as caught:
                    call()
                error = caught.exception
                self.assertEqual((error.object, error.start, error.end), (variables.get('a', source), 0, 1))
        for variables in ({'a': 'x', 'b': 'é\ud800\ud800'}, {'b': 'é\ud800\ud800'}):
            with self.assertRaisesRegex(UnicodeEncodeError, "not allowed in the value of 'b'$") as caught:
                subst.fill_in('${a:}$b', variables)
            self.assertEqual((caught.exception.object, caught.exception.start), (variables['b'], 1))
        with self.assertRaises(ValueError):
            subst.check('\udc80')


class Contexts(Case):
    """The contexts of errors."""

    def expect(self, error, call, *arguments):
        """Expects this error, without another one as its context."""
        with self.assertRaises(error) as caught:
            call(*arguments)
        self.assertIsNone(caught.exception.__context__)

    def test_errors_are_raised_alone(self):
        used = Template('$a')
        self.assertEqual([used.fill_in(a='1') for _ in range(4)], ['1'] * 4)
        calls = (used.fill_in, Template('$a').fill_in, lambda it: Template('$a').fill_in_each([it]),
                 *(lambda it, text=text: subst.fill_in(text, it) for text in ('$a', '$a' + ' ' * MIB)),
                 lambda it: subst.fill_in('$a', collections.ChainMap(it)), lambda it: subst.fill_in('$a', **it),
                 lambda it: subst.fill_in_json('"$a"', it), lambda it: subst.fill_in_toml('a = "$a"', it),
                 lambda it: subst.fill_in_yaml('a: $a', it), lambda it: subst.fill_in_tree(['$a'], it),
                 lambda it: subst.fill_in_by_style('${a?}', it, forms=Forms.SHELL),
                 lambda it: subst.fill_in(subst.from_shell('${a:?b}'), it))
        for call in calls:
            self.expect(SubstError, call, {})
            self.expect(TypeError, call, {'a': 1})
            self.expect(UnicodeEncodeError, call, {'a': '\udc80'})
        self.expect(SubstError, subst.check, '$')
        self.expect(ShellError, subst.from_shell, '$1')
        self.expect(DocumentError, subst.fill_in_json, b'\xff')
        self.expect(UnicodeDecodeError, subst.fill_in_json, b'"$a"', {b'a': b'\xff'})

    def test_frame_that_another_thread_takes(self):
        by_ctypes(self)
        class Taken(list):
            def pop(self):
                raise IndexError
        template = Template('$a')
        template._source.frames = Taken([None])
        self.assertEqual(template.fill_in(a='1'), '1')
        with mock.patch.object(template._source, 'call', return_value=_library.OUT_OF_MEMORY):
            self.expect(MemoryError, lambda: template.fill_in(a='1'))


class Outside(Case):
    """Memory and threads."""

    def test_out_of_memory(self):
        by_ctypes(self)
        template, long = Template('$a'), Template('$a' * 100)
        others = ('subst_bytes_into', 'subst_bytes_each', 'subst_template_new', 'subst_template_variables',
                  'subst_template_variable', 'subst_expand', 'subst_error_text', 'subst_error_highlighting',
                  'subst_json_fault_text', 'subst_toml_fault_text', 'subst_yaml_fault_text', 'subst_shell_form_text',
                  'subst_place', 'subst_version')
        names = [name for name in _library.ARGUMENTS if name not in others]
        library = mock.Mock(**{f'{name}.return_value': 4 for name in names})
        with mock.patch.object(_source, '_library', library), mock.patch.object(_style, '_library', library):
            for call in (lambda: subst.fill_in('x' * MIB, {}), lambda: subst.check(''), long.variables,
                         lambda: template.missing({}), lambda: template.fill_in_each([]),
                         lambda: subst.fill_in_json('', {}), lambda: subst.fill_in_toml('', {}),
                         lambda: subst.fill_in_yaml('', {}),
                         lambda: subst.from_shell(''), lambda: subst.fill_in_by_style('', forms=Forms.OWN)):
                self.assertRaises(MemoryError, call)
        self.assertEqual(sorted(name for name in names if getattr(library, name).called), sorted(names))

    def test_source_that_is_too_long_for_cells(self):
        by_ctypes(self)
        with mock.patch.object(_library.library, 'subst_parse', return_value=_library.TOO_LONG):
            template = Template('é$b ${a:$c} $b')
            for _ in range(4):
                self.assertEqual(template.fill_in({'b': 'x', 'c': 'y'}), 'éx y x')
            self.assertEqual(template.fill_in_each([{'b': 'x', 'a': ''}, {'b': '', 'c': 'y'}]), ['éx  x', 'é y '])
            self.assertEqual(self.refused(template.fill_in_each, [{'b': '', 'c': ''}, {'b': ''}]).row, 1)
            self.assertEqual(self.refused(subst.fill_in, 'é$b', {}).position, 2)
            self.assertEqual(template.missing({'a': ''}), template.variables()[:1] + template.variables()[3:])
        self.refused(Template, '$' * 1000)

    def test_memory_does_not_grow(self):
        """No call keeps a reference or memory, whatever its result is."""
        template, of_bytes, wide = Template('$a ${b?}'), Template(b'$a' * 9, no_empty=True), Template('$a' * 30000)
        many, of_many = ''.join(f'$a{number} ' for number in range(40)), {f'a{number}': '' for number in range(40)}
        value, data = 'é' * 30, b'x' * 300
        wrong = (SubstError, {}), (TypeError, {'a': data}), (UnicodeEncodeError, {'a': '\udc80'})

        def work():
            self.assertEqual(template.fill_in({'a': value}), f'{value} ')
            self.assertEqual(subst.fill_in(f'{many}{time.perf_counter()}', of_many)[:40], ' ' * 40)
            self.assertEqual(of_bytes.fill_in({b'a': data}), data * 9)
            wide.fill_in({'a': value})
            for call in (template.fill_in, lambda it: subst.fill_in('$a', it), lambda it: template.fill_in_each([it])):
                for error, variables in wrong:
                    self.assertRaises(error, call, variables)
            self.assertRaises(SubstError, subst.fill_in, f'${{{time.perf_counter()}', {})
            Template(f'$a {time.perf_counter()}').fill_in(a=value)

        def grown():
            for _ in range(100):
                work()
            for kept in subst._kept.values():
                kept.clear()
            gc.collect()
            return sys.getallocatedblocks(), sys.getrefcount(value), sys.getrefcount(data), resident()

        grown()
        before, after = grown(), grown()
        self.assertEqual(after[1:3], before[1:3])
        self.assertLess(after[0] - before[0], 100)
        self.assertLess(after[3] - before[3], 2 * MIB)

    def test_four_threads(self):
        template = Template('$a ${b:-} $a')

        def work(word):
            for number in range(500):
                value = f'{word}{number}' * number
                self.assertEqual(template.fill_in({'a': value}), f'{value} - {value}')
                self.assertEqual(template.fill_in({'a': word, 'b': f'{number}'}), f'{word} {number} {word}')
                self.assertEqual(subst.fill_in(f'$a{number}', {f'a{number}': word}), word)
                self.assertEqual(template.fill_in_each([{'a': word}] * 3), [f'{word} - {word}'] * 3)
                self.assertEqual(self.refused(subst.fill_in, f'${word}', {}).name, word)
            return word

        with concurrent.futures.ThreadPoolExecutor(4) as threads:
            self.assertEqual(list(threads.map(work, 'abcd')), list('abcd'))

    def test_large_values_in_four_threads(self):
        """The module in C lets other threads run while it works on large values."""
        template = Template('$a${b:}$a')

        def work(word):
            variables = {'a': word * 100000, 'b': 'é' * 50000}
            for _ in range(40):
                self.assertTrue(template.fill_in(variables) == variables['a'] + variables['b'] + variables['a'])
                self.assertTrue(subst.fill_in('$a' * 50000, {'a': word}) == word * 50000)

        with concurrent.futures.ThreadPoolExecutor(4) as threads:
            list(threads.map(work, 'abcd'))

    def test_large(self):
        """Each byte of 40 MiB of a source and of 40 MiB of a value is in the output."""
        plain, value = bytes(range(97, 123)) * (40 * MIB // 26), bytes(range(65, 91)) * (40 * MIB // 26)
        for source, variables in ((plain + b'$a', {b'a': value}), ((plain + b'$a').decode(), {'a': value.decode()})):
            wanted = plain + value
            for found in (subst.fill_in(source, variables), Template(source).fill_in_each([variables])[0]):
                self.assertTrue((found if isinstance(found, bytes) else found.encode()) == wanted)

    def test_other_threads_run(self):
        """Another thread counts while a call works."""
        source, variables, ticks = '$a' * (4 * MIB), {'a': 'x'}, []
        template, is_done = Template(source), threading.Event()
        name = 'call' if template._source.fast is None else 'fast'

        def count():
            while not is_done.is_set():
                ticks.append(time.perf_counter())
                time.sleep(0.0005)

        thread = threading.Thread(target=count)
        with mock.patch.object(template._source, name, self.timed(getattr(template._source, name))) as call:
            thread.start()
            template.fill_in(variables)
            is_done.set()
        thread.join()
        begin, end = call.span
        self.assertGreater(sum(begin < tick < end for tick in ticks), 5, f'{end - begin} s')

    @staticmethod
    def timed(call):
        """Returns the call, which records when it began and ended."""
        def timed(*arguments):
            begin = time.perf_counter()
            result = call(*arguments)
            timed.span = begin, time.perf_counter()
            return result
        return timed

    def test_time_is_linear(self):
        """Eight times as many variables take at most twenty times as long."""
        def took(count, runs):
            source = ''.join(f'$a{number} é' for number in range(count))
            variables = {f'a{number}': 'é' for number in range(count)}
            times = []
            for _ in range(runs):
                begin = time.process_time()
                self.assertTrue(subst.fill_in(source, variables) == 'é é' * count)
                self.assertEqual(len(subst.variables(source)), count)
                times.append(time.process_time() - begin)
            return min(times)
        self.assertLess(took(400000, 1), 20 * took(50000, 2))


class Package(Case):
    """The types of the package, the module in C, and the search for the library."""

    def test_module_in_c_out_of_memory(self):
        """If a call of the module fails, it is made by ctypes."""
        if subst._in_c is None:
            self.skipTest('the package has no module in C, or SUBST_FAST is 0')
        calls = [getattr(_library.library, f'subst_{name}') for name in (
            'template_new', 'template_variables', 'template_variable', 'expand')]
        failing = ctypes.CFUNCTYPE(ctypes.c_uint32)(lambda: _library.OUT_OF_MEMORY)
        self.addCleanup(subst._in_c.bind, _library.addresses(calls))
        template = Template('$a')
        for index in (0, 3):
            subst._in_c.bind(_library.addresses([*calls[:index], failing, *calls[index + 1:]]))
            for call in (template.fill_in, lambda it: subst.fill_in('$a', it),
                         lambda it: template.fill_in_each([it])[0]):
                self.assertEqual(call({'a': 'x'}), 'x')
                self.assertEqual(self.refused(call, {}).name, 'a')
        self.assertRaises(TypeError, subst._in_c.bind, 1)
        self.assertRaises(ValueError, subst._in_c.bind, b'')

    def test_types_are_checked(self):
        """mypy, if it is installed, finds the types of the package and of these uses of it right."""
        mypy = shutil.which('mypy')
        if mypy is None:
            self.skipTest('mypy is not installed')
        with tempfile.TemporaryDirectory() as folder:
            uses = pathlib.Path(folder, 'uses.py')
            uses.write_text(TYPED, encoding='utf-8')
            command = [mypy, '--strict', '--cache-dir', folder, uses, pathlib.Path(subst.__file__).parent]
            ran = subprocess.run(command, cwd=folder, stdout=subprocess.PIPE, universal_newlines=True)
            self.assertEqual(ran.returncode, 0, ran.stdout)

    def imported(self, folder, code='from subst import _library; print(_library.library._name)', **variables):
        """Returns the path of the library that the module in a folder loads, or the last line of the error."""
        environment = {name: value for name, value in os.environ.items() if name != 'SUBST_LIBRARY'}
        environment.update(variables, PYTHONPATH=str(folder), PYTHONDONTWRITEBYTECODE='1')
        ran = subprocess.run([sys.executable, '-c', code], env=environment, cwd=folder, stdout=subprocess.PIPE,
                             stderr=subprocess.STDOUT, universal_newlines=True)
        return ran.stdout.splitlines()[-1]

    def test_library_is_found(self):
        library, package = pathlib.Path(_library.library._name), pathlib.Path(subst.__file__).parent
        if not library.exists():
            self.skipTest(f'the loader finds {library}')
        with tempfile.TemporaryDirectory() as folder:
            top = pathlib.Path(folder).resolve()
            packages = top / 'lib' / 'python3' / 'dist-packages'
            shutil.copytree(package, packages / 'subst', ignore=shutil.ignore_patterns(_library.FILE))
            shutil.copy(library, top / 'other')
            missing = self.imported(packages)
            shutil.copy(library, top / 'lib' / _library.FILE)
            installed = pathlib.Path(self.imported(packages)).resolve()
            shutil.copy(library, packages / 'subst' / _library.FILE)
            inside, named = self.imported(packages), self.imported(packages, SUBST_LIBRARY=str(top / 'other'))
            self.assertEqual((installed, inside, named), (top / 'lib' / _library.FILE,
                                                          str(packages / 'subst' / _library.FILE), str(top / 'other')))
        self.assertRegex(missing, rf'^ImportError: .*{re.escape(_library.FILE)}|^{re.escape(_library.FILE)}$')

    def test_no_library(self):
        folder = pathlib.Path(subst.__file__).parent.parent
        none = self.imported(folder, SUBST_LIBRARY='/none/there')
        self.assertRegex(none, '^ImportError: the library of subst is not loaded: /none/there: .*SUBST_LIBRARY')
        other = self.imported(folder, SUBST_LIBRARY='libc.so.6')
        self.assertEqual(other, 'ImportError: libc.so.6 is not the library of subst: it has no subst_bytes_into')

    def test_module_in_c_is_chosen(self):
        """Without the module, or with SUBST_FAST=0, all calls are made by ctypes."""
        code = 'import subst; print(subst._in_c is None, subst.fill_in("$a", a="x"))'
        package = pathlib.Path(subst.__file__).parent
        more = {'SUBST_LIBRARY': _library.library._name}
        self.assertEqual(self.imported(package.parent, code, **more), f'{subst._in_c is None} x')
        self.assertEqual(self.imported(package.parent, code, SUBST_FAST='0', **more), 'True x')
        with tempfile.TemporaryDirectory() as folder:
            shutil.copytree(package, f'{folder}/subst', ignore=shutil.ignore_patterns('_fast.*'))
            self.assertEqual(self.imported(folder, code, **more), 'True x')
            pathlib.Path(folder, 'subst/_fast.abi3.so').write_bytes(b'no library')
            self.assertEqual(self.imported(folder, code, **more), 'True x')

    def test_pickled_templates(self):
        """A pickled template is loaded by another process, with the module in C or without it, and sent back."""
        template, package = Template('${a:x}$b', no_empty=True, only=['b']), pathlib.Path(subst.__file__).parent.parent
        code = (f'import pickle; letter = pickle.loads({pickle.dumps(template)!r}); print(pickle.dumps(letter).hex(), '
                'letter._source.fast is None, *letter.fill_in_each([{"b": "y"}]))')
        for more, is_slow in (({}, template._source.fast is None), ({'SUBST_FAST': '0'}, True)):
            data, *said = self.imported(package, code, SUBST_LIBRARY=_library.library._name, **more).split()
            self.assertEqual((pickle.loads(bytes.fromhex(data)), said), (template, [str(is_slow), '${a:x}y']))

    def test_names(self):
        for name in subst.__all__:
            self.assertTrue(hasattr(subst, name) and getattr(subst, name).__doc__, name)
        self.assertRegex(subst.__version__, r'^\d+\.\d+\.\d+$')


TYPED = """
import os
from typing import List
from subst import (Forms, Template, Variable, fill_in, fill_in_by_style, fill_in_json, fill_in_toml, fill_in_tree,
                   fill_in_yaml, from_envsubst, from_shell, missing, variables)

text: str = fill_in('$a', {'a': '1'}, b='2', only=['a'], optional=True)
data: bytes = fill_in(b'$a', {b'a': bytearray(b'1')})
more: bytes = fill_in(memoryview(b'$a'), a=b'1')
named: str = fill_in('$HOME', os.environ)
template: Template[str] = Template('$a')
letters: List[str] = template.fill_in_each([{'a': '1'}])
of_bytes: Template[bytes] = Template(bytearray(b'$a'), only=[b'a'])
filled: bytes = of_bytes.fill_in({b'a': b''})
name: str = variables('$a')[0].name
listed: List[Variable[bytes]] = missing(b'$a', {})
envsubst: str = from_envsubst('$a')
shell: bytes = from_shell(bytearray(b'$a'))
styled: bytes = fill_in_by_style(b'$a', {b'a': b''}, forms=Forms.SHELL, known=True)
tree: object = fill_in_tree(['$a'], a='x')
json: str = fill_in_json('"$a"', {'a': '1'}, no_empty=True, b='2')
toml: bytes = fill_in_toml(b'a = "$a"', {b'a': bytearray(b'1')})
yaml: bytes = fill_in_yaml(memoryview(b'a: $a'), a=b'1')
"""

if __name__ == '__main__':
    unittest.main()
