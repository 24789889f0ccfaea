"""The library for C, as tools/install puts it below a prefix: calls from C and C++ and from several threads, sources
around 4 GiB, its names, and its requests for memory. tests/test_fuzzing.py tests the promises of the header.
"""
import ctypes
import mmap
import os
import re
import resource
import time

from tests.installed import (CC, DONE, REFUSED, ROOM_TOO_SMALL, Cell, Compiling, Pair, Place, Value, pairs_of, prefix,
                             sized)
from tests.support import KIB, MIB, TOP, Built, ended, needs, preloading, ran, version

CXX = os.environ.get('CXX') or 'c++'
STRICT = ('-O2', '-Wall', '-Wextra', '-Wpedantic', '-Wconversion', '-Werror')
SANITIZED = ('-g', '-fsanitize=address,undefined', '-fno-sanitize-recover=all')
# A result, kinds of faults and of variables, and a state of values of subst.h.
TOO_LONG, MISSING_VARIABLE_NAME, NO_SUCH_VARIABLE, REQUIRED, WITH_DEFAULT, SET = 12, 2, 5, 0, 2, 1
# The option of mmap that reserves no memory for the pages.
MAP_NORESERVE = 0x4000
# Templates, and sources with each kind of fault.
SOURCES = ('Hello $name!', '${a?}${b:<${name}>}\\$', '$name ${a:$b$name}', '$name ${a:$name', '$name\\x')


def built(source, *options, compiler=CC, library='libsubst.a'):
    """Builds a file of tests/ with the library. Returns the path of the program."""
    language = ('-std=c++17', '-x', 'c++') if '++' in compiler else ('-std=c99',)
    ran([compiler, *STRICT, *options, *language, f'-I{prefix()}/include', '-o', 'program', TOP / 'tests' / source,
         '-x', 'none', prefix() / 'lib' / library])
    return os.path.abspath('program')


def defined(*words):
    """Returns the names that a library exports."""
    return set(re.findall(r' [A-Z] (\w+)$', ran(['nm', '--defined-only', '-g', *words]), re.MULTILINE))


def placeholders(count):
    return ''.join(f'${{{at}:x}}' for at in range(count))


def pairs(count):
    """Returns alternating names and values. Each two pairs have the same name."""
    return [word for at in range(count) for word in (str(at // 2), 'vw'[at % 2])]


class CLibrary(Compiling, Built):
    """The library, called from C and C++."""

    def requests(self, *words):
        """Returns how many requests for memory a call makes, by tests/c_library.c with these arguments."""
        end = ended(words, env={**os.environ, **preloading('refuse_memory.c', REFUSE_NONE='1')})
        self.assertIn(end.returncode, (0, 1), end.stdout)
        return end.stdout.count('request ')

    def test_c_calls_the_library(self):
        ran([built('c_library.c')])

    @needs(CXX)
    def test_cpp_calls_the_library(self):
        ran([built('c_library.c', compiler=CXX)])

    @needs('clang', 'clang++')
    def test_programs_of_clang_call_the_library(self):
        for compiler in ('clang', 'clang++'):
            ran([built('c_library.c', compiler=compiler)])

    def test_calls_pass_with_sanitizers(self):
        self.need_to_compile(CC, *SANITIZED)
        ran([built('c_library.c', *SANITIZED)])

    @needs('valgrind')
    def test_calls_pass_under_valgrind(self):
        ran(['valgrind', '-q', '--error-exitcode=9', '--leak-check=full', built('c_library.c')], timeout=120)

    def test_several_threads_call_at_once(self):
        ran([built('c_threads.c', '-pthread')])

    def test_threads_pass_with_a_sanitizer(self):
        self.need_to_compile(CC, '-g', '-fsanitize=thread')
        ran([built('c_threads.c', '-pthread', '-g', '-fsanitize=thread')])

    def test_filling_in_straight_asks_for_what_the_parse_takes(self):
        """Also if a variable is missing. A call that copies its output into the buffer at the end makes more."""
        program = built('c_library.c')
        parse, into, copied = ([self.requests(program, call, source, 'name', 'world') for source in SOURCES]
                               for call in ('subst_check', 'subst_bytes_into', 'subst_bytes'))
        self.assertEqual(into, parse)
        self.assertGreater(sum(parse), 0)
        self.assertGreater(sum(copied), sum(into))

    def test_an_expansion_of_cells_takes_no_memory(self):
        """Only their parse does. In SOURCES the number of the first variable is that of the one value."""
        program = built('c_library.c')
        parse, expanded = ([self.requests(program, call, source, 'name', 'world') for source in SOURCES]
                           for call in ('subst_parse', 'subst_expand'))
        self.assertEqual(expanded, parse)
        self.assertGreater(sum(parse), 0)

    @needs('musl-gcc')
    def test_a_static_program_of_musl_calls_the_library(self):
        self.need_to_compile('musl-gcc', '-static')
        ran([built('c_library.c', '-static', compiler='musl-gcc')])

    def test_an_index_is_made_of_more_than_16_pairs_for_more_than_16_placeholders(self):
        program = built('c_library.c')
        for count, placed, has_index in ((16, 17, False), (17, 17, True), (64, 16, False)):
            parse = self.requests(program, 'subst_check', placeholders(placed))
            found = self.requests(program, 'subst_bytes_into', placeholders(placed), *pairs(count))
            self.assertEqual((found > parse, found < parse), (has_index, False), (count, placed))

    def test_header_and_package_have_the_version(self):
        """tests/c_library.c compares the header's version with the library's."""
        header = (prefix() / 'include/subst.h').read_text(encoding='utf-8')
        numbers = re.findall(r'^#define SUBST_VERSION_[MP]\w+ (\d+)$', header, re.MULTILINE)
        self.assertEqual('.'.join(numbers), version())
        package = (prefix() / 'lib/pkgconfig/subst.pc').read_text(encoding='utf-8')
        self.assertIn(f'\nVersion: {version()}\n', package)

    def test_libraries_define_the_calls_alone(self):
        header = (prefix() / 'include/subst.h').read_text(encoding='utf-8')
        calls = set(re.findall(r'^(?:uint32_t|size_t) (subst_\w+)\([^;{]*;', header, re.MULTILINE))
        self.assertLessEqual({'subst_bytes', 'subst_template_variables'}, calls)
        self.assertEqual(defined('-D', prefix() / 'lib/libsubst.so'), calls)
        self.assertEqual(defined(prefix() / 'lib/libsubst.a'), calls)

    def test_the_shared_library_has_its_name_and_is_called(self):
        self.assertRegex(ran(['readelf', '-d', prefix() / 'lib/libsubst.so']), r'SONAME.*\[libsubst\.so\.0\]')
        ran([built('c_library.c', library='libsubst.so')], env={'LD_LIBRARY_PATH': str(prefix() / 'lib')})

    @needs('pkg-config')
    def test_pkg_config_finds_the_library(self):
        """A program builds and runs with the options that it prints."""
        found = {**os.environ, 'PKG_CONFIG_PATH': str(prefix() / 'lib/pkgconfig')}
        options = ran(['pkg-config', '--cflags', '--libs', 'subst'], env=found).split()
        ran([CC, TOP / 'tests/c_library.c', '-o', 'found', *options])
        ran(['./found'], env={'LD_LIBRARY_PATH': str(prefix() / 'lib')})


class Row(ctypes.Structure):
    """subst_row of subst.h."""
    _fields_ = [('pairs', ctypes.POINTER(Pair)), ('pairs_len', ctypes.c_size_t)]


def source_of(length, begin, end):
    """Maps a source with this begin and end. All pages but the first and the last share one page of zeros, which are
    plain bytes."""
    source = mmap.mmap(-1, length, mmap.MAP_PRIVATE | mmap.MAP_ANONYMOUS | MAP_NORESERVE)
    source[:len(begin)], source[length - len(end):] = begin, end
    return sized((ctypes.c_char * length).from_buffer(source))


class Names(Built):
    """The library called by its names alone, as from Python."""

    def setUp(self):
        super().setUp()
        self.library = ctypes.CDLL(str(prefix() / 'lib/libsubst.so.0'))
        self.needed, self.row, self.fault = ctypes.c_size_t(77), ctypes.c_size_t(), Place()
        self.buffer = ctypes.create_string_buffer(MIB)

    def call(self, name, *arguments):
        """Makes a call with places for the length and for a fault. Returns the result."""
        told = (self.needed, *[self.row] * (name == 'subst_bytes_each'), self.fault)
        return self.library[name](*arguments, *map(ctypes.byref, told))

    def time_of(self, *arguments):
        """Returns the processor time of a call, which has to be done."""
        begin = time.process_time()
        self.assertEqual(self.call(*arguments), DONE)
        return time.process_time() - begin

    def test_none_goes_beside_a_length_of_0(self):
        none = [word for _ in range(3) for word in (None, ctypes.c_size_t(0))]
        for call in ('subst_bytes', 'subst_text', 'subst_bytes_into', 'subst_text_into'):
            self.needed.value = 77
            self.assertEqual((self.call(call, *none), self.needed.value), (DONE, 0))
            self.assertEqual((self.call(call, *sized(b'a'), *none[2:]), self.needed.value), (ROOM_TOO_SMALL, 1))

    def test_each_name_is_looked_up_in_an_index(self):
        """Sixteen times the pairs and placeholders take less time than a search in turn, which is 256 times that of
        one."""
        def time_of(count):
            pairs = pairs_of({b'a%d' % at: b'1' for at in range(count)})
            source = b''.join(b'${a%d}' % (at * 7919 % count) for at in range(count))
            took = self.time_of('subst_bytes', *sized(source), *sized(pairs), *sized(self.buffer))
            self.assertEqual(self.needed.value, count)
            return took
        few, many = time_of(1000), time_of(16000)
        self.assertLess(many, 64 * few + 0.05)

    def test_a_source_is_parsed_once_for_all_rows(self):
        """A thousand rows take less time than a hundred parses."""
        def time_of(count):
            source, pairs, ends = b'${a:' + (MIB - 5) * b'd' + b'}', pairs_of({b'a': b'1'}), (ctypes.c_size_t * count)()
            rows = (Row * count)(*count * [Row(pairs, 1)])
            took = self.time_of('subst_bytes_each', *sized(source), *sized(rows), *sized(self.buffer), *sized(ends))
            self.assertEqual(ends[-1], count)
            return took
        one, many = time_of(1), time_of(1000)
        self.assertLess(many, 100 * one + 0.1)

    def test_sources_around_4_gib_take_little_memory(self):
        """At this size the parts of a template begin to need offsets of 64 bits, which cells don't have."""
        before = resource.getrusage(resource.RUSAGE_SELF).ru_maxrss
        for length in (2 ** 32 - 1, 2 ** 32):
            source, pairs, variables = source_of(length, b'${a:', b'}x$b'), {b'a': b'1', b'b': b'2'}, (Place * 2)()
            self.assertEqual(self.call('subst_bytes_into', *source, *sized(pairs_of(pairs)), *sized(self.buffer)), DONE)
            self.assertEqual((self.needed.value, self.buffer[:4]), (3, b'1x2\0'))
            pairs = pairs_of({b'a': b'1'})
            self.assertEqual(self.call('subst_bytes_into', *source, *sized(pairs), *sized(self.buffer)), REFUSED)
            self.assertEqual(self.fault.all(), (NO_SUCH_VARIABLE, length - 1, 1))
            self.assertEqual((self.call('subst_variables', *source, *sized(variables)), self.needed.value), (DONE, 2))
            self.assertEqual([it.all() for it in variables], [(WITH_DEFAULT, 2, 1), (REQUIRED, length - 1, 1)])
            cells, values = (Cell * 7)(), (Value * 2)(Value(b'1', 1, SET), Value(b'2', 1, SET))
            parsed = self.call('subst_parse', *source, 0, *sized(cells))
            self.assertEqual(parsed, DONE if length < 2 ** 32 else TOO_LONG)
            if parsed == DONE:
                template = *sized(cells), *source, values
                for count, result in ((1, REFUSED), (2, DONE)):
                    came = self.call('subst_expand', *template, ctypes.c_size_t(count), *sized(self.buffer))
                    self.assertEqual((came, self.fault.all()), (result, (NO_SUCH_VARIABLE, length - 1, 1)))
                self.assertEqual((self.needed.value, self.buffer[:4]), (3, b'1x2\0'))
            source = source_of(length, b'', b'$')
            self.assertEqual(self.library.subst_check(*source, ctypes.byref(self.fault)), REFUSED)
            self.assertEqual(self.fault.all(), (MISSING_VARIABLE_NAME, length - 1, 1))
        self.assertLess(resource.getrusage(resource.RUSAGE_SELF).ru_maxrss - before, 128 * KIB)
