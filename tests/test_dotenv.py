"""The .env files of `subst --dotenv`: the variables that their lines set, and refused lines."""
import os

from faults import no_such_variable
from tests.subst import PROGRAM, UNREADABLE, Subst, told_without_line, write
from tests.support import run_with_hints

FILE = '.env'
# Lines, and the value of A. The environment has HOME, which is /root, EMPTY, which is empty, and no NONE.
VALUES = (
    # Lines.
    ('A=1', '1'), ('A=1\r\n', '1'), ('\ufeffA=1\n', '1'), ('\n \t\r\n# A=2\n  #\nA=1\n', '1'), ('\t A \t=\t 1 \t', '1'),
    ('export A=1', '1'), (' export \t A = 1', '1'), ('export=2\nA=$export', '2'), ('A=1\nA=2', '2'), ('A=', ''),
    ('A=b=c', 'b=c'), ('a_Z=1\nA=${a_Z}', '1'),
    # Values without quotes.
    ('A= # c', ''), ('A=#x', '#x'), ('A=x#y', 'x#y'), ('A=x # y', 'x'), ('A=x\t#y', 'x'), ('A= x  y \t# c', 'x  y'),
    ('A=x"y" \'z\'', 'x"y" \'z\''), ('A=\\n\\t\\\\', '\\n\\t\\\\'), ('A=\\$HOME', '$HOME'), ('A=$\\$HOME', '$$HOME'),
    ('A=\u00e4 \u00e4', '\u00e4 \u00e4'), ('A=x\\', 'x\\'),
    # Values in quotes.
    ("A='x \"y\" # \\n $HOME $$'", 'x "y" # \\n $HOME $$'), ("A='x\n y\r\n'\nB=2", 'x\n y\r\n'), ("A='' # c", ''),
    ('A="x \'y\' # z"', "x 'y' # z"), ('A="\\n\\t\\r\\"\\\\\\$\\x"', '\n\t\r"\\$\\x'), ('A="x\n\ny" \t# c\n', 'x\n\ny'),
    ('A="\\$HOME \\\\$HOME"', '$HOME \\/root'), ('A="$\\$HOME"', '$$HOME'), ('A="$$\\$HOME"', '$$HOME'), ('A=""\t', ''),
    # Variables.
    ('A=$HOME/${HOME}', '/root//root'), ('A=[$NONE][$EMPTY]', '[][]'), ('A=${NONE:-d}${EMPTY:-e}${EMPTY-f}', 'de'),
    ('A=${HOME:+x}${EMPTY+y}${EMPTY:+z}', 'xy'), ('A=${HOME:?m}${EMPTY?m}', '/root'), ('A=$$HOME $', '$HOME $'),
    ('A="${NONE:-\\"${HOME}\\"}"', '"/root"'), ('B=1\nA=$B\nB=2', '1'), ('HOME=/x\nA=$HOME', '/root'),
    ('B=$A\nA=[$B]', '[]'), ("B='$HOME'\nA=$B", '$HOME'), ('A=${B}\nB=1', ''),
)
SIGN = "missing '='"
NAME = 'not a variable name'
AFTER = 'text after the closing quote'
QUOTE = 'missing closing quote'
# Refused lines, with the position and the message.
REFUSED = (
    ('A=1\n B', '2:2', SIGN), ('export', '1:1', SIGN), ('export A', '1:1', SIGN), ('A B', '1:1', SIGN),
    ('A B=1', '1:1', NAME), ('my-key=1', '1:1', NAME), ('=1', '1:1', NAME), ('exportA B=1', '1:1', NAME),
    ('export =1', '1:1', NAME), ('\u00e4=1', '1:1', NAME),
    ('A="1"2', '1:1', AFTER), ("A='1'#", '1:1', AFTER), ('A=1\nB="\n" x', '2:1', AFTER),
    ('A="1', '1:1', QUOTE), ('A=\'1\n\\', '1:1', QUOTE), ('A="1\\"', '1:1', QUOTE), ('A=1\nB="\n\n\nC=1', '2:1', QUOTE),
    ('A=1\n\tA=${', '2:2', '`${` without a name; write `$$` for a dollar'),
    ('A=${B:=c}', '1:1', '`=` assigns, which isn\'t supported; write `${NAME:-default}` for a default'),
    ('A=${B#c}', '1:1', "patterns aren't supported; apply the pattern before, and set a variable to the result"),
    ('A="${B"', '1:1', 'a variable without a closing brace; write `}` after it'),
    ('A=${NONE:?hunter $HOME}', '1:1', no_such_variable('NONE') + ': hunter $HOME'),
    ('A=${EMPTY:?set it}', '1:1', '$EMPTY is empty: set it'), ('A=${NONE?}', '1:1', no_such_variable('NONE')),
)


class Dotenv(Subst):
    """The variables of .env files."""

    def setUp(self):
        super().setUp()
        self.environment = {**os.environ, 'HOME': '/root', 'EMPTY': ''}
        for name in ('A', 'B', 'C', 'NONE', 'export', 'a_Z'):
            self.environment.pop(name, None)

    def test_values(self):
        for text, value in VALUES:
            write(FILE, text.encode())
            self.assert_done(['-e', '--dotenv', FILE], b'[$A]', f'[{value}]'.encode(), env=self.environment)

    def test_lines_that_are_refused(self):
        for text, place, message in REFUSED:
            write(FILE, text.encode())
            told = told_without_line(f'{FILE}:{place}', message)
            for words in ([], ['--names'], ['--check'], ['-o', 'new']):
                self.assert_refused(['-e', '--dotenv', FILE, *words], b'$A', told, env=self.environment)
            self.assertFalse(os.path.exists('new'))
        write(FILE, b'A=hunter2\nB=\xff')
        self.assert_refused(['--dotenv', FILE], b'', told_without_line(f'{FILE}:2:3', 'invalid UTF-8'))

    def test_kinds_above_and_below(self):
        write(FILE, b'A=dotenv\nB=$A ${C}\n')
        write('values', b'A=values\n')
        below = ['--dotenv', FILE, '--default=A=default', '--default=C=default']
        for words, value in ((['-sA=set', '-fvalues', '-e'], 'set'), (['-fvalues', '-e'], 'values'),
                             (['-e'], 'env'), ([], 'dotenv')):
            self.assert_done([*words, *below], b'$A, $B, $C', f'{value}, {value} , default'.encode(),
                             env={**self.environment, 'A': 'env'})

    def test_several_files_and_standard_input(self):
        write('one', b'A=1\nB=$A\n')
        write('two', b'A=2\nC=$A$B\n')
        write('template', b'$A $B $C\n')
        self.assert_done(['--dotenv=one', '--dotenv', 'two', 'template'], output=b'2 1 21\n')
        self.assert_done(['--dotenv=two', '--dotenv', '-', 'template'], b'A=9\nB=$C', b'9 2 2\n')
        self.assert_wrong(['--dotenv', '-'], "standard input can be read only once; if values are read from it, name the files to fill in")
        self.assert_wrong(['--dotenv', '-', '-f', '-', 'template'],
                          "standard input can be read only once; if values are read from it, name the files to fill in")
        write('wrong', b'A')
        told = told_without_line('wrong:1:1', SIGN)
        self.assert_refused(['--dotenv=one', '--dotenv=wrong', '--dotenv=two', 'template'], b'', told)

    def test_hints(self):
        write(FILE, b'A=1\nB=$NONE\n  C="\n$NONE $OTHER ${NONE:-$THIRD} ${A:-$FOURTH}"')
        hints = b''.join(b'%s:%s: hint: $%s is not set\n' % (FILE.encode(), place, name)
                         for place, name in ((b'2:1', b'NONE'), (b'3:3', b'OTHER'), (b'3:3', b'THIRD')))
        self.assert_ends(run_with_hints(PROGRAM, ['--dotenv', FILE], b'$A', name='subst'), 0, b'1', hints)

    def test_value_that_is_not_utf8(self):
        write(FILE, b'B=${A:-1}\n')
        told = told_without_line(f'{FILE}:1:1', UNREADABLE + 'A')
        self.assert_refused(['-e', '--dotenv', FILE], b'', told, env={b'A': b'\xff', b'PATH': b'/'})
        write(FILE, b'B=1\n')
        self.assert_done(['-e', '--dotenv', FILE], b'$B', b'1', env={b'A': b'\xff', b'PATH': b'/'})

    def test_gives_variables(self):
        write(FILE, b'A=x y\n')
        self.assert_done(['--known', '--dotenv', FILE], b'$A $B', b'x y $B')
        self.assert_done(['--escape=sh', '--dotenv', FILE], b'$A', b"'x y'")
        write(FILE, b'A=\n')
        self.assert_done(['--no-empty', '--dotenv', FILE, '--default=A=1'], b'$A', b'1')
