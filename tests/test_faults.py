"""Messages of `subst` about faults: positions, lines and carets."""
import errno

from faults import invalid_escape, missing_brace, no_such_variable, unexpected
from tests.subst import NO_NAME, Subst, failed, missing, told, told_without_line, write
from tests.support import HIDDEN, KIB, as_told, some_size

WIDE = '\u6f22'
# Sources of one fault each: the source, the position, with columns of a terminal, the message, the shown line, the
# columns before the carets, and the number of carets.
FAULTS = (
    ('$', '1:1', NO_NAME, '$', 0, 1),
    ('a\n$\nb', '2:1', NO_NAME, '$', 0, 1),
    ('${}', '1:1', NO_NAME, '${}', 0, 2),
    ('$A $-', '1:4', NO_NAME, '$A $-', 3, 1),
    ('${a', '1:2', missing_brace(), '${a', 1, 1),
    ('${a:{}', '1:2', missing_brace(), '${a:{}', 1, 1),
    ('${a-b} $A', '1:4', unexpected("'-'"), '${a-b} $A', 3, 1),
    (f'${{a{WIDE}', '1:4', unexpected(f"'{WIDE}'"), f'${{a{WIDE}', 3, 2),
    ('ab\\q', '1:3', invalid_escape('q'), 'ab\\q', 2, 2),
    ('ab\\', '1:3', invalid_escape(), 'ab\\', 2, 1),
    ('a\tb\t$', '1:5', NO_NAME, 'a b $', 4, 1),
    ('a\r\nb$\r\n', '2:2', NO_NAME, 'b$', 1, 1),
    ('\\\r\n', '1:1', invalid_escape('\\u{d}'), '\\', 0, 1),
    (f'{WIDE}\u00e4{WIDE}$', '1:6', NO_NAME, f'{WIDE}\u00e4{WIDE}$', 5, 1),
    ('e\u0301$', '1:2', NO_NAME, 'e\u0301$', 1, 1),
    ('a\x1b[31m$\x1b', '1:7', NO_NAME, 'a\\u{1b}[31m$\\u{1b}', 11, 1),
    ('\x07\x7f\x9b$', '1:4', NO_NAME, '\\u{7}\\u{7f}\\u{9b}$', 17, 1),
    ('\u202e\u2066$\u200f', '1:1', NO_NAME, '\\u{202e}\\u{2066}$\\u{200f}', 16, 1),
    ('${a\x1b', '1:4', unexpected("'\\u{1b}'"), '${a\\u{1b}', 3, 6),
    # Lines of 60 columns are shown whole. Of wider ones 60 columns are shown, with the ellipses.
    ('$' + '-' * 59, '1:1', NO_NAME, '$' + '-' * 59, 0, 1),
    ('$' + '-' * 60, '1:1', NO_NAME, '$' + '-' * 58 + '\u2026', 0, 1),
    ('a' * 59 + '$', '1:60', NO_NAME, 'a' * 59 + '$', 59, 1),
    ('a' * 60 + '$', '1:61', NO_NAME, '\u2026' + 'a' * 58 + '$', 59, 1),
    ('a' * 10000 + '$', '1:10001', NO_NAME, '\u2026' + 'a' * 58 + '$', 59, 1),
    ('a' * 99 + '$' + '-' * 99, '1:100', NO_NAME, '\u2026' + 'a' * 29 + '$' + '-' * 28 + '\u2026', 30, 1),
    ('a' * 9999 + '$' + '-' * 9999, '1:10000', NO_NAME, '\u2026' + 'a' * 29 + '$' + '-' * 28 + '\u2026', 30, 1),
    (WIDE * 40 + '$', '1:81', NO_NAME, '\u2026' + WIDE * 29 + '$', 59, 1),
    (WIDE * 40 + '$.', '1:81', NO_NAME, '\u2026' + WIDE * 28 + '$.', 57, 1),
    ('$.' + WIDE * 40, '1:1', NO_NAME, '$.' + WIDE * 28 + '\u2026', 0, 1),
)


class Faults(Subst):
    """Messages about faults."""

    def test_faults(self):
        for source, place, what, line, before, count in FAULTS:
            message = told(f'<stdin>:{place}', what, line, ' ' * before + '^' * count)
            for words in ([], ['--bytes'], ['--check']):
                if words != ['--bytes'] or what.isascii():
                    self.assert_refused(words, source.encode(), message)

    def test_all_that_is_missing_is_told(self):
        first, second = '$a ${b:$c} ${d?} \\$e ${a} ${b}', '${f}'
        self.assert_refused(['-sg=1'], f'{first}\r\n$g\r\n{second}'.encode(),
                            missing('a', '<stdin>:1:2', first, ' ^'), missing('c', '<stdin>:1:9', first, '        ^'),
                            missing('a', '<stdin>:1:24', first, ' ' * 23 + '^'),
                            missing('b', '<stdin>:1:29', first, ' ' * 28 + '^'),
                            missing('f', '<stdin>:3:3', second, '  ^'))
        long = 'a' * 70 + '${' + 'n' * 70 + '}'
        line = '\u2026' + 'a' * 27 + '${' + 'n' * 29 + '\u2026'
        self.assert_refused([], long.encode(), missing('n' * 70, '<stdin>:1:73', line, ' ' * 30 + '^' * 29))

    def test_names_that_are_very_long(self):
        """At most 240 columns of a fault's message are shown, and 120 of a path."""
        line, carets = '$' + 'n' * 58 + '\u2026', ' ' + '^' * 58
        room = 240 - len(no_such_variable(''))
        for count in (room, room + 1, some_size(KIB)):
            what = no_such_variable('n' * min(count, room)) + '\u2026' * (count > room)
            self.assert_refused([], b'$' + b'n' * count, told('<stdin>:1:2', what, line, carets))
        key, line = 'k' * 118, '\u2026' + 'k' * 51 + '": "$x"}'
        for more in ('', 'k'):
            path = f'/{key}{more}'[:120] + '\u2026' * (len(key + more) > 119)
            place = f'<stdin>:1:{len(key + more) + 8}'
            self.assert_refused(['--json'], f'{{"{key}{more}": "$x"}}'.encode(),
                                missing('x', place, line, ' ' * 57 + '^', path))

    def test_names_of_files_are_shown_without_control_characters(self):
        for name, as_shown in (('a\x1b[1m', 'a\\u{1b}[1m'), ('b\n', 'b\\u{a}'), ('c\u202e', 'c\\u{202e}'),
                               ('\u00e4 d', '\u00e4 d'), ('e\tf', 'e f'), ('g\u200bh', 'g\\u{200b}h')):
            self.assert_failed([name], failed(as_shown, errno.ENOENT))
            write(name, b'$x')
            self.assert_refused([name], b'', missing('x', f'{as_shown}:1:2', '$x', ' ^'))
            self.assert_refused(['-f', name], b'', told_without_line(f'{as_shown}:1:1', "missing '='"))
            self.assert_done(['--names', name], output=f'x\t{as_shown}:1:2\trequired\n'.encode())
            self.assert_failed(['-o', f'{name}/x', '-sx=1', name], failed(f'{as_shown}/x', errno.ENOTDIR))

    def test_characters_that_cannot_be_seen(self):
        hidden = [character for character in map(chr, range(0x80, 0x110000)) if HIDDEN.match(character)]
        for character in [*hidden[:-4096], hidden[-1]]:
            self.assert_failed([f'a{character}'], failed(as_told(f'a{character}'), errno.ENOENT))
        for character in '\u00a0\u0600\u200a\u2070\ufffc\U000dffff\U000e1000':
            self.assert_failed([f'a{character}'], failed(f'a{character}', errno.ENOENT))
