"""Templates that were written for other programs."""
import re
import shutil

from faults import invalid_escape, no_such_variable
from tests.subst import NO_NAME, UNREADABLE, Subst, missing, subst, told, write
from tests.support import TOP, needs, ran

TEMPLATES = TOP / 'tests/data/templates'


def variables():
    """Returns the variables of the templates, by their names."""
    lines = (TEMPLATES / 'variables.env').read_text(encoding='utf-8').splitlines()
    return dict(line.split('=', 1) for line in lines if line and not line.startswith('#'))


def templates():
    """The templates of other programs."""
    found = [path for path in sorted(TEMPLATES.iterdir()) if path.with_name(f'{path.name}.expected').exists()]
    assert len(found) == 8, f'there are {len(found)} templates'
    return found


def places_of(name, text):
    """Returns the lines and columns of a variable's name in a text, as envsubst finds it. In its line, every character
    before it is one column wide."""
    found = re.finditer(rf'\$(?:{name}(?!\w)|\{{{name}\}})', text, re.ASCII)
    starts = [text.index(name, match.start()) for match in found]
    return [(text.count('\n', 0, at) + 1, at - text.rfind('\n', 0, at)) for at in starts]


class Templates(Subst):
    """Templates of envsubst."""

    def test_templates_of_other_programs(self):
        for template in templates():
            wanted = template.with_name(f'{template.name}.expected').read_bytes()
            self.assert_done(['--envsubst', '-f', TEMPLATES / 'variables.env', template], output=wanted)
            self.assert_done(['--envsubst', '-e', template], output=wanted, env=variables())

    @needs('envsubst')
    def test_envsubst_makes_the_same_of_them(self):
        envsubst = shutil.which('envsubst')
        for template in templates():
            with open(template, encoding='utf-8') as source:
                output = ran([envsubst], stdin=source, env=variables())
            wanted = template.with_name(f'{template.name}.expected').read_text(encoding='utf-8')
            self.assertEqual(output, wanted, template.name)

    def test_one_variable_of_a_template_is_missing(self):
        pairs = [(template, name, places) for template in templates() for name in variables()
                 if (places := places_of(name, template.read_text(encoding='utf-8')))]
        self.assertGreaterEqual(len(pairs), 50)
        for template, name, places in pairs:
            others = {other: value for other, value in variables().items() if other != name}
            end = subst(['--envsubst', '-e', template.name], env=others, cwd=TEMPLATES)
            heads = [line for line in end.errors.decode().splitlines() if not line.startswith('  ')]
            wanted = [f'{template.name}:{line}:{column}: error: {no_such_variable(name)}' for line, column in places]
            self.assertEqual((end.status, end.output, heads), (1, b'', wanted), f'{template.name} without {name}')

    def test_templates_of_other_programs_in_our_language(self):
        self.assert_refused(['-f', 'variables.env', 'crontab', 'entrypoint.sh', 'worker@.service'], b'',
                            told('crontab:1:50', invalid_escape('%'),
                                 '# Jobs of ${APP_NAME}. A percent sign is written \\% here.', ' ' * 49 + '^^'),
                            told('entrypoint.sh:6:4', NO_NAME, '[ "$#" -gt 0 ] && shift', '   ^'),
                            told('worker@.service:11:22', NO_NAME,
                                 'Environment="PRICE=US$$ 5" "ROOT=/srv/${APP_NAME}"', ' ' * 21 + '^'), cwd=TEMPLATES)


# The messages of refused forms, and texts with each.
NO_SHELL = (
    ("`=` assigns, which isn't supported; write `${NAME:-default}` for a default", ('${B=x}', 'a ${B:=x}')),
    ("patterns aren't supported; apply the pattern before, and set a variable to the result", ('${A#x}', '${A%x}', '$A ${A/x/y}')),
    ("`:` takes a substring, which isn't supported; write `${NAME:-default}` for a default", ('${A:1:2}', '${A:x}')),
    ("`${` without a name; write `$$` for a dollar", ('${}', '$A ${#A}', '$$${1}', '${!A}')),
    ("an unknown operator; write `$$` for a dollar", ('${A!}', '${A^}', '${A,,}', '${A@Q}', '${A }')),
    ('a variable without a closing brace; write `}` after it', ('a ${A', '${A:-x', '${A:?m', '${B-${A}')),
)


class Shell(Subst):
    """Templates of Docker Compose."""

    def test_shell(self):
        for word in ('--shell', '--compose'):
            self.assert_done([word, '-e'], b'${TAG:-latest}', b'latest', env={'TAG': ''})
            self.assert_done([word, '-e', '--default=TAG=d', '--no-empty'], b'$TAG', b'd', env={'TAG': ''})
            self.assert_done([word, '-e', '--json'], b'["$A ${A:-\\"x\\"}", {"$$A": "$$A"}]',
                             b'[" \\"x\\"", {"$$A": "$A"}]', env={})

    def test_compose_file(self):
        """The output by Docker Compose's rules was worked out by hand."""
        template = TEMPLATES / 'compose.yml'
        values = {'TAG': '', 'WEB_PORT': '80', 'NAME': 'web-1', 'PG_VERSION': '16', 'DB_PASSWORD': 'p$ss:-}word',
                  'ENVIRONMENT': 'prod'}
        wanted = template.with_name('compose.yml.by-shell').read_bytes()
        self.assert_done(['--shell', '-e', template], output=wanted, env=values)
        self.assert_done(['--shell', *(f'-s{name}={value}' for name, value in values.items()), template], output=wanted)
        line = '      POSTGRES_PASSWORD: ${DB_PASSWORD:?set it in .env}'
        message = told('compose.yml:15:28', '$DB_PASSWORD is empty: set it in .env', line, ' ' * 27 + '^' * 11)
        self.assert_refused(['--shell', '-e', 'compose.yml'], b'', message, env={**values, 'DB_PASSWORD': ''},
                            cwd=TEMPLATES)

    def test_shell_that_is_refused(self):
        for what, texts in NO_SHELL:
            for text in texts:
                column = text.index('${') + 1
                message = told(f'<stdin>:1:{column}', what, text, ' ' * (column - 1) + '^')
                for words in ([], ['--bytes'], ['--names'], ['--strict']):
                    self.assert_refused(['--shell', '-sA=1', *words], text.encode(), message)
        what = 'an opening brace in a default; write the variable without braces, as in `${NAME:$OTHER}`'
        self.assert_refused(['--only=B', '-sB=1'], b'$ ${B:{}}', told('<stdin>:1:7', what, '$ ${B:{}}', ' ' * 6 + '^'))

    def test_faults_of_a_shell(self):
        line = '$$ ${A:-$B} ${B:?must} $B ${C:-${D:?x}} ${E:?}'
        faults = (missing('B: must', '<stdin>:2:15', line, ' ' * 14 + '^'),
                  missing('D: x', '<stdin>:2:34', line, ' ' * 33 + '^'),
                  told('<stdin>:2:43', '$E is empty', line, ' ' * 42 + '^'))
        self.assert_refused(['--shell', '-sA=1', '-sE='], b'$A\n' + line.encode(), *faults)
        self.assert_refused(['--shell', '-e'], b'$$ ${A:-x}',
                            told('<stdin>:1:6', f'{UNREADABLE}A', '$$ ${A:-x}', '     ^'), env={b'A': b'\xff'})
        self.assert_refused(['--shell', '--json', '-sB='], b'["\\u0024{A:?}"]',
                            missing('A', '<stdin>:1:10', '["\\u0024{A:?}"]', ' ' * 9 + '^', '/0'))
        self.assert_done(['--shell', '--names'], b'$$A ${B:-$C} ${D:?x $y}$E', b'B\t<stdin>:1:7\tdefault\t$C\n'
                         b'C\t<stdin>:1:11\toptional\nD\t<stdin>:1:16\trequired\nE\t<stdin>:1:25\toptional\n')

    def test_messages(self):
        """Messages about an unset and about an empty variable."""
        unset = no_such_variable('A')
        for text, as_told in (('must be set', ': must be set'), ('', ''), (' {}: $B', ':  {}: 1'),
                              ('\t\x1b', ':  \\u{1b}')):
            line = f'  listen ${{A:?{text}}};'
            write('web.conf', f'server {{\n{line}\n'.encode())
            shown = line.replace('\t', ' ').replace('\x1b', '\\u{1b}')
            for words, what in ((['-sB=1'], unset), (['-sB=1', '-sA='], '$A is empty')):
                for more in ([], ['--only=A,B'], ['--known'], ['--strict']):
                    self.assert_refused(['--shell', *words, *more, 'web.conf'], b'',
                                        told('web.conf:2:12', what + as_told, shown, ' ' * 11 + '^'))
