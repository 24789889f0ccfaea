"""The program subst beside GNU envsubst, on random templates.

Each template is an input of envsubst, and of subst with --envsubst, and with --only if two names are listed. Both
outputs have to be equal. A variable that subst reports as missing then gets an empty value, as it has in envsubst.
"""
import random
import re
import subprocess

from faults import no_such_variable
from tests.support import SECONDS, Built, needs, path_of

TEMPLATES = 300
LISTED = '$HOST $PORT'
# No variable has a name that begins with NONE.
VARIABLES = {'HOST': 'example', 'PORT': '', 'HOSTNAME': '$PORT ${HOST}', 'A': '\\$A}', '_b1': 'two\nlines',
             'é': 'no name'}
NAMES = ('HOST', 'PORT', 'HOSTNAME', 'A', '_b1', 'NONE', 'NONE_2', '1', 'é', '')
PIECES = ('$', '$$', '\\', '\\\\', '{', '}', ':', '?', '-', ' ', '\n', 'a', '_', '9', '\t', 'é❤', '${', '"', "'", '\\$',
          '&')
FORMS = ('$%s', '${%s}', '$%s-', '${%s:-x}', '${%s:x}', '${%s?}', '${%s', '\\$%s', '$$%s', '{$%s}', '${${%s}}', '%s')


def template():
    """Returns a random template."""
    parts = [random.choice(FORMS) % random.choice(NAMES) if random.random() < 0.5 else random.choice(PIECES)
             for _ in range(random.randrange(20))]
    return ''.join(parts).encode()


@needs('envsubst')
class Envsubst(Built):
    """The outputs of both programs."""
    programs = ('subst_cli',)

    def ended(self, command, source):
        environment = {'PATH': '/usr/bin:/bin', 'LC_ALL': 'C.UTF-8', **VARIABLES}
        return subprocess.run(command, input=source, timeout=SECONDS, env=environment, stdout=subprocess.PIPE,
                              stderr=subprocess.PIPE)

    def output_of(self, command, source):
        """Returns the output of a command, which has to end with status 0."""
        end = self.ended(command, source)
        self.assertEqual(end.returncode, 0, (command, source, end.stderr))
        return end.stdout

    def output_of_ours(self, words, source):
        """Returns the output of subst, with an empty value for each missing variable."""
        command = [path_of('subst_cli'), '-e', *words]
        end, fault = self.ended(command, source), re.escape(no_such_variable(''))
        if end.returncode == 0:
            return end.stdout
        missing = re.findall(rf'^<stdin>:\d+:\d+: error: {fault}(\w+)$', end.stderr.decode(), re.MULTILINE | re.ASCII)
        return self.output_of([*command, *(f'-s{name}=' for name in missing)], source)

    def assert_same(self, listed, words):
        """Compares both programs on templates. Every second one isn't UTF-8."""
        for number in range(TEMPLATES):
            source = template() + (b'\xff$HOST\xc3' if number % 2 else b'')
            found = self.output_of_ours([*words, *(['--bytes'] if number % 2 else [])], source)
            self.assertEqual(found, self.output_of(['envsubst', *listed], source), source)

    def test_subst_writes_what_envsubst_writes(self):
        self.assert_same([], ['--envsubst'])

    def test_subst_with_chosen_names_writes_what_envsubst_writes(self):
        self.assert_same([LISTED], ['--envsubst', '--only', LISTED])
