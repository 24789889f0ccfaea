"""The instructions of runs of the built programs, compared with those in tests/data/instructions.tsv.

Contracts bound the reads and the turns of a loop, not their cost; this test finds work that is done twice. Callgrind
counts, start-up included. A run fails if it takes over a tenth more than the stored count. If it takes a tenth less,
the test reports it, and `python3 -m tests.test_instructions --write` stores all counts again.
"""
import json
import sys

from tests.support import MIB, TOP, Built, needs

sys.path.insert(1, str(TOP / 'benches'))
import inputs
import run as benches

TABLE = TOP / 'tests/data/instructions.tsv'
HEAD = '# Written by tests/test_instructions.py --write alone: the instructions of each work.\n'
# The share of the stored instructions that is too many, and the share that is so few that they are stored again.
MOST, FEW = 1.1, 0.9
# Without copies by `rep movsb`, which count once a byte from a length on that depends on the machine.
COPIES = {'GLIBC_TUNABLES': 'glibc.cpu.hwcaps=-ERMS,-FSRM'}
TEXT = 'A line of prose, in which no byte is special - but Ŵörds are wide.\n'
NAMES = ('HOST', 'PORT', 'USER_NAME', 'DB', 'REGION', 'TOKEN')
SETTINGS = [f'{name}=the value of {name}' for name in NAMES]


def filled(word, text, size=MIB):
    """Returns a run of the filter over a text that is repeated up to this size."""
    source = text.encode()
    source *= size // len(source)
    return benches.run_on(source, benches.program('subst_filter'), word, *SETTINGS, **COPIES)


def command(source, *words):
    return benches.run_on(source, benches.program('subst_cli'), *words, **COPIES)


def filled_document(kind):
    made = inputs.document('json' if kind == 'yaml' else kind, 100_000)
    source = yaml_of(json.loads(made.source)) if kind == 'yaml' else made.source
    return command(source, f'--{kind}', *(f'-s{name}={value}' for name, value in made.variables.items()))


def yaml_of(objects):
    """Returns a list of objects as YAML without quotes."""
    return ''.join(f'{" " if at else "-"} {key}: {it[key]}\n' for it in objects for at, key in enumerate(it)).encode()


WORKS = {
    'the filter starts': lambda: filled('bytes', TEXT, 0),
    'prose': lambda: filled('bytes', TEXT),
    'prose as a text': lambda: filled('text', TEXT),
    'settings': lambda: filled('bytes', inputs.CONFIGURATION),
    'escapes': lambda: filled('bytes', ''.join(inputs.ESCAPES)),
    'nested defaults': lambda: filled('bytes', inputs.nested_defaults(50)),
    'subst starts': lambda: command(b''),
    'subst of settings': lambda: command(1000 * inputs.CONFIGURATION.encode(), *(f'-s{it}' for it in SETTINGS)),
    'settings as envsubst has them': lambda: command(1000 * inputs.CONFIGURATION.encode(), '--envsubst',
                                                     *(f'-s{it}' for it in SETTINGS)),
    'JSON': lambda: filled_document('json'),
    'TOML': lambda: filled_document('toml'),
    'TOML that stays': lambda: command(''.join(f"name_{line} = '{TEXT[:-1]}'\n" for line in range(1000)).encode(),
                                       '--toml', '-s', SETTINGS[0]),
    'YAML': lambda: filled_document('yaml'),
    'YAML that stays': lambda: command(''.join(f"name_{line}: '{TEXT[:-1]}'\n" for line in range(1000)).encode(),
                                       '--yaml', '-s', SETTINGS[0]),
}


def stored():
    lines = TABLE.read_text(encoding='utf-8').splitlines()[1:]
    return {name: int(count) for name, count in (line.split('\t') for line in lines)}


@needs('valgrind')
class Instructions(Built):
    """Runs that take no more instructions than are stored."""
    programs = 'subst_filter', 'subst_cli'

    def test_works_take_what_is_stored(self):
        for name, make in WORKS.items():
            with self.subTest(name):
                count, known = benches.instructions(make()), stored().get(name, 0)
                self.assertLessEqual(count, MOST * known, f'instructions, and {known:,} are stored')
                if count < FEW * known:
                    print(f'{name}: {count:,} instructions alone, and {known:,} are stored: --write stores them anew')


if __name__ == '__main__' and sys.argv[1:] == ['--write']:
    TABLE.write_text(HEAD + ''.join(f'{name}\t{benches.instructions(make())}\n' for name, make in WORKS.items()),
                     encoding='utf-8')
