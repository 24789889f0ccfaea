"""Sources, values and lists that are larger than each buffer."""
import json

from faults import no_such_variable
from tests.subst import Subst, drawn, missing, subst, told, toml_of, write
from tests.support import KIB, MIB, in_memory, some_size


class Sources(Subst):
    """Large sources and documents."""

    def test_large_sources(self):
        for words in ([], ['--bytes'], ['--envsubst'], ['--only=A']):
            source, output = drawn(some_size(MIB))
            write('source', source)
            self.assert_done([*words, '-sA=<value>', 'source'], output=output)
        self.assert_done(['-sA=<value>'], source, output)
        self.assert_done(['-sA=<value>', '-o', 'output', 'source'])
        self.assert_file('output', output)
        self.assert_done(['-sA=<value>', '-i', 'source'])
        self.assert_file('source', output)
        self.assert_done([], output, output)
        self.assert_files('source', 'output')

    def test_large_sources_are_filled_in_in_little_memory(self):
        for words in ([], ['--envsubst'], ['--only=A']):
            self.assert_done([*words, '-sA=value'], 16 * KIB * (b'prose $A' + 504 * b'.'),
                             16 * KIB * (b'prose value' + 504 * b'.'), **in_memory(230 * MIB))

    def test_large_documents(self):
        members = {f'key{number}': [f'$A{number % 7}', {'x': '${A}', 'y': f'\u00e4{number}'}]
                   for number in range(some_size(30000, 300000))}
        filled = {key: [f'{item[0].replace("$A", "$B")}', {**item[1], 'x': '$B"'}] for key, item in members.items()}
        words = ['-sA=$B"', *(f'-sA{number}=$B{number}' for number in range(7))]
        source = json.dumps(members)
        self.assert_tree(subst(['--json', *words], source.encode()), 'json', filled)
        few = list(members)[:some_size(5000, 30000)]
        source = toml_of({key: members[key] for key in few})
        self.assert_tree(subst(['--toml', *words], source.encode()), 'toml', {key: filled[key] for key in few})

    def test_several_large_files(self):
        first, second = drawn(some_size(MIB)), drawn(some_size(64 * KIB, 4 * MIB))
        write('first', first[0])
        write('second', second[0])
        self.assert_done(['-sA=<value>', 'first', 'second', 'first'], output=first[1] + second[1] + first[1])
        write('output', b'old')
        write('refused', b'\n$missing')
        message = missing('missing', 'refused:2:2', '$missing', ' ^^^^^^^')
        for words in ([], ['-o', 'output']):
            self.assert_refused(['-sA=<value>', *words, 'first', 'refused', 'second'], b'', message)
        self.assert_file('output', b'old')
        self.assert_files('first', 'second', 'output', 'refused')


class Lists(Subst):
    """Many values, files and names."""

    def test_many_values(self):
        names = [f'n{number}' for number in range(some_size(10000, 40000))]
        source = ' '.join(f'${name}' for name in names).encode()
        wanted = source.replace(b'$n', b'v')
        write('values', b''.join(b'%s=v%s\n' % (name.encode(), name[1:].encode()) for name in names))
        self.assert_done(['-f', 'values'], source, wanted)
        self.assert_done(['-e'], source, wanted, env={name: f'v{name[1:]}' for name in names})
        few = names[:some_size(100, 4000)]
        source = ' '.join(f'${name}' for name in few).encode()
        self.assert_done([f'-s{name}=v{name[1:]}' for name in few], source, source.replace(b'$n', b'v'))
        self.assert_done([*(f'-s{name}=v{name[1:]}' for name in few), f'--only={",".join(few)}'], source + b'$m',
                         source.replace(b'$n', b'v') + b'$m')

    def test_long_values(self):
        value = 'x$A\\' * some_size(KIB, 4 * MIB)
        write('values', f'A={value}\nB=1\\\nC=2'.encode())
        self.assert_done(['-f', 'values'], b'$A|$B|$C', f'{value}|1\\|2'.encode())
        value = value[:some_size(KIB, 127 * KIB)]
        self.assert_done([f'-sA={value}'], b'$A', value.encode())
        self.assert_done(['-e'], b'$A', value.encode(), env={'A': value})

    def test_many_files(self):
        names = [f'f{number}' for number in range(some_size(300, 3000))]
        for name in names:
            write(name, f'{name} $A\n'.encode())
        self.assert_done(['-sA=1', *names], output=''.join(f'{name} 1\n' for name in names).encode())
        self.assert_done(['-sA=1', '-i', *names])
        for name in names:
            self.assert_file(name, f'{name} 1\n'.encode())

    def test_many_names_that_are_missing(self):
        names = [f'n{number}' for number in range(some_size(1000, 8000))]
        end = subst([], '\n'.join(f'${name}' for name in names).encode())
        wanted = b''.join(told(f'<stdin>:{line}:2', no_such_variable(name), f'${name}', ' ' + '^' * len(name))
                          for line, name in enumerate(names, 1))
        self.assert_ends(end, 1, errors=wanted)
