"""The requests for memory of each call and their bytes, as in tests/data/requests.txt, and the behaviour of calls
without memory.

The program subst_memory_tests makes each call between a line 'call: NAME' and a line 'end of call'. Before and after
it, lines that begin with 'borrowed' show all that the call borrows; its answer is in between. With no request refused,
the output has to be the stored one, and the calls that make requests, the numbers of these and their bytes have to be
those of that file. Then each request of each call is refused in a run of its own.

Each such run has to print the stored output too, with one exception: a call that is out of memory reports it right
after its end, and shows that what it borrows is unchanged. The same call with memory then has to return its answer. A
call that makes requests has to be out of memory in at least one run.

`python3 -m tests.test_memory` prints the lines of that file.
"""
import functools
import os
import re
from typing import NamedTuple

from building import CRATES, TOP
from tests.support import Built, preloading, run

PROGRAM = 'subst_memory_tests'
STORED = (CRATES / PROGRAM / 'stdout').read_text(encoding='utf-8').splitlines()
LISTED = (TOP / 'tests/data/requests.txt').read_text(encoding='utf-8')
# Each call that makes requests, with their number and their bytes.
TABLE = {name: (int(count), int(size)) for name, count, size in
         re.findall(r'^(.*\S) +(\d+) +(\d+)$', LISTED, re.MULTILINE)}
# Lines of the library about a request, and of the program about a call.
REQUEST, CALL, END, LENT, OUT_OF_MEMORY = 'request ', 'call: ', 'end of call', 'borrowed', 'out of memory'


class Call(NamedTuple):
    """A call: the number of requests before it, the number of its own, their bytes, and the index of its last line."""
    before: int
    count: int
    size: int
    end: int


def lines_of(**variables):
    """Returns the lines of the program under the preloaded library, which these variables control."""
    end = run(PROGRAM, env={**os.environ, **preloading('refuse_memory.c', **variables)})
    assert (end.status, end.errors) == (0, b''), end
    return end.output.decode().splitlines()


@functools.lru_cache(None)
def calls():
    """Runs the program with no request refused. Returns its lines, and each call by its name."""
    found, printed, sizes = {}, [], []
    for line in lines_of(REFUSE_NONE='1'):
        if line.startswith(REQUEST):
            sizes.append(int(line[len(REQUEST):]))
            continue
        if line.startswith(CALL):
            name, before = line[len(CALL):], len(sizes)
        elif line == END:
            assert name not in found, f'two calls of the name {name}'
            found[name] = Call(before, len(sizes) - before, sum(sizes[before:]), len(printed))
        printed.append(line)
    return printed, found


def out_of_memory(call):
    """Returns the expected lines if a call is out of memory."""
    first = last = call.end - 1
    while first > 0 and STORED[first - 1].startswith(LENT):
        first -= 1
    after = call.end + 1
    return [*STORED[:after], OUT_OF_MEMORY, *STORED[first:last], *STORED[after:]]


class Memory(Built):
    """Each call, with memory and without."""
    programs = (PROGRAM,)

    def is_out_of_memory(self, call, request):
        """Refuses a request of a call. Returns whether the call was out of memory."""
        lines = lines_of(REFUSE_REQUEST=str(request), REFUSE_REPORT='refused')
        os.remove('refused')
        if lines != STORED:
            self.assertEqual(lines, out_of_memory(call), f'request {request - call.before} of {call.count} refused')
        return lines != STORED

    def test_calls_give_what_is_stored(self):
        self.assertEqual(calls()[0], STORED)

    def test_each_call_makes_the_listed_requests(self):
        self.assertEqual({name: (it.count, it.size) for name, it in calls()[1].items() if it.count}, TABLE)

    def assert_request_is_refused(self, name):
        """Refuses each request of the call in turn."""
        call = calls()[1][name]
        times = [self.is_out_of_memory(call, call.before + number + 1) for number in range(call.count)]
        self.assertTrue(any(times), f'never out of memory with {call.count} requests refused in turn')


for call_name in TABLE:
    setattr(Memory, f'test_{re.sub("[^A-Za-z0-9]+", "_", call_name)}_is_refused_memory',
            functools.partialmethod(Memory.assert_request_is_refused, call_name))


if __name__ == '__main__':
    for call_name, call in calls()[1].items():
        if call.count:
            print(f'{call_name:<58} {call.count:>8} {call.size:>6}')
