"""The target fuzz/subst.c, which tests each call of the library for C against its header: over the sources of the
stored answers, over texts of each kind with each request for memory refused, and by libFuzzer.
"""
import concurrent.futures
import functools
import os
import pathlib
import re

import faults
from fuzz import corpus
from tests.installed import CC, Compiling, prefix
from tests.support import TOP, Built, needs, preloading, ran
from tests.test_c_library import SANITIZED

STRICT = ('-std=c99', '-g', '-O1', '-Wall', '-Wextra', '-Werror')
# The seconds and the seed of libFuzzer.
SECONDS, SEED = 60, 1
# The most requests for memory of any input.
MOST_REQUESTS = 10000


def built(*options, compiler=CC, library='libsubst.a'):
    """Builds the target with the library. Returns its path."""
    pathlib.Path('texts.h').write_text(faults.header(), encoding='utf-8')
    ran([compiler, *STRICT, *options, '-I.', f'-I{prefix()}/include', '-o', 'target', TOP / 'fuzz/subst.c',
         prefix() / 'lib' / library])
    return os.path.abspath('target')


def write_few():
    """Writes the few inputs to files. Returns their names."""
    for at, data in enumerate(corpus.few()):
        pathlib.Path(f'input_{at}').write_bytes(data)
    return [f'input_{at}' for at in range(len(corpus.few()))]


def times_refused(target, name):
    """Refuses each request for memory of an input in turn, until none is left. Returns how many were refused, and how
    often a call was out of memory."""
    times = 0
    for request in range(1, MOST_REQUESTS):
        report = pathlib.Path(f'{name}.refused')
        printed = ran([target, name], env=preloading('refuse_memory.c', REFUSE_REQUEST=str(request),
                                                     REFUSE_REPORT=str(report)))
        found = int(re.search(r'^1 inputs, (\d+) times out of memory$', printed, re.MULTILINE)[1])
        if not report.exists():
            assert found == 0, f'{name}: out of memory with no request refused'
            return request - 1, times
        report.unlink()
        times += found
    raise AssertionError(f'{name}: no end of requests')


class Fuzzing(Compiling, Built):
    """The calls of the library for C, against the promises of its header."""

    def test_calls_are_right_over_the_stored_sources(self):
        target, folder = built('-DSTANDALONE'), pathlib.Path('corpus')
        folder.mkdir()
        count = corpus.make(folder)
        printed = ran(['sh', '-c', 'find corpus -type f -exec "$0" {} +', target], timeout=600)
        self.assertEqual(sum(map(int, re.findall(r'^(\d+) inputs, 0 times', printed, re.MULTILINE))), count)

    def test_a_call_that_is_refused_memory_writes_nothing_and_is_right_when_made_again(self):
        target = built('-DSTANDALONE')
        names = write_few()
        preloading('refuse_memory.c')
        with concurrent.futures.ThreadPoolExecutor(os.cpu_count()) as lanes:
            for name, (count, times) in zip(names, lanes.map(functools.partial(times_refused, target), names)):
                self.assertGreater(times, 0, name)
                self.assertGreater(count, times, name)

    def test_calls_of_the_shared_library_are_right(self):
        ran([built('-DSTANDALONE', library='libsubst.so'), *write_few()],
            env={'LD_LIBRARY_PATH': str(prefix() / 'lib')})

    def test_calls_pass_with_sanitizers(self):
        self.need_to_compile(CC, *SANITIZED)
        ran([built('-DSTANDALONE', *SANITIZED), *write_few()], timeout=600)

    @needs('valgrind')
    def test_calls_pass_under_valgrind(self):
        ran(['valgrind', '-q', '--error-exitcode=9', '--leak-check=full', built('-DSTANDALONE'), *write_few()],
            timeout=600)

    @needs('clang')
    def test_libfuzzer_finds_no_call_that_is_wrong(self):
        self.need_to_compile('clang', '-fsanitize=fuzzer,address',
                             source='int LLVMFuzzerTestOneInput(const char *d, long n) { return d == 0 && n != 0; }')
        target, folder = built('-fsanitize=fuzzer,address', compiler='clang'), pathlib.Path('corpus')
        folder.mkdir()
        corpus.make(folder)
        ran([target, f'-seed={SEED}', f'-max_total_time={SECONDS}', '-max_len=4096', '-timeout=10',
             '-print_final_stats=0', '-artifact_prefix=./', 'corpus'], timeout=600)
