"""Runs the tests. The last line is 'N passed, M failed', with ', K skipped' if some were.

Without --proved, runs the tests that need no proof. With it, runs the gate: `rt ci`, and beside it one more proof, over
which all that follows is built, as `rt ci` keeps nothing; the must-fail edits of crates that changed since all of
theirs were refused, or all edits; and the tests of built programs, several files side by side. With names, as
test_files, test_files.Output or test_files.Output.test_output, runs these alone, with --proved those of built programs.
The processor seconds of each part are printed at the end.
"""
import argparse
import collections
import concurrent.futures
import os
import pathlib
import re
import resource
import shutil
import signal
import subprocess
import sys
import tempfile
import unittest

from tests.support import SEED, TOP, Built, Tried

# The highest libraries of the programs and of the library for C.
LIBRARIES = 'subst_c', 'subst_filter_lib', 'subst_options'
COUNTS = re.compile(r'(\d+) passed, (\d+) failed(?:, (\d+) skipped)?$')


class Result(unittest.TextTestResult):
    """The results of tests. A test counts once, also if several of its parts fail."""
    passed = 0

    def addSuccess(self, test):
        super().addSuccess(test)
        self.passed += 1

    def failed(self):
        """Returns the names of the failed tests."""
        wrong = [test for test, _ in self.failures + self.errors] + self.unexpectedSuccesses
        return list(dict.fromkeys(getattr(test, 'test_case', test).id() for test in wrong))


class Totals:
    """The counts of all parts, the names of failures, and the processor seconds of each part."""

    def __init__(self):
        self.counts, self.failed, self.parts = collections.Counter(), [], []

    def run(self, name, part, *arguments):
        """Runs a part, a function that returns how many passed, the names of failures, and how many were skipped."""
        before = processor_seconds()
        print(f'\n{name}', flush=True)
        passed, failed, skipped = part(*arguments)
        self.counts.update(passed=passed, failed=len(failed), skipped=skipped)
        self.failed += failed
        self.parts.append(f'{processor_seconds() - before:6.0f}  {name}')

    def end(self):
        """Prints all results, and exits."""
        print('\nprocessor seconds:', *self.parts, sep='\n')
        for name in self.failed:
            print(f'failed: {name}')
        skipped = f', {self.counts["skipped"]} skipped' if self.counts['skipped'] else ''
        print(f'{self.counts["passed"]} passed, {self.counts["failed"]} failed{skipped}')
        sys.exit(1 if self.failed else 0)


def processor_seconds():
    """Returns the processor seconds of this process and of all ended children."""
    used = [resource.getrusage(whose) for whose in (resource.RUSAGE_SELF, resource.RUSAGE_CHILDREN)]
    return sum(it.ru_utime + it.ru_stime for it in used)


def command(*words):
    """Runs a command that prints its counts in a line."""
    counts = None
    with subprocess.Popen(words, cwd=TOP, stdin=subprocess.DEVNULL, stdout=subprocess.PIPE, stderr=subprocess.STDOUT,
                          encoding='utf-8', errors='replace') as ran:
        for line in ran.stdout:
            print(line, end='', flush=True)
            counts = COUNTS.match(line) or counts
    passed, failed, skipped = (int(count or 0) for count in counts.groups()) if counts else (0, 0, 0)
    is_failed = failed > 0 or counts is None or ran.returncode != 0
    return passed, max(failed, 1) * [' '.join(words)] if is_failed else [], skipped


def proofs(lanes):
    """Runs `rt ci`, and beside it, in half of the lanes, tools/prove.py over the libraries in a copy of the tree. In the
    end their kept work is moved here, as nothing may change in the tree while `rt ci` runs."""
    with tempfile.TemporaryDirectory() as folder:
        copy = pathlib.Path(folder, 'copy')
        shutil.copytree(TOP, copy, ignore=shutil.ignore_patterns('.git', 'out'))
        with subprocess.Popen([sys.executable, copy / 'tools/prove.py', *LIBRARIES], stdin=subprocess.DEVNULL,
                              stdout=subprocess.DEVNULL, env={**os.environ, 'RT_JOBS': str(max(1, lanes // 2))}):
            os.environ['RT_JOBS'] = str(max(1, lanes - 1))
            result = command('rt', 'ci')
        os.environ['RT_JOBS'] = str(lanes)
        for out in copy.glob('crates/*/out'):
            kept = TOP / out.relative_to(copy)
            shutil.rmtree(kept, ignore_errors=True)
            shutil.move(out, kept)
    return result


def cases(suite):
    """Runs tests of unittest."""
    result = unittest.TextTestRunner(sys.stdout, resultclass=Result).run(suite)
    return result.passed, result.failed(), len(result.skipped)


def files(names):
    """Runs the tests of built programs, each file in a process of its own and several side by side."""
    def run(name):
        return subprocess.run([sys.executable, '-m', 'tests', '--proved', name], cwd=TOP, stdin=subprocess.DEVNULL,
                              stdout=subprocess.PIPE, stderr=subprocess.STDOUT, check=False, encoding='utf-8',
                              errors='replace')

    passed, failed, skipped = 0, [], 0
    with concurrent.futures.ThreadPoolExecutor(os.cpu_count()) as pool:
        for name, ended in zip(names, pool.map(run, names)):
            print(ended.stdout, end='', flush=True)
            *_, last = ended.stdout.splitlines() or ['']
            counts = COUNTS.match(last)
            passed += int(counts[1]) if counts else 0
            skipped += int(counts[3] or 0) if counts else 0
            named = re.findall('^failed: (.*)$', ended.stdout, re.MULTILINE)
            failed += named or [f'tests.{name}'] * (ended.returncode != 0)
    return passed, failed, skipped


def suite_of(name, left_out):
    """Returns the tests of a file, a class or a method, without those of these classes."""
    def flattened(suite):
        for test in suite:
            yield from flattened(test) if isinstance(test, unittest.TestSuite) else [test]

    suite = unittest.defaultTestLoader.loadTestsFromName(f'tests.{name.removeprefix("tests.")}')
    return unittest.TestSuite(test for test in flattened(suite) if not isinstance(test, left_out))


def lanes():
    """Returns how many checks run side by side: one a processor, with 4 GB of memory each. A check by one process takes
    half the processor time of one that four share."""
    with open('/proc/meminfo', encoding='ascii') as memory:
        available = next(int(line.split()[1]) for line in memory if line.startswith('MemAvailable:'))
    return max(1, min(os.cpu_count(), available // 4000000))


def main():
    parser = argparse.ArgumentParser('tools/test', description=__doc__.partition('\n')[0])
    parser.add_argument('--proved', action='store_true', help='the gate: all proofs, edits, and tests of what is built')
    parser.add_argument('--all', action='store_true', help='tries all must-fail edits, as before a release')
    parser.add_argument('names', nargs='*', metavar='NAME', help='runs the tests of this name alone')
    options = parser.parse_args()
    totals, left_out = Totals(), Tried if options.proved else () if options.names else Built
    os.environ.setdefault('RT_JOBS', str(lanes()))
    print(f'SEED={SEED}')
    if options.proved and not options.names:
        totals.run('rt ci', proofs, int(os.environ['RT_JOBS']))
        totals.run('tools/prove.py', command, sys.executable, 'tools/prove.py')
        totals.run('tools/edits.py', command, sys.executable, 'tools/edits.py', *['--all'] * options.all)
    names = options.names or sorted(path.stem for path in (TOP / 'tests').glob('test_*.py'))
    suites = {name: suite for name in names if (suite := suite_of(name, left_out)).countTestCases()}
    if options.proved and not options.names:
        totals.run('tests', files, list(suites))
        suites = {}
    for name, suite in suites.items():
        totals.run(f'tests.{name.removeprefix("tests.")}', cases, suite)
    if not options.names and not options.proved:
        print('\nleft out: all that is proved, and the tests of what is built, which `bash tools/test --proved` runs')
    totals.end()


if __name__ == '__main__':
    for number in (signal.SIGHUP, signal.SIGTERM):
        signal.signal(number, signal.default_int_handler)
    try:
        main()
    except KeyboardInterrupt:
        sys.exit('interrupted')
