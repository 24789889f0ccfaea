"""The paths to strings of YAML that the library lists, compared with those of PyYAML's events.

The program `subst_yaml_filled` lists the refused strings of random documents, unproved. Without PyYAML no test runs.
"""
import os
import random
import re
import subprocess
import unittest

from tests.support import CRATES, SEED, Tried
from tests.test_yaml import PROGRAM, SECONDS, Filling, events_of, write, yaml
from tests.test_yaml_reader import Maker

# How many random documents are listed.
RANDOM = int(os.environ.get('COUNT', 2000))


def listed(texts, name):
    """Returns for each document the path of each refused string by its start, or None if it isn't read."""
    write([Filling(text, 'paths', (), {}) for text in texts], name)
    command = ['rt', 'try', '--seconds', str(SECONDS), '--data', f'{name}={os.path.abspath(name)}', '--', name]
    end = subprocess.run(command, cwd=CRATES / PROGRAM, stdin=subprocess.DEVNULL, capture_output=True, check=False)
    assert end.returncode == 0, end.stderr[-5000:]
    data, found = end.stdout, []
    while head := re.match(rb'(paths|yaml) (\d+)\n', data):
        text = data[head.end():head.end() + int(head[2])].decode()
        rows = [line.split(' ', 1) for line in text.split('\n')[:-1]]
        found.append({int(start): path for start, path in rows} if head[1] == b'paths' else None)
        data = data[head.end() + int(head[2]) + 1:]
    assert len(found) == len(texts), (len(found), len(texts))
    return found


class Walk:
    """The path to the next value of a text, along the events of PyYAML."""

    def __init__(self, text):
        # For each open collection the index of the item, or the key, which is None before its event.
        self.text, self.number, self.steps = text, 0, []

    def path(self):
        steps = ''.join(f'[{step}]' if isinstance(step, int) else '.' + step for step in self.steps)
        number = f'{self.number}:' if steps else f'{self.number}'
        return number * (self.number > 1) + steps.removeprefix('.')

    def go_on(self):
        """Moves on after a value, to the next item or key."""
        if self.steps:
            self.steps[-1] = self.steps[-1] + 1 if isinstance(self.steps[-1], int) else None

    def values(self):
        """Yields the scalars that are values, each with its token and its path."""
        for event in events_of(self.text):
            if isinstance(event, yaml.DocumentStartEvent):
                self.number, self.steps = self.number + 1, []
            elif isinstance(event, yaml.CollectionEndEvent):
                self.steps.pop()
                self.go_on()
            elif isinstance(event, yaml.CollectionStartEvent):
                self.steps.append(0 if isinstance(event, yaml.SequenceStartEvent) else None)
            elif isinstance(event, (yaml.ScalarEvent, yaml.AliasEvent)):
                is_scalar = isinstance(event, yaml.ScalarEvent)
                token = self.text[event.start if is_scalar else event.start_mark.index:event.end_mark.index]
                if self.steps and self.steps[-1] is None:
                    self.steps[-1] = token
                    continue
                if is_scalar:
                    yield event, token, self.path()
                self.go_on()


@unittest.skipUnless(yaml, 'no PyYAML')
class Paths(Tried):
    """Refused strings."""

    def test_paths_are_those_of_the_events(self):
        maker = Maker(random.Random(SEED))
        texts = [maker.structured().replace('b c', '$X c').replace('x-y', '$X') for _ in range(RANDOM)]
        compared = 0
        for text, found in zip(texts, listed(texts, 'paths')):
            if found is None:
                continue
            with self.subTest(text=text):
                paths = {}
                for event, token, path in Walk(text).values():
                    paths[len(text[:event.start].encode())] = path
                    if '$X' in event.value and '\n' not in token:
                        self.assertIn(len(text[:event.start].encode()), found)
                self.assertEqual(found, {start: paths.get(start) for start in found})
                compared += len(found)
        self.assertGreater(compared, RANDOM // 10)
