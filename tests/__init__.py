"""The tests: at the top of a clone, `python3 -m unittest tests.test_files` runs those of one file."""
import pathlib
import sys

sys.dont_write_bytecode = True
# Modules that build and install are imported by name alone, as `import building`.
sys.path.insert(1, str(pathlib.Path(__file__).resolve().parent.parent / 'tools'))
