#!/usr/bin/env python3
"""run.py [--runs N] [--only WORD] [--write] [TABLE ..]   Times the programs and counts the instructions of the library.

Prints these tables of RESULTS.md, or all, as Markdown: times, process, programs, texts, letters, rows, calls, growth,
hostile, json, toml and, as SVG, chart. README.md describes them. With --only, uses only those inputs of inputs.py that
have this word in their titles or as their name, and the empty one. With --write, puts the tables into RESULTS.md and
the chart into chart.svg.
"""
import argparse
import contextlib
import functools
import math
import os
import re
import resource
import shutil
import subprocess
import sys
import tempfile
import textwrap
from pathlib import Path
from typing import NamedTuple, Optional

sys.dont_write_bytecode = True
sys.path.insert(0, str(Path(__file__).resolve().parent.parent / "tools"))
import inputs
from inputs import MIB
from building import build, copy_library, path_of

HERE = Path(__file__).resolve().parent
RESULTS, CHART = HERE / "RESULTS.md", HERE / "chart.svg"
OURS, BENCH = "subst_filter", "subst_bench"
OTHERS = ("cat", "envsubst", "perl", "string.Template")
# The programs that support only placeholders.
SIMPLE = ("envsubst", "perl", "string.Template")
# The works of the library: to parse, to expand, and both.
WORKS = ("parse", "expand", "both")
# The works of calls.c.
CALLS = ("bytes", "parse", "expand", "each")
# A quarter of a program's stack limit may be arguments: enough for those of 100,000 variables.
STACK = 16 * MIB
# The folder of files for the runs.
SCRATCH = tempfile.TemporaryDirectory()
FOLDER = Path(SCRATCH.name)

PERL = r"s/\$(?:\{(\w+)\}|(\w+))/$ENV{$1 \/\/ $2}/gea"
PERL_WITH_DEFAULTS = r"s/\$(?:\{(\w+)(?::([^{}]*))?\}|(\w+))/$ENV{$1 \/\/ $3} \/\/ $2/gea"
PERL_WITH_ESCAPES = r"s/\\([\\\$\{\}:])|\$(?:\{(\w+)\}|(\w+))/$1 \/\/ $ENV{$2 \/\/ $3}/gea"
PYTHON = "import os, string, sys; sys.stdout.write(string.Template(sys.stdin.read()).substitute(os.environ))"

# A letter for each row of a table: the program's crate, the numbers of rows, and the programs of others.
COMMAND, ROWS, FEW_ROWS, MOST_RUNS = "subst_cli", 1_000_000, 2_000, 3
PYTHON_OF_ROWS = ("import csv, string, sys; letter = string.Template(open(sys.argv[1]).read()); "
                  "sys.stdout.writelines(map(letter.substitute, csv.DictReader(sys.stdin)))")
ENVSUBST_OF_ROWS = 'export $names; read -r head; while IFS=, read -r $names; do envsubst <"$0"; done'


class Workload(NamedTuple):
    """An input of inputs.py, and the programs for which it means the same: their outputs have to equal ours."""

    title: str
    name: str
    same: tuple = ()
    perl: str = PERL
    # The first argument of our program. With `env` the variables are its environment, otherwise its arguments.
    word: str = "bytes"
    works: tuple = WORKS
    # The length up to which the source is repeated, if it is.
    length: Optional[int] = None

    @property
    def input(self):
        return inputs.every()[self.name] if self.length is None else inputs.repeated(self.name, self.length)

    @property
    def rust(self):
        """The Rust crate's instructions for these very bytes, by the work, if they are known."""
        return inputs.figures()[self.name][1] if self.length is None else {}


# Inputs on which all programs that support them are timed.
INPUTS = (
    Workload("empty", "s0", ("cat", *SIMPLE)),
    Workload("20 bytes, two variables", "s20", SIMPLE),
    Workload("configuration, 196 bytes", "configuration", ("perl",), PERL_WITH_DEFAULTS),
    Workload("letter, 4 KiB", "letter4k", ("perl",), PERL_WITH_DEFAULTS),
    Workload("a variable each 100 bytes, 60 KB", "gap100", SIMPLE),
    Workload("variables, 1 MiB", "variables", SIMPLE),
    Workload("plain, 16 MiB", "plain", ("cat", *SIMPLE)),
    Workload("escapes, 0.9 MB", "escapes", ("perl",), PERL_WITH_ESCAPES),
    Workload("nested defaults, 50 deep", "nested"),
    Workload("text in a default, 1 MiB", "default_plain", ("perl",), PERL_WITH_DEFAULTS),
    Workload("variables in a default, 1 MiB", "default_variables"),
)

# More inputs that are counted only in process.
IN_PROCESS = (
    Workload("10 bytes, plain", "s10plain"),
    Workload("50 bytes, plain", "s50plain"),
    Workload("6 bytes, an escape", "s5esc"),
    Workload("7 bytes, a variable", "s7"),
    Workload("10 bytes, a variable", "s10"),
    Workload("50 bytes, three variables", "s50"),
    Workload("refused, an unknown variable", "sfault", works=("both",)),
    Workload("refused, a bare dollar sign", "sbad", works=("both",)),
    *(Workload(f"a variable each {gap:,} bytes, 60 KB", f"gap{gap}") for gap in inputs.GAPS if gap != 100),
    Workload("1 MiB, 1 name", "names1"),
    Workload("1 MiB, 10 names", "names10"),
    Workload("1 MiB, 1,000 names", "names1000"),
    Workload("1 MiB, 100,000 names", "names100000"),
    Workload("1 MiB, names of 100 bytes", "longname100"),
    Workload("1 MiB, names of 1,000 bytes", "longname1000"),
    Workload("missing, with defaults, 1 MiB", "missing"),
    Workload("missing, optional, 1 MiB", "optional"),
    Workload("jump over a default, 1 MiB", "jump"),
    Workload("jump over defaults, 100,000 deep", "deepjump"),
    Workload("Cyrillic, 1 MiB", "cyrillic"),
    Workload("Chinese, 1 MiB", "chinese"),
)
# Inputs that are expanded as bytes and as a text, and inputs that are also expanded into one buffer.
TEXTS, LETTERS = ("variables", "plain", "cyrillic", "chinese"), ("configuration", "letter4k")


# Growing workloads, each with its size.
FAMILIES = (
    [(depth, Workload(f"nested defaults, {depth:,} deep", f"depth{depth}")) for depth in inputs.DEPTHS],
    [(count, Workload(f"variables, 1 MiB, {count:,} arguments", f"names{count}")) for count in (10, 1_000, 100_000)],
    [(count, Workload(f"variables, 1 MiB, {count:,} pairs of the environment", f"names{count}", word="env"))
     for count in (10, 1_000)],
    *([(size, Workload(f"{name}, {size} MiB", name, length=size * MIB)) for size in (1, 4, 16, 64)]
      for name in ("plain", "escapes")),
)
# The longest bar of the chart, and the colours of ours and of others.
LONGEST, FIRST, OTHER = 380, "#2c7a4b", "#9aa5ad"

# Programs.


class Run(NamedTuple):
    """A run: a command line, its environment, and the file of its input."""

    command: list
    environment: dict
    source: Path


@functools.lru_cache(None)
def program(crate):
    """Returns the path of a program of ours, proved and built if its sources have changed."""
    with contextlib.redirect_stdout(sys.stderr):
        return str(path_of(crate)) if build(crate) else sys.exit(f"{crate} isn't built")


@functools.lru_cache(None)
def bench_program():
    """Returns the path of the program that works in process. It is proved and built in a repository of its own beside
    copies of the library's crates, for which `rt` reuses what it keeps of those here."""
    library, crate = copy_library(FOLDER), FOLDER / "crates" / BENCH
    (crate / "src").mkdir(parents=True)
    shutil.copy(HERE / f"{BENCH}.rt.in", crate / "src/main.rt")
    (FOLDER / "crates.txt").write_text(f"{library}{BENCH}: subst serde_json toml\n")
    subprocess.run(["rt", "run", "--", "parse", "0"], cwd=crate, check=True, stdin=subprocess.DEVNULL, stdout=sys.stderr)
    return str(crate / "out" / BENCH)


@functools.lru_cache(None)
def measure_program():
    """Returns the path of the program that measures one run."""
    command = [os.environ.get("CC") or "cc", "-O2", "-Wall", "-Wextra", "-Werror", "-o", FOLDER / "measure"]
    subprocess.run([*command, HERE / "measure.c"], check=True)
    return FOLDER / "measure"


def run_on(source, *command, **variables):
    """Returns a run on these bytes, which stay in a file until the next ones."""
    path = FOLDER / "source"
    path.write_bytes(source)
    return Run(list(command), {"PATH": os.environ["PATH"], "LC_ALL": "C", **variables}, path)


def words(workload):
    return [f"{name}={value}" for name, value in workload.input.variables.items()]


def run_of(workload, name):
    """Returns the run of a program on a workload, or None if it isn't installed or has other rules."""
    source, variables = workload.input
    if name == OURS and workload.word != "env":
        return run_on(source, program(OURS), workload.word, *words(workload))
    command = {
        OURS: [program(OURS), workload.word],
        "cat": ["cat"],
        "envsubst": ["envsubst"],
        "perl": ["perl", "-0777", "-pe", workload.perl],
        "string.Template": [sys.executable, "-I", "-S", "-c", PYTHON],
    }[name]
    path = shutil.which(command[0])
    is_able = path is not None and (name in (OURS, "cat") or name in workload.same)
    return run_on(source, path, *command[1:], **variables) if is_able else None


def bench(workload, work, rounds):
    """Returns the run that does the work on the workload in process, this many times."""
    return run_on(workload.input.source, bench_program(), work, str(rounds), *words(workload))


# Measures.


def output_of(run):
    """Returns the output of a run, or our program's message if it refuses the source."""
    with open(run.source, "rb") as stdin:
        ran = subprocess.run(run.command, env=run.environment, stdin=stdin, capture_output=True, check=False)
    return ran.stdout if ran.returncode == 0 else ran.stderr.removeprefix(b"subst: ").rstrip(b"\n")


def measured(run, status=0):
    """Returns the milliseconds of a run, start-up included, and its peak memory in KiB."""
    command = [measure_program(), run.source, *run.command]
    ended, time, memory = map(int, subprocess.run(command, env=run.environment, stdout=subprocess.PIPE, check=True)
                              .stdout.split())
    if ended != status:
        sys.exit(f"{run.command[0]} ended with status {ended}, and not {status}")
    return time / 1000, memory


@functools.lru_cache(None)
def times(workload, runs, others=()):
    """Returns the least time of our program and of others that support the workload, since other load only adds. The
    programs take turns."""
    able = {name: run for name in (OURS, *others) if (run := run_of(workload, name))}
    for name in workload.same:
        if name in able and output_of(able[name]) != output_of(able[OURS]):
            sys.exit(f"{workload.title}: {name} writes something else")
    taken = [{name: measured(run)[0] for name, run in able.items()} for _ in range(runs)]
    return {name: min(turn[name] for turn in taken) for name in able}


def under_valgrind(run, pattern, *options):
    """Returns the number in valgrind's report about a run."""
    with open(run.source, "rb") as stdin:
        ran = subprocess.run(["valgrind", *options, *run.command], env=run.environment, stdin=stdin, check=True,
                             stdout=subprocess.DEVNULL, stderr=subprocess.PIPE)
    return int(re.search(pattern, ran.stderr)[1].replace(b",", b""))


def instructions(run):
    """Returns the instructions of a run, by callgrind, start-up included."""
    return under_valgrind(run, rb"Collected : (\d+)", "--tool=callgrind", f"--callgrind-out-file={os.devnull}")


@functools.lru_cache(None)
def instructions_of(workload, name):
    """Returns the instructions of a program for a workload, or None if it doesn't support it."""
    run = run_of(workload, name)
    return run and instructions(run)


@functools.lru_cache(None)
def counted(workload, work):
    """Returns the instructions of the library for a work of the workload: those that a run takes more than one without
    rounds, by the number of rounds. Exits unless the output has the same length as our program's."""
    length = len(workload.input.source if work == "parse" else output_of(run_of(workload, OURS)))
    if int(output_of(bench(workload, work, 1))) != length:
        sys.exit(f"{workload.title}: in process something else comes out")
    rounds = max(1, min(1000, MIB // max(1, len(workload.input.source))))
    return (instructions(bench(workload, work, rounds)) - instructions(bench(workload, work, 0))) / rounds


def requests(workload, work):
    """Returns how many requests for memory 1,000 rounds make."""
    made = [under_valgrind(bench(workload, work, rounds), rb"total heap usage: ([\d,]+) allocs") for rounds in (1000, 0)]
    return made[0] - made[1]


# Tables. Each takes the options, and returns its title, its columns and its rows.


def amount(count):
    """Returns a number of instructions, in few digits."""
    if count is None:
        return ""
    if count < 1e5:
        return f"{count:,.0f}"
    return f"{count / 1e3:.0f}k" if count < 1e6 else f"{count / 1e6:.4g}M"


def ratio(count, other):
    return "" if count is None or other is None else f"{count / other:.2f}"


def two(first, second):
    """Returns two counts, and the second divided by the first."""
    return [amount(first), amount(second), ratio(second, first)]


def chosen(options, workloads):
    return [it for it in workloads if it is INPUTS[0] or options.only in it.title or options.only == it.name]


def table_of_times(options):
    rows = []
    for workload in chosen(options, INPUTS):
        least = times(workload, options.runs, OTHERS)
        others = [f"{least[name]:.2f} ({least[name] / least[OURS]:.2f})" if name in least else "" for name in OTHERS]
        rows.append([workload.title, f"{least[OURS]:.2f}", *others])
    load = " ".join(f"{average:.1f}" for average in os.getloadavg())
    title = (f"Milliseconds on {os.cpu_count()} processors with load averages of {load}, the least of {options.runs} "
             "runs, start-up included; in brackets how many times ours:")
    return title, ["Input", OURS, *OTHERS], rows


def table_in_process(options):
    rows = []
    for workload in chosen(options, (*INPUTS, *IN_PROCESS)):
        ours = {work: counted(workload, work) for work in workload.works}
        rust = workload.rust
        cells = [amount(counts.get(work)) for counts in (ours, rust) for work in WORKS]
        cells += [ratio(ours.get(work), rust.get(work)) for work in WORKS]
        rows.append([workload.title, *cells, amount(rust.get("limit")), ratio(ours.get("both"), rust.get("limit"))])
    title = ("Instructions in process: of `ByteTemplate::from_slice`, of `expand`, and of `substitute_bytes`, which "
             "does both. Beside them those of the Rust crate, subst 0.3.8, on the same bytes, counted by callgrind "
             "once (rustc 1.95, memchr 2.5 with AVX2), and the limit, those of a search for each special byte and one "
             "copy of the output:")
    columns = [before + work for before in ("", "Rust: ", "ours to Rust: ") for work in WORKS]
    return title, ["Input", *columns, "limit", "both to limit"], rows


def table_of_programs(options):
    rows = []
    for workload in chosen(options, INPUTS):
        ours, *others = (instructions_of(workload, name) for name in (OURS, "cat", "envsubst"))
        size = len(workload.input.source)
        rows.append([workload.title, amount(ours), f"{ours / size:.1f}" if size else "", *map(amount, others)])
    return "Instructions of whole programs, start-up included:", ["Input", OURS, "a byte", "cat", "envsubst"], rows


def named(options, names):
    return [it for name in names for it in chosen(options, (*INPUTS, *IN_PROCESS)) if it.name == name]


def table_of_texts(options):
    rows = []
    for workload in named(options, TEXTS):
        kinds = [counted(workload, work) for work in ("expand", "text")]
        runs = [instructions_of(workload._replace(word=word), OURS) for word in ("bytes", "text")]
        rows.append([workload.title, *two(*kinds), *two(*runs)])
    title = ("Instructions in process of `expand` of the same input as bytes, by a `ByteTemplate`, and as a text, by a "
             f"`Template`; and those of `{OURS}` with the arguments `bytes` and `text`, start-up included:")
    columns = ["expand: bytes", "text", "text to bytes", f"{OURS}: bytes", "text", "text to bytes"]
    return title, ["Input", *columns], rows


def table_of_letters(options):
    rows = []
    for workload in named(options, LETTERS):
        counts = [counted(workload, work) for work in ("expand", "into")]
        rust = workload.rust["expand"]
        made = [requests(workload, work) for work in ("expand", "into")]
        ratios = [ratio(count, rust) for count in counts]
        rows.append([workload.title, *two(*counts), amount(rust), *ratios, *map(amount, made)])
    title = ("Instructions in process of `expand`, and of `expand_into` with one buffer, which has room from the "
             "start and is cleared before each round; beside them those of the Rust crate's `expand` on the same "
             "bytes; and the requests for memory of 1,000 rounds, without the parse and that room:")
    columns = ["expand", "into one buffer", "into to expand", "Rust: expand", "expand to Rust", "into to Rust"]
    return title, ["Input", *columns, "requests: expand", "into"], rows


def runs_of_rows(count):
    """Returns the runs of programs that fill in a letter for each row of a table with this many rows."""
    path, source = FOLDER / "letter", "".join(inputs.table(count)).encode()
    path.write_text(inputs.letter(), encoding="ascii")
    commands = {
        "subst": [program(COMMAND), "--rows", "-", "--rows-format", "csv", path],
        "csv and string.Template": [sys.executable, "-I", "-S", "-c", PYTHON_OF_ROWS, path],
        "envsubst": ["sh", "-c", ENVSUBST_OF_ROWS, path],
    }
    is_there = {"envsubst": shutil.which("envsubst")}
    return {name: run_on(source, shutil.which(command[0]), *command[1:], names=" ".join(inputs.COLUMNS))
            for name, command in commands.items() if is_there.get(name, True)}


def table_of_rows(options):
    processors, turns, rows = os.sched_getaffinity(0), min(options.runs, MOST_RUNS), []
    os.sched_setaffinity(0, {min(processors)})
    for count in (ROWS, FEW_ROWS):
        runs = runs_of_rows(count)
        if count == FEW_ROWS and len(set(map(output_of, runs.values()))) > 1:
            sys.exit("rows: a program writes something else")
        for name in [it for it in runs if (it == "envsubst") == (count == FEW_ROWS)]:
            taken, memory = zip(*(measured(runs[name]) for _ in range(turns)))
            seconds = min(taken) / 1000 * ROWS / count
            rows.append([name, f"{seconds:,.2f}", f"{seconds / ROWS * 1e6:,.2f}", f"{max(memory):,}"])
    os.sched_setaffinity(0, processors)
    title = (f"A letter of 1 KiB with ten names, filled in for each of {ROWS:,} rows of a table in CSV: seconds on one "
             f"processor, the least of {turns} runs, start-up included, microseconds a row, and the most memory in KiB. "
             f"`envsubst` runs once a row, with the row in its environment; its time is that of {FEW_ROWS:,} rows, "
             f"multiplied by {ROWS // FEW_ROWS}:")
    return title, ["Program", "seconds", "microseconds a row", "KiB"], rows


def measures(workload, options):
    """Returns the milliseconds of our program, its instructions, and those in process."""
    return times(workload, options.runs)[OURS], instructions_of(workload, OURS), counted(workload, "both")


def slope(size, value, later_size, later_value):
    """Returns the exponent by which a value grows with a size, between two of each."""
    is_known = min(value, later_value) > 0
    return f"{math.log(later_value / value) / math.log(later_size / size):.2f}" if is_known else ""


def rows_of_growth(family, options):
    """Returns a row for each size of a family: each measure, and its slope from the row before, without start-up."""
    time, count, _ = measures(INPUTS[0], options)
    size, before = 1, (0, 0, 0)
    for later_size, workload in family:
        found = measures(workload, options)
        more = found[0] - time, found[1] - count, found[2]
        cells = [f"{found[0]:.2f}", amount(found[1]), amount(found[2])]
        slopes = [slope(size, value, later_size, later) for value, later in zip(before, more)]
        pairs = [cell for pair in zip(cells, slopes) for cell in pair]
        yield [workload.title, *pairs, amount(workload.rust.get("both"))]
        size, before = later_size, more


@functools.lru_cache(None)
def calls_program():
    """Returns the path of the program that calls the library for C, which is proved and built if it has changed."""
    prefix, path = FOLDER / "prefix", FOLDER / "calls"
    subprocess.run([HERE.parent / "tools/install", "--library", prefix], check=True, stdout=sys.stderr)
    subprocess.run([os.environ.get("CC") or "cc", "-O2", "-Wall", "-Wextra", "-Werror", "-o", path, HERE / "calls.c",
                    f"-I{prefix}/include", prefix / "lib/libsubst.a"], check=True)
    return path


def calls(workload, work):
    """Returns the instructions of a call of the library for C."""
    pairs = FOLDER / "pairs"
    pairs.write_text("".join(f"{word}\n" for word in words(workload)), encoding="utf-8")
    rounds = max(1, min(200, MIB // len(workload.input.source)))
    few, many = (run_on(workload.input.source, calls_program(), work, str(1 + more), FOLDER / "source", pairs)
                 for more in (0, rounds))
    return (instructions(many) - instructions(few)) / rounds


def table_of_calls(options):
    rows = [[it.title, *(amount(calls(it, work)) for work in CALLS)]
            for it in named(options, ["s20", "configuration", "letter4k", "variables"])]
    title = ("Instructions of calls from C: `subst_bytes_into`, `subst_template_new`, `subst_expand` of a template that "
             "is kept, and a row of `subst_bytes_each`:")
    return title, ["Input", *CALLS], rows


def table_of_growth(options):
    families = [[(size, it) for size, it in family if chosen(options, [it])] for family in FAMILIES]
    title = (f"Growth: milliseconds of `{OURS}`, its instructions, and those of `substitute_bytes`, and of the Rust "
             "crate where they are known. A slope is the exponent of the growth from the row before, without "
             "start-up: 1 is linear, 2 quadratic:")
    columns = ["Input", "ms", "slope", "program", "slope", "in process", "slope", "Rust: both"]
    return title, columns, [row for family in families for row in rows_of_growth(family, options)]


def table_of_hostile_sources(options):
    rows = []
    for name, (make, status) in inputs.HOSTILE.items():
        cells = []
        for size in inputs.DEPTHS:
            run = run_on(make(size).encode(), program(OURS), "bytes")
            ended, memory = zip(*(measured(run, status) for _ in range(options.runs)))
            cells.append(f"{min(ended):.2f} ({max(memory):,})")
        rows.append([name, str(status), *cells])
    title = (f"Milliseconds of `{OURS}` on hostile sources of four sizes, the least of {options.runs} runs, start-up "
             "included; in brackets the most memory in KiB:")
    return title, ["Source", "status", *(f"{size:,}" for size in inputs.DEPTHS)], rows


# Trees.


def table_of_trees(kind, _options):
    made = inputs.document(kind)
    pairs = [f"{name}={value}" for name, value in made.variables.items()]
    read, filled = (run_on(made.source, bench_program(), kind, rounds, *pairs) for rounds in ("0", "1"))
    if int(output_of(filled)) != len(made.source):
        sys.exit(f"{kind}: the tree isn't filled in")
    before, whole = map(instructions, (read, filled))
    counts = {
        "filling in the tree in place": whole - before,
        "the Rust crate, which fills in place": inputs.DOCUMENTS[kind][2],
        "the whole run: reading the variables and the tree, filling it in and dropping it": whole,
    }
    title = (f"{kind.upper()}: a document of {len(made.source) / 1e6:.1f} MB, of which {made.source.count(b'${'):,} "
             "strings hold one of 300 variables:")
    return title, ["", "Instructions"], [[what, f"{count / 1e6:.0f}M"] for what, count in counts.items()]


TABLES = {
    "times": table_of_times,
    "process": table_in_process,
    "programs": table_of_programs,
    "texts": table_of_texts,
    "letters": table_of_letters,
    "rows": table_of_rows,
    "calls": table_of_calls,
    "growth": table_of_growth,
    "hostile": table_of_hostile_sources,
    "json": functools.partial(table_of_trees, "json"),
    "toml": functools.partial(table_of_trees, "toml"),
}


# The chart.


def bars(top, title, values):
    """Returns bars of values by their names below a title, as SVG, and their end."""
    drawn = [f'<text x="12" y="{top + 26}" font-weight="bold">{title}</text>']
    for row, (name, value) in enumerate(values.items()):
        y, width = top + 46 + 22 * row, max(2, round(LONGEST * value / max(values.values())))
        drawn += [f'<text x="12" y="{y}">{name}</text>',
                  f'<rect x="150" y="{y - 12}" width="{width}" height="16" fill="{OTHER if row else FIRST}"/>',
                  f'<text x="{158 + width}" y="{y}">{value:.1f}</text>']
    return drawn, top + 46 + 22 * len(values)


def chart(options):
    """Returns the figures of one input for our program and others, and for the library and the Rust crate, as SVG."""
    workload, = named(options, ["variables"])
    least = times(workload, options.runs, OTHERS)
    in_process = {"subst": counted(workload, "both") / 1e6, "the Rust crate": workload.rust["both"] / 1e6}
    title = f"{workload.title}, one after each 34 to 49 bytes"
    programs, end = bars(0, f"{title}: milliseconds of a run", {name: least[name] for name in (OURS, *SIMPLE)})
    libraries, end = bars(end, "The same in process: millions of instructions", in_process)
    head = (f'<svg xmlns="http://www.w3.org/2000/svg" width="600" height="{end}" font-family="sans-serif" '
            f'font-size="13">\n<rect width="600" height="{end}" fill="white"/>')
    return "\n".join([head, *programs, *libraries, "</svg>\n"])


def written(title, columns, rows):
    """Returns a table as Markdown."""
    lines = ["| " + " | ".join(row) + " |" for row in [columns, *rows]]
    lines.insert(1, "|---" + "|---:" * (len(columns) - 1) + "|")
    return textwrap.fill(title, 120) + "\n\n" + "\n".join(lines) + "\n"


WRITES = {name: lambda options, table=table: written(*table(options)) for name, table in TABLES.items()} | {"chart": chart}


def put_into_results(name, text):
    """Puts a table between the two lines of RESULTS.md that name it."""
    begin, end = f"<!-- {name} -->\n", f"<!-- end of {name} -->\n"
    before, rest = RESULTS.read_text(encoding="utf-8").split(begin)
    RESULTS.write_text(f"{before}{begin}\n{text}\n{end}{rest.split(end)[1]}", encoding="utf-8")


def make_room_for_words():
    """Raises the stack limit, so that programs may have as many arguments as the largest input needs."""
    soft, hard = resource.getrlimit(resource.RLIMIT_STACK)
    if soft != resource.RLIM_INFINITY and soft < STACK:
        resource.setrlimit(resource.RLIMIT_STACK, (STACK, hard))


def main():
    parser = argparse.ArgumentParser(description=__doc__.partition("   ")[2].partition("\n")[0])
    parser.add_argument("tables", nargs="*", metavar="TABLE", help=f"of {', '.join(WRITES)}; else all of them")
    parser.add_argument("--runs", type=int, default=15, help="runs of each program on each input")
    parser.add_argument("--only", metavar="WORD", default="", help="only inputs of this title or name, and empty")
    parser.add_argument("--write", action="store_true", help="put them into RESULTS.md and chart.svg too")
    options = parser.parse_args()
    if not set(options.tables) <= WRITES.keys() or (options.write and options.only):
        parser.error("there is no such table, or --write with some inputs")
    make_room_for_words()
    for name in options.tables or WRITES:
        text = WRITES[name](options)
        print(text, flush=True)
        if options.write and name == "chart":
            CHART.write_text(text, encoding="utf-8")
        elif options.write:
            put_into_results(name, text)


if __name__ == "__main__":
    main()
