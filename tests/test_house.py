"""Rules for the repository's own files: widths and sizes, names, blocks and numbers of pages, the claims of proof in
docs/PROVED.md, facts in few files, and citations of lemmas. No file is run.
"""
import collections
import fnmatch
import functools
import os
import re
import subprocess
import unittest

import faults
import proved
from building import TOP, version

# The most columns of a line of code or of a definition, of a clause, of a comment, and of a page.
CODE, CLAUSE, COMMENT, PROSE = 116, 100, 110, 120
# The most lines of pages; the last pattern is for each decision.
LINES = {'README.md': 150, 'docs/DESIGN.md': 160, 'docs/DEFINITIONS.md': 200, 'docs/CALLING.md': 225,
         'docs/CONTRIBUTING.md': 200, 'docs/decisions/[0-9]*.md': 40}
# The most words of README.md and of all pages in docs, lines of code, of definitions and proofs, and of scripts, and
# crates; the patterns of scripts, and the ends of other files' names beside them.
SIZES = {'words of pages': 15000, '.rt': 51000, '.antt': 56400, 'scripts': 18700, 'crates': 28}
SCRIPTS = ('tools/*', 'tests/[!d]*', 'fuzz/*', 'python/*', 'benches/*')
NO_SCRIPTS = ('.rt', '.antt', '.md', '.svg', '.tsv', '.txt', 'args', 'stdin', 'stdout')
# The most files with an option of subst, and with the text of a fault.
OPTION_FILES, FAULT_FILES = 11, 12
# The page whose blocks of code are quoted from the source.
QUOTING = 'docs/CALLING.md'
# The tests of blocks that are neither quoted nor run by tests/test_pages.py, by page and language. A test names its
# page.
TRIED = (('docs/RATTLE.md', ['rust'], 'tests/test_other_repository.py'),
         ('docs/C.md', ['c', 'python'], 'tests/test_pages.py'),
         ('docs/RUST.md', ['toml', 'rust'], 'tests/test_rust.py'),
         ('docs/LETTERS.md', ['python'], 'tests/test_python_library.py'),
         ('docs/decisions/*.md', ['rust'], 'tests/test_forms.py'))
# Blocks without a test: a grammar, a drawing, and parts of programs.
UNTRIED = (('docs/DEFINITIONS.md', 'ebnf'), ('docs/DESIGN.md', ''), ('docs/decisions/02-errors-by-hand.md', 'rust'),
           ('docs/decisions/29-out-of-memory-with-cause.md', 'rust'))
# The folder of rows and stored answers.
DATA = 'crates/subst_vectors/data'
# A page whose indented blocks are lines of these files.
INDENTED = 'docs/CONTRIBUTING.md', (f'{DATA}/*.tsv', 'crates/*/must-fail/*')
# The folders of files that pages name, the ends of their names, and files in backticks that a reader makes.
FOLDERS = ('.ci', 'benches', 'crates', 'docs', 'fuzz', 'include', 'licences', 'python', 'tests', 'tools')
ENDINGS = ('.rt', '.antt', '.py', '.sh', '.md', '.c', '.h', '.in', '.tsv', '.edit', '.txt', '.1')
READERS = ('compose.c', 'document.c', 'environment.c', 'get.h', 'greet.c', 'greet.py')
# Small numbers in words.
NUMBERS = 'no one two three four five six seven eight nine ten eleven twelve thirteen fourteen fifteen'.split()

IMPORT = re.compile(r'\s*(?:pub )?(?:ghost )?(?:use|open) ')
FENCE = re.compile(r'^```(\w*)\n(.*?)^```$', re.MULTILINE | re.DOTALL)
# A definition at the margin of a file of lemmas.
DEFINITION = re.compile(r'(?:pub |abbrev |ruleset |data |record )*([^\s:(){}]+)(?= :| =)')


@functools.lru_cache(None)
def read(path):
    return (TOP / path).read_text(encoding='utf-8')


@functools.lru_cache(None)
def files():
    """Returns the paths of all files of the repository from its top, sorted, without the output of `rt`."""
    below = [path for folder in FOLDERS for path in (TOP / folder).rglob('*')]
    paths = (path.relative_to(TOP) for path in [*TOP.glob('*'), *below] if path.is_file())
    return sorted(str(path) for path in paths if 'out' not in path.parts and '__pycache__' not in path.parts)


def matching(*patterns):
    return [path for path in files() if any(fnmatch.fnmatchcase(path, pattern) for pattern in patterns)]


def pages():
    """Returns the pages, without the must-fail edits."""
    return [path for path in matching('*.md') if '/must-fail/' not in path]


def line_at(text, at):
    return text.count('\n', 0, at) + 1


# Widths


def can_be_broken(lines):
    """Returns for each line whether it can be broken. Imports, attributes, lone texts and names of goals can't."""
    whole = re.compile(r'\s*(#\[|b?r?#*"[^"]*(\\"[^"]*)*"#*,?$|pub \S+ : goal\.\S+$)')
    return [not (IMPORT.match(line) or whole.match(line)) for line in lines]


def in_clauses(lines):
    """Returns for each line whether it is in a clause or a ghost member, and is no comment."""
    found, depth = [], 0
    for line in lines:
        is_in = depth > 0 or bool(re.match(r'\s*(?:requires|ensures|ghost \w+ = )', line))
        depth = depth + sum(map(line.count, '([{')) - sum(map(line.count, ')]}')) if is_in else 0
        found.append(is_in and not line.strip().startswith('//'))
    return found


def in_comments(lines):
    """Returns for each line whether it is a comment."""
    return [line.lstrip().startswith(('//', '--')) for line in lines]


def in_prose(lines):
    """Returns for each line of a page whether it is outside of blocks and tables, and no lone link."""
    found, is_fenced = [], False
    for line in lines:
        is_fenced ^= line.startswith('```')
        found.append(not (is_fenced or line.startswith(('```', '|', '    ')) or ' ' not in line.strip('- ')))
    return found


def wider(paths, columns, are_meant):
    """Yields the chosen lines of files that have more columns."""
    for path in paths:
        lines = read(path).splitlines()
        for number, (line, is_meant) in enumerate(zip(lines, are_meant(lines)), 1):
            if is_meant and len(line) > columns:
                yield f'{path}:{number}: {len(line)} columns, and not {columns}: {line.strip()[:60]}..'


# Words of comments and pages

# The beginnings of comments, and words in them, that docs/STYLE.md replaces by a noun or a condition.
VAGUE = re.compile(r'(?:(?:Returns|Prints) (?:what|those|that)|What|That|Those)\b|.*\bthat is there\b')
# The most words of a sentence of a comment, and of a cell of a page's table.
SENTENCE, CELL = 25, 25
# The pages that describe data and measurements.
DATA_PAGES = ('benches/README.md', 'benches/RESULTS.md', 'crates/subst_vectors/data/README.md', 'tests/data/README.md')
# The comments that are grammars or the theorem, word for word.
LONGER = ('crates/subst_language/specs/Language/Tree.antt', 'crates/subst_language/specs/Earlier/Tree.antt',
          'crates/subst_template/src/lib.rt')


def comments(path):
    """Yields the comments of a file that are lines of their own, each with its first line."""
    mark = '--' if path.endswith('.antt') else '//[/!]?'
    for match in re.finditer(rf'(?:^ *{mark}(?: .*)?\n)+', read(path), re.MULTILINE):
        yield line_at(read(path), match.start()), re.sub(rf'^ *{mark} ?', '', match[0], flags=re.MULTILINE)


def sentences(comment):
    """Returns the sentences of a comment, without code, headings and items of lists."""
    text = re.sub(r'`[^`]*`', 'X', re.sub(r'^```.*?^```$', '', comment, flags=re.MULTILINE | re.DOTALL))
    paragraphs = re.split(r'\n\s*\n|\n(?=\s*[-*#|])', text)
    return [one for it in paragraphs for one in re.split(r'(?<=[.!?:;])\s+', ' '.join(it.split()))]


def long_sentences(path, line, text):
    """Yields the sentences of a comment or paragraph that have too many words."""
    for it in sentences(text):
        if len(it.split()) > SENTENCE:
            yield f'{path}:{line}: {len(it.split())} words, and not {SENTENCE}: {it[:60]}..'


def paragraphs(path):
    """Yields the paragraphs of a page, each with its line, without quotations, links and tables."""
    text = re.sub(r'^(?:\||>|#|    ).*$', '', prose(read(path)), flags=re.MULTILINE)
    for match in re.finditer(r'(?:^.*\S.*\n)+', text, re.MULTILINE):
        yield line_at(text, match.start()), re.sub(r'\[([^]]*)\]\([^)]*\)', r'\1', match[0])


def cells(path):
    """Yields the cells of the tables of a page, each with its line, where code is a word."""
    for number, line in enumerate(prose(read(path)).splitlines(), 1):
        if line.startswith('|'):
            text = re.sub(r'`[^`]*`', 'X', re.sub(r'\[([^]]*)\]\([^)]*\)', r'\1', line)).replace(r'\|', '/')
            yield from ((number, cell.split()) for cell in text.strip('|').split('|'))


# Names in pages


def prose(text):
    """Returns a page with its blocks blanked out, so that lines keep their numbers."""
    return FENCE.sub(lambda block: re.sub(r'[^\n]', ' ', block[0]), text)


def spans(path):
    """Yields the texts of a page in backticks, each with its line."""
    text = prose(read(path))
    for match in re.finditer(r'(?<!`)`([^`]+)`(?!`)', text):
        yield line_at(text, match.start()), ' '.join(match[1].split())


@functools.lru_cache(None)
def anchors(path):
    """Returns the anchors of a page's headings."""
    titles = re.findall(r'^#+ (.*)$', prose(read(path)), re.MULTILINE)
    texts = [re.sub(r'\[([^]]*)\]\([^)]*\)', r'\1', title).lower() for title in titles]
    return [re.sub(r'[^\w\- ]', '', text).replace(' ', '-') for text in texts]


def names_a_file(span):
    """Returns whether a text in backticks names a file or a folder of the repository that isn't built."""
    segments = span.split('/')
    if not re.fullmatch(r'[\w.*/-]+', span) or set(span) <= set('./*') or 'out' in segments or span in READERS:
        return False
    begins = len(segments) > 1 and segments[0] in (*FOLDERS, 'src', 'specs', 'proofs', 'must-fail')
    return begins or span.endswith(ENDINGS) and not span.startswith('.')


def is_a_place(span):
    """Returns whether a path of a file or a folder ends in these segments, also without the ending of a module or of a
    template."""
    pattern = re.escape(span.rstrip('/')).replace(r'\*', '.*')
    return re.search(rf'(?:^|/){pattern}(?:\.rt|\.antt|\.in)?(?:/|$)', '\n'.join(files()), re.MULTILINE)


@functools.lru_cache(None)
def known():
    """Returns all words of the code, its definitions and proofs, the header, and the scripts."""
    paths = matching('crates/*.rt', 'crates/*.antt', 'crates.txt', 'include/*', 'tools/*', 'tests/*', 'benches/*')
    return {word for path in paths for pattern in (r'[\w-]+', r'\w+') for word in re.findall(pattern, read(path))}


def said_by_rt(word):
    """Returns the line that `rt` prints for a word."""
    return subprocess.run(['rt', word], stdout=subprocess.PIPE, text=True, check=True).stdout.strip()


@functools.lru_cache(None)
def is_of_the_kit(word):
    """Returns whether the code of the kit has a word."""
    kit = os.path.dirname(said_by_rt('doc'))
    command = ['grep', '-rqw', '--include=*.rt', '--include=*.antt', '-e', word, kit]
    return subprocess.run(command, check=False).returncode == 0


def unknown_items(span):
    """Returns the unknown items and crates in a text in backticks."""
    words = [path.split('::')[-1] for path in re.findall(r'\w+(?:::\w+)+', span)]
    words += re.findall(r'\bsubst_\w+', span) if not names_a_file(span) else []
    words += re.findall(r'\bRattle(?:\.\w+)*\.([\w-]+)', span)
    return [word for word in words
            if word not in known() and not word.endswith(('_', '_X')) and not is_of_the_kit(word)]


def is_no_lemma(span):
    """Returns whether a text in backticks names a missing file of lemmas, or a missing lemma."""
    match = re.fullmatch(r'(\w+Lemmas)(?:\.(?!antt$)([\w-]+))?', span)
    homes = matching(f'*/{match[1]}.antt') if match else []
    return match and not any(match[2] is None or match[2] in definitions(path) for path in homes)


def unknown_options(span):
    """Returns the options in a command in backticks that its script doesn't have."""
    command = re.match(r'(?:python3 |bash )?((?:tools|benches|fuzz)/[\w.-]+)((?: \S+)*)$', span)
    if command is None or command[1] not in files():
        return []
    return [word for word in command[2].split() if word.startswith('--') and word not in read(command[1])]


# Blocks of pages


def stripped(text):
    """Returns the lines of a text that aren't empty, without white space around them."""
    return '\n'.join(['', *filter(None, map(str.strip, text.splitlines())), ''])


@functools.lru_cache(None)
def sources(*patterns):
    return [stripped(read(path)) for path in matching(*patterns)]


def is_quoted(lines, *patterns):
    """Returns whether these lines are consecutive in a file; a line `..` matches any lines."""
    parts = [re.escape(part) for part in re.split(r'\n(?:(?://|--) )?\.\.(?=\n)', stripped(lines))]
    return any(re.search(r'(?:\n.*)*?'.join(parts), source) for source in sources(*patterns))


def numbers():
    """Yields numbers in pages that other files determine: a page, a pattern, and the numbers that it has to match."""
    names = re.findall(r'^(\w+)', read('crates.txt'), re.MULTILINE)
    yield 'docs/RATTLE.md', r'first (\w+) crates', [NUMBERS[names.index('subst') - names.index('subst_error') + 1]]
    for path in matching(f'{DATA}/*.tsv'):
        records = [line for line in read(path).split('\n') if line and not line.startswith('#')]
        yield f'{DATA}/README.md', rf'`{os.path.basename(path)}` \| ([\d,]+) \|', [f'{len(records):,}']
    for kind, what in (('bytes', 'bytes'), ('json', 'JSON documents'), ('toml', 'TOML documents')):
        rows = re.findall(rf'^{kind}\t', read(f'{DATA}/answers.tsv'), re.MULTILINE)
        yield f'{DATA}/README.md', rf'([\d,]+) to {what}', [f'{len(rows):,}']
    measured = re.search(r'^\| variables, 1 MiB \|(?: [\d.]+M \|){2} ([\d.]+)M \|(?: [\d.]+M \|){2} ([\d.]+)M \|',
                         read('benches/RESULTS.md'), re.MULTILINE)
    yield 'README.md', r'takes ([\d.]+) million instructions, in the Rust crate\s([\d.]+)', \
        [f'{float(number):.2f}' for number in measured.groups()]


# Claims of proof

# A link to a function, and the names of its clauses; without a name its clause has none.
PROVED_BY = re.compile(r'\[`(\w+)`\]\((?:\.\./)?(crates/[\w/]+\.rt)\)((?: `\w+`,?)*)')


def claims():
    """Yields the claims, each with its page and line: rows of the table of all, and the items of README.md in brief."""
    brief = re.search(r'(?<=\n## What is proved\n).*?(?=\n## )', read('README.md'), re.DOTALL)
    table = re.search(r'(?<=\n\|---\|---\|\n).*?(?=\n\n)', read('docs/PROVED.md'), re.DOTALL)
    for path, part, claim in (('README.md', brief, r'^- .*\n(?:  .*\n)*'), ('docs/PROVED.md', table, r'^\|.*')):
        for match in re.finditer(claim, part[0], re.MULTILINE):
            yield f'{path}:{line_at(read(path), part.start() + match.start())}', ' '.join(match[0].split())


def clauses(path, name):
    """Returns the names of the `ensures` clauses of these functions of a file, or '' for one without a name."""
    heads = [it.head for item in proved.items_of(read(path)) for it in (item, *item.members) if it.name == name]
    return {found for head in heads for line in head for found in re.findall(r'^ *ensures (?:(\w+) )?\{', line)}


# Facts in few files

# The options of subst in its source, and a pattern of other programs that have options.
OPTIONS = 'crates/subst_options/src/table.rt'
OTHER_PROGRAM = re.compile(r'\b(?:tools|benches|fuzz)/\w|\brt[ (]\w')


def has_option(path, option):
    """Returns whether a file has an option of subst. Benches and other programs have options of the same names."""
    if path == OPTIONS:
        return f'"{option[2:]}"' in read(path)
    text = read(path).replace(r'\-', '-')
    if option not in text or path.startswith('benches/'):
        return False
    word = re.compile(rf'(?<![\w-]){option}(?![\w-])')
    return any(word.search(line) and not OTHER_PROGRAM.search(line) for line in text.splitlines())


# Lemmas


def module_of(path):
    """Returns the name of a file of proofs as a module, as imports have it."""
    return 'Rattle.' + path.removeprefix('crates/').removesuffix('.antt').replace('/', '.')


@functools.lru_cache(None)
def imported():
    """Returns the pairs of a module and a name in it that other files cite or re-export."""
    found = set()
    for path in matching('crates/*.antt'):
        text = read(path)
        used = set(re.findall(r'[\w-]+', re.sub(r'^(?:pub )?use .*|^ *--.*', '', text, flags=re.MULTILINE)))
        for public, module, names in re.findall(r'^(pub )?use (Rattle\.[\w.]+)\.\{([^}]*)\}', text, re.MULTILINE):
            pairs = (name.strip().partition(' as ') for name in names.split(','))
            found |= {(module, name) for name, _, alias in pairs if public or (alias or name) in used}
        for module, alias in re.findall(r'^(?:pub )?use (Rattle\.[\w.]+?\w)(?: as (\w+))?$', text, re.MULTILINE):
            found |= {(module, name) for name in re.findall(rf"\b{alias or module.split('.')[-1]}\.([\w-]+)", text)}
    for path in matching('crates/*.rt'):
        for crate, modules, name in re.findall(r'\b(\w+)((?:::\w+)*::proofs(?:::[\w-]+)*)::([\w-]+)', read(path)):
            found.add((f"Rattle.{path.split('/')[1] if crate == 'crate' else crate}{modules.replace('::', '.')}", name))
    return found


@functools.lru_cache(None)
def definitions(path):
    """Returns the definitions of a file of lemmas by name, each with the number of its first line, and its lines
    without comments and imports. They are at the margin, or in a block of mutual definitions."""
    found, margin, name = {}, '', None
    for number, line in enumerate(read(path).splitlines(), 1):
        if line == 'mutual':
            margin = '  '
        elif re.match(r'\S', line) and not line.startswith('--'):
            margin = ''
        if line.startswith(margin) and re.match(r'[^\s-]', line[len(margin):]):
            head = DEFINITION.match(line[len(margin):])
            name = head[1] if head else line.split()[0]
        if not re.match(r'\s*--', line) and not IMPORT.match(line):
            found.setdefault(name, (number, []))[1].append(line)
    return found


def gives_nothing(test):
    """Makes a test of a method that yields errors. It fails with all of them."""
    @functools.wraps(test)
    def run(self):
        wrong = list(test(self))
        if wrong:
            self.fail('\n'.join(['', *wrong]))
    return run


class House(unittest.TestCase):
    """Rules for files. Each test yields the errors, most with file and line."""

    @gives_nothing
    def test_lines_are_not_too_wide(self):
        sources = matching('crates/*/src/*.rt')
        proofs = matching('crates/*/tests/*.rt', 'crates/*/specs/*.antt', 'crates/*/proofs/*.antt')
        yield from wider(sources + proofs, CODE, can_be_broken)
        yield from wider(sources, CLAUSE, in_clauses)
        yield from wider(sources + proofs, COMMENT, in_comments)
        yield from wider(pages(), PROSE, in_prose)

    @gives_nothing
    def test_comments_are_in_the_words_of_the_style(self):
        for path in matching('crates/*/src/*.rt', 'crates/*/specs/*.antt', 'crates/*/proofs/*.antt'):
            for line, comment in comments(path):
                if VAGUE.match(' '.join(comment.split())):
                    yield f'{path}:{line}: it begins or goes on vaguely: {comment[:60].strip()}..'
                yield from () if path in LONGER else long_sentences(path, line, comment)

    @gives_nothing
    def test_sentences_of_pages_are_short(self):
        for path in set(pages()) - set(DATA_PAGES):
            for line, text in paragraphs(path):
                yield from long_sentences(path, line, text)

    @gives_nothing
    def test_cells_of_tables_are_short(self):
        for path in pages():
            found = ((line, len(words)) for line, words in cells(path) if len(words) > CELL)
            yield from (f'{path}:{line}: a cell of {count} words, and not {CELL}' for line, count in found)

    @gives_nothing
    def test_no_macro_writes_an_impl(self):
        """`rt ci` refuses the crate of such a macro, but only after all below it is proved."""
        for path in matching('crates/*/src/*.rt'):
            for macro in re.finditer(r'^( *)macro_rules! (\w+) .*?^\1\}', read(path), re.MULTILINE | re.DOTALL):
                if re.search(r'^\s*(?:unsafe )?impl\b', macro[0], re.MULTILINE):
                    yield f'{path}:{line_at(read(path), macro.start())}: the macro {macro[2]} writes an impl'

    @gives_nothing
    def test_pages_are_not_too_long(self):
        for pattern, most in LINES.items():
            for path in matching(pattern):
                count = len(read(path).splitlines())
                if count > most:
                    yield f'{path}:{count}: {count} lines, and not {most}'

    @gives_nothing
    def test_tree_is_not_too_large(self):
        scripts = [path for path in matching(*SCRIPTS) if not path.endswith(NO_SCRIPTS)]
        counts = {'crates': len({path.split('/')[1] for path in matching('crates/*')}),
                  'words of pages': sum(len(read(path).split()) for path in matching('README.md', 'docs/*.md'))}
        for what, paths in (('.rt', matching('*.rt')), ('.antt', matching('*.antt')), ('scripts', scripts)):
            counts[what] = sum(read(path).count('\n') for path in paths)
        yield from (f'{what}: {counts[what]}, and not {most}' for what, most in SIZES.items() if counts[what] > most)

    @gives_nothing
    def test_links_of_pages_lead_somewhere(self):
        for path in pages():
            text = prose(read(path))
            for match in re.finditer(r'\]\((?!\w+:)([^)\s#]*)#?([^)\s]*)\)', text):
                to = (TOP / path).parent / match[1] if match[1] else TOP / path
                if not to.exists() or match[2] and match[2] not in anchors(str(to.resolve().relative_to(TOP))):
                    yield f'{path}:{line_at(text, match.start())}: it leads nowhere: {match[0]}'

    @gives_nothing
    def test_what_pages_name_exists(self):
        for path in pages():
            for line, span in spans(path):
                is_missing = names_a_file(span) and not is_a_place(span) or is_no_lemma(span)
                for wrong in [span] if is_missing else [*unknown_items(span), *unknown_options(span)]:
                    yield f'{path}:{line}: `{span}`: there is no {wrong}'

    @gives_nothing
    def test_version_begins_the_change_log_and_stands_in_no_other_file(self):
        first = re.search(r'^## ([^\s,]+)', read('CHANGELOG.md'), re.MULTILINE)[1]
        if first != version():
            yield f'CHANGELOG.md: it begins with {first}, and not {version()}'
        for path in matching('README.md', 'docs/*', 'include/*', 'tools/*', 'tests/*.py', 'python/*', 'crates/*.rt',
                             'crates/*/stdout'):
            for match in re.finditer(rf'(?<![\d.]){re.escape(version())}(?!\d|\.\d)', read(path)):
                yield f'{path}:{line_at(read(path), match.start())}: the version stands here too'

    @gives_nothing
    def test_quoted_code_is_that_of_the_source(self):
        """Each part of an antt block is found alone, since imports are between them."""
        text = read(QUOTING)
        for block in FENCE.finditer(text):
            for part in {'rust': [block[2]], 'antt': block[2].split('\n\n')}.get(block[1], []):
                if not is_quoted(part, 'crates/*.rt', 'crates/*.antt'):
                    first = part.strip().splitlines()[0]
                    yield f'{QUOTING}:{line_at(text, block.start())}: not in the source: {first} ..'

    @gives_nothing
    def test_indented_lines_are_those_of_files(self):
        path, patterns = INDENTED
        for block in re.finditer(r'(?:^    +\S.*\n)+', prose(read(path)), re.MULTILINE):
            if not is_quoted(block[0], *patterns):
                first = block[0].splitlines()[0]
                yield f'{path}:{line_at(read(path), block.start())}: not in {" or ".join(patterns)}: {first}'

    @gives_nothing
    def test_blocks_of_pages_are_tried(self):
        """Each is quoted, run by tests/test_pages.py, tested by a script that names its page, or listed as untested."""
        for path in pages():
            name = path.removeprefix('docs/decisions/').removesuffix('.md')
            tried = ['console', *(language for page, language in UNTRIED if page == path)]
            tried += ['rust', 'antt'] if path == QUOTING else []
            for pattern, languages, script in TRIED:
                tried += languages if path in matching(pattern) and name in read(script) else []
            for block in FENCE.finditer(read(path)):
                if block[1] not in tried:
                    yield f'{path}:{line_at(read(path), block.start())}: nothing tries this block'

    @gives_nothing
    def test_numbers_that_pages_name_are_right(self):
        for path, pattern, wanted in numbers():
            found = re.search(pattern, read(path))
            if found is None or list(found.groups()) != wanted:
                yield f'{path}: it says {found and found[0]}, and it is {", ".join(wanted)}'

    @gives_nothing
    def test_what_pages_say_is_proved_is_in_clauses(self):
        for where, claim in claims():
            links = PROVED_BY.findall(claim)
            if not links:
                yield f'{where}: it names no function whose clause says this'
            for name, path, labels in links:
                there = clauses(path, name) if path in files() else ()
                for label in sorted(set(re.findall(r'\w+', labels) or ['']).difference(there)):
                    yield f"{where}: `{name}` of {path} has no clause {label or 'without a name'}"

    @gives_nothing
    def test_readme_has_the_theorem(self):
        path = 'crates/subst_template/src/lib.rt'
        comment = re.search(r'((?:^///.*\n)+)pub fn substitute_bytes\b', read(path), re.MULTILINE)[1]
        paragraphs = [' '.join(text.replace('///', '').split()) for text in comment.split('\n///\n')]
        theorem = next((text for text in paragraphs if text.startswith('For every byte source')), None)
        if theorem is None or theorem not in ' '.join(read('README.md').replace('\n> ', ' ').split()):
            yield f'README.md: it has not the theorem of the comment of `substitute_bytes`, word for word: {theorem}'

    @gives_nothing
    def test_readme_stands_on_the_logic_of_this_kit(self):
        """The sums of the logic are compared; kits of several names may have the same."""
        texts = read('README.md'), said_by_rt('version')
        found, wanted = (re.search(r'rattle-kit-\w+ logic \w+', text)[0] for text in texts)
        if found.split()[-1] != wanted.split()[-1]:
            yield f'README.md: it stands on {found}, and this is {wanted}'

    @gives_nothing
    def test_all_that_is_public_is_printed_and_its_clauses_have_names(self):
        yield from proved.wrongs()

    @gives_nothing
    def test_facts_are_in_few_files(self):
        heads = '\n'.join(re.findall(r'^\.TP\n(\..*)', read('docs/subst.1.in').replace(r'\-', '-'), re.MULTILINE))
        texts = {texts[0].partition(':')[0] for texts in faults.texts().values() if texts} - {'out of memory'}
        found = [(option, OPTION_FILES, has_option) for option in re.findall(r'(?<![\w-])--[a-z][\w-]*', heads)]
        found += [(text, FAULT_FILES, lambda path, text: text in read(path))
                  for text in sorted({*texts, faults.expected_after_name()})]
        for fact, most, has in found:
            # All tests count as one file.
            paths = sorted({re.sub(r'^tests/\w+\.py$', 'tests', path) for path in files() if has(path, fact)})
            if len(paths) > most:
                yield f'{fact!r} is in {len(paths)} files, and not {most}: {" ".join(paths)}'

    @gives_nothing
    def test_each_lemma_is_cited(self):
        """Answers to goals, which are found by name, and worked examples are exempt."""
        for path in matching('crates/*/proofs/*.antt'):
            if re.search(r'/(Answers|Invariants|Proof|Lib)\.antt$|WorkedExamples', path):
                continue
            words = [set(re.findall(r'[\w-]+', '\n'.join(lines))) for _, lines in definitions(path).values()]
            counts = collections.Counter(word for of_one in words for word in of_one)
            for name, (number, lines) in definitions(path).items():
                is_definition = DEFINITION.match(lines[0].strip())
                if is_definition and counts[name] < 2 and (module_of(path), name) not in imported():
                    yield f'{path}:{number}: nothing cites {name}'
