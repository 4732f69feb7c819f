"""What the tests of pages share: the pages, their tables, and what the tree declares."""

import glob
import os
import re
from typing import NamedTuple

PAGES = ('README.md', 'docs/*.md', 'docs/landings/*.md', 'examples/README.md', 'second/*.md')
# The pages that have names and texts of an older commit beside today's, and so are not looked up.
MOVED = ('docs/PORT.md', 'docs/DESIGN-PASS.md')
# The folders that are made, and those that a page announces.
MADE = ('.git', 'dist', 'second/build')
OUT = re.compile(r'crates/\w+/out(/|$)')
ANNOUNCED = ('docs/landings',)

NAME = r'[^\s(){}.;,@"«»]+'
# What stands in code letters; and blocks, in which nothing is looked up.
SPAN = re.compile(r'`([^`\n]+)`')
BLOCK = re.compile(r'^( *)(```|~~~).*?^ *\2[^\n]*$|(?:(?<=\n\n)|\A)(?: {4}[^\n]*\n)+', re.M | re.S)
# The blocks by their kind, to read what stands in them.
FENCED = re.compile(r'^( *)```[^\n]*\n(?P<text>.*?)^ *```[^\n]*$', re.M | re.S)
INDENTED = re.compile(r'(?:(?<=\n\n)|\A)(?P<text>(?: {4}[^\n]*\n|\n(?= {4}))+)')


class Finding(NamedTuple):
    path: str
    line: int
    what: str


def read(root, path):
    with open(os.path.join(root, path), encoding='utf-8') as opened:
        return opened.read()


def line_at(text, place):
    return text.count('\n', 0, place) + 1


def blanked(pattern, text):
    """The text with what the pattern matches made blank, so that every place stays where it was."""
    return pattern.sub(lambda match: re.sub(r'[^\n]', ' ', match.group()), text)


def lines_of(match, text):
    """The lines of a block, without their indentation, and the number of the first."""
    lines = match['text'].rstrip('\n').split('\n')
    indent = min(len(line) - len(line.lstrip()) for line in lines if line.strip())
    return line_at(text, match.start('text')), [line[indent:] for line in lines]


def indented_blocks(text):
    """The indented blocks of a page: the number of the first line, and the lines."""
    plain = FENCED.sub(lambda match: re.sub(r'[^\n]', '', match.group()), text)
    return [lines_of(match, plain) for match in INDENTED.finditer(plain)]


def blocks(text):
    """The blocks of a page, fenced and indented: the number of the first line, and the lines."""
    return [lines_of(match, text) for match in FENCED.finditer(text)] + indented_blocks(text)


def page_texts(root):
    paths = [path for pattern in PAGES for path in sorted(glob.glob(os.path.join(root, pattern)))]
    names = [name for name in (os.path.relpath(path, root) for path in paths) if name not in MOVED]
    return {name: read(root, name) for name in names}


class Row(NamedTuple):
    """A line of a table: the number of the table, the heading above it, and a cell for each word at its top."""

    line: int
    table: int
    heading: str
    cells: dict


def rows(text):
    """The rows of all tables of a page."""
    heading, tops, table = '', None, 0
    for number, line in enumerate(text.split('\n'), 1):
        if line.startswith('#'):
            heading = line.lstrip('#').strip()
        if not line.startswith('|'):
            tops = None
            continue
        cells = [cell.strip() for cell in line.split('|')[1:-1]]
        if tops is None:
            tops, table = cells, table + 1
        elif not re.fullmatch(r'[-|: ]+', line):
            yield Row(number, table, heading, dict(zip(tops, cells)))


def sentence_findings(page, text, sentences):
    """Each sentence stands in the page, however it is wrapped."""
    plain = ' '.join(re.sub(r'(?m)^ \*', ' ', text).split()) + ' '
    for sentence in sentences:
        if sentence not in plain:
            yield Finding(page, 1, f'should say: {sentence.strip()}')


# What declares a name: in antt, in Rattle, in C. What a law declares for itself alone, and what C only calls, does not.
MARKS = r'(?:(?:abbrev|unfoldable)\s+)*'
# The files of a function's own proof.
OWN_PROOF = ('Answers.antt', 'Invariants.antt', 'Proof.antt')
# An answer to a goal, or an invariant, bears the name that the toolchain gives it.
ASKED = r'(?!\s*goal\.)'
PUBLIC = re.compile(rf'^\s*{MARKS}pub\s+({NAME})\s+:\s{ASKED}', re.M)
FIELD = re.compile(rf'^ +pub\s+({NAME})\s+:\s', re.M)
ANTT_NAMES = (PUBLIC, re.compile(rf'^{MARKS}({NAME})\s+:\s{ASKED}', re.M), re.compile(rf'\b(?:record|data)\s+({NAME})'))
RATTLE_NAMES = (re.compile(r'\b(?:fn|struct|enum|const|mod)\s+(\w+)'), re.compile(r'^\s+(?:pub\s+)?(\w+):', re.M),
                re.compile(r'^\s+([A-Z]\w*)(?:\([^)]*\))?,$', re.M))
C_NAMES = (re.compile(r'#define\s+(\w+)'), re.compile(r'^[A-Za-z_][\w ]*[ *](\w+)\(', re.M))
COMMENT = re.compile(r'(?<!\S)(?:--|//)[^\n]*')
FUNCTION = re.compile(r'\bpub\s+(?:extern\s+"C"\s+)?fn\s+(?P<name>\w+)(?:<[^>]*>)?\s*\((?P<given>[^)]*)\)')
IMPLEMENTATION = re.compile(r'^impl\s+(\w+)[^{]*\{(.*?)^\}', re.M | re.S)


def names_in(path, text):
    """The names that a file declares."""
    patterns = {'.antt': ANTT_NAMES, '.rt': RATTLE_NAMES}.get(os.path.splitext(path)[1], C_NAMES)
    text = blanked(COMMENT, text)
    return {name for pattern in patterns for name in pattern.findall(text)}


def laws_in(path, text):
    """The public laws of a proof, and the promises of a statement: the fields of its records. What a function's own proof
    says is no law."""
    if os.path.basename(path) in OWN_PROOF:
        return []
    pattern = PUBLIC if '/proofs/' in path else FIELD
    return pattern.findall(blanked(COMMENT, text)) if path.endswith('.antt') else []


def only_comments(text):
    """The comments of a text, each on its line."""
    return '\n'.join(''.join(COMMENT.findall(line)) for line in text.split('\n'))


class Tree:
    """What the repository declares: its paths, names, calls, edits and crates."""

    def __init__(self, root):
        self.root = root
        self.paths = self.walked()
        source = re.compile(r'(crates/[^/]+/(specs|proofs|src)|include|second|host)/.*\.(antt|rt|h|c)$')
        texts = {path: read(root, path) for path in self.paths if source.match(path)}
        self.declared = {path: names_in(path, text) for path, text in texts.items()}
        self.laws = {name for path, text in texts.items() for name in laws_in(path, text)}
        self.comments = {path: only_comments(text) for path, text in texts.items()}
        self.below = self.names_below()
        self.names = set().union(*self.below.values())
        self.crates = re.findall(r'^(\w+)(?: +staticlib)? *:', read(root, 'crates.txt'), re.M)
        self.edits = {crate: self.edits_of(crate) for crate in self.crates}
        self.all_edits = set().union(*self.edits.values())
        self.calls, self.methods = {}, {}
        self.read_functions()
        self.printed = self.printed_lines()
        self.words = {word for line in self.printed for word in line.split() if word.isalpha()} | set(self.crates)

    def walked(self):
        paths = set()
        for folder, folders, files in os.walk(self.root):
            inside = os.path.relpath(folder, self.root)
            places = {name: os.path.normpath(os.path.join(inside, name)) for name in folders}
            folders[:] = [name for name, place in places.items() if place not in MADE and not OUT.match(place)]
            paths |= {os.path.normpath(os.path.join(inside, name)) for name in folders + files}
        return paths

    def names_below(self):
        """The names that each file declares, and those of the files below each folder."""
        below = {path: set(names) for path, names in self.declared.items()}
        for path, names in self.declared.items():
            bears, folder = os.path.splitext(os.path.basename(path))[0], os.path.dirname(path)
            while folder:
                below.setdefault(folder, set()).update(names, {bears})
                folder = os.path.dirname(folder)
        return below

    def edits_of(self, crate):
        place = re.compile(rf'crates/{crate}/must-fail/(\w+)\.edit')
        return {match[1] for match in map(place.fullmatch, self.paths) if match}

    def read_functions(self):
        """The parameters of each public function, by crate and name; and the names of each type's methods."""
        for path in (path for path in self.declared if path.endswith('.rt')):
            text = read(self.root, path)
            for function in FUNCTION.finditer(text):
                given = [part.split(':')[0].strip() for part in function['given'].split(',') if part.strip()]
                self.calls[path.split('/')[1], function['name']] = [name.removeprefix('mut ') for name in given]
            for block in IMPLEMENTATION.finditer(text):
                self.methods.setdefault(block[1], set()).update(re.findall(r'\bfn\s+(\w+)', block[2]))

    def printed_lines(self):
        texts = [path for path in self.paths if re.match(r'examples/\w+\.(txt|blame)$', path)]
        return {line for path in texts for line in read(self.root, path).split('\n')}

    def has(self, path):
        return os.path.normpath(path) in self.paths or path.startswith(MADE + ANNOUNCED) or bool(OUT.match(path))

    def places_of(self, path, page=''):
        """The places that a page's path stands for: from the root, from crates/ or a crate, from the page's folder.

        A name alone stands for the files of definitions or laws that bear it.
        """
        if re.fullmatch(r'\w+', path) and not self.has(path):
            return [place for place in self.declared if os.path.basename(place) == f'{path}.antt']
        starts = ['', 'crates/', os.path.dirname(page)] + [f'crates/{crate}' for crate in self.crates]
        places = (os.path.join(start, path.rstrip('/')) for start in starts)
        return [place for place in places if self.has(place)]

    def stands_in(self, name, place):
        """Whether a file, or a file below a folder, declares a name; or a file below a folder bears it."""
        return name in self.below.get(os.path.normpath(place), ())
