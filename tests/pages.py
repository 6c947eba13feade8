"""Reads the pages of the repository: what they name, and where."""

import re
from collections import Counter

from tests.support import TOP

PAGES = 'README.md', 'CONTRIBUTING.md', 'CHANGELOG.md', 'docs/**/*.md', 'examples/README.md', 'crates/*/README.md'
FILES = re.compile(r'(crates|docs|examples|tests|tools|client|\.ci|nv(?:me)?_[a-z0-9_]*|src|specs|proofs|must-fail)/')
ITEM = re.compile(r' *([-*+]|[0-9]+\.) ')


def kinds(lines):
    """Returns the kind of each line: 'code' (with the marks around it), 'blank', 'row' of a table, or 'text'."""
    is_fenced = is_list = False
    before = 'blank'
    for line in lines:
        is_mark = re.match(r' *(```|~~~)', line)
        if is_mark or is_fenced:
            kind = 'code'
            is_fenced ^= bool(is_mark)
        elif not line.strip():
            kind = 'blank'
        elif line.startswith('    ') and not is_list and before in ('blank', 'indented'):
            kind = 'indented'
        else:
            is_list = bool(ITEM.match(line)) or is_list and (before != 'blank' or line.startswith(' '))
            kind = 'row' if line.lstrip().startswith('|') else 'text'
        before = kind
        yield 'code' if kind == 'indented' else kind


def files_in(code):
    """Returns the files that a piece of code names, as patterns. NAME, my_bench and the like stand for any name."""
    for word in code.split():
        word = re.sub(r':[0-9]+$', '', re.sub(r'[,;:)]+$', '', re.sub(r'^\./', '', word)))
        word = re.sub(r'(?<![^/])((NAME|FILE|MODULE|TYPE|FUNCTION)(?=(\.[a-z]+)?(/|$))|my_[a-z_]+)', '*', word)
        found = FILES.match(word)
        if found and re.fullmatch(r'[A-Za-z0-9_.*/-]+', word):
            is_part = found.group(1) in ('src', 'specs', 'proofs', 'must-fail')
            yield f'crates/*/{word}' if is_part else f'crates/{word}' if found.group(1).startswith('nv') else word


class Page:
    """A page: the links, files and words of clauses that it names, each with its line, its wide lines, and its blocks
    of code that are said to come from a file."""

    def __init__(self, name):
        self.name = name
        self.text = (TOP / name).read_text()
        lines = self.text.splitlines()
        self.lines = list(zip(range(1, len(lines) + 1), lines, kinds(lines)))
        self.links, self.files, self.words, self.wide, self.blocks = [], [], [], [], []
        self.read_lines()
        self.read_rows()
        for found in re.finditer(r'^```rust *\n((?:(?!```).*\n)*)^``` *\n\s*\(from `([^`]+)`', self.text, re.M):
            self.blocks.append((self.text[:found.start(2)].count('\n') + 1, *found.groups()))

    def read_lines(self):
        is_code = False
        for number, line, kind in self.lines:
            # code may continue from the line before
            if kind != 'text' or ITEM.match(line) or line.startswith('#'):
                is_code = False
            if kind in ('text', 'row'):
                pieces = re.sub('``+', '', line).split('`')
                code, text = pieces[not is_code::2], ''.join(pieces[is_code::2])
                is_code ^= len(pieces) % 2 == 0
                self.files += [(number, name) for piece in code for name in files_in(piece)]
                links = re.findall(r'\]\(([^ )]+)', text) + re.findall(r'^ *\[[^]]+\]: +([^ ]+)', text)
                self.links += [(number, link) for link in links]
            if kind == 'code' and line.startswith('    '):
                self.files += [(number, name) for name in files_in(line)]
            if kind == 'text' and len(line) > 140:
                self.wide.append((number, len(line)))

    def read_rows(self):
        """Returns the words in the last column of tables of clauses, or of where to look."""
        has_clauses = None
        for number, line, kind in self.lines:
            if kind != 'row':
                has_clauses = None
                continue
            last = re.sub(r' *\|? *$', '', line.replace('\\|', '')).split('|')[-1]
            if has_clauses is None:
                has_clauses = re.search('Call|Promise|To find', line) and re.search('[Cc]lause|Field|Look in', last)
            if has_clauses:
                code = ' '.join(last.split('`')[1::2])
                self.words += [(number, word) for word in re.findall(r'\b[A-Za-z_][A-Za-z0-9_]*', code)]

    def broken_links(self):
        """Returns its links to files or headings that aren't there."""
        for number, link in self.links:
            name, _, heading = link.partition('#')
            target = ((TOP / self.name).parent / name).resolve() if name else TOP / self.name
            if '://' not in link and not link.startswith('mailto:') and not (
                    target.exists() and (not heading or heading in Page(str(target)).anchors())):
                yield f'{self.name}:{number}: {link}'

    def anchors(self):
        """Returns the anchors of its headings, by GitHub's rule: in lower case, without punctuation, with a hyphen for
        each space, and a number if an earlier heading has the same."""
        before = Counter()
        for _, line, kind in self.lines:
            if kind == 'text' and re.match('#+ ', line):
                text = re.sub(r'\]\([^)]*\)', ']', re.sub(r'^#+ +| +#* *$', '', line.lower()))
                anchor = re.sub('[^a-z0-9 _-]', '', text).replace(' ', '-')
                yield f'{anchor}-{before[anchor]}' if before[anchor] else anchor
                before[anchor] += 1
