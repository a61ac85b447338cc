"""What tools/places reads the crates as: sources, and in them functions, types, blocks and the parts of lists, as texts."""
import re
from typing import NamedTuple

import repository
from repository import behind, code_of

GENERICS = r'(?:<(?:->|[^()>]|>(?!\()|\([^()]*\))*>)?'
HEAD = re.compile(r'(?:\[[^\]]*\]|[^\[{;])*')  # up to a clause's brace or the body's, or to the end of a trait's function
CLAUSE = re.compile(r'\b(?:requires|ensures)\b[\w\s*]*$')


class Source(NamedTuple):
    crate: str
    file: str
    code: str  # without comments and strings, every position as it was


class Function(NamedTuple):
    source: Source
    at: int
    name: str
    parameters: tuple
    head: str  # behind the parameters: the answer's type and the contract
    body: str  # empty where a trait gives none

    def given(self):
        return ', '.join(self.parameters)

    def is_free(self):
        """Does it stand outside of impls and traits?"""
        return bool(re.search(r'(?:\n|\A)(?:pub(?:\(crate\))? )?\Z', self.source.code[:self.at]))

    def place(self, kind):
        return self.source, self.at, kind, f'{self.name}({self.given()})'


def files(part, ending):
    """The crates' files of a part, the lowest crates first."""
    folders = ((crate, repository.root / 'crates' / crate / part) for crate in repository.listed_crates())
    return [(crate, path) for crate, folder in folders for path in sorted(folder.rglob(f'*.{ending}'))]


def sources():
    return [Source(crate, repository.below(path), code_of(path.read_text())) for crate, path in files('src', 'rt')]


def split(text, mark=',', opening='([{<', closing=')]}>'):
    """The parts of a text between marks that stand in no brackets."""
    parts, depth = [''], 0
    for i, sign in enumerate(text):
        depth += (sign in opening) - (sign in closing and text[i - 1:i + 1] not in ('->', '=>'))
        parts[-1:] = [parts[-1], ''] if sign == mark and depth == 0 else [parts[-1] + sign]
    return [' '.join(part.split()) for part in parts if part.strip()]


def functions_of(source):
    code = source.code
    for match in re.finditer(rf'\bfn\s+(\w+)\s*{GENERICS}\(', code):
        start = end = behind(code, match.end() - 1)
        while (stop := HEAD.match(code, end).end()) and code[stop] == '{' and CLAUSE.search(code[end:stop]):
            end = behind(code, stop)
        body = code[stop:behind(code, stop)] if code[stop] == '{' else ''
        yield Function(source, match.start(), match[1], tuple(split(code[match.end():start - 1])), ' '.join(code[start:stop].split()), body)


def types_of(source):
    """Its structs and enums: where, the word, the name, and the fields or variants."""
    for match, inside in blocks(source.code, r'\b(struct|enum) (\w+)[^;{(]*[{(]'):
        yield match.start(), match[1], match[2], split(re.sub(r'#\[.*?\]|\bpub(?:\(crate\))? ', '', inside))


def blocks(code, pattern):
    """What a pattern finds that ends in an opening bracket, each with what stands in the bracket."""
    return [(match, code[match.end():behind(code, match.end() - 1) - 1]) for match in re.finditer(pattern, code)]


def matches(of, patterns):
    """What patterns find, as places of their kinds."""
    return ((source, match.start(), kind, match[0]) for kind, pattern in patterns.items() for source in of for match in re.finditer(pattern, source.code))


def arms(text):
    """The arms of a match, each as its pattern and its answer."""
    found, depth, start = [], 0, 0
    for i, sign in enumerate(text + ','):
        depth += (sign in '([{') - (sign in ')]}')
        if depth == 0 and '=>' in text[start:i] and sign in ',}':
            found.append(text[start:i + 1].split('=>', 1))
            start = i + 1
    return found


def shape(text):
    """A text in which each name, each number and each type of numbers stands for any: twins have one shape."""
    kept = 'let mut while if else match return for in loop break continue as true false'.split()
    name = lambda word: 'n' if word[0].isdigit() else 'T' if re.fullmatch(r'[ui](\d+|size)', word) else word if word in kept else 'v'
    return re.sub(r'\s+|,(?=\s*[)\]}])', '', re.sub(r'\w+', lambda match: name(match[0]) + ' ', text))


def conjuncts(text):
    parts = [part[1:-1] if part.startswith('(') and behind(part, 0) == len(part) else part for part in split(text, '×', '([{', ')]}')]
    return parts if parts == [text] else [one for part in parts for one in conjuncts(part)]
