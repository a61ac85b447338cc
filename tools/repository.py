"""What the tools share: where the repository stands, its crates, the functions of a source, and a copy of the crates to check something in."""
import pathlib
import re
import shutil
import subprocess
from typing import NamedTuple

root = pathlib.Path(__file__).resolve().parent.parent
# The files of a function's proof, in proofs/FUNCTION: what its loops keep, the answers to its goals, or a proof by hand.
PROOFS = 'Invariants', 'Answers', 'Proof'
PARTS = 'src', 'specs', 'proofs'


def listed_crates():
    """The crates that crates.txt lists, each with what it uses."""
    crates = {}
    for line in (root / 'crates.txt').read_text().splitlines():
        name, colon, uses = line.split('#')[0].partition(':')
        if colon:
            crates[name.split()[0]] = uses.split()  # behind the name a word may stand: staticlib
    return crates


def below(path):
    """A path as the papers write it, from the root."""
    return str(path.relative_to(root))


class Function(NamedTuple):
    name: str  # with its type or trait before it where it is a method: ColumnSpec::new (of a trait's `impl`: see owner)
    of_trait: bool  # a method of an `impl` of a trait, which the trait asks for
    visibility: str  # 'pub', 'pub(crate)' or ''
    exported: bool  # extern "C"
    line: int
    start: int  # where its text begins, and where it ends
    end: int
    head: str  # its signature and contract
    body: str


FUNCTION = re.compile(r'(?:\b(pub(?:\s*\([^)]*\))?)\s+)?(?:\b(extern\s+"C")\s+)?\bfn\s+(\w+)')
QUIET = re.compile(r'//[^\n]*|b?"(?:\\.|[^"\\])*"|\bb\'(?:\\.[^\']*|[^\'\\])\'|(?<!\w)\'(?:\\.[^\']*|[^\'\\])\'', re.S)
METHODS = re.compile(r'\b(?:impl\b(?:\s*<[^>]*>)?\s+(?P<trait>[\w:]+(?:<[^{]*>)?\s+for\s+)?|trait\s+)(?P<type>\w+)[^{};]*{')
# What stands between a function's name and its parameters: type parameters with bounds, `Fn(A) -> B` among them.
PARAMETERS = re.compile(r'\s*(?:<(?:[^<>]|<[^<>]*>|->)*>)?\s*\(')
# A clause of a contract before its brace: `ensures`, or with the clause's name where there are several.
CLAUSE = re.compile(r'\b(?:requires|ensures)(?:\s*\*)?(?:\s+\w+)?\s*$')


def code_of(text):
    """The text with comments and strings blanked, but for the "C" of what is exported, so that every brace in it counts and every position stays."""
    return QUIET.sub(lambda m: m.group() if m.group() == '"C"' else re.sub(r'[^\n]', ' ', m.group()), text)


def behind(code, opening):
    """The position behind the bracket that closes the one at `opening`."""
    closing = {'(': ')', '{': '}'}[code[opening]]
    depth = 0
    for i in range(opening, len(code)):
        depth += (code[i] == code[opening]) - (code[i] == closing)
        if depth == 0:
            return i + 1
    raise ValueError('a bracket that nothing closes')


def owner(of):
    """What a method is named by: its type or trait; in an `impl` of a trait, as the prover has it, the type and the words of the trait: U8FromWhy."""
    words = re.findall(r'\w+', of['type'] + ' ' + (of['trait'] or '').rsplit(' for ', 1)[0].removesuffix('for').strip())
    return ''.join(word[:1].upper() + word[1:] for word in words) if of['trait'] else of['type']


def opening(code, at):
    """The next brace, or the semicolon that ends a function without a body; the one in an array's type is none."""
    return next(match.start() for match in re.compile(r'\[[^\]]*\]|[{;]').finditer(code, at) if match.group()[0] != '[')


def functions_of(text):
    """The functions of a source, in its order."""
    code = code_of(text)
    types = [(match, range(match.end(), behind(code, match.end() - 1))) for match in METHODS.finditer(code)]
    found, at = [], 0
    while match := FUNCTION.search(code, at):
        # Behind the parameters come the contract's clauses, each in braces, and then the body, or in a trait mostly none.
        body = opening(code, behind(code, PARAMETERS.match(code, match.end()).end() - 1))
        while code[body] == '{' and CLAUSE.search(code[match.end():body]):
            body = opening(code, behind(code, body))
        at = behind(code, body) if code[body] == '{' else body + 1
        within = [of for of, inside in types if match.start() in inside]
        name = '::'.join([owner(of) for of in within] + [match.group(3)])
        found.append(Function(name, any(of['trait'] for of in within), re.sub(r'\s', '', match.group(1) or ''), bool(match.group(2)),
                              text.count('\n', 0, match.start()) + 1, match.start(), at, code[match.start():body], code[body:at]))
    return found


def public_functions(crate):
    """The public functions of a crate, each with its file; of a program none."""
    folder = root / 'crates' / crate / 'src'
    if (folder / 'main.rt').exists():
        return []
    return [(path, function) for path in sorted(folder.rglob('*.rt')) for function in functions_of(path.read_text()) if function.visibility == 'pub']


def texts_of(crate):
    """The texts of a crate's files, by their paths in it."""
    folder = root / 'crates' / crate
    return {str(path.relative_to(folder)): path.read_text() for part in PARTS for path in sorted((folder / part).rglob('*')) if path.suffix in ('.rt', '.antt')}


class Copy:
    """A copy of the crates in which rt check works, so that the checkout stays as it is. It begins with what checks on this machine kept."""

    def __init__(self, room):
        self.folder = pathlib.Path(room)
        (self.folder / 'crates').mkdir()
        shutil.copy(root / 'crates.txt', self.folder)
        for crate in listed_crates():
            for part in PARTS:
                if (root / 'crates' / crate / part).is_dir():
                    shutil.copytree(root / 'crates' / crate / part, self.folder / 'crates' / crate / part)

    def write(self, crate, texts):
        for file, text in texts.items():
            (self.folder / 'crates' / crate / file).write_text(text)

    def check(self, crate, texts, *words):
        """What rt check says of the crate with these texts."""
        self.write(crate, texts)
        how = {'stdin': subprocess.DEVNULL, 'stdout': subprocess.PIPE, 'stderr': subprocess.STDOUT, 'text': True, 'errors': 'replace'}
        return subprocess.run(['rt', 'check', '--jobs', '1', *words], cwd=self.folder / 'crates' / crate, **how).stdout
