"""The functions of the sources, read from the MIR that the compiler prints."""
import re
import subprocess
from collections.abc import Iterator
from dataclasses import dataclass
from pathlib import Path
from platform import machine

# The programs, which are callers of the library, and the kit's libraries that they call.
PROGRAMS, KIT = ["desk", "edges"], ["std", "libc", "io"]

Term = str | list["Term"]


class Breach(Exception):
    """A breach because of which nothing else can be judged."""


def read(text: str) -> Term:
    """The term of a text."""
    open_lists: list[list[Term]] = [[]]
    for word in re.findall(r'"[^"]*"|[()]|[^\s()]+', text):
        if word == "(":
            open_lists.append([])
        elif word == ")":
            done = open_lists.pop()
            open_lists[-1].append(done)
        else:
            open_lists[-1].append(word.strip('"'))
    return open_lists[0]


def items(chain: Term) -> list[Term]:
    """The items of a chain of cells."""
    found = []
    while isinstance(chain, list):
        found.append(chain[1])
        chain = chain[2]
    return found


def each(term: Term, head: str) -> Iterator[list[Term]]:
    """Every term within this one that begins with a word, in order."""
    waiting = [term]
    while waiting:
        term = waiting.pop()
        if isinstance(term, list):
            if term[:1] == [head]:
                yield term
            waiting.extend(reversed(term))


@dataclass
class Function:
    """A function of the MIR. Local 0 is its answer, and those from 1 to `count` are its parameters."""

    name: str
    count: int
    locals: list[Term]
    body: Term
    names: list[str]

    @property
    def crate(self) -> str:
        return self.name.split("::")[0]

    def is_slice(self, number: int) -> bool:
        return self.locals[number][1][:2] == ["tyStruct", "&[]"]

    def gives(self, number: int) -> bool:
        """Can a number come from this parameter: is it one, or a slice of numbers that nobody writes meanwhile?"""
        kind = self.locals[number][1]
        if self.is_slice(number):
            _, _, access, kind = items(kind[2])[0]
            return access == "imm" and kind[0] == "tyInt"
        return kind[0] == "tyInt"


# The head of an impl, or of a function and its parameters.
HEAD = re.compile(r'^impl (\w+)|^( *)(?:[\w()"]+ )*fn (\w+)(?:<[^(]*>)?\(([^)]*)\)', re.M)


def heads(root: Path) -> dict[str, list[str]]:
    """Every function of the sources, with the names of its parameters."""
    found = {}
    for path in sorted(root.glob("crates/*/src/*.rt")):
        owner, module = "", "" if path.stem in ("lib", "main") else path.stem
        for line in HEAD.finditer(path.read_text()):
            owner, indent, name, parameters = line[1] or owner, line[2], line[3], line[4]
            if name:
                words = [path.parts[-3], module, owner if indent else "", name]
                found["::".join(filter(None, words))] = re.findall(r"\bself\b|\w+(?=\s*:(?!:))", parameters)
    return found


def printed(words: list[str]) -> str:
    """What a command prints."""
    done = subprocess.run(words, capture_output=True, text=True)
    if done.returncode:
        raise Breach(f"{Path(words[0]).name} failed: {done.stderr[:1000]}")
    return done.stdout


def functions_of(root: Path, programs: list[str]) -> dict[str, Function]:
    """All libraries and these programs, as the compiler sees them. It is given every crate as sources, and so prints
    those functions too that nothing calls. `rt mir` runs the same printer on crates that are proved."""
    kit = Path(printed(["rt", "doc"])).parents[1]
    printer = f"{kit}/on/{machine()}/bin/rattle-print-mir"
    crates = re.findall(r"^(\w+):", (root / "crates.txt").read_text(), re.M)
    libraries = [f"{name}={kit}/libs/{name}/src/lib.rt" for name in KIT]
    libraries += [f"{name}={root}/crates/{name}/src/lib.rt" for name in crates if name not in PROGRAMS]
    names = {name: own for name, own in heads(root).items() if name.split("::")[0] not in set(PROGRAMS) - set(programs)}
    functions = {}
    for program in programs:
        words = ["--crate-name", program, *(word for library in libraries for word in ("--lib", library))]
        text = printed([printer, f"{root}/crates/{program}/src/main.rt", *words])
        for _, name, (_, _, _, count, kinds, body), *_ in items(read(text)[1]):
            if name.split("::")[0] in crates:
                functions[name] = Function(name, int(count), items(kinds), body, names.get(name, []))
    read_off = {name: len(own) for name, own in names.items()}
    if wrong := read_off.items() ^ {(name, function.count) for name, function in functions.items()}:
        raise Breach(f"not the same in the sources and in the MIR: {sorted(wrong)}")
    return functions
