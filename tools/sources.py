"""How scripts read the sources: the definitions of specs/, and the items and public calls of src/."""

from __future__ import annotations

import re
from collections.abc import Iterator
from dataclasses import dataclass
from pathlib import Path
from textwrap import dedent

from paths import TOP

TERM = re.compile(
    r"""(?P<bound>(?<=let\ )[^=]+?(?=\ =\s)|(?<=λ\ )[^.:]+?(?=\.\s)|[\w']+(?=\s+←))
    |(?P<skipped>"(?:[^"\\]|\\.)*"|(?<![\w.'])\d+|[\w']+\s+=(?=\s))
    |(?P<name>\[\]|[^\s(){}\[\];,]+)
    |(?P<open>[({\[])(?:\s*(?=(?P<typed>(?:[\w']+\s+)+):\s))?
    |(?P<close>[)}\]])""",
    re.VERBOSE,
)
RENAMED = re.compile(r"([^\s,]+)(?: as (\w+))?")
CLAUSE = re.compile(r"\b(?:requires|ensures|ghost)\*?(?: \w+)?(?: =|:)? (?=\{)")
LOGIC_WORDS = set("→ × ¬ ⊥ : = _ . .. λ ← let in Type Unit tt absurd record where".split())


@dataclass(frozen=True, eq=False)
class Definition:
    """A definition of specs/, an item of src/, or a call with its contract."""

    file: "SpecsFile | SourceFile"
    line: int
    name: str
    lines: list[str]

    @property
    def code(self) -> str:
        return "\n".join(line for line in self.lines if not line.lstrip().startswith(("--", "//")))


def free_names(term: str, bound: set[str]) -> Iterator[str]:
    """The names of a term that nothing binds. What the term binds outside its brackets is added to `bound`."""
    scopes = [bound]
    for token in TERM.finditer(term):
        scopes[-1].update(re.findall(r"[\w']+", token["bound"] or token["typed"] or ""))
        if token["open"]:
            scopes.append(set(scopes[-1]))
        elif token["close"]:
            scopes.pop()
        elif token["name"] and token["name"].partition(".")[0] not in scopes[-1] | LOGIC_WORDS | {""}:
            yield {"do": ">>="}.get(token["name"], token["name"])


def ghost_imports(text: str) -> dict[str, tuple[str, str]]:
    """The module of each name that `use` or `ghost use` brings, and its name there, which is empty for a whole module."""
    found = {}
    for path, names, alias in re.findall(r"^ *(?:\w+ )*use (\w+\.[\w.]+?)(?:\.\{(.*)\}| as (\w+));?$", text, re.M):
        brought = [(there, here or there) for there, here in RENAMED.findall(names)]
        found |= {alias: (path, "")} | {part: (path, there) for there, here in brought for part in (here, *here.split("◌"))}
    return found


class SpecsFile:
    """A file of specs/, with its definitions by their names, their constructors and the parts of their operators."""

    def __init__(self, path: Path) -> None:
        text = path.read_text(encoding="utf-8") + "\n"
        self.path, self.names, self.definitions = path, ghost_imports(text), {}
        for block in re.finditer(r"(?:.+\n)+", text):
            if head := re.search(r"^(?:abbrev |unfoldable )?pub (record |data )?(?!mod |use )(\S+)", block[0], re.M):
                shown = Definition(self, text.count("\n", 0, block.start()), head[2], block[0].splitlines())
                made = re.findall(r"^  (\w+) :", shown.code, re.M) if head[1] == "data " else []
                self.definitions |= dict.fromkeys([head[2], *head[2].split("◌"), *made], shown)

    def used(self, it: Definition) -> Iterator[str]:
        """The names that a definition uses. In a pattern a name is a variable if it is not known in the file."""
        code = re.sub(r"^infix.*\n", "", it.code, flags=re.M)
        kind, body = re.match(r"(?:abbrev |unfoldable )?pub (record |data )?\S+(.*)", code, re.S).groups()
        head, *parts = re.split(r"\n(?=  (?:pub )?\S+ :)" if kind else r"\n(?=[^\s)}])", body)
        bound: set[str] = set()
        yield from free_names(head, bound)
        for part in parts:
            left, _, term = part.partition(" :" if kind else " =")
            words = [word for word in free_names(left, set()) if word not in ("pub", it.name, *it.name.split("◌"))]
            if not kind:
                bound = {word for word in words if word.partition(".")[0] not in {*self.names, *self.definitions}}
                yield from (word for word in words if word not in bound)
            yield from free_names(term, bound)
            bound.update(words if kind else [])


class SourceFile:
    """A file of src/: what its `use` lines bring, its types, traits and constants, and its public calls."""

    ITEM = re.compile(r"^(?:pub(?:\([^)]*\))? )?(?:struct|enum|trait|type|const|static) (\w+)(?:.*;$|[\s\S]*?^[}\])]+;?$)", re.M)
    CALL = re.compile(r'^( *)pub (?:const |extern "C" )*fn (\w+)', re.M)
    CODING = re.compile(r"^( *(?:pub )?ghost \w+: \{.*\}) by \{.*\},$", re.M)

    def __init__(self, path: Path) -> None:
        self.path, self.crate, self.text = path, path.relative_to(TOP).parts[1], path.read_text(encoding="utf-8")
        self.names, self.uses = ghost_imports(self.text), {}
        for prefix, names in re.findall(r"^(?:pub )?use ([\w:]+?)(?:::\{([^{}]*)\})?;", self.text, re.M):
            brought = {here or there: [*prefix.split("::"), there] for there, here in RENAMED.findall(names)}
            self.uses |= brought or {prefix.split("::")[-1]: prefix.split("::")}
        self.items = {item[1]: self.shown(item.start(), item[1], self.seen(item)) for item in self.ITEM.finditer(self.text)}

    def shown(self, start: int, name: str, code: str) -> Definition:
        """What is printed: the first paragraph of the doc comment, and the code without attributes."""
        comment = re.search(r"(?:^ *(?:///?(?!/)|#\[).*\n)*\Z", self.text[:start], re.M)[0]
        comment = re.split(r"^ *///?$", comment, maxsplit=1, flags=re.M)[0]
        lines = [line for line in dedent(f"{comment}{code}").splitlines() if not line.lstrip().startswith("#[")]
        return Definition(self, self.text.count("\n", 0, start), name, lines)

    def seen(self, item: re.Match) -> str:
        """What contracts see of an item: of a type with a model its `Value`, and of another struct what its traits say of it.

        The memory that a struct owns and the coding of a ghost field are for proofs alone."""
        blocks = re.findall(rf"^(impl.* for {item[1]}\b.*)\{{\n([\s\S]*?)^\}}", self.text, re.M)
        ghosts = r"^    (ghost (?!also_owns\b)\w+ = (?:.*;|[\s\S]*?^    \};))$"
        said = {head: re.findall(ghosts, block, re.M) for head, block in blocks}
        model = [f"{head}{{ {one} .. }}" for head, ghost in said.items() for one in ghost if one.startswith("ghost Value =")]
        other = [f"{head}{{ {' '.join(ghost)} .. }}" for head, ghost in said.items() if ghost and "struct " in item[0]]
        return "\n".join(model or [self.CODING.sub(r"\1,", item[0]), *other])

    def calls(self) -> Iterator[Definition]:
        """The public functions, with their contracts. A body begins in a line of its own if there are clauses."""
        for call in self.CALL.finditer(self.text):
            text = self.text[call.start():]
            end = re.search(r"\n +(?:requires|ensures|ghost)\b| \{|;\n", text)
            stop = end.start() if end[0][0] != "\n" else text.index(f"\n{call[1]}{{")
            owners = re.findall(r"^impl.*?(\w+)(?:<[^>]*>)? \{$", self.text[:call.start()], re.M) if call[1] else []
            name = "::".join([*owners[-1:], call[2]])
            yield self.shown(call.start(), name, text[:stop].replace(f"fn {call[2]}", f"fn {name}", 1))

    def used(self, it: Definition) -> Iterator[str]:
        """The names that an item or a call uses, in its types and in its clauses."""
        code = re.sub(r"^    [A-Z]\w*", "", it.code, flags=re.M) if "enum " in it.code else it.code.replace('"C" ', "")
        head, *clauses = CLAUSE.split(re.sub(r"⟦<(\w+) as .*?⟧", r"\1", code.replace(it.name, it.name.partition("::")[0], 1)))
        generics = re.search(r"\b(?:fn|struct|enum|trait|type) \w+<(.*?)>(?=[ ({;]|$)", head, re.M | re.S)
        bound = {"Self", "self", "result", "𝓛", *re.findall(r"\b([a-z_]\w*):(?!:)", head)}
        bound.update(re.findall(r"(?:^|, )(?:const )?(\w+)", generics[1]) if generics else [])
        bound.update(re.findall(r"^ *ghost (\w+):", code, re.M))
        paths = re.findall(r"(?<![\w'])[A-Za-z_]\w*(?:::\w+)*", head)
        yield from (path for path in paths if path not in bound and ("::" in path or path[0].isupper()))
        for clause in clauses:
            yield from free_names(clause, set(bound))
