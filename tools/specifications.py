"""Definitions in specs/ and public contracts in src/, read as text."""
import re
import shutil
from collections.abc import Iterable
from dataclasses import dataclass, field
from pathlib import Path

# The clauses of std's orders, which an impl proves and does not state.
PROOFS = ("total", "matches_eq", "matches_partial_cmp", "laws")

NAME = r"[^\W\d][\w'-]*"
OPERATOR = r"◌[^\w\s]+◌"
SIGNATURE = re.compile(
    r"^(?:unfoldable )?(?:abbrev )?(?:pub )?(?:(record|data) )?(?:pub )?"
    rf"({NAME}\b|{OPERATOR})(?!\s*[.=])"
)
USE = re.compile(
    r"^\s*(?:pub |ghost )*use ((?:[\w-]|«|»|\.(?!\{))+)(?:\.\{([^}]*)\})?(?: as ([\w'-]+))?;?", re.M
)
# An import from files of one crate in one line: `use M.{A.{a, b}, B.{c}};`.
GROUP = re.compile(r"^\s*(?:pub |ghost )*use ((?:[\w-]|«|»|\.(?!\{))+)\.\{([^;]*\{[^;]*)\};", re.M)
MEMBER = re.compile(r"((?:[\w-]|«|»|\.(?!\{))+)\.\{([^}]*)\}")
WORD = re.compile(rf"(?<![\w.'-])({NAME})((?:\.{NAME})*)")
COMMENT = re.compile(r"--.*|//.*")


@dataclass
class Definition:
    """A definition of specs/: its file, its lines with the comment above it, and its text."""

    module: str
    name: str
    first: int
    lines: int
    text: str
    names: list[str] = field(default_factory=list)


@dataclass
class Module:
    """A file of specs/: its imports from other files, and its definitions by name, with
    constructors.
    """

    path: Path
    lines: int
    names: dict[str, tuple[str, str]]
    aliases: dict[str, str]
    definitions: dict[str, Definition]


def imports(text: str) -> tuple[dict[str, tuple[str, str]], dict[str, str]]:
    """The names and modules that `use` lines import, each with its origin."""
    names: dict[str, tuple[str, str]] = {}
    aliases: dict[str, str] = {}
    lines = [
        (f"{crate}.{file}", items, "")
        for crate, files in GROUP.findall(text)
        for file, items in MEMBER.findall(files)
    ]
    for module, items, alias in lines + USE.findall(GROUP.sub("", text)):
        if items:
            for item in items.split(","):
                parts = item.split()
                if parts:
                    names[parts[-1]] = (module, parts[0])
        else:
            aliases[alias or module.split(".")[-1]] = module
    return names, aliases


def module_of(path: Path, crates: Path) -> str:
    """The name of a file of specs/, as `use` lines write it."""
    crate, rest = path.relative_to(crates).parts[0], path.relative_to(crates).parts[1:]
    return ".".join(["Rattle", crate, *rest]).removesuffix(".antt")


def definitions_of(text: str, module: str) -> dict[str, Definition]:
    """The definitions of a file, each from its comment to the next one. A constructor leads to its
    type.
    """
    found: dict[str, Definition] = {}
    current: Definition | None = None
    kind, comment_from = None, None
    for number, line in enumerate(text.splitlines(), 1):
        inner = line[2:] if line.startswith("  ") and current is None else line
        if inner.startswith("--"):
            comment_from = comment_from or number
            continue
        if not line.strip():
            comment_from, current = None, None
            continue
        if re.fullmatch(r"(\w+ )?mutual", line.strip()):
            current = None
            continue  # Its content is definitions like any others.
        match = SIGNATURE.match(inner)
        is_row = current is not None and (
            current.name.startswith("◌") or (match and found.get(match[2]) is current)
        )
        if (
            match
            and not is_row
            and not re.match(r"(use|module|open|ruleset|infix[lr]?|pub use|pub mod|mod)\b", inner)
        ):
            kind = match[1]
            current = Definition(module, match[2], comment_from or number, 0, "")
            found[match[2]] = current
            comment_from = None
        if current:
            current.lines = number - current.first + 1
            current.text += COMMENT.sub("", line) + "\n"
            constructor = re.match(rf"^\s+({NAME}) :", line)
            if kind == "data" and constructor:
                found.setdefault(constructor[1], current)
    return found


def read_module(path: Path, name: str) -> Module:
    """Reads a file of specs/, which `use` lines call by this name."""
    text = path.read_text(encoding="utf-8")
    return Module(path, text.count("\n"), *imports(text), definitions_of(text, name))


def read_specs(crates: Path) -> dict[str, Module]:
    """Reads all files of specs/. Returns the modules by name."""
    paths = [path for path in crates.glob("*/specs/**/*.antt") if path.name != "Lib.antt"]
    return {
        name: read_module(path, name)
        for path in sorted(paths)
        for name in [module_of(path, crates)]
    }


class WithKit(dict[str, Module]):
    """The modules of the crates, and those of the kit, each read when it is asked for.

    A name of std's Prelude has no definition there: docs/proof.md lists these as its notation.
    """

    def __init__(self, modules: dict[str, Module], kit: Path) -> None:
        super().__init__(modules)
        self.kit = kit

    def __contains__(self, name: object) -> bool:
        return super().__contains__(name) or self.read(str(name))

    def read(self, name: str) -> bool:
        """Reads a file of the kit. Returns whether it has one of this name."""
        first, *parts = name.split(".")
        path = self.kit.joinpath(*parts).parent / f"{parts[-1]}.antt" if parts else self.kit
        if first != "Rattle" or "specs" not in parts or not path.is_file():
            return False
        self[name] = read_module(path, name)
        return True


def kit_folder() -> Path | None:
    """The folder of the kit's crates, or None without the kit."""
    command = shutil.which("rt")
    return Path(command).resolve().parents[1] / "rattle" if command else None


def found_in(module: str, name: str, modules: dict[str, Module]) -> Iterable[Definition]:
    """The definition with this name in a file, or in a file from which it imports the name."""
    if module in modules:
        if name in modules[module].definitions:
            yield modules[module].definitions[name]
        elif name in modules[module].names:
            yield from found_in(*modules[module].names[name], modules)


def reached_names(text: str, scope: Module, modules: dict[str, Module]) -> Iterable[Definition]:
    """The definitions of specs/ that a text names, in a file with these `use` lines."""
    bare = COMMENT.sub("", text)
    for first, rest in WORD.findall(bare):
        if first in scope.definitions:
            yield scope.definitions[first]
        elif first in scope.names:
            yield from found_in(*scope.names[first], modules)
        elif first in scope.aliases and rest:
            yield from found_in(scope.aliases[first], rest[1:].split(".")[0], modules)
    for name in (n for n in [*scope.definitions, *scope.names] if n.startswith("◌")):
        sign = name.strip("◌")
        if re.search(rf" {re.escape(sign)} ", bare) or (
            sign == ">>=" and re.search(r"= do$", bare, re.M)
        ):
            yield from [scope.definitions[name]] if name in scope.definitions else found_in(
                *scope.names[name], modules
            )


def follow(roots: Iterable[Definition], modules: dict[str, Module]) -> dict[int, Definition]:
    """All definitions that these reach, with these themselves."""
    reached: dict[int, Definition] = {}
    waiting = list(roots)
    while waiting:
        one = waiting.pop()
        if id(one) not in reached:
            reached[id(one)] = one
            waiting.extend(reached_names(one.text, modules[one.module], modules))
    return reached


# ---- public clauses


def exported(crate: Path) -> set[str]:
    """The names that a crate's root exports, and its public modules."""
    root = next((p for p in (crate / "src/lib.rt", crate / "src/main.rt") if p.exists()), None)
    if root is None:
        return set()
    text = root.read_text(encoding="utf-8")
    names = set(re.findall(r"^pub (?:mod|fn|struct|enum|trait|type|const) (\w+)", text, re.M))
    for items in re.findall(r"^pub use ([^;]*);", text, re.M):
        names.update(re.findall(r"\w+", items))
    return names


def public_modules(crate: Path) -> set[str]:
    """The modules that a library exports whole."""
    root = crate / "src/lib.rt"
    return (
        set(re.findall(r"^pub mod (\w+)", root.read_text(encoding="utf-8"), re.M))
        if root.exists()
        else set()
    )


def braces(text: str, at: int) -> str:
    """The text between the brace at this index and its closing brace."""
    depth = 0
    for place in range(at, len(text)):
        depth += {"{": 1, "}": -1}.get(text[place], 0)
        if depth == 0:
            return text[at + 1 : place]
    return text[at + 1 :]


ITEM = re.compile(
    r"^(?P<indent> *)(?:(?P<vis>pub(?:\([a-z]+\))?) )?(?:const |unsafe )*"
    r"(?:(?P<kind>fn|struct|enum|trait) (?P<name>\w+)|(?P<impl>impl)\b(?P<head>[^{;]*))",
    re.M,
)
CLAUSE = re.compile(r"\b(?:(requires|ensures)\*?(?: (\w+))? (\{)|ghost (\w+)(?: = |: )(\{))")


def open_types(text: str) -> set[str]:
    """The public structs of a file whose fields are all public."""
    found = set()
    for struct in re.finditer(r"^pub struct (\w+)[^;{(]*\{", text, re.M):
        fields = re.findall(r"^    (pub )?(?!pub|ghost)\w+:", braces(text, struct.end() - 1), re.M)
        if fields and all(fields):
            found.add(struct[1])
    return found


def is_private_fact(text: str, at: int, end: int) -> bool:
    """Whether a clause is a struct's invariant about its private fields: after a colon, and without
    `pub`.
    """
    line = text[text.rfind("\n", 0, at) + 1 : end]
    owners = re.findall(r"^pub (struct|trait)\b", text[:at], re.M)
    return owners[-1:] == ["struct"] and bool(re.match(r"    ghost \w+: \{", line))


@dataclass(frozen=True)
class Item:
    """Something that others can call, see, or make: its name with its owner's, and its first
    lines, up to its clauses or its body.
    """

    name: str
    signature: str


@dataclass(frozen=True)
class Clause:
    """A clause of a public item: `requires`, `ensures`, the word of a ghost member, or INNER."""

    item: Item
    kind: str
    name: str
    text: str


INNER = "inner-invariant"  # an invariant that only calls of its crate rely on


def signature_at(text: str, start: int) -> str:
    """The first lines of an item, in one line. The `;` of an array's type is a part of them."""
    end = re.compile(r"\n +(?:requires|ensures|where)\b|\{|;(?![^\n\[]*\])").search(text, start)
    return " ".join(text[start : end.start() if end else None].split())


class Reader:
    """Reads a file of src/ item by item, and knows which items are public."""

    def __init__(self, text: str, names: set[str], is_public_module: bool) -> None:
        self.text, self.names, self.is_public_module = text, names, is_public_module
        self.makers = open_types(text)
        self.owner, self.owner_is_public = "", is_public_module
        self.in_trait_impl = self.is_open = self.item_is_public = False
        self.item = Item("", "")

    def events(self) -> Iterable[Item | Clause]:
        """The public items and their clauses, in the file's order."""
        found = [*ITEM.finditer(self.text), *CLAUSE.finditer(self.text)]
        for match in sorted(found, key=re.Match.start):
            if match.re is ITEM:
                self.begin(match)
                if self.item_is_public:
                    yield self.item
            elif clause := self.clause(match):
                yield clause

    def begin(self, match: re.Match[str]) -> None:
        """Takes the first line of an item."""
        if match["impl"]:
            self.begin_impl(match["head"])
            self.item = Item(self.owner, signature_at(self.text, match.start()))
            return
        is_exported = match["name"] in self.names or self.is_public_module
        name: str = match["name"]
        if match["kind"] == "fn" and match["indent"]:
            self.item_is_public = self.owner_is_public and (
                match["vis"] == "pub" or self.in_trait_impl
            )
            name = f"{self.owner}::{name}"
        else:
            self.item_is_public = match["vis"] == "pub" and is_exported
            if match["kind"] == "trait":
                self.owner, self.owner_is_public = name, self.item_is_public
                self.in_trait_impl = True
        self.item = Item(name, signature_at(self.text, match.start()))

    def begin_impl(self, head: str) -> None:
        """Takes the head of an `impl`."""
        target = head
        for _ in range(3):
            target = re.sub(r"<[^<>]*>", "", target)
        target = target.split(" where")[0]
        self.in_trait_impl = " for " in target
        subject = re.findall(r"\w+", target.split(" for ")[-1])
        self.owner = " ".join(target.split())
        self.owner_is_public = bool(subject) and (subject[0] in self.names or self.is_public_module)
        self.item_is_public = self.owner_is_public
        self.is_open = bool(subject) and subject[0] in self.makers

    def clause(self, match: re.Match[str]) -> Clause | None:
        """A clause of the public item that was begun last."""
        word, at = match[1] or match[4], match.start(3) if match[3] else match.start(5)
        if word in PROOFS or not self.item_is_public:
            return None
        if word == "invariant" and not self.is_open:
            word = INNER  # Only calls of its crate make a value of the type.
        if is_private_fact(self.text, match.start(), match.end()):
            return None
        return Clause(self.item, word, match[2] or "", braces(self.text, at))


def public_clauses(text: str, names: set[str], is_public_module: bool) -> Iterable[str]:
    """The clauses of what others can call, see, or make.

    These are clauses of public functions, types, and traits.
    """
    for event in Reader(text, names, is_public_module).events():
        if isinstance(event, Clause) and event.kind != INNER:
            yield event.text


def public_files(crate: Path) -> Iterable[tuple[Path, str, bool]]:
    """The files of src/ without tests, each with its text, and whether all of it is public.

    In a program, `pub` means for its other files.
    """
    is_program = (crate / "src/main.rt").exists()
    for path in sorted(crate.glob("src/**/*.rt")):
        if "tests" in path.relative_to(crate).with_suffix("").parts:
            continue
        module = path.relative_to(crate / "src").parts[0].removesuffix(".rt")
        is_public = is_program or module in public_modules(crate)
        yield path, path.read_text(encoding="utf-8"), is_public


def public_roots(crate: Path, modules: dict[str, Module]) -> Iterable[Definition]:
    """The definitions that a crate's public clauses name."""
    names = exported(crate)
    for path, text, is_public in public_files(crate):
        scope = Module(path, 0, *imports(text), {})
        for clause in public_clauses(text, names, is_public):
            yield from reached_names(clause, scope, modules)
