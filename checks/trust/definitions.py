"""The definitions that contracts rest on, read from crates/*/specs and crates/*/src.

A definition is a declaration of a file in `specs/` with the comment above it. It reaches those that its text names, as
the file's imports resolve them; names that a clause binds are none. A type of the program is one too: it reaches the
types that it is made of, and what its model names; its private invariant is none of that. Libraries' own definitions
are only named.
"""

import re
from typing import Any

from checks import ROOT

CRATES = ROOT / "crates"
USE = re.compile(r"(?:pub )?(?:ghost )?use (Rattle\.[\w.]+?)(?:\.\{([^}]*)\}| as (\w+))?;?\s*$")
DECLARATION = re.compile(
    r"(?:(?:abbrev|unfoldable|pub) )*(?:(?P<kind>record|data) )?(?P<name>[^\s:({]+)(?:\s[^=]*?)?\s?:(?:\s|$)"
)
TYPE = re.compile(r"pub (?:unsafe )?(?:struct|enum|trait) (\w+)")
WORD = re.compile(r"[^\s(){}\[\];,]+")
CODE_LINE = re.compile(r"\s*(?:--.*)?$")
CODE = re.compile(r"--.*$|\"(?:[^\"\\]|\\.)*\"", re.M)


class Definition:
    """A declaration: where it is, which names it gives, and its text cut into pieces that bind names of their own."""

    def __init__(self, module, name, kind, first):
        self.module, self.name, self.kind = module, name, kind
        self.first, self.is_public = first, False
        self.constructors, self.heads, self.pieces = set(), [], []

    def __repr__(self):
        return f"{self.module.name}.{self.name}"

    @property
    def count(self):
        """How many lines it has, comments aside."""
        return sum(not CODE_LINE.match(line) for piece in self.pieces for line in piece.splitlines())


class Module:
    """A file of definitions."""

    def __init__(self, path):
        self.path = path
        crate, _, *rest = path.relative_to(CRATES).with_suffix("").parts
        self.crate, self.name = crate, ".".join(["Rattle", crate, "specs", *rest])
        self.named, self.spaces, self.imports = {}, {}, []
        self.definitions, self.local = [], {}
        self.read(path.read_text(encoding="utf-8").splitlines())

    def read(self, lines):
        now, comment = None, None
        blocks: list[Any] = []
        for number, line in enumerate(lines, 1):
            indent = len(line) - len(line.lstrip(" "))
            while line.strip() and blocks and indent <= blocks[-1][0]:
                blocks.pop()
            opens = re.match(r"(?:abbrev |unfoldable )?(?:mutual$|module .* where$)", line.strip())
            if opens and indent == 2 * len(blocks):
                blocks.append((indent, line.strip()))
                comment = None
                continue
            line = line[2 * len(blocks) :]
            use = USE.match(line)
            if use:
                self.use(*use.groups())
                comment = None
            elif not line.strip():
                comment = None
            elif line.startswith("--"):
                comment = None if line.startswith("-- ----") else comment or number
            else:
                found = self.declared(line)
                if found:
                    now = Definition(self, found["name"], found["kind"], comment or number)
                    now.is_public = "pub " in line[: found.start("name")]
                    now.heads = [head for _, head in blocks if head.startswith("module ")]
                    self.definitions.append(now)
                    self.local[now.name] = now
                comment = None
                if now and not line.startswith("pub mod"):
                    self.add(now, line)

    @staticmethod
    def declared(line):
        if line[0] == " " or line.startswith(("unfolding ", "pub mod", "}")):
            return None
        is_marked = line.startswith(("abbrev ", "unfoldable ", "pub ", "record ", "data "))
        return DECLARATION.match(line) if is_marked or re.match(r"\S+ :\s", line) else None

    def add(self, now, line):
        if line.startswith("unfolding "):
            return
        if line[0] == " " and now.pieces:
            now.pieces[-1] += "\n" + line
        else:
            now.pieces.append(line)
        maker = now.kind == "data" and re.match(r"  (\S+) :", line)
        if maker:
            now.constructors.add(maker[1])
            self.local[maker[1]] = now

    def use(self: Any, path: str, names: str | None, alias: str | None) -> None:
        self.imports.append(path)
        if names is None:
            self.spaces[alias or path.rpartition(".")[2]] = path
            return
        for it in filter(None, map(str.strip, names.split(","))):
            name, _, other = it.partition(" as ")
            self.named[other or name] = (path, name)


class RustType:
    """A type or trait of the program, with what its declaration and its model say."""

    def __init__(self, source, name, first, text):
        self.source, self.name, self.first, self.text = source, name, first, text

    def __repr__(self):
        return f"{self.source.path.relative_to(ROOT)}:{self.name}"


class Source:
    """A file of the program: its types, and what its imports name."""

    def __init__(self, path):
        self.path, self.text = path, path.read_text(encoding="utf-8")
        self.crate = path.relative_to(CRATES).parts[0]
        self.named, self.spaces, self.imports, self.types, self.rust = {}, {}, [], {}, {}
        flat = re.sub(r"\{[^{};]*\}", lambda it: re.sub(r"\s+", " ", it[0]), self.text)
        for line in flat.splitlines():
            use = USE.match(line.strip())
            if use and line.strip().startswith("ghost"):
                Module.use(self, *use.groups())
            of = re.match(r"(?:pub )?use (\w+)(?:::\w+)*::(?:\{(.*)\}|(\w+));", line)
            if of:
                for it in filter(None, map(str.strip, (of[2] or of[3]).split(","))):
                    name, _, other = it.rpartition("::")[2].partition(" as ")
                    self.rust[other or name] = (self.crate if of[1] in ("crate", "self", "super") else of[1], name)
        self.read()

    def read(self):
        lines = self.text.splitlines()
        for number, line in enumerate(lines):
            found = TYPE.match(line)
            model = re.match(r"impl\b.*\bModel for (\w+)", line)
            if begun := found or model:
                name = begun[1]
                if line.rstrip().endswith((";", "{}")):
                    end = number
                else:
                    end = next(
                        (at for at in range(number + 1, len(lines)) if lines[at].startswith(("}", ");"))), number
                    )
                text = "\n".join(lines[number : end + 1])
                if found:
                    self.types[name] = RustType(self, name, number + 1, text)
                elif name in self.types:
                    self.types[name].text += "\n" + text

    def contract(self, function):
        """The head and the clauses of a public function."""
        found = re.search(rf'^pub (?:extern "C" )?fn {function}\b.*?^\{{', self.text, re.M | re.S)
        return re.sub(r"//.*", "", found[0]) if found else None


class Sources:
    def __init__(self):
        self.modules = {it.name: it for it in map(Module, sorted(CRATES.glob("*/specs/**/*.antt")))}
        self.files = {it.path: it for it in map(Source, sorted(CRATES.glob("*/src/**/*.rt")))}
        self.types: dict[tuple[str, str], Any] = {}
        for source in self.files.values():
            for name, it in source.types.items():
                self.types.setdefault((source.crate, name), it)

    def at(self, path: str, name: str, seen: tuple[tuple[str, str], ...] = ()) -> Any:
        """What a name of a module means: a definition, a type of the program, or a library's name."""
        module = self.modules.get(path)
        if module:
            if name in module.local:
                return module.local[name]
            if name in module.named and (path, name) not in seen:
                other, own = module.named[name]
                return self.at(other, own, (*seen, (path, name)))
            inner = f"{path}.{name}"
            return self.modules.get(inner)
        parts = path.split(".")
        if "declared" in parts:
            where = [it for it in parts[parts.index("declared") + 1 :] if it != "TheVariants"]
            return self.types.get((parts[1], where[-1])) if where else None
        return None if parts[1].startswith("ar_") else f"{path}.{name}"

    def named_by(self, place, word):
        """What a word of a definition's text means, by its file's imports."""
        head, _, rest = word.partition(".")
        if head in place.spaces and rest:
            return self.at(place.spaces[head], rest.split(".")[0])
        if word in place.named:
            return self.at(*place.named[word])
        if head in place.named:
            path, name = place.named[head]
            return self.at(path, name)
        if isinstance(place, Module):
            return place.local.get(head)
        return None

    def reached_by(self, it):
        if isinstance(it, Definition):
            yield from self.reached_in_specs(it)
        elif isinstance(it, RustType):
            yield from self.reached_in_rust(it.source, it.text)

    def reached_in_specs(self, it):
        operators = {name.strip("◌"): name for name in [*it.module.named, *it.module.local] if "◌" in name}
        for number, piece in enumerate([*it.heads, *it.pieces], -len(it.heads)):
            text = CODE.sub(" ", piece)
            bound = bound_in(text, it.kind == "record")
            if number > 0:
                bound |= {
                    word
                    for word in WORD.findall(re.split(r"\s=\s", text, maxsplit=1)[0])
                    if self.is_variable(it.module, word)
                }
                bound -= {it.name}
            for word in WORD.findall(text):
                word = word.rstrip(".")
                if word.partition(".")[0] in bound:
                    continue
                for name in (word, operators.get(word)):
                    found = name and self.named_by(it.module, name)
                    if found:
                        yield found

    def is_variable(self, module, word):
        """Whether a word on the left of an equation is a variable, though a definition has its name."""
        found = self.named_by(module, word)
        is_maker = isinstance(found, Definition) and word.rpartition(".")[2] in found.constructors
        return isinstance(found, Definition) and not is_maker

    def reached_in_rust(self, source, text):
        for word in re.findall(r"[A-Z]\w*", re.sub(r"//.*", "", text)):
            found = source.types.get(word) or self.types.get(source.rust.get(word))
            if found:
                yield found
        text = re.sub(r"ghost invariant = .*?;", "", text, flags=re.S)
        for ghost in re.findall(r"\{ .*? \}|\{\s.*?\}|= .*?;", text, re.S):
            for word in WORD.findall(CODE.sub(" ", ghost)):
                found = self.named_by(source, word.rstrip("."))
                if found:
                    yield found

    def closure(self, first):
        """All that these reach, each once."""
        found, left = [], list(first)
        seen = set()
        while left:
            it = left.pop()
            if id(it) in seen or isinstance(it, str) and it in found or isinstance(it, Module):
                continue
            seen.add(id(it))
            found.append(it)
            left += self.reached_by(it)
        return found

    def of_contract(self, file, function):
        """What the contract of a function names itself."""
        source = self.files[CRATES / file]
        text = source.contract(function)
        words = [self.named_by(source, it.rstrip(".")) for it in WORD.findall(text)]
        return [*filter(None, words), *self.reached_in_rust(source, text)]

    def modules_from(self, imports):
        """The files of definitions that imports lead to."""
        found, left = {}, list(imports)
        while left:
            path = left.pop()
            module = self.modules.get(path)
            if module and path not in found:
                found[path] = module
                left += module.imports
        return found


def bound_in(text, is_record):
    """The names that binders of a text bind."""
    found = set()
    for names in re.findall(r"λ ([^.]+)\.", text) + re.findall(r"[({]([^(){}:]+) :", text):
        found |= set(names.split())
    found |= set(re.findall(r"(\S+) ←", text))
    if is_record:
        found |= set(re.findall(r"^  (?:pub )?(\S+) :", text, re.M))
    return found
