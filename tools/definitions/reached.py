"""What a clause reaches: definitions, types, and words of the library."""
import re
from pathlib import Path

from citing import Citing
from texts import TOP, VISIBLE, Contract, Definition, Specs, Type, Unread, Word, tokens

LEMMAS = re.compile(r"\buse Rattle\.(?!std\.)\w+\.proofs\.")


class Library:
    """The files of specs/ and the types of src/, read as they are asked for."""

    def __init__(self):
        self.files, self.types, self.scopes = {}, {}, {}

    def file(self, path):
        """Of CRATE.specs.FILE; a file may stand in a folder."""
        at = Path("crates", path[0], *path[1:]).with_suffix(".antt")
        if at not in self.files:
            if path[1] != "specs" or not (TOP / at).is_file():
                raise Unread(f"no {at}")
            self.files[at] = Specs(at)
        return self.files[at]

    def type_at(self, crate, module, name):
        path = Path("crates", crate, "src", *module).with_suffix(".rt")
        if (path, name) not in self.types:
            self.types[(path, name)] = Type(name, path)
        return self.types[(path, name)]

    # ---- what a name means: a definition, a type or a word of a library of the kit, and whether it makes a value of it

    def meaning(self, path, name):
        if not (TOP / "crates" / path[0]).is_dir():
            word = Word(name)
            return word, bool(word.makers)
        if "declared" in path:
            return self.declared(path), path[-1] == "TheVariants"
        found = self.scope(self.file(path)).get(name)
        if not found:
            raise Unread(f"{'.'.join(path)} has no {name}")
        return found

    def declared(self, path):
        """CRATE.specs.declared.MODULE.TYPE is a type, and TheVariants behind it are what it is made by."""
        names = [part for part in path if part != "TheVariants"]
        return self.type_at(path[0], names[3:-1], names[-1])

    def brought(self, use):
        """The names that a `use` line brings in, each with its meaning; those of a module with an alias as ALIAS.NAME."""
        path, _, names = re.sub(r"^.*?\buse\s+Rattle\.", "", use).partition("{")
        if names:
            for item in names.strip().rstrip("}").split(","):
                name, _, alias = item.strip().partition(" as ")
                yield alias or name, self.meaning(path.rstrip(".").split("."), name)
        else:
            path, _, alias = path.partition(" as ")
            path = path.strip().split(".")
            for name in self.members(path):
                yield f"{alias.strip()}.{name}", self.meaning(path, name)

    def members(self, path):
        return self.declared(path).makers if "declared" in path else list(self.file(path).own)

    def scope_of(self, uses):
        """By these lines; lemmas are left out, since no definition's meaning needs one."""
        return {name: meaning for use in uses if not LEMMAS.search(use) for name, meaning in self.brought(use)}

    def scope(self, file):
        if file.path not in self.scopes:
            self.scopes[file.path] = self.scope_of(file.uses)
            self.scopes[file.path].update({name: (means, name in means.makers) for name, means in file.own.items()})
        return self.scopes[file.path]

    # ---- the types in a type's fields

    def inner_types(self, kind):
        for name in kind.named():
            if re.search(rf"^{VISIBLE}(?:struct|enum) {name}\b", kind.file, re.M):
                yield self.type_at(kind.path.parts[1], kind.path.with_suffix("").parts[3:], name)
            else:
                yield from self.used_type(kind, name)

    def used_type(self, kind, name):
        use = re.search(rf"^use ([\w:]+)::(?:\{{[^}}]*\b{name}\b[^}}]*\}}|{name});", kind.file, re.M)
        if use:
            crate, *module = use[1].split("::")
            crate = kind.path.parts[1] if crate == "crate" else crate
            if (TOP / "crates" / crate).is_dir():
                yield self.type_at(crate, module or self.home(crate, name), name)

    def home(self, crate, name):
        root = (TOP / "crates" / crate / "src" / "lib.rt").read_text()
        found = re.search(rf"^pub use ([\w:]+)::(?:\{{[^}}]*\b{name}\b[^}}]*\}}|{name});", root, re.M)
        if not found:
            raise Unread(f"crates/{crate}/src/lib.rt names no {name}")
        return [part for part in found[1].split("::") if part != "crate"]


class Reached:
    """What is cited, and from that on all that has to be read for it, in the order in which it is met."""

    def __init__(self, library):
        self.library, self.definitions, self.types, self.words, self.heads = library, {}, {}, {}, {}

    def add(self, cited):
        for means in cited:
            if isinstance(means, Word):
                self.words[means.name] = means
            elif isinstance(means, Type):
                self.add_type(means)
            else:
                self.add_definition(means)

    def add_definition(self, definition):
        if definition.key in self.definitions:
            return
        self.definitions[definition.key] = definition
        for head in definition.heads:
            self.heads[(definition.path, "\n".join(head))] = len(head)
        citing = Citing(self.library.scope(definition.file), [definition.name])
        citing.definition(definition)
        self.add(citing.told(f"{definition.path}, {definition.name}"))

    def add_type(self, kind):
        if kind.key in self.types:
            return
        self.types[kind.key] = kind
        for text in kind.ghosts():
            citing = Citing(self.library.scope_of(kind.uses()))
            citing.walk(tokens(text), 0, kind.fields())
            self.add(citing.told(f"{kind.path}, {kind.name}"))
        self.add(self.library.inner_types(kind))

    def add_clause(self, contract, name):
        if name not in contract.clauses:
            raise Unread(f"{contract.place}: no clause {name}; there are {' '.join(contract.clauses)}")
        citing = Citing(self.library.scope_of(contract.uses))
        citing.walk(tokens(contract.clauses[name]), 0, contract.bound)
        self.add(citing.told(f"{contract.place}, {name}"))

    # ---- how much that is

    def lengths(self):
        """Of each definition, each type and the module heads of each file: how many lines it has, by its file and its name."""
        lengths = {thing.key: thing.lines() for thing in [*self.definitions.values(), *self.types.values()]}
        for (path, _), lines in self.heads.items():
            lengths[(str(path), "module")] = lengths.get((str(path), "module"), 0) + lines
        return lengths

    def totals(self):
        files = {definition.path for definition in self.definitions.values()}
        lines = sum(definition.lines() for definition in self.definitions.values()) + sum(self.heads.values())
        type_lines = sum(kind.lines() for kind in self.types.values())
        return (
            f"{len(self.definitions)} definitions with {lines} lines, in {len(files)} files of {len({path.parts[1] for path in files})} crates;"
            f" {len(self.types)} types with {type_lines} lines; {len(self.words)} words of the library"
        )


def reached_by(words):
    """By the words of the command: CRATE FUNCTION CLAUSE.. or CRATE/FILE WORD.."""
    reached = Reached(Library())
    if "/" in words[0]:
        crate, *file = words[0].split("/")
        reached.add([reached.library.meaning([crate, "specs", *file], word)[0] for word in words[1:]])
    else:
        contract = Contract(*words[:2])
        for clause in words[2:] or contract.clauses:
            reached.add_clause(contract, clause)
    return reached
