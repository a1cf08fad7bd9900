"""The texts that definitions stand in: files of specs/, and the types and contracts of src/. What counts is code, without comments."""
import re
from pathlib import Path

TOP = Path(__file__).resolve().parents[2]

# a string, a field behind a dot, a bracket, or what stands between these; a dot alone is that of a lambda
TOKEN = re.compile(r'"(?:[^"\\]|\\.)*"|\.[^\s(){};,."]+|[(){};,.]|[^\s(){};,."]+')
STRING_OR_COMMENT = re.compile(r'"(?:[^"\\\n]|\\.)*"|(?:--|//)[^\n]*')
# the first line of a definition, up to its name
HEAD = re.compile(r"((?:(?:abbrev|unfoldable|pub|record|data)\s+)*)([^\s:({]+)(?=\s*[:({]|\s+where\b|\s*$)")
VISIBLE = r"(?:pub(?:\(crate\))? )?"


class Unread(Exception):
    """A text has a form that these scripts do not read."""


def without_comments(path):
    text = (TOP / path).read_text()
    return STRING_OR_COMMENT.sub(lambda m: m[0] if m[0][0] == '"' else "", text)


def code_lines(text):
    return [line for line in text.split("\n") if line.strip()]


def tokens(text):
    return TOKEN.findall(text)


def indent(line):
    return len(line) - len(line.lstrip())


def chunks(lines):
    """The lines of a block in chunks: each a line and those below it that are further in."""
    found = []
    for line in lines:
        if found and indent(line) > indent(lines[0]):
            found[-1].append(line)
        else:
            found.append([line])
    return found


def behind_where(chunk):
    """How many lines of a chunk come before what stands below its `where`."""
    return next((i for i, line in enumerate(chunk, 1) if line.split()[-1] == "where"), len(chunk))


def braced(text, at):
    """What stands between the bracket at this place and the one that closes it."""
    depth = 0
    for i in range(at, len(text)):
        depth += (text[i] == "{") - (text[i] == "}")
        if depth == 0:
            return text[at + 1:i]
    raise Unread(f"no bracket closes: {text[at:at + 60]}")


class Word:
    """A word of the library, of which only the name is told."""

    # those by which a pattern takes a value apart
    MAKERS = ("[]", "true", "false", "None", "Some", "Ok", "Err", "zero", "suc", "pos", "negsuc", "inl", "inr", "refl")

    def __init__(self, name):
        self.name, self.key = name, ("", name)
        self.makers = [name] if name in self.MAKERS or "◌" in name else []


class Definition:
    """A definition: its signature and each of its clauses, or the whole of a record or data; and the heads of the module blocks around it."""

    def __init__(self, name, file, heads, form):
        self.name, self.file, self.path, self.heads, self.form = name, file, file.path, heads, form
        self.key = (str(file.path), name)
        self.parts, self.makers = [], []

    def lines(self):
        return sum(len(part) for part in self.parts)


class Specs:
    """A file of specs/: its definitions, and its `use` lines."""

    def __init__(self, path):
        self.path, self.own, self.uses = path, {}, []
        self.read(code_lines(without_comments(path)), [])

    def read(self, lines, heads):
        last = None
        for chunk in chunks(lines):
            first = chunk[0].split()
            if "use" in first[:2]:
                self.uses.append(" ".join(chunk))
            elif first[0] == "module":
                end = behind_where(chunk)
                self.read(chunk[end:], heads + [chunk[:end]])
            elif "mod" not in first[:2] and not first[0].startswith("infix"):
                last = self.begun(chunk, heads) or last
                if not last:
                    raise Unread(f"{self.path}: {chunk[0]}")
                last.parts.append(chunk)

    def begun(self, chunk, heads):
        """The definition that begins here; none where one goes on, with a clause or what it unfolds."""
        head = HEAD.match(chunk[0].strip())
        form = head and next((mark for mark in ("record", "data") if mark in head[1].split()), None)
        if not form and not (head and re.match(r"\s*:(?:\s|$)", chunk[0].strip()[head.end():])):
            return None
        begun = Definition(head[2], self, heads, form or "clauses")
        if form == "data":
            begun.makers = [maker[0].split()[0] for maker in chunks(chunk[behind_where(chunk):])]
        self.own.update({name: begun for name in [begun.name, *begun.makers]})
        return begun


class Type:
    """A type of src/: its struct or enum, and its `impl Model`, by which clauses see it."""

    def __init__(self, name, path):
        self.name, self.path, self.key = name, path, (str(path), name)
        self.file = without_comments(path)
        found = re.search(rf"^{VISIBLE}(struct|enum) {name}\b[^{{;]*(?:;|\{{.*?^\}})", self.file, re.M | re.S)
        if not found:
            raise Unread(f"{path}: no struct or enum {name}")
        self.text = found[0]
        self.makers = re.findall(r"^ {4}(\w+)", self.text, re.M) if found[1] == "enum" else []
        model = re.search(rf"^impl(?:<[^>]*>)? Model for {name}\b.*?^\}}", self.file, re.M | re.S)
        self.model = model[0] if model else ""

    def lines(self):
        return len(code_lines(self.text + "\n" + self.model))

    def uses(self):
        return ghost_uses(self.file, "") + ghost_uses(self.model, " +")

    def ghosts(self):
        """What its ghost fields and its model say."""
        text = self.text + self.model
        return [braced(text, m.end() - 1) for m in re.finditer(r"\bghost \w+(?::| =) \{", text)]

    def fields(self):
        return set(re.findall(r"\b(\w+):", self.text))

    def named(self):
        """The names of types that may stand in its fields."""
        plain = re.sub(r"\bghost \w+: \{[^}]*\},?", "", self.text.partition("{")[2] or self.text)
        plain = re.sub(r"^ {4}\w+", "", plain, flags=re.M)  # a variant or a field
        return dict.fromkeys(re.findall(r"\b[A-Z]\w*\b", plain))


def ghost_uses(text, margin):
    return [" ".join(use.split()) for use in re.findall(rf"^{margin}ghost (use .*?);", text, re.M | re.S)]


class Contract:
    """The contract of a function: its clauses, the `ghost use` lines that they see, and what is bound in them."""

    def __init__(self, crate, name):
        self.place = f"{crate}, {name}"
        for path in sorted((TOP / "crates" / crate / "src").rglob("*.rt")):
            text = without_comments(path)
            found = re.search(rf'^( *){VISIBLE}(?:extern "C" )?fn {name}\b.*?^\1\{{', text, re.M | re.S)
            if found:
                self.read(text, found)
                return
        raise Unread(f"crates/{crate}/src: no function {name}")

    def read(self, text, found):
        head, block = found[0], ""
        if found[1]:  # it stands in a block, with parameters and `ghost use` lines of its own
            block = text[text.rfind("\n}\n", 0, found.start()) + 1:text.find("\n}\n", found.end())]
        self.uses = ghost_uses(text, "") + ghost_uses(block, " +")
        self.bound = {"result", "self", *re.findall(r"\b(\w+): ", head.partition("ensures")[0])}
        self.bound |= set(re.findall(r"\b[A-Z]\b", block.partition("{")[0]))
        self.clauses = {m[1]: braced(head, m.end() - 1) for m in re.finditer(r"\bensures\s+(\w*)\s*\{", head)}
