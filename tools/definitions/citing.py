"""Which words a text cites, where what is bound on the spot is no word: a parameter, a field, what a `let`, a lambda or a pattern names."""
from texts import Unread, behind_where, chunks, tokens

# what is built in, or is no word
PLAIN = set("( ) { } , ; . : = → × ¬ λ ∥ ∥₁ @ _ __ let in where record unfolding Type Unit ⊥ absurd tt cc".split())


def parts_of(name):
    """A name as it is written between its arguments: ◌≡◌ is ≡, and if◌then◌else◌ is if, then, else."""
    return [part for part in name.split("◌") if part]


def is_field(token):
    return token[0] == "." and len(token) > 1


class Citing:
    """Walks over a text with what is bound at each place. `own` are the names of the definition itself."""

    def __init__(self, scope, own=()):
        self.words, self.makers = {}, set()
        for name, (means, makes) in scope.items():
            for part in [name, *parts_of(name)]:
                self.words[part] = means
                if makes:
                    self.makers.add(part)
        self.own = {part for name in own for part in [name, *parts_of(name)]}
        self.cited, self.strange = {}, {}

    def told(self, where):
        """What is cited. A name that is neither brought in nor bound is a form that this script does not read."""
        if self.strange:
            raise Unread(f"{where}: what is {' '.join(self.strange)}?")
        return list(self.cited.values())

    def cite(self, name, bound):
        if name in bound or name in PLAIN or name in self.own or name[0] == '"' or name.isdigit():
            return
        if name in self.words:
            self.cited[self.words[name].key] = self.words[name]
        else:
            self.strange[name] = None

    # ---- a text

    def walk(self, ts, i, bound, ends=()):
        """Cites what stands from i on, up to a bracket that closes or one of these ends; answers where it stops."""
        first, bound = bound, set(bound)
        while i < len(ts) and ts[i] not in ends and ts[i] not in (")", "}"):
            if ts[i] in (";", ","):  # what was bound behind the last one ends here
                bound, i = set(first), i + 1
            elif ts[i] == "λ":
                i = self.binders(ts, i + 1, bound)
            elif ts[i] == "let":
                i = self.let(ts, i + 1, bound)
            elif ts[i] == "record":
                i = self.record(ts, i + 1, bound)
            elif ts[i] in ("(", "{"):
                i = self.group(ts, i, bound)
            else:
                i = self.word(ts, i, bound)
        return i

    def word(self, ts, i, bound):
        name, i = ts[i], i + 1
        if is_field(name):
            return i
        if i < len(ts) and is_field(ts[i]) and name not in bound and name + ts[i] in self.words:
            name, i = name + ts[i], i + 1  # a word by an alias of its module
        self.cite(name, bound)
        return i

    def group(self, ts, i, bound):
        """A bracket. (x y : T) binds its names from there on."""
        names, at = self.named(ts, i)
        end = self.walk(ts, at, bound) + 1
        bound |= names
        return end

    def named(self, ts, i):
        """Of (x y : T) the names, and where T begins; of another bracket no names, and what is behind it."""
        at = i + 1
        while at < len(ts) and ts[at] not in PLAIN and not is_field(ts[at]):
            at += 1
        return (set(ts[i + 1:at]), at + 1) if ts[at:at + 1] == [":"] else (set(), i + 1)

    def binders(self, ts, i, bound):
        """What a lambda binds, up to its dot: names, (x y : T), and patterns."""
        while ts[i] != ".":
            if ts[i] in ("(", "{") and self.named(ts, i)[0]:
                i = self.group(ts, i, bound)
            else:
                bound |= self.pattern(ts[i:i + 1], bound)
                i += 1
        return i + 1

    def let(self, ts, i, bound):
        end = next(j for j in range(i, len(ts)) if ts[j] in (":", "="))
        names = self.pattern(ts[i:end], bound)
        if ts[end] == ":":
            end = self.walk(ts, end + 1, bound, ("=",))
        i = self.walk(ts, end + 1, bound, ("in",)) + 1
        bound |= names
        return i

    def record(self, ts, i, bound):
        """A record, or another one with some fields changed: the labels are no words."""
        i = self.walk_to_brace(ts, i, bound) + 1
        while ts[i] != "}":
            i = i + 1 if ts[i] == ";" else self.walk(ts, i + 2, bound, (";",))
        return i + 1

    def walk_to_brace(self, ts, i, bound):
        while ts[i] != "{":
            i = self.group(ts, i, bound) if ts[i] == "(" else self.word(ts, i, bound)
        return i

    def pattern(self, ts, bound):
        """What a pattern binds; what it takes a value apart by is cited."""
        names, i = set(), 0
        while i < len(ts):
            name, i = ts[i], i + 1
            if i < len(ts) and is_field(ts[i]):
                name, i = name + ts[i], i + 1
            if name.isdigit() or name in self.makers:
                self.cite(name, bound)
            elif name not in self.own and name not in PLAIN:
                names.add(name)
        return names

    # ---- a definition

    def definition(self, definition):
        bound = set()
        for head in definition.heads:  # module _ .. where
            self.telescope(tokens(" ".join(head))[2:-1], bound)
        if definition.form == "clauses":
            for part in definition.parts:
                self.clause(part, bound)
        else:
            self.declaration(definition, bound)

    def telescope(self, ts, bound):
        """Parameters one after another, each bound for what follows."""
        i = 0
        while i < len(ts):
            i = self.group(ts, i, bound) if ts[i] in ("(", "{") else self.word(ts, i, bound)

    def declaration(self, definition, bound):
        """A record, whose fields are bound below them, or a data."""
        chunk = definition.parts[0]
        end = behind_where(chunk)
        head = tokens(" ".join(chunk[:end]))
        self.own |= set(definition.makers)
        self.telescope(head[head.index(definition.name) + 1:-1], bound)
        for part in chunks(chunk[end:]):
            ts = [t for t in tokens(" ".join(part)) if t != "pub"]
            self.walk(ts, 2, bound)  # behind NAME :
            if definition.form == "record":
                bound.add(ts[0])

    def clause(self, part, bound):
        """A signature, or a clause with what stands below its `where`."""
        end = behind_where(part)
        ts = [t for t in tokens(" ".join(part[:end])) if t not in ("abbrev", "unfoldable", "pub")]
        if ts[0] == "unfolding":
            return
        if ts[1:2] == [":"]:
            self.walk(ts, 2, bound)
            return
        below = chunks(part[end:])
        equals = self.equals(ts)
        inside = bound | self.pattern(ts[:equals], bound) | {chunk[0].split()[0] for chunk in below}
        self.walk(ts, equals + 1, inside)
        for chunk in below:
            self.clause(chunk, inside)

    def equals(self, ts):
        depth = 0
        for i, t in enumerate(ts):
            depth += (t in "({") - (t in ")}")
            if t == "=" and depth == 0:
                return i
        raise Unread("no = in: " + " ".join(ts))
