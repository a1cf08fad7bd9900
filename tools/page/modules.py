"""The modules of web/ as one classic script: imports dropped, exports opened, the texts one after another."""

import re
from pathlib import Path

IMPORT = re.compile(r"^import \{ [\w$, ]+ \} from '(\.{1,2}/[\w-]+\.js)';$", re.M)
EXPORT = re.compile(r"^export (?=(?:const|function|async function|class) )", re.M)
TOP_NAME = re.compile(r"^(?:const|let|function|async function|class) (?:\{([^}]*)\}|\[([^\]]*)\]|(\w+))", re.M)


class Wrong(Exception):
    """A file of web/ does not have its form; the text says how."""


def named(page, part):
    """The modules that a comment of page.html names for this part, in their order."""
    found = re.findall(rf"<!-- {part}: ([\w., -]+?) -->", page)
    if len(found) != 1:
        raise Wrong(f"page.html has {len(found)} comments that name the modules of the {part}, and not one")
    return re.split(r"[ ,]+", found[0])


def opened(path):
    """A module's text without its imports and exports."""
    text = EXPORT.sub("", IMPORT.sub("", path.read_text()))
    left = re.search(r"^\s*(?:import|export)\b.*", text, re.M)
    if left:
        raise Wrong(f"{path.name}: not of the form that can be joined: {left[0].strip()}")
    return text.strip() + "\n"


def imported(path):
    """The files that a module imports from."""
    return [(path.parent / other).resolve() for other in IMPORT.findall(path.read_text())]


def join(web, names):
    """The modules' texts, one after another; each comes after those that it imports from, and no two have one name at the top."""
    texts, owners, above = [], {}, []
    for name in names:
        path = (Path(web) / name).resolve()
        for other in imported(path):
            if other not in above:
                raise Wrong(f"{name} imports from {other.name}, which does not stand before it")
        text = opened(path)
        for groups in TOP_NAME.findall(text):
            for word in re.findall(r"[\w$]+", "".join(groups)):
                if owners.setdefault(word, name) != name:
                    raise Wrong(f"{word} is a name at the top of {owners[word]} and of {name}")
        above.append(path)
        texts.append(f"// {name}\n{text}")
    return "\n".join(texts)
