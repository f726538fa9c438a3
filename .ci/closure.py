"""What a statement is said by: the definitions that its names lead to, theirs, and so on, of this repository and of the kit, with
their files and lines. It goes by definition and not by file: a name in the text of a definition leads to what its file defines or
brings in under that name, also where a variable has the same name, so what it finds is never too little and may be too much. A type
of the sources leads to what its fields are and to what contracts see of it: the value and the view of its impl Model, and what it gives
for the traits of this repository. A trait leads to all that it promises. What a type keeps to (its invariant) and how a thing is proved
are no part of what is said, and are left out. So are numbers, bytes and texts, which are the prover's own (Prim)."""

import functools
import json
import os
import re
import subprocess

TOP = os.path.dirname(os.path.dirname(os.path.abspath(__file__)))
WORDS = r"(?:abbrev|pub|opaque|unfoldable|record|data)"
HEAD = re.compile(rf"(?:{WORDS}[ \t]+)+(?!mod\b|use\b|mutual\b)([^\s:({{]+)")
SIGNATURE = re.compile(r"([^\s:(){},]+)(?:\s*\{[^}]*\})*\s+:\s")
USE = re.compile(r"^[ \t]*(?:(?:pub|unfoldable|ghost)[ \t]+)*use[ \t]+([^\s{};]+?)(?:\.?\{([^}]*)\})?(?:[ \t]+as[ \t]+([^\s;]+))?[ \t]*;?[ \t]*$", re.M)
TOKEN = re.compile(r"\[\]|[^\s(){}\[\],;]+")
ITEM = re.compile(r"^(?:pub(?:\([a-z]+\))?[ \t]+)?(struct|enum|trait|type|const|impl)\b(?:<[^{;=]*?>)?[ \t]*(.*)$", re.M)
SEEN = {True: re.compile(r"\bghost (?:Value|view)\b *="), False: re.compile(r"\bghost (?!use\b)\w+ *=")}
STD = ["core", "std", "std_alloc", "std_collections", "std_heap", "std_io"]
PRELUDE = ["Vec", "String", "Option", "Result", "Box"]


@functools.lru_cache(maxsize=None)
def kit():
    """The folder of the kit's libraries."""
    page = subprocess.run(["rt", "doc"], capture_output=True, text=True, check=True).stdout.strip()
    return f"{os.path.dirname(page)}/rattle"


@functools.lru_cache(maxsize=None)
def text_of(file):
    """The text of a file, or None."""
    if not os.path.isfile(file):
        return None
    with open(file, encoding="utf-8") as it:
        return it.read()


@functools.lru_cache(maxsize=None)
def crates():
    """The crates that crates.txt names, in its order."""
    lines = [line.split("#")[0].split(":")[0].strip() for line in text_of(f"{TOP}/crates.txt").split("\n")]
    return [line for line in lines if line]


@functools.lru_cache(maxsize=None)
def mounts():
    """The folders of the modules of the kit's logic, by the first word of their paths."""
    logic = f"{kit()}/logic"
    found = {}
    for name, place in json.loads(text_of(f"{logic}/antt-project.json"))["mounts"].items():
        folder = os.path.normpath(f"{logic}/{place}")
        found[name] = f"{folder}/src" if os.path.isdir(f"{folder}/src") else folder
    return found


def folder_of(crate):
    """The folder of a crate, of this repository or of the kit."""
    return f"{TOP}/crates/{crate}" if crate in crates() else f"{kit()}/{crate}"


class Definition:
    """A definition, or an item of the sources: its file, its lines, its text without comments, and the comment above it."""

    def __init__(self, file, name, start):
        self.file, self.name, self.start, self.lines, self.comment = file, name, start, [], ""

    @functools.cached_property
    def text(self):
        return "\n".join(self.lines)

    @functools.cached_property
    def tokens(self):
        """The names of its text, a dotted one as the list of its parts."""
        bare = re.sub(r'"(?:[^"\\]|\\.)*"', " ", USE.sub("", self.text))
        return [token.split(".") if token.strip(".") else [token] for token in TOKEN.findall(bare)]

    @property
    def count(self):
        """How many lines it has, but for comments and empty ones."""
        return sum(1 for line in self.lines if line.strip() and not USE.match(line))

    @property
    def is_ours(self):
        return self.file.startswith(f"{TOP}/")


def without_comment(line):
    """A line of a definition without the comment behind it."""
    at = re.search(r"(?:^|\s)--(?:\s|$)", line)
    return line[: at.start()] if at else line


class Page:
    """A file of definitions: what it defines, and what it brings in."""

    def __init__(self, file):
        self.file, self.items, self.order = file, {}, []
        self.read(text_of(file).split("\n"))
        self.brought = list(brought_in(text_of(file)))

    def read(self, lines):
        """Takes the file apart. A definition begins with its keywords or its signature, at the margin or at that of its block."""
        margins, item, comment, skips = [0], None, [], False
        for number, line in enumerate(lines, 1):
            bare = line.strip()
            if bare.startswith("--") and (len(bare) == 2 or bare[2] in " #"):
                comment = [] if bare.startswith("-- ##") else [*comment, bare[2:].strip()]
                continue
            if not bare:
                comment = []
                continue
            margin = len(line) - len(line.lstrip())
            while margin < margins[-1]:
                margins.pop()
            if margin == margins[-1]:
                if re.match(r"(?:pub\s+)?(?:abbrev\s+|unfoldable\s+)*(?:mutual\b|module\b)", bare):
                    margins.append(margin + 2)
                    item, comment, skips = None, [], False
                    continue
                if re.match(r"(?:pub |unfoldable )*(?:use|mod|ruleset|syntax|open)\b", bare):
                    item, comment, skips = None, [], True
                    continue
                head = HEAD.match(bare) or SIGNATURE.match(bare)
                if head and not (item and head[1] == item.name):
                    item = Definition(self.file, head[1], number)
                    item.comment, comment, skips = " ".join(comment), [], False
                    self.put(item.name, item)
                    self.order.append(item)
            if item and not skips:
                item.lines.append(without_comment(line))
                inner = re.match(r"\s+(?:pub\s+)?([^:(){}]+?)\s+:\s", line)
                if inner and re.match(rf"(?:{WORDS}\s+)*data\b", item.lines[0].strip()):
                    for name in inner[1].split():
                        self.put(name, item)
            comment = []

    def put(self, name, item):
        self.items.setdefault(name, []).append(item)

    def operators(self):
        """The names with holes that the file defines or brings in."""
        return {name for name in [*self.items, *(alias for _, _, alias in self.brought)] if "◌" in name}


def brought_in(text):
    """What the uses of a text bring in: the path, the name there, and the name here. A module has no name there."""
    for path, names, alias in USE.findall(re.sub(r"\{[^}]*\}", lambda it: " ".join(it[0].split()), text)):
        if "::" in path:
            continue
        if not names:
            yield path, None, alias or path.rpartition(".")[2]
        for name in filter(None, map(str.strip, names.split(","))):
            one, _, other = name.partition(" as ")
            yield path.rstrip("."), one.strip(), (other or one).strip()


@functools.lru_cache(maxsize=None)
def page(file):
    return Page(file)


@functools.lru_cache(maxsize=None)
def place_of(path):
    """The file of a path of modules, or None: of the longest front of it that is one."""
    parts = path.split(".")
    if parts[0] == "Rattle":
        if parts[2:4] == ["specs", "declared"]:
            return None
        folder, rest = f"{folder_of(parts[1])}/{parts[2]}", parts[3:]
    elif parts[0] in mounts():
        folder, rest = mounts()[parts[0]], parts[1:]
    else:
        return None
    for length in range(len(rest), 0, -1):
        file = f"{folder}/{'/'.join(rest[:length])}.antt"
        if os.path.isfile(file):
            return file
    if rest and os.path.isfile(f"{folder}/Lib.antt"):
        for other, name, alias in brought_in(text_of(f"{folder}/Lib.antt")):
            if name is None and alias == rest[0] and other != path:
                return place_of(".".join([other, *rest[1:]]))
    return None


@functools.lru_cache(maxsize=None)
def own_traits():
    """The traits of this repository."""
    found = set()
    for crate in crates():
        for at, _, names in os.walk(f"{TOP}/crates/{crate}/src"):
            for name in names:
                found.update(re.findall(r"(?m)^pub(?:\([a-z]+\))? trait (\w+)", text_of(f"{at}/{name}")))
    return found


class Source:
    """A file of the sources: its structs, enums, traits, names for types, and what contracts see of them."""

    def __init__(self, file):
        self.file, self.items, self.models = file, {}, {}
        text = re.sub(r"(?m)^[ \t]*//.*$", "", text_of(file))
        for head in ITEM.finditer(text):
            kind, rest = head[1], head[2]
            modelled = re.match(r"([\w:]+)(?:<[^;{]*>)? for &?(?:[\w:]*::)?(\w+)", rest) if kind == "impl" else None
            name = modelled[2] if modelled else None if kind == "impl" else re.match(r"(\w+)?", rest)[1]
            if not name:
                continue
            start = text.count("\n", 0, head.start()) + 1
            said = text[head.start() : end_of(text, head.start())]
            if modelled and not (modelled[1] == "Model" or modelled[1] in own_traits() and SEEN[False].search(said)):
                continue
            item = Definition(file, f"impl {modelled[1]} for {name}" if modelled else name, start)
            item.lines = (seen_of(said) if modelled else said).split("\n")
            (self.models if modelled else self.items).setdefault(name, []).append(item)
        self.brought = list(brought_in(text))
        self.used = dict(names_used(text))


def seen_of(text):
    """What contracts see by an impl: the value and the view of a Model, and all that a trait of this repository has them see. The invariant
    of a Model, and what it owns, are facts that the type keeps, and no part of what is seen."""
    first = text.partition("\n")[0]
    uses = "\n".join(found[0] for found in USE.finditer(text))
    members = [text[at.start() : end_of(text, at.start())] for at in SEEN["Model for" in first].finditer(text)]
    return "\n".join([uses, first, *members])


def end_of(text, at):
    """Where an item ends that begins there: at its brace's partner, or at a semicolon outside of braces."""
    depth = 0
    for end in re.finditer(r"[{};]", text[at:]):
        depth += {"{": 1, "}": -1, ";": 0}[end[0]]
        if depth == 0:
            return at + end.end()
    return len(text)


def names_used(text):
    """The names that Rust's uses of a text bring in, each with the crate that it is of."""
    for path, names in re.findall(r"(?m)^(?:pub )?use ([\w:]+?)(?:::\{([^;]*)\})?;", text):
        for name in re.findall(r"\w+", names) or [path.rpartition("::")[2]]:
            yield name, path.partition("::")[0]


@functools.lru_cache(maxsize=None)
def source(file):
    return Source(file)


@functools.lru_cache(maxsize=None)
def sources(crate):
    """The files of a crate's sources, but for its tests."""
    found = []
    for at, _, names in os.walk(f"{folder_of(crate)}/src"):
        found += [f"{at}/{name}" for name in names if name.endswith(".rt") and name != "tests.rt"]
    return [source(file) for file in sorted(found)]


@functools.lru_cache(maxsize=None)
def items_of(crate, name):
    """The items of that name in a crate's sources, with what contracts see of them."""
    kinds = [it for file in sources(crate) for it in (file.items.get(name, []), file.models.get(name, []))]
    return [item for kind in kinds for item in kind]


def declared(path):
    """The items of the sources that a path below `declared` names."""
    parts = [part for part in path.split(".") if not part.startswith("The")]
    return items_of(parts[1], parts[-1])


@functools.lru_cache(maxsize=None)
def at_path(path, name):
    """The definitions that a name of a module is; with no name, those of the whole module are left to the names behind its alias."""
    if ".declared." in f"{path}.":
        inner = f"{path}.{name}" if name and not path.rpartition(".")[2].startswith("The") else path
        return declared(inner) or declared(path)
    file = place_of(path)
    return named(file, name) if file and name else []


@functools.lru_cache(maxsize=None)
def named(file, name, seen=()):
    """The definitions that a name means in a file of definitions."""
    here = page(file)
    if name in here.items:
        return here.items[name]
    if (file, name) in seen:
        return []
    return [it for path, one, alias in here.brought if one and alias == name for it in at_path(path, one)]


def from_names(tokens, items, brought, operators):
    """The definitions that the names of a text lead to, by what its file defines and brings in."""
    plain = {part for token in tokens for part in token}
    for name in operators:
        if all(piece in plain for piece in name.split("◌") if piece):
            yield from items.get(name, [])
            yield from (it for path, one, alias in brought if one and alias == name for it in at_path(path, one))
    by_alias = {}
    for path, one, alias in brought:
        by_alias.setdefault(alias, []).append((path, one))
    for token in tokens:
        yield from items.get(token[0], [])
        for path, one in by_alias.get(token[0], []):
            if one:
                yield from at_path(path, one)
            elif ".declared." in f"{path}.":
                yield from declared(path)
            elif len(token) > 1:
                yield from at_path(path, token[1])
        if ".".join(token[:1]) in ("Rattle", *mounts()) and len(token) > 2:
            yield from at_path(".".join(token[:-1]), token[-1])


def from_types(tokens, file):
    """The items of the sources that the names of an item's text lead to."""
    crate = file.file.split("/src/")[0].rpartition("/")[2]
    for name in {part for token in tokens for piece in token for part in re.findall(r"\w+", piece)}:
        if name in file.items:
            yield from file.items[name]
            yield from file.models.get(name, [])
        elif name in file.used:
            of = file.used[name]
            for other in STD if of in ("std", "core") else [crate if of in ("crate", "super", "self") else of]:
                yield from items_of(other, name)
        elif name in PRELUDE:
            for other in STD:
                yield from items_of(other, name)


def led_to(item):
    """The definitions that a definition's text leads to, next."""
    if item.file.endswith(".antt"):
        here = page(item.file)
        yield from from_names(item.tokens, here.items, here.brought, here.operators())
        return
    file = source(item.file)
    inner = list(brought_in(item.text))
    brought = [*file.brought, *inner]
    operators = {alias for _, _, alias in brought if "◌" in alias}
    yield from from_names(item.tokens, {}, brought, operators)
    yield from from_types(item.tokens, file)
    yield from file.models.get(item.name, [])


def closure(first):
    """All definitions that these lead to, themselves among them."""
    found, left = {}, list(first)
    while left:
        item = left.pop()
        if (item.file, item.start, item.name) not in found:
            found[item.file, item.start, item.name] = item
            left += led_to(item)
    return sorted(found.values(), key=lambda it: (not it.is_ours, it.file, it.start))


RUN = "crates/mpm_run/src/top_call.rt"


def clauses_of_run():
    """The clauses of run, by name: each as an item of its file whose text is the clause and what the signature says of its values."""
    text = text_of(f"{TOP}/{RUN}")
    head = re.search(r"(?m)^pub fn run<", text)
    body = text.index("\n{\n", head.start())
    signature = text[head.start() : re.search(r"(?m)^\s+(?:requires|ensures)\b", text[head.start() :]).start() + head.start()]
    bare = re.sub(r"(?m)^[ \t]*//.*$", "", text[head.start() : body])
    found = {}
    for clause in re.finditer(r"(?m)^[ \t]+(?:requires|ensures)[ \t]*(\w*)[ \t]*\{", bare):
        said = bare[clause.start() : end_of(bare, clause.start())]
        item = Definition(f"{TOP}/{RUN}", clause[1], text.count("\n", 0, head.start() + clause.start()) + 1)
        names = set(re.findall(r"\w+", said)) | ({"Outcome"} if "result" in said else set())
        item.lines = [*said.split("\n"), *types_of(signature, names)]
        item.said = len([line for line in said.split("\n") if line.strip()])
        found[clause[1]] = item
    return found


def types_of(signature, names):
    """What a signature says of these values and type parameters."""
    bounds = dict(re.findall(r"(\w+): ([\w +]+)", re.search(r"<(.*?)>\(", signature, re.S)[1]))
    values = dict(re.findall(r"(?m)^\s*(\w+): ([^\n]*?),?$", signature[signature.index("(") :]))
    kinds = [values[name] for name in names & values.keys()]
    kinds += [bounds[name] for name in (names | set(re.findall(r"\w+", " ".join(kinds)))) & bounds.keys()]
    return [*kinds, *(["Outcome"] if "Outcome" in names else [])]


def fields_of(record):
    """The fields of a record, by name: each as an item of its file whose text is the field, the fields before it that it names, and the
    parameters of the record."""
    head, own, name = [], {}, None
    margin = len(record.lines[0]) - len(record.lines[0].lstrip()) + 2
    for line in record.lines:
        begun = re.match(rf" {{{margin}}}(?:pub )?([^\s:(){{}}]+)\s+:(?:\s|$)", line)
        name = begun[1] if begun else name
        own.setdefault(name, head if name is None else []).append(line)
    head = [re.sub(rf"^\s*(?:{WORDS}\s+)+\S+", "", line) for line in own.pop(None, [])]
    found = {}
    for name, lines in own.items():
        field = found[name] = Definition(record.file, name, record.start)
        field.said = sum(1 for line in lines if line.strip())
        words = set(re.findall(r"[^\s(){}]+", " ".join(lines)))
        field.lines = [*lines, *head]
        for before in list(found)[:-1]:
            field.lines += found[before].lines if before in words else []
    return found


def definitions_of(name, within):
    """The definitions of that name in the specs of these crates."""
    found = []
    for crate in within:
        for at, _, names in os.walk(f"{TOP}/crates/{crate}/specs"):
            for file in sorted(f"{at}/{it}" for it in names if it.endswith(".antt")):
                found += page(file).items.get(name, [])
    return found


def found_by(name):
    """The statements of a name: all clauses of run for `run`; a clause of it; a field of a record that a clause of it names; a definition
    of this repository; of several, by crate.name or record.field."""
    clauses = clauses_of_run()
    if name == "run":
        return list(clauses.values())
    if name in clauses:
        return [clauses[name]]
    first, _, short = name.rpartition(".")
    if first and first not in crates():
        records = definitions_of(first, crates())
    else:
        records = [it for clause in clauses.values() for it in led_to(clause) if it.file.endswith(".antt")]
    fields = {(it.file, it.start): fields_of(it)[short] for it in records if short in fields_of(it)}
    return list(fields.values()) or definitions_of(short, [first] if first else crates())
