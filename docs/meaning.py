#!/usr/bin/env python3
"""Makes docs/meaning.md: the definitions that the top call of each program rests on.

    docs/meaning.py            writes docs/meaning.md
    docs/meaning.py --check    says whether the page is as the definitions are; status 1 where it is old
    docs/meaning.py --list     prints the names alone, with file and line

From the clauses of each top call, and of the traits that it takes, it follows each name and each operator through the
`use` lines to the definition in specs/ (or the declaration in src/) and on from there, until nothing new is met. Names that the library
of the kit defines end the search. The first page of docs/meaning.md is docs/meaning_head.md.
"""
import collections
import os
import re
import sys

TOP = os.path.dirname(os.path.dirname(os.path.abspath(__file__)))

# The top calls: program, file, function. A row whose file is not there is passed over.
CALLS = [
    ("scram", "crates/psa_engine/src/run.rt", "analyse_words"),
    ("scram_shares", "crates/psa_shares/src/run.rt", "share_words"),
    ("scram_modules", "crates/psa_modules/src/run.rt", "modules_words"),
    ("scram_whatif", "crates/psa_whatif/src/run.rt", "whatif_words"),
]

# The groups in the order in which a reader goes, each with the files (crate, module) that it begins with; a file goes to
# the first group that names it, and one that no group names to the last.
GROUPS = [
    ("Words", [("psa_words", "")]),
    ("Texts and trees", [("psa_text", "")]),
    ("Shape and drafts", [("psa_elements", ""), ("psa_model", "Drafts")]),
    ("Names", [("psa_names", "")]),
    ("Numbers", [("psa_number", ""), ("psa_model", "Values"), ("psa_model", "ExactQuantities"), ("psa_model", "Quantities")]),
    ("Models and events", [("psa_model", "Models"), ("psa_model", "Events"), ("psa_model", "Expansion"), ("psa_model", "PathNames")]),
    ("Truth", [("psa_model", "Formulas"), ("psa_model", "Truth")]),
    ("Targets and paths", [("psa_model", "Targets"), ("psa_model", "Path"), ("psa_model", "Tests"), ("psa_model", "Walk"), ("psa_model", "Standing")]),
    ("Ranks and products", [("psa_model", "Rank"), ("psa_logic", ""), ("psa_model", "Literals"), ("psa_products", "")]),
    ("The report", [("psa_model", "Report"), ("psa_model", "Names"), ("psa_model", "Fault"), ("psa_report", ""), ("psa_shares", "")]),
    ("Files and sinks", [("psa_ports", "")]),
    ("Outcomes", [("psa_outcome", "Inputs"), ("psa_outcome", "Analyses"), ("psa_outcome", "Causes"), ("psa_outcome", "Run"),
                  ("psa_outcome", "Sample"), ("psa_outcome", "Loading"), ("psa_outcome", "Brackets"), ("psa_load", ""), ("psa_engine", "")]),
    ("Nodes and their origin", [("psa_nodes", ""), ("psa_outcome", "Origins"), ("psa_model", "Parts"), ("psa_graph", ""), ("psa_prep", "")]),
    ("The rest", []),
]

HEAD = re.compile(r"^(?:abbrev|unfoldable|definition)\s+(?:pub\s+)?(?!mutual$)(\S+)|^(?:pub\s+)?(?:record|data)\s+(\S+)")
# Definitions that name each other stand in a block, each two places to the right.
MUTUAL = re.compile(r"^(?:abbrev\s+)?mutual$")
HEAD_IN_BLOCK = re.compile(r"^  pub\s+(?:(?:record|data)\s+)?(\S+)")
WORD = re.compile(r"[A-Za-z_][A-Za-z0-9_'\-]*(?:\.[A-Za-z_][A-Za-z0-9_'\-]*)*")


def read(path):
    with open(f"{TOP}/{path}", encoding="utf-8") as file:
        return file.read()


def uses_of(text, keyword="use"):
    """The names that a file's `use` lines bring in: name -> (module path, its name there); and aliases of modules."""
    names, aliases = {}, {}
    for found in re.finditer(rf"^\s*{keyword}\s+([\w\-◌]+(?:\.[\w\-◌]+)*)(?:\.\{{([^}}]*)\}})?(?:\s+as\s+([\w\-]+))?", text, re.M | re.S):
        path, list_, alias = found.groups()
        if alias and list_ is None:
            aliases[alias] = path
        for item in re.split(r",\s*", (list_ or "").strip()):
            here, _, there = item.strip().partition(" as ")
            if here:
                names[(there or here).strip()] = (path, here.strip())
        if list_ is None and not alias:
            names[path.rsplit(".", 1)[-1]] = (path.rsplit(".", 1)[0], path.rsplit(".", 1)[-1])
    return names, aliases


class Spec:
    """A file of specs/: its head comment, and its definitions with their lines, comments and texts."""

    def __init__(self, path):
        self.path = path
        text = read(path)
        lines = text.split("\n")
        self.head = comment_of(lines, len(re.match(r"(?:--.*\n)*", text).group().split("\n")) - 1)
        self.names, self.aliases = uses_of(text)
        self.items, self.owners = {}, {}
        starts = starts_of(lines)
        for (i, name, top), (end, *_) in zip(starts, starts[1:] + [(len(lines), None, None)]):
            while end > i + 1 and (not lines[end - 1].strip() or lines[end - 1].lstrip().startswith("--")
                                   or MUTUAL.match(lines[end - 1])):
                end -= 1
            body = lines[i:end]
            self.items[name] = Item(name, path, i + 1, comment_of(lines, i) or comment_of(lines, top), body)
            if re.match(r"^\s*(?:pub\s+)?(?:record|data)", lines[i]):
                for line in body[1:]:
                    field = re.match(r"^\s+(?:pub\s+)?([\w\-']+(?:\s+[\w\-']+)*)\s*:", line)
                    for word in field.group(1).split() if field else []:
                        self.owners.setdefault(word, name)
        # (a definition may have the name of a record's field)
        self.owners.update({name: name for name in self.items})


def starts_of(lines):
    """Where the definitions of a file begin: line, name, and the line above which a comment may stand too."""
    starts, top = [], None
    for i, line in enumerate(lines):
        if line and not line[0].isspace():
            top = i if MUTUAL.match(line) else None
        head = HEAD.match(line) or (HEAD_IN_BLOCK.match(line) if top is not None else None)
        if head:
            starts.append((i, next(filter(None, head.groups())), i if top is None else top))
    return starts


def comment_of(lines, place):
    """The comment that stands directly above a line."""
    first = place
    while first > 0 and lines[first - 1].lstrip().startswith("--") and not lines[first - 1].startswith("-- ---"):
        first -= 1
    return " ".join(line.lstrip("- ").strip() for line in lines[first:place]).strip()


class Item:
    """A definition, or a declaration of the code that contracts speak of."""

    def __init__(self, name, path, line, comment, body, is_code=False):
        self.name, self.path, self.line, self.comment, self.is_code = name, path, line, comment, is_code
        self.body = [re.sub(r"--.*", "", text) for text in body]
        self.size = sum(1 for text in self.body if text.strip())


SPECS = {}


def spec_of(module):
    """The file of specs/ that a module path names, or None."""
    parts = module.split(".")
    if parts[0] != "Rattle" or len(parts) < 4 or parts[2] != "specs" or parts[3] == "declared":
        return None
    path = f"crates/{parts[1]}/specs/{'/'.join(parts[3:])}.antt"
    if path not in SPECS:
        SPECS[path] = Spec(path) if os.path.isfile(f"{TOP}/{path}") else None
    return SPECS[path]


def declared_of(module, name):
    """The declaration in src/ that a module path below `declared` names: a type or a constant, or None."""
    parts = module.split(".")
    if parts[0] != "Rattle" or "declared" not in parts:
        return None
    rest = parts[parts.index("declared") + 1:]
    for length in range(len(rest), 0, -1):
        path = f"crates/{parts[1]}/src/{'/'.join(rest[:length])}.rt"
        if os.path.isfile(f"{TOP}/{path}"):
            break
    else:
        return None
    text = read(path)
    owner = rest[length] if length < len(rest) and not rest[length].startswith("The") else name
    found = re.search(rf"^(?:pub(?:\(crate\))?\s+)?(?:struct|enum|const|trait|type)\s+{re.escape(owner)}\b.*?(?:^\}}|;$)", text, re.M | re.S)
    if not found:
        return None
    line = text.count("\n", 0, found.start()) + 1
    lines = text.split("\n")
    first = line - 1
    while first > 0 and lines[first - 1].startswith(("///", "#[")):
        first -= 1
    comment = " ".join(it[3:].strip() for it in lines[first:line - 1] if it.startswith("///"))
    item = Item(owner, path, line, comment, found.group().split("\n"), is_code=True)
    item.ghost = "\n".join(it.group() for it in re.finditer(rf"^impl(?:<.*?>)? Model for {re.escape(owner)}\b.*?^\}}", text, re.M | re.S))
    item.text = text
    return item


def resolve(word, names, aliases, spec=None):
    """The item that a word of a file stands for, with the file that it stands in, or None."""
    first, _, rest = word.partition(".")
    if spec and first in spec.owners:
        return spec.items[spec.owners[first]], spec
    if first in aliases:
        return found_in(aliases[first], rest or first)
    if first in names:
        return found_in(*names[first])
    return None


def found_in(module, name):
    spec = spec_of(module)
    if spec is None:
        # (a definition may stand behind a module that has its name: `..Settings.{Settings}`)
        item = declared_of(module, name)
        return (item, None) if item else None
    first = name.partition(".")[0]
    if first in spec.owners:
        return spec.items[spec.owners[first]], spec
    if first in spec.names:
        return found_in(*spec.names[first])
    return None


def words_of(lines):
    return [word for line in lines for word in WORD.findall(line)]


def operators_of(lines, names):
    """Those of these names that are operators of which each sign stands in the lines: `◌>>=◌` where `>>=` does."""
    text = "\n".join(lines)
    return [name for name in names if "◌" in name and all(sign in text for sign in name.split("◌"))]


def follow(seeds):
    """All items that are met from these words; each with the words' own file."""
    met, left = {}, list(seeds)
    while left:
        item, spec = left.pop()
        if (item.path, item.name) in met:
            continue
        met[item.path, item.name] = item
        if item.is_code:
            names, aliases = uses_of(item.text, "ghost use")
            texts = [item.ghost]
        else:
            names, aliases, texts = spec.names, spec.aliases, item.body
        for word in words_of(texts) + operators_of(texts, [*names, *(spec.owners if spec else [])]):
            found = resolve(word, names, aliases, spec)
            if found:
                left.append(found)
    return met


def seeds_of_call(path, function):
    """What the clauses of a function, and of the traits of psa_ports that it takes, speak of."""
    text = read(path)
    found = re.search(rf"^pub fn {function}\b.*?^\{{", text, re.M | re.S)
    names, aliases = uses_of(text, "ghost use")
    seeds = [resolve(word, names, aliases) for word in words_of([found.group()])]
    for trait, file in (("Folder", "crates/psa_ports/src/folder.rt"), ("Sink", "crates/psa_ports/src/sink.rt")):
        ports = read(file)
        names, aliases = uses_of(ports, "ghost use")
        body = re.search(rf"^pub trait {trait}\b.*?^\}}", ports, re.M | re.S)
        seeds += [resolve(word, names, aliases) for word in words_of([body.group()] if body else [])]
    return [seed for seed in seeds if seed]


def group_of(path):
    crate, module = path.split("/")[1], os.path.splitext(os.path.basename(path))[0]
    for place, (_, files) in enumerate(GROUPS):
        if any(crate == c and (path.split("/")[2] == "src" or module.startswith(m)) for c, m in files if m or True):
            if any(crate == c and (not m or module.startswith(m)) for c, m in files):
                return place
    crates = [place for place, (_, files) in enumerate(GROUPS) if any(c == crate for c, _ in files)]
    return crates[0] if crates else len(GROUPS) - 1


def sentence(text):
    return text.replace("|", "\\|") if text else "**no comment**"


def page(met_by):
    """The text of docs/meaning.md."""
    every = {}
    for met in met_by.values():
        every.update(met)
    programs = {key: [name for name, met in met_by.items() if key in met] for key in every}
    specs = [item for item in every.values() if not item.is_code]
    out = [read("docs/meaning_head.md").rstrip(), "", "## How much there is", "",
           "| Program | Definitions | Lines of them | Files | Types and constants of the code |", "|---|---|---|---|---|"]
    for name, met in met_by.items():
        own = [item for item in met.values() if not item.is_code]
        out.append(f"| `{name}` | {len(own)} | {sum(i.size for i in own)} | {len({i.path for i in own})} | {len(met) - len(own)} |")
    out += ["", "## The definitions", "", "In the order in which a reader goes; within a file as they stand there. A line is that of the file. What no program but "
            "some rests on names these."]
    groups = collections.defaultdict(lambda: collections.defaultdict(list))
    for key, item in every.items():
        groups[group_of(item.path)][item.path].append(item)
    for place in sorted(groups):
        files = groups[place]
        size = sum(i.size for items in files.values() for i in items if not i.is_code)
        out += ["", f"### {GROUPS[place][0]} ({size} lines)"]
        order = [c for c, _ in GROUPS[place][1]]
        for path in sorted(files, key=lambda p: ("/specs/" not in p, p)):
            items = sorted(files[path], key=lambda i: i.line)
            out += ["", f"**[{path[7:]}](../{path})**"]
            head = SPECS[path].head if path in SPECS and SPECS[path] else ""
            if head:
                out[-1] += f": {head}"
            out.append("")
            for item in items:
                some = programs[item.path, item.name]
                only = f" ({', '.join(some)})" if len(some) < len(met_by) else ""
                out.append(f"- `{item.name}`, line {item.line}{only}: {sentence(item.comment)}")
    return "\n".join(out) + "\n"


def main():
    met_by = {name: follow(seeds_of_call(path, function)) for name, path, function in CALLS if os.path.isfile(f"{TOP}/{path}")}
    if "--list" in sys.argv:
        for met in met_by.values():
            for item in sorted(met.values(), key=lambda i: (i.path, i.line)):
                print(f"{item.path}:{item.line}: {item.name}{'' if item.comment else '   NO COMMENT'}")
        return 0
    text = page(met_by)
    if "--check" in sys.argv:
        old = read("docs/meaning.md") if os.path.isfile(f"{TOP}/docs/meaning.md") else ""
        if old != text:
            print("docs/meaning.md is old: run docs/meaning.py")
            return 1
        return 0
    with open(f"{TOP}/docs/meaning.md", "w", encoding="utf-8") as file:
        file.write(text)
    return 0


if __name__ == "__main__":
    sys.exit(main())
