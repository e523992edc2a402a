#!/usr/bin/env python3
"""defended.py [--check]: writes docs/EDITS.md, which edit defends which promise; with --check it says where the two disagree, status 1.

An edit (crates/CRATE/must-fail/NAME.edit) plants one mistake, which the prover must refuse. This script reads the text that it replaces, the
item that this lies in, and that item's contract; where the item has none, those of the nearest functions that call it. An edit is listed at a
promise of docs/PROOFS.md that names its file, its item or a function that calls it, a definition which the contract cites, or one which the
table of wrong bodies there has beside the edit.
"""
import pathlib
import re
import sys
from collections import Counter

TOP = pathlib.Path(__file__).resolve().parent.parent
CRATES = TOP / "crates"
PROMISES = TOP / "docs" / "PROOFS.md"
PAGE = TOP / "docs" / "EDITS.md"

ITEM = re.compile(r"^\s*(?P<public>pub )?(?:pub\([a-z]+\) )?(?:const )?(?:unsafe )?(?P<kind>fn|const|static|struct|enum|trait) (?P<name>\w+)")
OWNER = re.compile(r"^(?:pub )?(?:unsafe )?(?:impl\b|trait\b)(?P<head>.*)")
CLAUSE = re.compile(r"^\s*(?P<kind>requires|ensures)\*?\s*(?P<name>\w*)\s*\{")
DEFINITION = re.compile(r"^(?:(?:abbrev|unfoldable|opaque|pub|record|data) )+(?P<name>[^\s:(){}]+)|^(?P<plain>\w+) : ")
WORD = re.compile(r"[A-Za-z_]\w*")
# A name or a file that more promises than this have says nothing about any one of them.
MOST_ROWS = 8
# The name of a definition that isn't a plain word, as a clause's or a field's may be.
TELLING = re.compile(r"^[A-Z]\w*[a-z]|_")
PATH = re.compile(r"[\w/]+(?:\.antt|\.rt)|crates/\w+(?:/\w+)*")
NAMED = re.compile(r"`([^`]+)`")


class Item:
    """A function, constant or type of a source file, or a definition of a spec, with its contract."""

    def __init__(self, name, owner="", public=False, kind="fn", begin=0):
        self.name, self.owner, self.public, self.kind, self.begin = name, owner, public, kind, begin
        self.clauses, self.words, self.calls, self.crate, self.trait = [], set(), set(), None, ""

    def title(self):
        return f"{self.owner}::{self.name}" if self.owner else self.name


def owner_of(head):
    """Returns the type that an `impl` block is for, or the trait."""
    head = re.sub(r"<[^<>]*(?:<[^<>]*>[^<>]*)*>", "", head.split("{")[0]).split(" where ")[0]
    found = WORD.findall(head.split(" for ")[-1])
    return found[-1] if found else ""


def trait_of(head):
    """Returns the trait that an `impl` block implements, if it implements one."""
    found = re.match(r"(?:<.*?>)?\s*(\w+).* for ", head.split("{")[0])
    return found[1] if found else ""


def items_of_source(text):
    """Returns the items of a .rt file, each with the clauses of its contract and the words of its body."""
    items, owner, trait, open_braces = [], "", "", 0
    for number, line in enumerate(text.splitlines()):
        bare = line.split("//")[0]
        block = OWNER.match(bare)
        if block:
            owner, trait = owner_of(block["head"]), trait_of(block["head"])
        elif bare.startswith("}"):
            owner = trait = ""
        found = ITEM.match(bare)
        if found and not (found["kind"] == "const" and bare.startswith(" " * 8)):
            items.append(Item(found["name"], owner if bare.startswith(" ") else "", bool(found["public"]), found["kind"], number))
            items[-1].trait = trait if bare.startswith(" ") else ""
        if not items:
            continue
        clause = CLAUSE.match(bare)
        if clause and clause["kind"] == "ensures":
            items[-1].clauses.append(clause["name"])
        # A clause may continue over lines, up to its last brace.
        if clause or open_braces:
            items[-1].words |= set(WORD.findall(bare))
            open_braces += bare.count("{") - bare.count("}")
        else:
            items[-1].calls |= set(WORD.findall(bare))
    return items


def items_of_spec(text):
    """Returns the definitions of an .antt file."""
    items = []
    for number, line in enumerate(text.splitlines()):
        found = DEFINITION.match(line)
        if found:
            items.append(Item(found["name"] or found["plain"], kind="definition", begin=number))
        if items and not line.startswith("--"):
            items[-1].words |= set(WORD.findall(line))
    return items


def item_at(items, number):
    """Returns the item that a line lies in."""
    before = [item for item in items if item.begin <= number]
    return before[-1] if before else Item("the head of the file", kind="head")


class Crate:
    def __init__(self, folder):
        self.folder, self.name = folder, folder.name
        self.files = {}
        for part in ("src", "specs", "proofs"):
            for path in sorted((folder / part).rglob("*")):
                if path.suffix == ".rt":
                    self.files[path] = items_of_source(path.read_text())
                elif path.suffix == ".antt":
                    self.files[path] = items_of_spec(path.read_text())
        self.sources = [item for path, items in self.files.items() if path.suffix == ".rt" for item in items]

    def reached_from(self, item):
        """Returns the item, and the functions of the crate that call it, up to its public ones."""
        found, level = [item], [item]
        while level:
            names = {each.name for each in level if each.kind in ("fn", "const", "static")}
            level = [each for each in self.sources if each not in found and each.kind == "fn" and each.calls & names]
            found += level
            level = [each for each in level if not each.public]
        return found

    def contracts_of(self, item):
        """Returns the item if it has a contract, else the nearest functions with a contract that call it or use it."""
        seen, level = {item}, [item]
        while level and not any(each.clauses for each in level):
            names = {each.name for each in level}
            level = [each for each in self.sources if each not in seen and each.kind == "fn" and each.calls & names]
            seen |= set(level)
        return [each for each in level if each.clauses]


class Edit:
    def __init__(self, path, crate, beside):
        self.path, self.crate = path, crate
        self.beside = beside.get(f"{crate.name}/{path.stem}", set())
        lines = path.read_text().splitlines()
        self.file = crate.folder / next(line[6:].strip() for line in lines if line.startswith("file: "))
        self.old = next(line[5:] for line in lines if line.startswith("old: "))
        text = self.file.read_text()
        at = text.find(self.old)
        if at < 0 or text.count(self.old) != 1:
            sys.exit(f"{path.relative_to(TOP)}: its old text stands {text.count(self.old)} times in {self.file.relative_to(TOP)}")
        line = self.old.lstrip()
        self.item = item_at(crate.files[self.file], text.count("\n", 0, at + len(self.old) - len(line)))

    def cited(self, definitions):
        """Returns the definitions that the contract around the edit cites, and those of this crate that these cite."""
        found = set().union(*(item.words for item in self.crate.contracts_of(self.item))) & definitions.keys()
        return found.union(*(definitions[name].words for name in found if definitions[name].crate == self.crate.name))

    def mistake(self):
        return re.sub(r"[_-]", " ", self.path.stem)

    def place(self):
        return f"`{self.item.title()}` ({self.file.relative_to(self.crate.folder)})"

    def clauses(self):
        """Returns the clauses of the contract that the edit lies in, or of the nearest callers that have one."""
        if self.item.kind == "definition":
            return "the laws of this definition" if "specs" in self.file.parts else "the statements that cite this lemma"
        found = self.crate.contracts_of(self.item)
        if found == [self.item]:
            return clauses_of(self.item)
        if self.item.trait and not self.item.clauses:
            return f"those of the trait `{self.item.trait}`"
        return "; ".join(f"of `{item.title()}`: {clauses_of(item)}" for item in found[:2]) or "of the types and functions that use it"


def clauses_of(item):
    """Returns the names of the clauses of a contract."""
    named = [f"`{name}`" for name in item.clauses if name]
    return ", ".join(named) or "its one clause"


def rows(title):
    """Yields the rows of the first table of a section, each as its cells."""
    inside = False
    for line in PROMISES.read_text().splitlines():
        if line.startswith("## "):
            inside = line == f"## {title}"
        elif inside and line.startswith("|") and not line.startswith(("|--", "| Promise", "| Wrong body")):
            yield [cell.strip() for cell in line.strip("|").split(" | ")]


def short(promise):
    """Returns the first sentence of a promise, or its bold words."""
    bold = re.match(r"\*\*(.+?)\*\*", promise)
    words = bold[1] if bold else re.split(r"(?<=[.:])\s", promise)[0]
    return words.rstrip(".:") + "."


def names_of(cell):
    """Returns the names of a cell: functions with their type, definitions, and clauses."""
    return set(NAMED.findall(cell))


def wrong_bodies():
    """Returns for each edit, as CRATE/NAME, the definitions that the table of wrong bodies has beside it."""
    found, last = {}, set()
    for cells in rows("Which definition refuses which wrong body"):
        last = last if cells[1].startswith("the same") else names_of(cells[1])
        for crate, name in re.findall(r"(\w+)/must-fail/([\w-]+)\.edit", cells[2]):
            found.setdefault(f"{crate}/{name}", set()).update(last)
    return found


def files_of(cell):
    """Returns the files and the crates that a cell names; a file without a folder belongs to the crate named last, or to plain_machine's specs."""
    files, crates, last = set(), set(), None
    for word in PATH.findall(cell):
        parts = word.removeprefix("crates/").split("/")
        if (CRATES / parts[0]).is_dir():
            last = CRATES / parts[0]
            crates.add(last.name)
        rest = word if last is None or parts[0] != last.name else "/".join(parts[1:])
        tries = [last / part / rest for part in (".", "src", "specs", "proofs")] if last else []
        found = next((path.resolve() for path in [*tries, CRATES / "plain_machine/specs" / word] if path.is_file()), None)
        if found:
            files.add(found)
    return files, crates


class Promise:
    """A row of the table of all promises, with its own names and files: those that few other rows have."""

    def __init__(self, cells):
        self.title = short(cells[0])
        self.names = names_of(cells[1])
        self.files, self.crates = files_of(cells[2] + " " + cells[1])

    def keep(self, few):
        self.names = {name for name in self.names if few[name] <= MOST_ROWS}
        self.files = {file for file in self.files if few[file] <= MOST_ROWS}

    def is_defended_by(self, edit, definitions):
        if edit.file in self.files:
            return True
        if edit.item.kind == "definition":
            return bool((edit.beside | {edit.item.name}) & self.names & definitions.keys())
        if edit.crate.name in self.crates and any(self.names & {item.name, item.title(), item.owner} for item in edit.crate.reached_from(edit.item)):
            return True
        return bool((edit.cited(definitions) | edit.beside) & self.names & definitions.keys())


def promises():
    found = [Promise(cells) for cells in rows("All promises")]
    few = Counter(name for promise in found for name in promise.names | promise.files)
    for promise in found:
        promise.keep(few)
    return found


def table(head, lines):
    return [f"| {' | '.join(head)} |", "|" + "---|" * len(head)] + [f"| {' | '.join(cells)} |" for cells in lines]


def page(edits, definitions):
    promised = [(promise.title, [edit for edit in edits if promise.is_defended_by(edit, definitions)]) for promise in promises()]
    held = {edit.path for _, found in promised for edit in found}
    text = [
        "# The edits that must be refused",
        "",
        f"Each of the {len(edits)} edits plants one mistake in a crate, and the gate passes only where the prover refuses it (`rt must-fail CRATE`). The name of",
        "an edit says the mistake. Its line says which item it lies in, and the clauses of the contract around it, one of which the mistake would break.",
        "`python3 tools/defended.py` writes this page from the edits, the sources and docs/PROOFS.md, and `--check` tells where they disagree.",
        "",
        "## Which edits defend a promise",
        "",
        "The promises are those of [PROOFS.md](PROOFS.md#all-promises), in its order, by their first words. An edit stands at a promise that names the",
        "file or the function that it changes, a function of its crate that calls that one, a definition that the contract around it cites, or one that",
        f"the table of wrong bodies has beside it. A name that more than {MOST_ROWS} promises share counts for none of them.",
        "",
    ]
    text += table(["Promise", "Edits"], [[title, listed(found)] for title, found in promised if found])
    bare = [title for title, found in promised if not found]
    if bare:
        text += ["", "No edit names these alone. Several are promises of `run` and `World::event`, whose edits stand in the lists of swsusp_cli and world_core. Others say"]
        text += ["all of a result by a definition, as the text of a line or what a list of words asks for, so any other result is refused by that; or they are laws:"]
        text += [""] + [f"- {title}" for title in bare]
    alone = [edit for edit in edits if edit.path not in held]
    if alone:
        text += ["", f"{len(alone)} edits defend what no row names: the contracts of `run` and `World::event`, contracts below the promises, and laws."]
        text += ["They stand in the lists of their crates."]
    text += ["", "## The edits of each crate"]
    for crate in dict.fromkeys(edit.crate.name for edit in edits):
        own = [edit for edit in edits if edit.crate.name == crate]
        text += ["", f"### {crate}", ""]
        text += table(["Mistake", "Lies in", "Clauses"], [[f"[{edit.mistake()}](../{edit.path.relative_to(TOP)})", edit.place(), edit.clauses()] for edit in own])
    return "\n".join(text) + "\n"


def listed(found):
    by_crate = {}
    for edit in found:
        by_crate.setdefault(edit.crate.name, []).append(edit.path.stem)
    return "; ".join(f"{crate}: {', '.join(names)}" for crate, names in by_crate.items())


def main(*words):
    crates = [Crate(folder) for folder in sorted(CRATES.iterdir()) if folder.is_dir()]
    definitions = {}
    for crate in crates:
        for path, items in crate.files.items():
            if "specs" in path.parts:
                definitions.update((item.name, item) for item in items if TELLING.search(item.name))
                for item in items:
                    item.crate = crate.name
    beside = wrong_bodies()
    edits = [Edit(path, crate, beside) for crate in crates for path in sorted((crate.folder / "must-fail").glob("*.edit"))]
    text = page(edits, definitions)
    if words == ("--check",):
        if not PAGE.exists() or PAGE.read_text() != text:
            print("docs/EDITS.md isn't what the edits, the sources and docs/PROOFS.md say: run python3 tools/defended.py")
            return 1
        print(f"docs/EDITS.md: {len(edits)} edits, as the tree has them")
        return 0
    if words:
        sys.exit(__doc__)
    PAGE.write_text(text)
    return 0


if __name__ == "__main__":
    sys.exit(main(*sys.argv[1:]))
