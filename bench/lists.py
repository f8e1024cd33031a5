#!/usr/bin/env python3
"""Makes the lists of docs/ that the sources tell: bench/lists.py [--check]

A list stands between the lines `<!-- list KIND WORD.. -->` and `<!-- end -->` of a document. It is written anew where it is old. With
`--check` nothing is written: each list that is old is named, and the run fails. Kinds:

  crates NAME..     a line a crate: the first sentence of its root file
  laws              the laws by crate and module, sorted by what their names say
  edits             the wrong bodies that the prover has to refuse, by crate
  read NAME..       the definitions on which these stand, by file, each file behind those that it cites

Besides, it always judges

  - docs/TRUST.md: each definition under the public clauses of the files in COMPLETE stands in a point that links to its file, and so does each that those of the files in CITED cite
  - the documents in NAMED: each name in code font is in the sources
  - each link of README.md, docs/ and bench/README.md to a file: the file is there
  - each crate of crates.txt but those of tests: it stands in one list of crates
"""
import pathlib
import re
import sys
from collections import defaultdict

ROOT = pathlib.Path(__file__).resolve().parent.parent
CRATES = ROOT / "crates"
DOCS = [ROOT / "README.md", ROOT / "bench" / "README.md"] + sorted((ROOT / "docs").glob("*.md"))
NAMES = [line.split(":")[0].split()[0] for line in (ROOT / "crates.txt").read_text().splitlines() if line.strip()]

# Whose public clauses docs/TRUST.md has to follow to the end.
COMPLETE = ["cs_world/src/world.rt", "cs_store/src/store.rt"]

# Of whose public clauses it has to say what they cite themselves.
CITED = """
    cs_apply/src/applying.rt cs_blob/src/reading.rt cs_changeset/src/reading.rt cs_column_bytes/src/spelling.rt cs_conflict/src/chooser.rt
    cs_conflict/src/clash.rt cs_conflict/src/guard.rt cs_conflict/src/kind.rt cs_conflict/src/picker.rt cs_group/src/adding.rt
    cs_group/src/combining.rt cs_group/src/group.rt cs_group/src/inverting.rt cs_hub/src/hub.rt cs_meeting/src/telling.rt cs_nodes/src/books/book.rt
    cs_nodes/src/meet.rt cs_nodes/src/node.rt cs_nodes/src/plans/ending.rt cs_padding/src/pending.rt cs_padding/src/rows.rt
    cs_pending/src/edits.rt cs_rebaser/src/rebaser.rt cs_replica/src/replica.rt cs_spine/src/spine.rt cs_sql/src/store.rt cs_tools/src/tool.rt
    cs_widening/src/widening.rt sync_cli/src/run.rt
""".split()

# Whose names in code font are names of the sources.
NAMED = ["DECISIONS.md", "HEADLINE.md", "TOUR.md", "TRUST.md"]

MARKED = re.compile(r"^\s*(?:(?:abbrev|unfoldable) (?:pub )?|pub (?:record|data) )([A-Za-z_][\w'-]*)")
PLAIN = re.compile(r"^\s*pub (?!use |mod )([A-Za-z_][\w'-]*) :")
WORD = re.compile(r"[A-Za-z_][\w'-]*(?:\.[\w'-]+)?")
USE = re.compile(r"use (Rattle\.[\w.]+?)\.\{([^}]*)\}")


class Definitions:
    """The definitions of all `specs/`, by module and name, and what each cites."""

    def __init__(self):
        self.body = {}
        self.file = {}
        self.uses = {}
        self.alias = {}
        for crate in NAMES:
            specs = CRATES / crate / "specs"
            for path in sorted(specs.rglob("*.antt")):
                self.read(crate, path, specs)

    def read(self, crate, path, specs):
        parts = path.relative_to(specs).with_suffix("").parts
        module = ".".join(["Rattle", crate, "specs", *parts])
        text = path.read_text()
        self.uses[module] = imports(text)
        for whole in re.findall(r"^pub use (Rattle\.[\w.]+)$", text, re.M):
            home = module[: -len(".Lib")] if parts == ("Lib",) else module
            self.alias[home + "." + whole.rsplit(".", 1)[1]] = whole
        now, in_record = None, False
        for line in text.splitlines():
            found = MARKED.match(line) or (None if in_record else PLAIN.match(line))
            if found:
                now, in_record = (module, found.group(1)), "pub record " in line
                self.body[now] = [line]
                self.file[now] = path.relative_to(CRATES).as_posix()
            elif re.match(r"\s*module ", line):
                in_record = False
            elif now and not line.startswith("use ") and not line.strip().startswith("--"):
                self.body[now].append(line)

    def find(self, module, name):
        """The definition that a name is in a module, or None."""
        for _ in range(8):
            for it in (name, name.split(".")[0]):
                if (module, it) in self.body:
                    return module, it
            if module in self.alias:
                module = self.alias[module]
            elif name in self.uses.get(module, {}):
                module, name = self.uses[module][name]
            elif name.split(".")[0] in self.uses.get(module, {}):
                module, name = self.uses[module][name.split(".")[0]]
            else:
                return None
        return None

    def cited(self, key):
        words = set(WORD.findall("\n".join(self.body[key])))
        found = (self.find(key[0], word) for word in words)
        return sorted({it for it in found if it and it != key})

    def under(self, roots):
        seen, todo = set(roots), list(roots)
        while todo:
            for it in self.cited(todo.pop()):
                if it not in seen:
                    seen.add(it)
                    todo.append(it)
        return seen


def imports(text):
    """What each name of a file is: a module and a name in it. A name with a dot is one of a module that has a name here."""
    names = {}
    for module, short in re.findall(r"use (Rattle\.[\w.]+) as (\w+)", text):
        names.update({f"{short}.{word}": (module, word) for word in re.findall(rf"\b{short}\.(\w+)", text)})
    for module, inner in USE.findall(text):
        for word in inner.split(","):
            parts = word.split(" as ")
            if parts[0].strip():
                names[parts[-1].strip()] = (module, parts[0].strip())
    return names


def clauses(text):
    """The clauses of the public functions and the traits of a source file."""
    for found in re.finditer(r"(?:ensures|requires)\s*(?:\w+\s*)?\{", text):
        before = text[: found.start()]
        function = list(re.finditer(r"^(\s*)(pub )?fn \w+", before, re.M))
        outer = list(re.finditer(r"^(?:pub )?(trait|impl|struct|enum|fn)\b", before, re.M))
        if not function or not (function[-1].group(2) or outer[-1].group(1) == "trait"):
            continue
        at, depth = found.end(), 1
        while depth:
            depth += {"{": 1, "}": -1}.get(text[at], 0)
            at += 1
        yield text[found.end() : at - 1]


def roots_of(definitions, path):
    text = (CRATES / path).read_text()
    names = imports(text)
    words = {word for clause in clauses(text) for word in WORD.findall(clause)}
    found = (definitions.find(*names[word]) for word in words if word in names)
    return {it for it in found if it}


def root_file(crate):
    lib = CRATES / crate / "src" / "lib.rt"
    return lib if lib.exists() else CRATES / crate / "src" / "main.rt"


def first_sentence(crate):
    lines = [line[3:].strip() for line in root_file(crate).read_text().splitlines() if line.startswith("//!")]
    head = " ".join(lines[: lines.index("")] if "" in lines else lines)
    return re.split(r"(?<=[.:]) (?=[A-Z`])", head + " ", 1)[0].strip()


def crates(definitions, words):
    yield "| Crate | Is |"
    yield "|---|---|"
    for crate in words:
        yield f"| {crate} | {first_sentence(crate)} |"


def fields(definitions, key):
    """The laws that a record of laws puts together."""
    found = re.findall(r"^\s+pub \w+ : ([A-Z]\w+)$", "\n".join(definitions.body[key]), re.M)
    return [it for it in (definitions.find(key[0], word) for word in found) if it]


def laws_of(definitions, path):
    text = path.read_text()
    names = imports(text)
    for clause in clauses(text):
        word = WORD.search(clause)
        key = definitions.find(*names[word.group()]) if word and word.group() in names else None
        for law in (fields(definitions, key) or [key]) if key else []:
            if definitions.file[law].split("/")[0] == path.relative_to(CRATES).parts[0]:
                yield law[1]


def laws(definitions, words):
    yield "| Crate and module | At most one | There is one | Further |"
    yield "|---|---|---|---|"
    for crate in NAMES:
        source = CRATES / crate / "src"
        for path in sorted(source.rglob("laws.rt"), key=lambda path: (len(path.parts), path)):
            module = "::".join([crate, *path.relative_to(source).parts[:-1]])
            sorts = [[], [], []]
            for law in dict.fromkeys(laws_of(definitions, path)):
                one = re.match(r"(One|No(?=[A-Z]))", law)
                some = re.search(r"Or[A-Z]|Has(Answer|Form|Result|Step)$|^Some[A-Z]|Something$", law)
                sorts[0 if one else 1 if some else 2].append(f"`{law}`")
            yield "| " + " | ".join([module] + [", ".join(sort) for sort in sorts]) + " |"


def edits(definitions, words):
    yield "| Crate | Wrong bodies |"
    yield "|---|---|"
    for crate in NAMES:
        found = sorted(path.stem for path in (CRATES / crate / "must-fail").glob("*.edit"))
        if found:
            yield f"| {crate} | " + ", ".join(f"`{name}`" for name in found) + " |"


def read(definitions, words):
    under = definitions.under([key for key in definitions.body if key[1] in words])
    by_file = {}
    seen = set()

    def visit(file):
        if file in seen:
            return
        seen.add(file)
        own = [key for key in definitions.body if key in under and definitions.file[key] == file]
        for other in sorted({definitions.file[it] for key in own for it in definitions.cited(key)}):
            visit(other)
        by_file[file] = own

    for file in sorted({definitions.file[key] for key in under}):
        visit(file)
    yield "| File | Definitions |"
    yield "|---|---|"
    for file, own in by_file.items():
        link = f"[{file.replace('/specs', '')[:-5]}](../crates/{file})"
        yield f"| {link} | " + ", ".join(f"`{key[1]}`" for key in own) + " |"


KINDS = {"crates": crates, "laws": laws, "edits": edits, "read": read}
LIST = re.compile(r"(<!-- list (\w+)([^>]*?) -->\n)(.*?)(<!-- end -->)", re.S)


def bullets(text):
    """The points of a document's lists, each with the lines that belong to it."""
    return re.findall(r"^- .*(?:\n  .*)*", text, re.M)


def trust(definitions):
    """What docs/TRUST.md lacks: definitions under the public clauses that it has to follow."""
    path = ROOT / "docs" / "TRUST.md"
    said = defaultdict(set)
    for bullet in bullets(path.read_text()):
        for link in re.findall(r"\(\.\./crates/([\w/]+\.antt)\)", bullet):
            said[link].update(re.findall(r"`(\w+)`", bullet))
    cited = set().union(*(roots_of(definitions, path) for path in CITED))
    under = definitions.under(set().union(*(roots_of(definitions, path) for path in COMPLETE)))
    for key in sorted(under | {key for key in cited if "/Steps" not in definitions.file[key]}, key=lambda key: definitions.file[key]):
        if key[1] not in said[definitions.file[key]]:
            yield f"docs/TRUST.md: {definitions.file[key]} has {key[1]}, which no point says"
    for link, names in said.items():
        if not any(key[1] in names for key, file in definitions.file.items() if file == link):
            yield f"docs/TRUST.md: of {link} no definition is said"


def names():
    """Names in code font that no source has."""
    there = set()
    folders = [CRATES / crate / part for crate in NAMES for part in ("src", "specs", "proofs", "must-fail")]
    files = [path for folder in folders for path in folder.rglob("*.*")] + [path for path in (ROOT / "bench").glob("*.*")]
    for path in files + list(CRATES.glob("*/*.h")):
        there.update(re.findall(r"\w+", path.stem + " " + path.read_text(errors="replace")))
    there.update(NAMES)
    for name in NAMED:
        path = ROOT / "docs" / name
        if not path.exists():
            continue
        for word in sorted(set(re.findall(r"`([\w.:/]+)`", path.read_text()))):
            for part in re.findall(r"\w+", word):
                if part not in there:
                    yield f"docs/{name}: no source has {word}"


def links():
    for path in DOCS:
        for link in re.findall(r"\]\(([^)#\s]+)(?:#[^)]*)?\)", path.read_text()):
            if "://" not in link and not (path.parent / link).exists():
                yield f"{path.relative_to(ROOT)}: no file {link}"


def main():
    check = sys.argv[1:] == ["--check"]
    if sys.argv[1:] and not check:
        sys.exit("bench/lists.py [--check]")
    definitions = Definitions()
    wrong, told = [], []
    for path in DOCS:
        text = path.read_text()

        def fresh(found):
            words = found.group(3).split()
            if found.group(2) == "crates":
                told.extend(words)
            return found.group(1) + "\n" + "\n".join(KINDS[found.group(2)](definitions, words)) + "\n\n" + found.group(5)

        made = LIST.sub(fresh, text)
        if made != text and check:
            wrong.append(f"{path.relative_to(ROOT)}: a list is old (bench/lists.py makes it)")
        elif made != text:
            path.write_text(made)
    listed = [name for name in NAMES if not name.endswith("_tests")]
    if sorted(told) != sorted(listed):
        wrong.append(f"lists of crates and crates.txt differ: {sorted(set(told) ^ set(listed))}")
    wrong += list(trust(definitions)) + list(names()) + list(links())
    for line in wrong:
        print(line)
    sys.exit(1 if wrong else 0)


if __name__ == "__main__":
    main()
