"""What docs/SCOPE.md and docs/CLAIMS.md say, and where the names that they cite are defined: for tools/check-claims and tools/trace."""

import re
from collections import namedtuple
from pathlib import Path

ROOT = Path(__file__).resolve().parent.parent
CRATES = ROOT / "crates"
FURTHER = ROOT / "tests" / "edits"
SCOPE = ROOT / "docs" / "SCOPE.md"
CLAIMS = ROOT / "docs" / "CLAIMS.md"

QUOTE = re.compile(r"`([^`]+)`")
# An edit: *name* of a crate of its row, or *crate/name*; with a dagger it is one of tests/edits.
EDIT = re.compile(r"(?<!\*)\*((?:\w+/)?[a-z0-9_]+)\*(?!\*)(†?)")

SECTION = re.compile(r"^## (\d+)\. (.*)$")
PROMISE = re.compile(r"^(?:- |\| )\*\*(\d+\.\d+)\*\* (.*)$")
ROW = re.compile(r"^\| (\d+\.\d+) \| (.*) \| (.*) \| (.*) \|$")
CALL_ROW = re.compile(r"^\| `(?:(\w+)::)?(\w+)` \| ([\d.]+) \| (.*) \| (.*) \| (.*) \|$")

# A row of the claims: its line, a number of the scope, and three cells. Of a public call: its crate and its name, and a section of the scope.
Row = namedtuple("Row", "line number stated files edits")
CallRow = namedtuple("CallRow", "line crate call section cites files edits")

C_CRATE = "capi"


# ---- the documents


def promises_of(text):
    """The numbers of the scope in their order, each with its text in one line; and the sections with their titles."""
    promises, sections, number = {}, {}, None
    for line in text.splitlines():
        section, promise = SECTION.match(line), PROMISE.match(line)
        if section:
            sections[section[1]], number = section[2], None
        elif promise:
            number = promise[1]
            promises.setdefault(number, []).append(promise[2].strip("| "))
        elif number and line.startswith("  "):
            promises[number].append(line.strip())
        else:
            number = None
    return {n: " ".join(words) for n, words in promises.items()}, sections


def rows_of(text):
    """The rows of the claims: those of the scope's numbers, and those of the public calls."""
    rows, calls = [], []
    for place, line in enumerate(text.splitlines(), 1):
        row, call = ROW.match(line), CALL_ROW.match(line)
        if row:
            rows.append(Row(place, *(cell.strip() for cell in row.groups())))
        elif call:
            calls.append(CallRow(place, call[1] or C_CRATE, *(cell.strip() for cell in call.groups()[1:])))
    return rows, calls


def paths_of(cell):
    """The paths of a cell with files. A file without a folder stands in the folder of the path before it. If a path begins with a folder of a crate,
    the crate is that of the path before it."""
    paths = []
    for quoted in QUOTE.findall(cell):
        is_code = quoted.endswith((".antt", ".rt")) and paths
        if is_code and "/" not in quoted:
            quoted = str(Path(paths[-1]).parent / quoted)
        elif is_code and quoted.startswith(("src/", "specs/", "proofs/")):
            quoted = f"{paths[-1].split('/')[0]}/{quoted}"
        paths.append(quoted)
    return paths


def cell_of(paths):
    """A cell with these paths, in the short form."""
    short, before = [], ""
    for path in paths:
        is_code = path.endswith((".antt", ".rt"))
        if is_code and Path(path).parent == Path(before).parent:
            short.append(Path(path).name)
        elif is_code and path.split("/")[0] == before.split("/")[0]:
            short.append(path.partition("/")[2])
        else:
            short.append(path)
        before = path
    return ", ".join(f"`{path}`" for path in short)


def resolve(path):
    """The file or folder that a path names, from crates/ or from the root."""
    return next((base / path for base in (CRATES, ROOT) if (base / path).exists()), None)


# ---- the crates

# What starts a definition. The first group is the name; a block's members stand below it, indented.
ANTT_BLOCK = re.compile(r"(?:pub )?(?:record|data) (\S+)")
ANTT_NAME = re.compile(r"(?:(?:unfoldable|abbrev) )?(?:pub )?(\S+) :")
RT_BLOCK = re.compile(r"(?:pub(?:\(\w+\))? )?(?:struct|enum|impl)(?:<[^>]*>)? (\w+)")
RT_NAME = re.compile(r'(?:pub(?:\(\w+\))? )?(?:extern "C" )?(?:fn|const|mod|type) (\w+)')
RT_MEMBER = re.compile(r"    (?:pub(?:\(\w+\))? )?(?:fn )?(\w+)\s*(?:[(:,{]|$)")


def defined_in(path):
    """The names that a file defines, each with its line. A member of a block is there as block.member, and in Rattle as itself too."""
    lines, block, antt = {}, None, path.suffix == ".antt"
    for number, line in enumerate(path.read_text().splitlines(), 1):
        line = line.replace("«", "").replace("»", "")
        if line and not line.startswith((" ", "}", ")")):
            start = (ANTT_BLOCK if antt else RT_BLOCK).match(line)
            name = start or (ANTT_NAME if antt else RT_NAME).match(line)
            block = start and start[1]
            if name:
                lines.setdefault(name[1], number)
        elif block:
            member = ANTT_NAME.match(line[2:]) if antt else RT_MEMBER.match(line)
            if member:
                lines.setdefault(f"{block}.{member[1]}", number)
                if not antt:
                    lines.setdefault(member[1], number)
    return lines


# A record without parameters, and its fields. A field that is a value names nothing but types, which begin with capital letters; one that is a sentence
# names what it speaks of.
RECORD = re.compile(r"^pub record (\w+) : Type 0 where\n((?:  .*\n?)+)", re.M)
SENTENCE = re.compile(r"^  pub \S+ : .*\b[a-z]", re.M)
# A proof of a record, whose parameters are numbers if it has any.
PROOF = re.compile(r"^pub ([\w-]+) : (\w+)(?: \d+| \([\d ^]+\))*$", re.M)


class Crates:
    """The files of crates/: what they define and prove, and the edits."""

    def __init__(self):
        files = [p for p in sorted(CRATES.rglob("*")) if p.suffix in (".antt", ".rt") and p.name != "Lib.antt"]
        self.defined = {str(p.relative_to(CRATES)): defined_in(p) for p in files}
        self.folders = {}
        for file in self.defined:
            self.folders.setdefault(tuple(file.split("/")[:2]), []).append(file)
        self.names = {p.name for p in CRATES.iterdir()}
        self.statements, self.proofs = set(), {}
        for path in files:
            crate, folder, *_ = path.relative_to(CRATES).parts
            text = path.read_text()
            if folder == "specs":
                self.statements |= {(crate, name) for name, fields in RECORD.findall(text) if SENTENCE.search(fields)}
            elif folder == "proofs":
                for proof in PROOF.finditer(text):
                    line = text.count("\n", 0, proof.start()) + 1
                    self.proofs.setdefault((crate, proof[2]), (proof[1], str(path.relative_to(CRATES)), line))
        self.edits = {(p.parts[-3], p.stem): p for p in sorted(CRATES.glob("*/must-fail/*.edit"))}
        self.further = {(p.parts[-2], p.stem): p for p in sorted(FURTHER.glob("*/*.edit"))}

    def where(self, name, crates):
        """The files of some crates that define a name, each with its line. `f()` is a function, whose contract is meant. Any other name is looked for
        in specs/ first."""
        key = name.removesuffix("()").replace("::", ".")
        for folder in ("src",) if name.endswith("()") else ("specs", "src", "proofs"):
            files = [f for crate in sorted(crates) for f in self.folders.get((crate, folder), ())]
            found = [(f, self.defined[f][key]) for f in files if key in self.defined[f]]
            if found:
                return found
        return []

    def edit(self, name, dagger, crates):
        """The edits that a cell names: pairs of a crate and a name, among those of the run or the further ones."""
        crate, _, label = name.rpartition("/")
        known = self.further if dagger else self.edits
        return [e for e in known if e[1] == label and e[0] in ({crate} if crate else crates)]


def crates_of(cell, crates):
    """The crates that a cell with files names, by a path or by themselves."""
    return {path.split("/")[0] for path in paths_of(cell)} & crates.names


def files_made(row, crates):
    """The cell with files of a row, made anew: the files in which its names are defined, then its paths that are no code."""
    of = crates_of(row.files, crates)
    code = [f for name in QUOTE.findall(row.stated) for f, _ in crates.where(name, of)]
    others = [p for p in paths_of(row.files) if not p.endswith((".antt", ".rt")) and p not in crates.names]
    return cell_of(dict.fromkeys(code + others))
