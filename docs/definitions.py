#!/usr/bin/env python3
"""Makes docs/DEFINITIONS.md from the definitions in crates/*/specs that the contracts of the public calls reach, and from
their comments, which have the words of each rule.

The public calls are what the crates in CALLS export: their functions, the methods of their types and their traits. A
definition is reached if such a contract names it, or if the text of a reached definition does.

usage: docs/definitions.py          writes docs/DEFINITIONS.md
       docs/definitions.py --check  writes nothing, and ends with status 1 if the page is stale
Both end with status 1 if a public definition has no comment, and name it. A page of fewer definitions than `LEAST` doesn't
pass, and neither does a crate in `CALLS` that isn't there.
"""
import pathlib
import re
import sys

from readmes import crates
from theorem import FUNCTIONS

ROOT = pathlib.Path(__file__).resolve().parent.parent
PAGE = ROOT / "docs" / "DEFINITIONS.md"
CALLS = ["lei_values", "lei_outside", "lei_keeper", "memory_devices", "lei_code", "register_history", "delta_apply",
         "program_words", "keeper_sqlite", "lei_office", "lei_hall", "issuer_http", "line_service", "leireg_run", "leireg_serve"]
LEAST = 1200
# What the definitions of each crate are about.
SUBJECTS = {
    "replies and the history": ["register_words", "upload_format", "upload_ledger", "answer_texts", "register_table",
                                "register_history"],
    "the rules of items": ["lei_code", "lei_shapes", "lei_records", "item_fields", "status_rules", "authority_rules",
                           "successor_rules", "relation_rules", "register_judge"],
    "the store": ["lei_values", "lei_keeper", "register_state", "lei_office"],
    "files of copies": ["copy_csv", "copy_forms", "golden_shelf", "delta_apply", "name_search", "lei_mirror",
                        "group_reports", "query_reading", "search_queries", "mirror_queries", "file_commands", "register_demo"],
    "lines and the program": ["lei_outside", "request_loop", "line_reading", "line_service", "program_words", "leireg_run"],
    "many callers and HTTP": ["turnstile", "lei_hall", "http_heads", "issuer_http", "leireg_serve"],
}
HEAD = """# Definitions

The definitions that the contracts of the public calls reach, crate by crate, from the lowest up, each with its type. The public calls are those of {calls}. The page is made by `docs/definitions.py` from the comments in `crates/*/specs`, which are right above the definitions: change them there. `docs/definitions.py --check` reports whether the page is stale. What is defined for parts of the program alone, or for proofs, isn't here.

A star marks the definitions that the contracts of the five functions of [THEOREM.md](THEOREM.md) reach: who believes these knows what the program promises. They stand in these files, with so many lines without comments:
"""
HEADS = re.compile(r"^(?:(?:abbrev|unfoldable|opaque) )?(?P<pub>pub )?(?:(?:record|data) )?(?P<name>[^\s(:]+)(?P<rest>.*)$")
DECLARES = re.compile(r"^(?:abbrev|unfoldable|opaque|pub|record|data)\b")
SKIPPED = re.compile(r"^(?:pub )?(?:mod|use|infix\w*) ")
IMPORT = re.compile(r"(?:ghost )?use Rattle\.(\w+)\.specs\.(\w+)(?:\.\{([^}]*)\}| as (\w+))?;?$")
OPENS = re.compile(r"^\s*\{(\}| .*)?$|^.*\) (-> .*)?\{(\}| .*)?$|^.*;$")
WORD = re.compile(r"[^\s(){}\[\];,→×≡≢⊎∷≤<¬+=|&]+")


def signature(name, rest, following):
    """A name with its type, or a record's name with its parameters. Both may continue in indented lines, a record's up to `where`."""
    parts = [rest]
    indent = "    " if rest.lstrip().startswith(":") else "  "
    for line in following if not rest.endswith(" where") else []:
        if not line.startswith(indent):
            break
        parts.append(line)
        if line.endswith("where"):
            break
    text = " ".join(part.strip() for part in parts).strip()
    return f"{name} {text}".removesuffix(" : Type 0 where").removesuffix(" where")


class Imports:
    """The definitions that a file names by its own words: one by one, or after the name of a module."""

    def __init__(self, lines):
        self.names, self.modules = {}, {}
        for line in lines:
            found = IMPORT.match(line.strip())
            if found:
                crate, module, names, alias = found.groups()
                for name in (names or "").split(","):
                    name, _, other = name.strip().partition(" as ")
                    if name:
                        self.names[other or name] = (crate, module, name)
                if names is None:
                    self.modules[alias or module] = (crate, module)

    def reached(self, text):
        """The definitions that a text names."""
        for word in set(WORD.findall(text)):
            module, dot, name = word.partition(".")
            if word in self.names:
                yield self.names[word]
            elif dot and module in self.modules:
                yield (*self.modules[module], name.split(".")[0])
            elif dot and module in self.names:
                yield self.names[module]
        for name, place in self.names.items():
            if name.startswith("◌") and name.strip("◌") in text:
                yield place


class Spec:
    """A file of definitions: what it is about, and its parts in order, each a title or a definition with its comment."""

    def __init__(self, crate, module):
        self.place = (crate, module)
        lines = (ROOT / "crates" / crate / "specs" / f"{module}.antt").read_text().splitlines()
        self.imports = Imports(lines)
        self.head, self.parts, self.texts, self.bare = None, [], {}, []
        comment, current = [], None
        for at, line in enumerate(lines):
            if line.startswith("-- ---- "):
                self.parts.append((None, None, line[len("-- ---- "):]))
                comment = []
                continue
            if line.startswith("--"):
                comment.append(line[2:].strip())
                continue
            if self.head is None and comment:
                self.head, comment = " ".join(comment), []
            if DECLARES.match(line) and not SKIPPED.match(line):
                found = HEADS.match(line)
                current = found["name"]
                if found["pub"]:
                    told = signature(current, found["rest"], lines[at + 1:])
                    self.parts.append((current, told, " ".join(comment)))
                    if not comment:
                        self.bare.append(current)
            if current and line:
                self.texts[current] = self.texts.get(current, "") + "\n" + line
            comment = []
        self.head = self.head or ""

    def reached(self, name):
        text = self.texts.get(name, "")
        for word in set(WORD.findall(text)):
            if word in self.texts and word != name:
                yield (*self.place, word)
        for other in self.texts:
            if other.startswith("◌") and other.strip("◌") in text and other != name:
                yield (*self.place, other)
        yield from self.imports.reached(text)


# ---- the public calls


def exported(crate):
    """The names that a crate gives out."""
    names = set()
    for inner in re.findall(r"(?s)pub use ([^;]*);", (ROOT / "crates" / crate / "src" / "lib.rt").read_text()):
        names.update(re.findall(r"\w+", inner))
    return names


def contracts(crate):
    """The texts of the contracts of what a crate gives out, each with the imports of its file."""
    names = exported(crate)
    for file in sorted((ROOT / "crates" / crate / "src").rglob("*.rt")):
        lines = file.read_text().splitlines()
        imports = Imports(lines)
        owner = None
        for at, line in enumerate(lines):
            if line.startswith(("impl", "pub trait")):
                words = re.findall(r"\w+", re.sub(r"<[^{]*?>(?= |\()", "", line.split(" for ")[-1]))
                owner = next((word for word in words if word in names), None)
                if owner and (line.startswith("pub trait") or " for " in line):
                    end = next((to for to in range(at, len(lines)) if lines[to] == "}"), len(lines))
                    text = "\n".join(row for row in lines[at:end] if "use Rattle" not in row)
                    yield "\n".join(re.findall(r"(?m)^.*(?:ghost|requires|ensures|→|≡).*$", text)), imports
            elif line == "}":
                owner = None
            elif found := re.match(r"( *)pub fn (\w+)", line):
                if owner or (not found[1] and found[2] in names):
                    end = next(to for to in range(at, len(lines)) if OPENS.match(lines[to]))
                    yield "\n".join(lines[at:end]), imports


def theorem_contracts():
    """The texts of the contracts of the functions of docs/THEOREM.md, each with the imports of its file."""
    for function, path in FUNCTIONS.items():
        lines = (ROOT / path).read_text().splitlines()
        at = next(at for at, line in enumerate(lines) if re.match(rf"\s*pub fn {function}\b", line))
        end = next(to for to in range(at, len(lines)) if OPENS.match(lines[to]))
        yield "\n".join(lines[at:end]), Imports(lines)


def reached(specs, texts):
    """The definitions that these contracts reach."""
    todo = [place for text, imports in texts for place in imports.reached(text)]
    seen = set()
    while todo:
        place = todo.pop()
        spec = specs.get(place[:2])
        if place not in seen and spec and place[2] in spec.texts:
            seen.add(place)
            todo += spec.reached(place[2])
    return seen


# ---- the page


def subject_of(crate):
    return next((subject for subject, names in SUBJECTS.items() if crate in names), None)


def reading_list(specs, order, seen):
    """The crates with these definitions, by what they are about, with the lines of the definitions in each file."""
    lines, total = ["| About | Crate | Files, each with its lines | Lines |", "|---|---|---|---|"], 0
    for subject, names in SUBJECTS.items():
        for crate in names:
            counts = {module: sum(spec.texts[name].count("\n") for name in spec.texts if (crate, module, name) in seen)
                      for module, spec in ((module, specs[crate, module]) for of, module in order if of == crate)}
            files = ", ".join(f"{module} {count}" for module, count in counts.items() if count)
            if files:
                lines.append(f"| {subject} | `{crate}` | {files} | {sum(counts.values()):,} |")
                subject, total = "", total + sum(counts.values())
    return [*lines, f"| in all | | | {total:,} |"]


def table(spec, seen, marked):
    rows, lines, title = False, [], None
    for name, told, words in spec.parts:
        if name is None:
            title = words
        elif (*spec.place, name) in seen:
            if title:
                lines += ["", f"*{title[0].upper()}{title[1:]}*"]
                rows, title = False, None
            if not rows:
                lines += ["", "| Definition | In words |", "|---|---|"]
                rows = True
            star = " ★" if (*spec.place, name) in marked else ""
            lines.append(f"| `{told}`{star} | {words} |".replace("||", "\\|\\|"))
    return lines


def page():
    """The page, and what is wrong with what it is made from."""
    specs, order = {}, []
    for crate in crates():
        lib = ROOT / "crates" / crate / "specs" / "Lib.antt"
        for module in re.findall(r"(?m)^pub mod (\S+)", lib.read_text()) if lib.is_file() else []:
            specs[crate, module] = Spec(crate, module)
            order.append((crate, module))
    seen = reached(specs, [each for crate in crates() if crate in CALLS for each in contracts(crate)])
    marked = reached(specs, theorem_contracts())
    lines, last = [HEAD.format(calls=", ".join(f"`{crate}`" for crate in CALLS)), *reading_list(specs, order, marked)], None
    for crate, module in order:
        rows = table(specs[crate, module], seen, marked)
        if rows:
            lines += ["", f"## `{crate}`"] if crate != last else []
            lines += ["", f"### [`{module}.antt`](../crates/{crate}/specs/{module}.antt)", "", specs[crate, module].head, *rows]
            last = crate
    faults = [f"crates/{crate}/specs/{module}.antt: {name} has no words"
              for crate, module in order for name in specs[crate, module].bare]
    faults += [f"docs/definitions.py: there is no crate {crate}" for crate in CALLS if crate not in list(crates())]
    faults += [f"docs/definitions.py: {crate} is about nothing" for crate in sorted({place[0] for place in marked}) if not subject_of(crate)]
    faults += [f"docs/DEFINITIONS.md: {place} is reached by the theorem alone" for place in sorted(marked - seen)]
    faults += [f"docs/DEFINITIONS.md: it has {len(seen)} definitions, and {LEAST} are the least"] * (len(seen) < LEAST)
    return "\n".join(lines) + "\n", faults


def main():
    text, faults = page()
    for fault in faults:
        print(fault, file=sys.stderr)
    if sys.argv[1:] == ["--check"]:
        stale = not PAGE.exists() or PAGE.read_text() != text
        if stale:
            print("docs/DEFINITIONS.md is stale: run docs/definitions.py", file=sys.stderr)
        return 1 if stale or faults else 0
    if sys.argv[1:]:
        print(__doc__, file=sys.stderr)
        return 2
    PAGE.write_text(text)
    return 1 if faults else 0


if __name__ == "__main__":
    sys.exit(main())
