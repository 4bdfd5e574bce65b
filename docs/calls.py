#!/usr/bin/env python3
"""Makes the tables of docs/CALLS.md from the sources and from the READMEs of the crates: of each call that a library crate
exports what else it may return instead of its result, the state after that, whether it may wait and whether it may run
out of memory. The text above the tables is written by hand, and each clause that it names has to exist.

A call may wait if it or its block has the bound `Wait`. It may run out of memory if its result can report that. The state
after a refusal is described by the sentences that the README has for the clauses on a refusal. A call without an argument
that it could change leaves everything unchanged.

usage: docs/calls.py          writes docs/CALLS.md
       docs/calls.py --check  writes nothing, and ends with status 1 if the page is stale
Both end with status 1 if a clause that the page names doesn't exist, or a crate, call or type that this script names.
"""
import pathlib
import re
import sys

import readmes
from readmes import CALL, CLAUSE, ROOT, block_name, crates, exports, lines_of

PAGE = ROOT / "docs" / "CALLS.md"
MARK = "<!-- what follows is made by docs/calls.py -->"
APART = {"example_sessions", "worked_examples", "device_tests", "office_tests", "file_tests", "leireg", "leireg_lines"}
VARIANT = re.compile(r"^    (\w+)(?:\((.*)\)|(?: \{.*)?),?$")
# The types of results whose variants say how a call ended.
OUTCOMES = [
    "http_heads.HeadRead", "issuer_http.Ended", "issuer_http.HttpRead", "lei_outside.Came",
    "lei_records.Readied", "lei_records.Seen", "leireg_serve.DeskEnd", "register_judge.JudgeStop",
    "relation_rules.Checked", "request_loop.Ended", "successor_rules.Walked", "upload_ledger.Place",
]
# The state after a call that may be refused and has an argument that it could change: the clauses of its README on it.
LEFT = {
    "lei_values.Texts::push": "err",
    "lei_outside.Link::read": "bytes written write_count",
    "lei_outside.Link::write": "bytes left read_count",
    "lei_outside.send_all": "front failed left read_count",
    "lei_outside.Sink::write": "bytes",
    "lei_outside.write_all": "front failed",
    "lei_outside.Source::read": "bytes",
    "lei_outside.Door::next": "lines out back",
    "lei_keeper.Keeper::last": "same crash",
    "lei_keeper.Keeper::entries": "same crash",
    "lei_keeper.Keeper::cells": "same crash",
    "lei_keeper.Keeper::commit": "tables crash",
    "keeper_sqlite.Cause::note": "",
    "keeper_sqlite.SqliteKeeper::into_connection": "—",
    "request_loop.Answers::answer": "—",
    "request_loop.Framing::front": "—",
    "request_loop.Framing::last": "—",
    "request_loop.Framing::send": "sent left read_count holds waiting",
    "request_loop.Framing::send_refused": "sent left read_count holds",
    "request_loop.serve": "serves reads writes",
    "request_loop.Wire::read": "bytes written write_count",
    "request_loop.Wire::write": "bytes left read_count",
    "request_loop.send_piece": "sent left read_count",
    "register_words.Refusal::number": "—",
    "lei_records.FieldTexts::push": "err",
    "lei_records.Printed::push": "",
    "item_fields.Fields::with": "",
    "cell_reads.note_needs": "",
    "fetched_cells.Fetched::copy_cell": "err",
    "register_table.Table::apply": "err",
    "upload_format.Reader::read_ready": "—",
    "upload_ledger.Ledger::reserve": "unchanged",
    "copy_csv.Reader::line": "read",
    "copy_csv.read_row": "read",
    "copy_csv.put_row": "",
    "copy_csv.Ends::push": "kept",
    "copy_csv.Texts::push": "kept",
    "worker_pool.map_list": "steps",
    "name_search.folded": "steps",
    "name_search.Index::open": "steps",
    "name_search.Index::take": "err steps",
    "lei_mirror.Mirror::take": "err",
    "turnstile.Turnstile::open": "back",
    "turnstile.Turnstile::enter": "turn",
    "turnstile.Turnstile::meet": "first second",
    "golden_shelf.Shelf::publish": "err steps",
    "http_heads.put_head": "",
    "register_state.Register::answer": "step kept crash",
    "register_state.Register::settle": "step kept crash",
    "register_state.Register::replay": "stays",
    "lei_office.Office::open": "back back_crash",
    "lei_office.Office::answer": "step kept crash",
    "lei_office.Office::settle": "step kept crash",
    "lei_hall.Hall::open": "back",
    "lei_hall.Hall::ask": "—",
    "lei_hall.Hall::look": "—",
    "lei_hall.Hall::submit": "—",
    "lei_hall.Hall::put": "—",
    "lei_hall.Hall::meet": "first second",
    "request_loop.write_pieces": "written",
    "issuer_http.serve_connection": "serves",
    "issuer_http.serve_caller": "serves",
    "issuer_http.send_response": "sent left read_count",
    "issuer_http.serve_alone": "serves",
    "issuer_http.serve_with": "serves",
    "register_demo.demo": "same",
    "line_reading.WriteBuffer::flush": "sent left read_count",
    "line_reading.put_all": "puts left read_count",
    "search_queries.serve_queries": "serves reads writes",
    "file_commands.check": "tells",
    "file_commands.digits": "tells",
    "file_commands.apply": "applies reads writes",
    "file_commands.search": "searches reads writes",
    "file_commands.group": "reports reads writes",
    "file_commands.tell_text": "tells",
    "mirror_queries.serve_mirror": "serves reads writes",
    "file_commands.mirror": "mirrors reads writes",
    "line_service.run_lines": "unopened runs reads writes",
    "leireg_run.run": "untouched unopened does reads writes",
    "leireg_run.run_command": "unkept",
    "leireg_serve.serve_desk": "—",
    "leireg_serve.serve": "unserved unkept serves",
}
NAMED = re.compile(r"`([\w:]+)`: (—|`\w+`(?:, `\w+`)*)")


class Call:
    """An exported call: its name, the line that opens its block, and its signature, without its clauses."""

    def __init__(self, name, block, line):
        self.name, self.block, self.signature, self.is_open = name, block, line, True

    def add(self, line):
        self.is_open = self.is_open and not CLAUSE.match(line)
        if self.is_open:
            self.signature += " " + line.strip()

    @property
    def answer(self):
        """The type of the result, as it is written there."""
        rest = self.signature[self.signature.index(f"fn {self.name.rsplit('::')[-1]}"):]
        depth, start = 0, None
        for at, letter in enumerate(rest):
            depth += (letter in "(<[") - (letter in ")]" or letter == ">" and rest[at - 1] not in "-=")
            if depth == 0 and rest[at:at + 2] == "->":
                start = at + 2
                break
        return re.split(r" where\b| \{|;$", rest[start:])[0].strip() if start else ""

    @property
    def waits(self):
        return bool(re.search(r"\bWait\b", self.block + self.signature))

    @property
    def lends(self):
        """Whether it has an argument that it could change."""
        return "&mut" in self.signature or bool(re.search(r"\((?:mut )?self\b", self.signature))


def calls_of(crate):
    """The calls that a crate exports, in the order of its sources."""
    folder = ROOT / "crates" / crate / "src"
    source = (folder / "lib.rt").read_text()
    named, whole = exports(source)
    types = set().union(*named.values()) if named else set()
    for module in ["lib", *re.findall(r"^(?:pub )?mod (\w+);", source, re.M)]:
        owner, is_trait, block, call = None, False, "", None
        for line in lines_of(folder, module):
            if re.match(r"impl\b|pub trait\b", line):
                owner, is_trait, block, call = block_name(line), line.startswith("pub trait"), line, None
            elif line == "}":
                owner, block, call = None, "", None
            elif found := CALL.match(line):
                inside, public, name = found.groups()
                holder = owner if inside else name
                shown = holder and (module in whole or module == "lib" or holder in (types if inside else named.get(module, ())))
                call = None
                if shown and (public or (inside and is_trait)):
                    call = Call(f"{owner}::{name}" if inside else name, block if inside else "", line.strip())
                    yield call
                    call = None if line.endswith((";", "{")) and not CLAUSE.match(line) else call
            elif call and (line.strip() in ("{", "{}") or line.startswith(") -> ") and line.endswith(" {")):
                call = None
            elif call:
                call.add(line)
                if line.endswith(";"):
                    call = None


def variants(crate):
    """The variants of each enum of a crate, each with what it holds."""
    found = {}
    for path in sorted(ROOT.glob(f"crates/{crate}/src/**/*.rt")):
        for name, body in re.findall(r"^pub enum (\w+)(?:<[^{]*>)? \{\n(.*?)^\}", path.read_text(), re.M | re.S):
            found[name] = [match.groups(default="") for line in body.splitlines() if (match := VARIANT.match(line))]
    return found


def enums_in_scope(crate):
    """The enums that the calls of a crate may name: its own, and those of the crates that it uses. Each is under its bare
    name, with the name of its crate before it and its variants."""
    uses = {}
    for row in (ROOT / "crates.txt").read_text().splitlines():
        name, _, below = row.partition(":")
        uses[name.split()[0]] = below.split()
    found = {}
    for owner in [*(name for name in uses[crate] if name in uses), crate]:
        found |= {name: (f"{owner}.{name}", held) for name, held in variants(owner).items()}
    return found


def says_no_memory(kind, enums, seen=()):
    """Whether a value of this type can say that memory ran out."""
    for name in re.findall(r"\w+", kind):
        if name in ("NoMemory", "AllocError"):
            return True
        if name in enums and name not in seen:
            if any(variant == "NoMemory" or says_no_memory(held, enums, (*seen, name)) for variant, held in enums[name][1]):
                return True
    return False


def refusals(call, enums):
    """What a call may return instead of its result, except for lack of memory."""
    if re.match(r"Option<", call.answer):
        return ["None"]
    # What a list holds says nothing of how the call ended.
    for name in re.findall(r"\w+", re.sub(r"\bVec<\w+>", "", call.answer)):
        if name in enums and enums[name][0] in OUTCOMES:
            return [variant for variant, _ in enums[name][1] if variant != "NoMemory"]
    if not (found := re.match(r"(?:\(.*, )?(?:io::)?Result<.*, ([^,]+?)>\)?$", call.answer)):
        return []
    kind = re.match(r"(?:\w+::)*(\w+)", found[1])
    if kind[1] in enums:
        return [variant for variant, _ in enums[kind[1]][1] if variant != "NoMemory"]
    return [kind[1]] if kind[1] == "Failed" else []


def may_lack_memory(call, enums):
    """Whether the result can report that memory ran out, by a status or by returning the arguments."""
    return says_no_memory(call.answer, enums) or "u8" in call.answer and "alloc" in call.signature or bool(
        re.search(r", (T|Office<K>|u8)>$", call.answer))


def sentences(crate):
    """The sentence of the README for each clause of each call."""
    page = ROOT / "crates" / crate / "README.md"
    rows = [readmes.ROW.match(line) for line in page.read_text().splitlines()]
    return {(row[1], row[2]): row[3] for row in rows if row}


def row_of(crate, call, enums, said):
    """The row of a call that may return something else, wait or run out of memory. Otherwise nothing."""
    others, memory = refusals(call, enums), may_lack_memory(call, enums)
    if not (others or memory or call.waits):
        return None
    named = LEFT.get(f"{crate}.{call.name}")
    if named is None and call.lends and (others or memory):
        raise SystemExit(f"docs/calls.py has no state after {call.name} of {crate}")
    if named:
        left = " ".join(with_links(crate, said[call.name, name if name == "—" else f"`{name}`"]) for name in named.split())
    else:
        left = "no clause says" if call.lends else "no argument can change"
    others = ", ".join(f"`{name}`" for name in others) or "—"
    return f"| `{call.name}` | {others} | {left} | {'yes' if call.waits else 'no'} | {'yes' if memory else 'no'} |"


def tables():
    """The tables of all crates."""
    lines = []
    for crate in crates():
        calls = [] if crate in APART else list(calls_of(crate))
        if not calls:
            continue
        said, enums = sentences(crate), enums_in_scope(crate)
        rows = {call.name: row_of(crate, call, enums, said) for call in calls}
        lines += ["", f"### [`{crate}`](../crates/{crate}/README.md)", ""]
        if any(rows.values()):
            lines += ["| Call | Other results | State after these | May wait | May run out of memory |", "|---|---|---|---|---|"]
            lines += [row for row in rows.values() if row] + [""]
        plain = [f"`{name}`" for name, row in rows.items() if not row]
        if plain:
            lines.append(f"These calls never wait, and the types of their results report neither a refusal nor lack of memory: {', '.join(plain)}.")
    return lines


def with_links(crate, text):
    """A sentence of a crate's README, with its links as they are from docs/."""
    def moved(found):
        target = found[1]
        return f"](../crates/{target[3:]})" if target.startswith("../") else f"](../crates/{crate}/{target})"
    return re.sub(r"\]\(([^)]+)\)", moved, text)


def dead_names():
    """What this script says of crates, calls and types that aren't there."""
    there = [crate for crate in crates() if crate not in APART]
    calls = {f"{crate}.{call.name}" for crate in there for call in calls_of(crate)}
    types = {f"{crate}.{name}" for crate in crates() for name in variants(crate)}
    yield from (f"there is no crate {name}" for name in sorted(APART - set(crates())))
    yield from (f"there is no call {name}" for name in LEFT if name not in calls)
    yield from (f"there is no type {name}" for name in OUTCOMES if name not in types)


def main():
    if sys.argv[1:] not in ([], ["--check"]):
        print(__doc__, file=sys.stderr)
        return 2
    page = PAGE.read_text()
    above = page[:page.index(MARK)]
    known = {row for crate in crates() for row in readmes.rows_of(crate)}
    named = [(call, clause) for call, clauses in NAMED.findall(above) for clause in clauses.split(", ")]
    faults = [f"docs/CALLS.md: {call} has no clause {clause}" for call, clause in named if (call, clause) not in known]
    faults += [f"docs/calls.py: {fault}" for fault in dead_names()]
    made = above + MARK + "\n" + "\n".join(tables()) + "\n"
    if sys.argv[1:]:
        faults += ["docs/CALLS.md is stale: run docs/calls.py"] * (made != page)
    else:
        PAGE.write_text(made)
    for fault in faults:
        print(fault, file=sys.stderr)
    return 1 if faults else 0


if __name__ == "__main__":
    sys.exit(main())
