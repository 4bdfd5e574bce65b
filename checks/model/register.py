"""The register as docs/FORMATS.md describes it: each line of bytes gets a reply, as a status code and a text in bytes."""
import re

from checks.common.inputs import compact
from checks.model import bodies, tables
from checks.model.fields import day, is_lei, moment_text

LONGEST_LINE, LONGEST_BODY = 4_194_340, 4_194_304
MOST_ENTRIES, MOST_BYTES = 10_000_000, 2_147_483_648
BASES = {"last-day": 1, "last-week": 7, "last-month": 31}
FORMS = ("csv", "json")


def lines_of(data):
    """The lines of an input without their ends, and those that are empty left out."""
    *ended, rest = data.split(b"\n")
    return [line for line in [*(line[:-1] if line.endswith(b"\r") else line for line in ended), rest] if line]


def is_number(text):
    return re.fullmatch("[1-9][0-9]{0,6}", text) is not None and int(text) <= 1_000_000


class Refusal(Exception):
    """A reply that changes nothing: its status code and its text."""


class Register:
    """A register that is empty at first. The numbers of entries, bytes and records that it can hold may be lowered."""

    def __init__(self, most_entries=MOST_ENTRIES, most_bytes=MOST_BYTES, most_records=500_000):
        self.most_entries, self.most_bytes = most_entries, most_bytes
        self.table = tables.Table(most_records)
        self.entries = self.kept_bytes = 0
        self.last_moment = None
        self.issuers = {}  # The answer to the accreditation of each issuer, and its uploads: their bodies and answers.
        self.publications = []  # Each with its answer.
        self.routes = {
            b"ACCREDIT": (self.accredit, [is_lei]),
            b"UPLOAD": (self.upload, [is_lei, is_number]),
            b"KEPT": (self.kept, [is_lei, is_number]),
            b"PUBLISH": (self.publish, [is_number]),
            b"SHOW": (self.show, [is_lei]),
            b"COPY": (self.copy, [tables.SHEETS.__contains__, FORMS.__contains__]),
            b"DELTA": (self.delta, [lambda base: is_number(base) or base in BASES, tables.SHEETS.__contains__,
                                    FORMS.__contains__]),
            b"STATUS": (self.status, []),
        }

    def answer(self, line, moment):
        """The reply to a line that isn't empty, at a moment in seconds since 1970."""
        try:
            return self.take(line, moment)
        except Refusal as refusal:
            status, text = refusal.args
            return status, text.encode()

    def take(self, line, moment):
        if len(line) > LONGEST_LINE:
            raise Refusal(413, "TOO_LONG")
        word, *words = line.split(b" ", 3) if line.startswith(b"UPLOAD ") else line.split(b" ")
        if word not in self.routes:
            raise Refusal(404, "NO_ROUTE")
        call, shapes = self.routes[word]
        body = [words.pop()] if word == b"UPLOAD" and len(words) == 3 else []
        words = [each.decode(errors="replace") for each in words]
        if len(words) != len(shapes) or word == b"UPLOAD" and not body or \
                not all(has_shape(each) for has_shape, each in zip(shapes, words)):
            raise Refusal(400, "PATH")
        return call(moment, *words, *body)

    def make_entry(self, moment, size=0):
        """Makes the next entry, unless the register is full. Its moment isn't before that of the last one."""
        if self.entries >= self.most_entries or self.kept_bytes + size > self.most_bytes:
            raise Refusal(507, "LEDGER_FULL")
        self.entries += 1
        self.kept_bytes += size
        self.last_moment = moment if self.last_moment is None else max(moment, self.last_moment)

    def accredit(self, moment, issuer):
        if issuer not in self.issuers:
            self.make_entry(moment)
            self.issuers[issuer] = compact({"entry": self.entries, "issuer": issuer}), []
        return 200, self.issuers[issuer][0]

    def uploads_of(self, issuer):
        if issuer not in self.issuers:
            raise Refusal(404, "ISSUER_UNKNOWN")
        return self.issuers[issuer][1]

    def upload(self, moment, issuer, number, body):
        if len(body) > LONGEST_BODY:
            raise Refusal(413, "TOO_LONG")
        uploads, number = self.uploads_of(issuer), int(number)
        if number <= len(uploads):
            kept_body, answer = uploads[number - 1]
            if body != kept_body:
                raise Refusal(409, "NUMBER_TAKEN")
            return 200, answer
        if number > len(uploads) + 1:
            raise Refusal(409, f"NUMBER_AHEAD {len(uploads) + 1}")
        items = bodies.read(body)
        if isinstance(items, str):
            raise Refusal(400, f"MALFORMED {items}")
        self.make_entry(moment, len(body))
        today = day(moment_text(self.last_moment))
        verdicts = [self.table.judge(kind, item, issuer, today) for kind, item in items]
        answer = compact({"entry": self.entries, "issuer": issuer, "items": verdicts, "number": number})
        uploads.append((body, answer))
        return 200, answer

    def kept(self, _, issuer, number):
        uploads = self.uploads_of(issuer)
        if int(number) > len(uploads):
            raise Refusal(404, "NOT_KEPT")
        return 200, uploads[int(number) - 1][1]

    def publish(self, moment, number):
        number = int(number)
        if number > len(self.publications) + 1:
            raise Refusal(409, f"NUMBER_AHEAD {len(self.publications) + 1}")
        if number > len(self.publications):
            self.make_entry(moment)
            made = tables.Publication(number, self.last_moment, self.table)
            counts = {sheet: len(made.sheets[kind]) for sheet, kind in tables.SHEETS.items()}
            self.publications.append((made, compact({"contentDate": moment_text(made.moment), "entry": self.entries,
                                                     "publication": number, **counts})))
        return 201, self.publications[number - 1][1]

    def show(self, _, lei):
        if lei not in self.table.records:
            raise Refusal(404, "LEI_UNKNOWN")
        return 200, compact(self.table.records[lei])

    def latest(self):
        if not self.publications:
            raise Refusal(404, "NOTHING_PUBLISHED")
        return self.publications[-1][0]

    def copy(self, _, sheet, form):
        return 200, tables.copy(self.latest(), sheet, form)

    def delta(self, _, base, sheet, form):
        latest, made = self.latest(), [publication for publication, _ in self.publications]
        if base in BASES:
            fit = [each for each in made if each.moment <= latest.moment - 86_400 * BASES[base]]
        else:
            fit = [each for each in made if each.number == int(base)]
        if not fit:
            raise Refusal(404, "NO_BASE" if base in BASES else "PUBLICATION_UNKNOWN")
        return 200, tables.delta(fit[-1], latest, sheet, form)

    def status(self, _):
        return 200, compact({
            "entries": self.entries, "exceptions": len(self.table.exceptions), "issuers": len(self.issuers),
            "keptBytes": self.kept_bytes, "publications": len(self.publications), "records": len(self.table.records),
            "relationships": len(self.table.relationships),
        })
