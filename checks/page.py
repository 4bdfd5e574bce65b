"""A person can look things up on the page: in a browser, with a mouse, with the keyboard alone, and on a phone.

The check does fifteen things that a person would do, over a register of entities as they are met in a real one. nginx
serves it with the page and its index from one origin, under a strict policy. What has to be shown is worked out from
what was uploaded, and from docs/FORMATS.md. No error reaches the console, and no request leaves the origin. Each
control has a name, and each is reached with the keyboard. Searches of the page find what `leireg search` finds. A
register of 100,000 records opens within a second. Debian's packages nginx-light, chromium and chromium-driver have to
be there."""
from __future__ import annotations

import datetime
import itertools
import json
import os
import pathlib
import random
import re
import urllib.parse

from checks.common import sample
from checks.common.browsers import Browser
from checks.common.inputs import (ISSUER, TODAY, answer_to_accredit, answer_to_upload, code, compact, record,
                                  relationship)
from checks.common.programs import ROOT, measure, run_command
from checks.common.sample import CODES, NAMES
from checks.common.servers import Server
from checks.common.sites import Published, Site
from checks.models.sheets import Sheet, print_sheet
from checks.searches import MOMENT, QUERIES, ROWS, character, query_of, sheet_of, text_of

# The page, and the folder that its pictures are written to, if any.
PAGE = ROOT / "page"
PICTURES = os.environ.get("LEIREG_PICTURES")
MOST_BYTES = 150_000
COPIES, QUICK_COPIES = 12, 2
LARGE, BATCH = 100_000, 4_000
IS_SHOWN = "return document.getElementById('main')?.getAttribute('aria-busy') === 'false'"
CONTRAST = 4.5
WIDE, PHONE = (1000, 900), (360, 740)
# Roles of the elements that have to have a name.
CONTROLS = {"button", "link", "searchbox", "textbox", "combobox", "tree", "treeitem", "image"}


class Desk:
    """A browser in front of a site, and what is reported of it."""

    def __init__(self, run, browser, site):
        self.run, self.browser, self.site, self.report = run, browser, site, run.report

    def open(self, fragment=""):
        """Opens a view by its address, in a page that is loaded anew."""
        self.browser.open(f"{self.site.origin}/#/{fragment}")
        self.browser.wait_for(IS_SHOWN)

    def go(self, fragment, act, *values):
        """Does something that leads to another view, and waits until that is shown."""
        before = self.browser.run("return performance.getEntriesByName('shown').length")
        act(*values)
        self.browser.wait_for("return performance.getEntriesByName('shown').length > arguments[0] && location.hash === "
                              f"arguments[1] && (() => {{ {IS_SHOWN} }})()", before, f"#/{fragment}")

    def find(self, text, fragment):
        """Asks for a text as a person does: in the field, with the button."""
        self.browser.write("#words", text)
        self.go(fragment, self.browser.click, "#finder button")

    def text(self, selector="main"):
        """What a person reads in an element, or nothing if it isn't there."""
        return self.browser.run("return document.querySelector(arguments[0])?.innerText ?? ''", selector)

    def texts(self, selector):
        return self.browser.run("return [...document.querySelectorAll(arguments[0])].map(each => each.innerText)",
                                selector)

    def has(self, what, *texts, selector="main"):
        """Reports whether each of these texts is shown."""
        shown = " ".join(self.text(selector).split())
        self.report.equal(what, [text for text in texts if " ".join(text.split()) not in shown], [])

    def focused(self):
        """The name of the element that has the focus."""
        return self.browser.run("const at = document.activeElement; "
                                "return at.getAttribute('aria-label') ?? at.innerText")

    def end_task(self, name, expected=None):
        """Reports that nothing but what is expected came to the console, and that no request left the origin."""
        messages = [entry["message"] for entry in self.browser.log("browser")]
        self.report.equal(f"{name}: no error reaches the console",
                          [each for each in messages if expected is None or expected not in each], [])
        self.report.equal(f"{name}: no request leaves the origin", self.strangers(), [])

    def picture(self, name):
        """Takes a picture of what is shown, if pictures are asked for."""
        if PICTURES:
            picture = self.browser.picture()
            pathlib.Path(PICTURES, f"page-{name}.png").write_bytes(picture)
            self.report.holds(f"{name}: the picture is small", len(picture) < MOST_BYTES, len(picture))

    def strangers(self):
        """The addresses that were asked for and aren't of the site."""
        return [address for address in self.browser.addresses()
                if not address.startswith((f"{self.site.origin}/", "about:blank"))]


# ---- the register


def ask(server, path):
    """The bytes of a file of the server."""
    status, text = server.ask("GET", path)
    if status != 200:
        raise RuntimeError(f"{path} is answered {status} {text[:100]}")
    return text.encode()


def publish_sample(run, server):
    """Takes the sample register through its publications. Returns them as files, with the indexes."""
    report, numbers, entries = run.report, itertools.count(1), itertools.count(2)
    published = Published(run.folder / "publish", sample.PUBLICATIONS, TODAY)
    report.equal("the issuer is accredited", server.ask("PUT", f"/v1/issuers/{ISSUER}"),
                 (200, answer_to_accredit(1).decode()))
    for publication, uploads in enumerate(sample.all_uploads(), 1):
        for upload in uploads:
            number, entry = next(numbers), next(entries)
            answer = answer_to_upload(entry, number, ["ACCEPTED"] * sum(map(len, upload.values()))).decode()
            report.equal(f"upload {number} is taken",
                         server.ask("PUT", f"/v1/issuers/{ISSUER}/uploads/{number}", compact(upload)), (200, answer))
        status, text = server.ask("PUT", f"/v1/publications/{publication}")
        report.equal(f"publication {publication} is made", (status, json.loads(text)["entry"]), (201, next(entries)))
        bases = [base for base in (publication - 2, publication - 1) if base > 0]
        published.add(lambda path: ask(server, path), publication, bases)
        make_index(run, published)
    return published


def make_index(run, published):
    done = published.make_index(run.program, PAGE)
    run.report.equal("the index is made", (done.returncode, done.stdout, done.stderr), (0, "", ""))


def check_index_runs(run, published):
    """The script of the index does its work once, whatever an earlier run left, and keeps two indexes."""
    index = published.folder / "index"
    run.report.equal("the latest indexes are kept", sorted(each.name for each in index.iterdir()), [".lock", "7", "8"])
    before = times_of(index / "8")
    make_index(run, published)
    run.report.equal("a second run writes nothing", times_of(index / "8"), before)
    files = {path: (index / "8" / path).read_bytes() for path in before}
    (index / "8").rename(index / ".new")
    (index / ".new" / "left.json").write_text("what a killed run left")
    make_index(run, published)
    changed = [path for path in {*files, *times_of(index / "8")}
               if path not in files or (index / "8" / path).read_bytes() != files[path]]
    run.report.equal("what a killed run left is made anew", changed, [])


def times_of(folder):
    """When each file of a folder was written, by its path."""
    return {str(each.relative_to(folder)): each.stat().st_mtime_ns for each in folder.rglob("*.json")}


def final_rows():
    """The rows of the sample register in the end, by table and key."""
    rows = {"records": {}, "relationships": {}, "exceptions": {}}
    for upload in itertools.chain(*sample.all_uploads()):
        for kind, items in upload.items():
            for item in items:
                key = tuple(item.values())[:{"records": 1, "relationships": 3, "exceptions": 2}[kind]]
                rows[kind][key] = item
    return rows


# ---- what a person does


def find_by_name(desk):
    """Finds an entity by parts of its name, and reads its record."""
    desk.open()
    desk.picture("home")
    desk.find("SHIPPING nordhavn", "search/SHIPPING%20nordhavn")
    desk.report.equal("a search finds both names that have the words", sorted(desk.texts(".name a")),
                      ["Nordhavn Shipping A/S", "Nordhavn Shipping A/S, Singapore Branch"])
    desk.has("it says how many", "2 names found, in publication 8.", selector="#status")
    desk.picture("search")
    desk.go(f"lei/{CODES['branch']}", desk.browser.click, ".name a", "Singapore")
    desk.has("the record has its fields in words", "Category Entity.EntityCategory Branch",
             "Country Entity.LegalAddress.Country Singapore (SG)",
             "Validation Registration.ValidationSources Fully corroborated",
             "First registered Registration.InitialRegistrationDate 14 May 2019, 08:30:00 UTC",
             f"Next renewal Registration.NextRenewalDate {renewal_of('branch')}")
    desk.report.equal("the title names it", desk.browser.run("return document.title"),
                      "Nordhavn Shipping A/S, Singapore Branch - Register of legal entities")
    desk.report.equal("and the focus is at its heading", desk.focused(), "Nordhavn Shipping A/S, Singapore Branch")


def renewal_of(word):
    """The moment of the next renewal of an entity, as a person reads it."""
    day = datetime.date.fromisoformat(sample.entity(word)["Registration.NextRenewalDate"][:10])
    return f"{day.day} {day:%B %Y}, 00:00:00 UTC"


def find_by_folded_name(desk):
    """Finds names by words in another case, with other accents or in another script."""
    desk.open()
    for text, word in [("STRASSEN", "tiefbau"), ("i̇zmir ürünleri", "zeytin"), ("ΕΛΛΗΝΙΚΈΣ ΑΛΥΚΈΣ", "alyki"),
                       ("ｋāｐｉｔｉ wind", "kapiti"), ("الواحة", "oasis"), ("東海精密工業株式会社", "kogyo")]:
        desk.find(text, f"search/{urllib.parse.quote(text)}")
        desk.report.equal(f"{text} finds a name", desk.texts(".name a"), [NAMES[word]])
    desk.picture("scripts")
    desk.find("ahoi nordhavn", "search/ahoi%20nordhavn")
    desk.has("a search without a name says so", "No names found", "No legal name has each of these words, whole.")
    desk.find("?!", "search/%3F!")
    desk.has("and so does one without a word", "This text has no word to search for.")


def learn_what_is_wrong(desk):
    """Types wrong codes, and learns what is wrong with each."""
    desk.open()
    for text, *told in [
        ("506700GE1G29325QX36", "has 20 characters, and this text has 19, which is 1 too few"),
        ("506700GE1G29325QX3633", "this text has 21, which is 1 too many"),
        ("506700gE1G29325QX363",
         "Character 7 is wrong: it is “g”, and has to be a digit or one of the capital letters A to Z.",
         "In capitals it is an LEI: 506700GE1G29325QX363"),
        ("506700GE1G29325QX3G3", "Character 19 is wrong: it is “G”, and has to be a digit."),
        ("HWUPKR0MPOU8FGXBT349", "they are 49, and for the 18 characters before them they would have to be 94"),
        # The number with 00 is 100, which leaves 3, and 98 - 3 is 95.
        ("00000000000000000194", "they are 94, and for the 18 characters before them they would have to be 95"),
    ]:
        desk.find(text, f"lei/{text}")
        desk.has(f"{text} isn't an LEI, and the page says why", "This isn't an LEI", *told)
    desk.find("506700GE1G29325QX364", "lei/506700GE1G29325QX364")
    desk.has("the check digits that it would have are shown",
             "they are 64, and for the 18 characters before them they would have to be 63")
    desk.report.equal("the wrong part is marked", desk.texts("mark"), ["64"])
    desk.picture("wrong-code")
    desk.go(f"lei/{ISSUER}", desk.browser.click, ".note a")
    desk.has("and lead to a record", NAMES["issuer"])


def ask_for_unknown(desk):
    """Asks for an LEI that nobody has."""
    desk.open(f"lei/{code(77)}")
    desk.has("an LEI without a record says so", "No record for this LEI", "The register holds no record for this LEI.")
    desk.picture("unknown")


def open_tree_by_keys(desk):
    """Opens a group's tree with the keyboard alone."""
    desk.open(f"lei/{CODES['nordhavn']}")
    press_until(desk, "Open the group")
    desk.go(f"group/{CODES['nordhavn']}", desk.browser.press, "Enter")
    press_until(desk, "Nordhavn Holding")
    for keys, name, items in [("ArrowDown ArrowRight", "Nordhavn Logistik", 6), ("ArrowRight", "Nordhavn Rotterdam", 6),
                              ("ArrowRight", "Nordhavn Rotterdam", 7), ("ArrowRight", "Nordhavn Sadamateenused", 7)]:
        desk.browser.press(*keys.split())
        desk.browser.wait_for("return document.querySelectorAll('[role=treeitem]').length === arguments[0]", items)
        desk.report.equal(f"{keys} leads to {name}", desk.focused()[:len(name)], name)
    seen = desk.browser.run("return [...document.querySelectorAll('[role=treeitem]')].map(item => "
                            "[item.dataset.code, Number(item.getAttribute('aria-level'))])")
    desk.report.equal("the tree has three levels below the root", seen,
                      [[CODES[word], level] for word, level in tree_in_order()])
    desk.picture("group")
    for keys, name in [("ArrowLeft", "Nordhavn Rotterdam"), ("ArrowLeft ArrowLeft", "Nordhavn Logistik"),
                       ("Home", "Nordhavn Holding"), ("End", "Nordhavn Shipping"), ("n", "Nordhavn Holding"),
                       ("End ArrowUp", "Nordhavn Energi")]:
        desk.browser.press(*keys.split())
        desk.report.equal(f"{keys} leads to {name}", desk.focused()[:len(name)], name)
    desk.go(f"lei/{CODES['energi']}", desk.browser.press, "Enter")
    desk.has("Enter shows the record", "Nordhavn Energi AB", "City Entity.LegalAddress.City Helsingborg")


def tree_in_order():
    """The items of the tree of Nordhavn as they are opened, and their levels: children by their LEIs."""
    def below(word, level):
        yield word, level
        if word in ("nordhavn", "logistik", "terminals"):
            for child in sorted((child for child, parent in sample.PARENTS.items() if parent == word), key=CODES.get):
                yield from below(child, level + 1)
    return below("nordhavn", 1)


def press_until(desk, name, most=60):
    """Presses Tab until the focus is at a name."""
    for _ in range(most):
        desk.browser.press("Tab")
        if desk.focused().startswith(name):
            return
    desk.report.equal(f"Tab leads to {name}", desk.focused(), name)


def see_disagreement(desk):
    """Sees that a reported parent isn't the one that the direct parents lead to."""
    desk.open(f"group/{CODES['gdynia']}")
    desk.has("a disagreement is told", "The parents disagree.", f"Reported as ultimate parent: {NAMES['baltia']}",
             f"The direct parents lead to: {NAMES['nordhavn']}")
    desk.report.equal("the parents stand above, from the top", desk.texts(".parents a"),
                      [NAMES["nordhavn"], NAMES["logistik"]])
    desk.picture("disagreement")
    desk.open(f"lei/{CODES['bunkering']}")
    desk.has("so is one with nobody", "Reported as ultimate parent: nobody",
             f"The direct parents lead to: {NAMES['nordhavn']}")
    desk.open(f"group/{CODES['logistik']}")
    marked = desk.browser.run("return [...document.querySelectorAll('[role=treeitem]')].filter(item => "
                              "item.querySelector(':scope > .row .mark')).map(item => item.dataset.code)")
    desk.report.equal("and the tree marks it", marked, [CODES["gdynia"]])


def see_changes(desk):
    """Sees what changed since last night."""
    desk.open()
    desk.go("changes/7/8", desk.browser.click, "main a", "What changed since publication 7")
    changed = "fjord dolomiti kettle double meridian tamarack energi".split()
    desk.report.equal("the records that changed are named", sorted(desk.texts("section:nth-of-type(1) .name a")),
                      sorted(NAMES[word] for word in changed))
    desk.has("an update has the fields that differ", "Meridian Quay Insurance plc Changed",
             "Registration: status: Issued → Lapsed", "Legal address: city: Malmö → Helsingborg",
             "Event: type: absent → Merger", "Fjordlaks Oppdrett AS Added")
    desk.has("a relationship that was annulled is gone",
             f"{NAMES['bunkering']} ultimately consolidated by {NAMES['nordhavn']} Removed")
    desk.has("one that was sent again is the same",
             f"{NAMES['subfund']} sub-fund of {NAMES['fund']} Sent again, the same as before")
    desk.has("exceptions come and go", f"{NAMES['dolomiti']} Added", f"{NAMES['horlogerie']} Removed",
             "Why it reports no ultimate parent")
    desk.picture("changes")
    desk.browser.run("document.getElementById('earlier').value = '6'")
    desk.go("changes/6/8", desk.browser.click, ".choice button")
    desk.has("another publication can be chosen", "What changed from publication 6 to 8", f"{NAMES['viento']} Added")
    desk.go("changes/2/8", desk.browser.run, "location.hash = '#/changes/2/8'")
    desk.has("what wasn't published is said", "No changes from publication 2 to 8 were published.")
    desk.browser.run("const records = Array(600).fill({action: 'PUT', record: {LEI: 'X', ExceptionCategory: 'Y'}}); "
                     "const shown = changeSection({table: 'repex', path: '', size: 9, added: {names: {}, rows: null}, "
                     "delta: {recordCount: 600, records}}); document.getElementById('view').replaceChildren(shown)")
    desk.has("of many changes the first are shown", "The first 500 of 600 changes are shown.", "Added or changed")
    desk.report.equal("which are 500", len(desk.texts(".list > li")), 500)


def follow_successor(desk):
    """Follows a retired entity to its successor."""
    desk.open(f"lei/{CODES['kettle']}")
    desk.has("a retired record names its successor", "its LEI is retired", "Succeeded by:", NAMES["crane"], "Retired",
             "Merger", "Completed")
    desk.picture("retired")
    desk.go(f"lei/{CODES['crane']}", desk.browser.click, ".note a", NAMES["crane"])
    desk.has("and leads to its record", NAMES["crane"], "Issued")


def see_counts(desk):
    """Sees how the register grew."""
    desk.open()
    desk.go("counts", desk.browser.click, "nav a", "Counts")
    records = [*sample.GROWTH, len(NAMES)]
    rows = [re.findall(r"\d+", row)[0:1] + re.findall(r"\d+", row)[3:] for row in desk.texts("tbody tr")]
    desk.report.equal("the table has each publication, the latest first", [[int(row[0]), int(row[1])] for row in rows],
                      [[number, records[number - 1]] for number in range(8, 0, -1)])
    curve = desk.browser.run("return document.querySelector('.curve').getAttribute('points')")
    heights = [float(point.split(",")[1]) for point in curve.split()]
    shares = [round((heights[0] - height) / (heights[0] - heights[-1]), 3) for height in heights]
    desk.report.equal("the line has their heights", shares, [round((each - records[0]) / (records[-1] - records[0]), 3)
                                                              for each in records])
    desk.picture("counts")


def share_link(desk):
    """Shares a link, which opens the same view elsewhere, and goes back."""
    desk.open()
    desk.find("Nordhavn", "search/Nordhavn")
    desk.picture("link")
    desk.go(f"lei/{CODES['shipping']}", desk.browser.click, ".name a", "Nordhavn Shipping A/S")
    address, seen = desk.browser.run("return location.href"), desk.text()
    desk.go("search/Nordhavn", desk.browser.back)
    desk.report.equal("back shows the search again", len(desk.texts(".name a")), 9)
    desk.browser.open(address)
    desk.browser.wait_for(IS_SHOWN)
    desk.report.equal("a link opens the same view", desk.text(), seen)


def use_phone(desk):
    """Uses the page on a phone."""
    desk.browser.resize(*PHONE)
    for fragment in ["", "search/nordhavn", f"lei/{CODES['long']}", f"lei/{CODES['kettle']}",
                     f"group/{CODES['nordhavn']}", f"group/{CODES['subfund']}", "changes/7/8", "changes/6/8", "counts",
                     "lei/506700GE1G29325QX364"]:
        desk.open(fragment)
        desk.report.equal(f"#/{fragment} has no more than the width of a phone",
                          desk.browser.run("return document.documentElement.scrollWidth"), PHONE[0])
    desk.open(f"lei/{CODES['zeytin']}")
    desk.picture("phone")
    desk.browser.resize(*WIDE)


def read_markup(desk):
    """Reads a name that looks like a page's own code."""
    desk.open(f"lei/{CODES['markup']}")
    desk.report.equal("a name with markup is shown as it is", desk.text("h1"), sample.MARKUP)
    desk.open("search/trading")
    desk.report.equal("in a list, too", desk.texts(".name a"), [sample.MARKUP])
    desk.go("search/%3Cb%3Etrading%3C%2Fb%3E", desk.browser.run, "location.hash = '#/search/%3Cb%3Etrading%3C%2Fb%3E'")
    made = desk.browser.run("return document.querySelectorAll('main b, main img').length")
    desk.report.equal("and makes no elements", made, 0)
    desk.picture("markup")


# What of a record is shown in other words than it has.
IN_WORDS = re.compile("Country|Jurisdiction|xmllang|Category|Status|Type|Sources")


def read_all_fields(desk):
    """Reads records field by field."""
    records = list(final_rows()["records"].values())
    for row in records[:4] if desk.run.is_quick else records:
        desk.open(f"lei/{row['LEI']}")
        shown = dict(desk.browser.run(
            "return [...document.querySelectorAll('.fields tr')].map(row => [row.querySelector('.raw').textContent, "
            "row.querySelector('time')?.getAttribute('datetime') ?? row.querySelector('td').textContent.trim()])"))
        plain = {name: text for name, text in row.items() if not IN_WORDS.search(name)}
        desk.report.equal(f"{row['Entity.LegalName'][:40]} has all its fields", sorted(shown), sorted(row))
        desk.report.equal("with their texts", {name: shown.get(name) for name in plain}, plain)
    desk.picture("record")


def come_before_index(desk, published):
    """Comes when a publication is there and its index isn't yet."""
    latest, aside = published.folder / "index" / "8", published.folder / "index" / "aside"
    latest.rename(aside)
    desk.browser.debug("Network.setCacheDisabled", cacheDisabled=True)
    desk.open("search/nordhavn")
    desk.has("a search is that of the publication before", "9 names found, in publication 7.", selector="#status")
    aside.rename(latest)


def meet_outage(desk, server):
    """Meets a server that is down: the record can't be read, and what was published can."""
    server.end()
    desk.open(f"lei/{CODES['energi']}")
    desk.has("the page says that the register doesn't answer",
             "The register doesn't answer at the moment (status 502).",
             f"In publication 8 this LEI belongs to {NAMES['energi']}.", "Try again")
    desk.picture("outage")
    desk.find("energi", "search/energi")
    desk.report.equal("names are found nevertheless", desk.texts(".name a"), [NAMES["energi"]])


# ---- what every view has


# A view each, its fragment, and the roles that it has beside those of all views.
VIEWS = [
    ("home", "", {"searchbox", "button"}),
    ("group", f"group/{CODES['nordhavn']}", {"tree", "treeitem"}),
    ("record", f"lei/{CODES['kettle']}", {"table", "rowheader"}),
    ("search", "search/nordhavn", {"list", "listitem"}),
    ("changes", "changes/7/8", {"combobox"}),
    ("counts", "counts", {"image", "table"}),
]
LANDMARKS = {"banner", "main", "contentinfo", "navigation", "search", "heading", "status"}


def check_access(desk):
    """Each view has its landmarks, each control its name, and Tab reaches each."""
    for name, fragment, roles in VIEWS[:2] if desk.run.is_quick else VIEWS:
        desk.open(fragment)
        nodes = [(node["role"]["value"], node.get("name", {}).get("value", ""))
                 for node in desk.browser.debug("Accessibility.getFullAXTree")["nodes"] if not node["ignored"]]
        seen = {role for role, _ in nodes}
        desk.report.equal(f"{name} has its roles", sorted((LANDMARKS | roles) - seen), [])
        desk.report.equal(f"each control of {name} has a name",
                          [role for role, text in nodes if role in CONTROLS and not text.strip()], [])
        reached = desk.browser.run("return [...document.querySelectorAll('a[href], button, input, select, [tabindex]')]"
                                   ".filter(each => each.tabIndex >= 0).map(each => each.outerHTML.slice(0, 120))")
        desk.report.equal(f"Tab reaches each control of {name}", tab_order(desk), reached)
        for scheme in ("light", "dark"):
            set_scheme(desk, scheme)
            least = desk.browser.run(LEAST_CONTRAST)
            desk.report.holds(f"{name} has contrast where it is {scheme}", least[0] >= CONTRAST, least)
    set_scheme(desk, "light")


def set_scheme(desk, scheme):
    desk.browser.debug("Emulation.setEmulatedMedia", features=[{"name": "prefers-color-scheme", "value": scheme}])


def tab_order(desk):
    """The elements that get the focus by Tab, from the start of the page to its end."""
    found = []
    desk.browser.run("document.activeElement.blur(); getSelection().removeAllRanges()")
    for _ in range(300):
        desk.browser.press("Tab")
        element = desk.browser.run("return document.activeElement === document.body ? '' : "
                                   "document.activeElement.outerHTML.slice(0, 120)")
        if not element or element in found[:1] and len(found) > 1:
            break
        found.append(element)
    return found


# The least contrast of a text of the page with what is behind it, and that text, by the formulas of WCAG 2.
LEAST_CONTRAST = """
const light = (color) => color.map(part => part / 255)
  .map(part => part <= 0.04045 ? part / 12.92 : ((part + 0.055) / 1.055) ** 2.4)
  .reduce((sum, part, at) => sum + part * [0.2126, 0.7152, 0.0722][at], 0);
const parts = (text) => text.match(/[\\d.]+/g).map(Number);
const behind = (element) => {
  for (let each = element; each; each = each.parentElement) {
    const color = parts(getComputedStyle(each).backgroundColor);
    if (color.length === 3 || color[3] === 1) return color.slice(0, 3);
  }
  return [255, 255, 255];
};
const found = [...document.querySelectorAll('body *')].filter(each => each.checkVisibility()
  && [...each.childNodes].some(node => node.nodeType === 3 && node.textContent.trim() !== '')).map(each => {
  const style = getComputedStyle(each);
  const color = parts(each instanceof SVGElement ? style.fill : style.color).slice(0, 3);
  const [low, high] = [light(color), light(behind(each))].sort((one, other) => one - other);
  return [(high + 0.05) / (low + 0.05), each.textContent.slice(0, 40)];
});
return found.reduce((least, each) => each[0] < least[0] ? each : least);
"""


def check_policy(desk):
    """The console tells what the policy refuses, so the silence of the other views says something."""
    desk.open()
    desk.browser.run("const image = new Image(), style = document.createElement('style'); "
                     "image.src = 'http://127.0.0.2/x.png'; style.textContent = 'h1 { color: red }'; "
                     "document.body.append(image, style)")
    told = " ".join(entry["message"] for entry in desk.browser.log("browser"))
    desk.report.equal("the policy refuses an image of another origin and a style in the page",
                      [word for word in ("img-src", "style-src") if word not in told], [])
    desk.strangers()


# ---- searches as the program does them


def check_searches(run, browser):
    """The page's index finds what `leireg search` finds, with names and queries that are made by chance."""
    chance, wrong, count = random.Random(run.seed), [], 0
    for number in range(1, (QUICK_COPIES if run.is_quick else COPIES) + 1):
        letters = [character(chance) for _ in range(40)]
        names = [text_of(chance, letters) for _ in range(ROWS)]
        published = publish_names(run, number, names)
        queries = [query_of(chance, names, letters) for _ in range(QUERIES // 2)]
        done = run_command(run.program, b"".join(queries), "search", "json", published.folder / "lei" / "1.json")
        with Site(run.folder / f"names-{number}-site", PAGE, published.folder, 9) as site:
            browser.open(f"{site.origin}/")
            browser.wait_for(IS_SHOWN)
            for query, line in zip(queries, done.stdout.split(b"\n")):
                seen, wanted = found_by_page(browser, query.decode()), found_by_program(line.decode())
                wrong += [(query, seen, wanted)] * (seen != wanted)
                count += 1
    run.report.equal("the page finds what the program finds", wrong[:3], [])
    run.report.note(f"{count:,} searches of the page and of the program were compared")


def publish_names(run, number, names):
    """The files of a publication whose records have these names, and its index."""
    items = [{"LEI": code(place), "Entity.LegalName": name} for place, name in enumerate(names)]
    sheets = {table: Sheet(table, {}, False, True, 1, MOMENT) for table in ("rr", "repex")}
    sheets["lei"] = sheet_of("lei", items, 1)
    published = Published(run.folder / f"names-{number}", 1, TODAY)
    published.add(lambda path: print_sheet(sheets[path.split("/")[3]], "json"), 1, [])
    make_index(run, published)
    return published


def found_by_page(browser, query):
    """How many names the page finds by the line of a query, and the LEIs on its page; or nothing if it refuses it."""
    _, page, text = query.removesuffix("\n").split(" ", 2)
    return browser.run("return search(arguments[0], arguments[1]).then("
                       "({matches, names}) => [matches, names.map(([code]) => code)], "
                       "(trouble) => trouble.status === 400 ? null : String(trouble))", text, int(page))


def found_by_program(line):
    if not line.startswith("200 "):
        return None
    answer = json.loads(line[4:])
    return [answer["matches"], [name["LEI"] for name in answer["names"]]]


# ---- a large register


def large_uploads(chance):
    """The bodies of the uploads of a large register, where entities have ten children each. Each name ends in the
    number of its record."""
    words = "Alder Birch Cedar Delta Ember Fjord Grove Haven Inlet Juniper Kestrel Linden".split()
    kinds = "Holding Capital Foods Shipping Energy Limited Trust Partners".split()
    for first in range(1, LARGE + 1, BATCH):
        numbers = range(first, min(first + BATCH, LARGE + 1))
        names = [f"{chance.choice(words)} {chance.choice(words)} {chance.choice(kinds)} {number}" for number in numbers]
        yield {"records": [record(number, {"Entity.LegalName": name}) for number, name in zip(numbers, names)]}
        yield {"relationships": [relationship(number, number // 10) for number in numbers if number >= 10]}


def publish_large(run, server):
    """The files of the publication of a large register."""
    server.ask("PUT", f"/v1/issuers/{ISSUER}")
    for number, value in enumerate(large_uploads(random.Random(run.seed)), 1):
        server.ask("PUT", f"/v1/issuers/{ISSUER}/uploads/{number}", compact(value))
    made = json.loads(server.ask("PUT", "/v1/publications/1")[1])
    run.report.equal("a large register is published", (made["lei"], made["rr"]), (LARGE, LARGE - 9))
    published = Published(run.folder / "large", 1, TODAY)
    published.add(lambda path: ask(server, path), 1, [])
    return published


def check_large(run, browser):
    """A register of 100,000 records opens its first view, and answers a search, within a second."""
    with Server(run.program, workers=2) as server:
        published = publish_large(run, server)
        spent = measure(["env", f"LEIREG_PROGRAM={run.program}", PAGE / "make_index", published.folder])
        sizes = [each.stat().st_size for each in (published.folder / "index" / "1").rglob("*") if each.is_file()]
        run.report.note(f"the index of {LARGE:,} records and {LARGE - 9:,} relationships took {spent.seconds:.1f} "
                        f"seconds and {spent.memory / 1e6:.0f} MB, and has {len(sizes):,} files of "
                        f"{sum(sizes) / 1e6:.1f} MB")
        with Site(run.folder / "large-site", PAGE, published.folder, server.port) as site:
            measure_views(run, Desk(run, browser, site))


def measure_views(run, desk):
    """Notes how long the first view takes from the start of the navigation, and some others from the click."""
    desk.open()
    last = "return performance.getEntriesByName('shown').at(-1).startTime"
    taken = {"the first view": desk.browser.run(last)}
    desk.has("the first view has the counts", f"{LARGE:,} records", f"{LARGE - 9:,} relationships")
    for what, fragment, wanted in [
        ("a search for a number", "search/77777", "1 name found"),
        ("a search for two words that many names have", "search/alder%20limited", "names found, page 1 of"),
        ("a record", f"lei/{code(77_777)}", "77777"),
        ("a group", f"group/{code(7)}", "10 direct subsidiaries"),
    ]:
        begun = desk.browser.run("return performance.now()")
        desk.go(fragment, desk.browser.run, f"location.hash = '#/{fragment}'")
        taken[what] = desk.browser.run(last) - begun
        desk.has(f"{what} is answered", wanted)
    told = ", ".join(f"{what} took {each:.0f} ms" for what, each in taken.items())
    run.report.note(f"with {LARGE:,} records, {told}")
    run.report.equal("each is there within a second", {what: each for what, each in taken.items() if each >= 1_000}, {})


TASKS = [find_by_name, find_by_folded_name, learn_what_is_wrong, ask_for_unknown, open_tree_by_keys, see_disagreement,
         see_changes, follow_successor, see_counts, share_link, use_phone, read_markup, read_all_fields]


def do_tasks(desk, server, published):
    """Does one task after the other. The server is ended by the last one."""
    for task in TASKS:
        task(desk)
        desk.end_task(task.__doc__.partition(".")[0], "/v1/records/" if task is ask_for_unknown else None)
    check_access(desk)
    check_policy(desk)
    come_before_index(desk, published)
    desk.end_task("a late index", "/publish/index/8/")
    meet_outage(desk, server)
    desk.end_task("an outage", "/v1/records/")


def check(run):
    with Server(run.program, workers=4) as server:
        published = publish_sample(run, server)
        check_index_runs(run, published)
        with Site(run.folder / "site", PAGE, published.folder, server.port) as site:
            with Browser(run.folder / "browser") as browser:
                browser.resize(*WIDE)
                do_tasks(Desk(run, browser, site), server, published)
    with Browser(run.folder / "second-browser") as browser:
        browser.resize(*WIDE)
        check_searches(run, browser)
        if not run.is_quick:
            check_large(run, browser)
