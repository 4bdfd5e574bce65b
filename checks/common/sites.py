"""The published files of a register, and an nginx that serves them with the page."""
from __future__ import annotations

import hashlib
import json
import os
import pathlib
import re
import subprocess

from checks.common.inputs import TABLES, compact
from checks.common.nginx import Nginx, free_port
from checks.common.programs import ROOT

POLICY = ("default-src 'none'; script-src 'self'; style-src 'self'; connect-src 'self'; img-src 'self'; "
          "base-uri 'none'; form-action 'none'; frame-ancestors 'none'")
SITE = """types {{ text/html html; text/css css; text/javascript js; image/svg+xml svg; application/json json; }}
charset utf-8;
charset_types text/html text/css text/javascript application/json;
add_header Content-Security-Policy "{policy}";
add_header X-Content-Type-Options nosniff;
server {{
    listen 127.0.0.1:{port};
    location / {{ root {page}; index index.html; }}
    location /publish/ {{ alias {published}/; }}
    location /v1/ {{ proxy_pass http://127.0.0.1:{upstream}; }}
}}
"""


class Site(Nginx):
    """An nginx that serves the page, the published files and a server from one origin."""

    def __init__(self, folder, page, published, upstream):
        self.port = free_port()
        self.origin = f"http://127.0.0.1:{self.port}"
        super().__init__(folder, f"127.0.0.1:{self.port}", SITE.format(
            page=page, published=published, upstream=upstream, port=self.port, policy=POLICY))


# ---- published files


class Published:
    """A folder of published files, in the layout of leireg-files, that is made of what a server answers. They are dated
    as if there were a publication each night, and the last of them, whose number is known beforehand, were of a day."""

    def __init__(self, folder, last, day):
        self.folder, self.last, self.day, self.publications = folder, last, day, []
        folder.mkdir()

    def add(self, ask, number, bases):
        """Adds the latest publication of a register, which has this number, and its deltas from some earlier ones."""
        moment = f"{self.day.fromordinal(self.day.toordinal() - self.last + number)}T00:00:00Z"
        files = {f"{table}/{number}.json": ask(f"/v1/copies/{table}/json") for table in TABLES}
        files |= {f"{table}/{base}-{number}.json": ask(f"/v1/deltas/{base}/{table}/json")
                  for base in bases for table in TABLES}
        files = {path: re.sub(rb'"contentDate":"[^"]*"', b'"contentDate":"%s"' % moment.encode(), data, count=1)
                 for path, data in files.items()}
        counts = {table: json.loads(files[f"{table}/{number}.json"])["recordCount"] for table in TABLES}
        about = {"contentDate": moment, "counts": counts, "deltasFrom": list(bases), "publication": number}
        for path, data in files.items():
            self.write(path, data)
        listed = [{"bytes": len(data), "path": path, "sha256": hashlib.sha256(data).hexdigest()}
                  for path, data in sorted(files.items())]
        self.write(f"publication/{number}.json", compact({**about, "files": listed}))
        self.publications.append(about)
        self.write("manifest.json", compact({"latest": number, "publications": self.publications}))

    def write(self, path, data):
        place = self.folder / path
        place.parent.mkdir(exist_ok=True)
        place.write_bytes(data)

    def make_index(self, program, page=ROOT / "page"):
        """Makes the index of the latest publication. Returns how its script ended."""
        return subprocess.run([pathlib.Path(page, "make_index"), self.folder], capture_output=True, text=True,
                              env={**os.environ, "LEIREG_PROGRAM": str(program)})
