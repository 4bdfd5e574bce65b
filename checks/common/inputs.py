"""What is sent to the register: LEIs, moments, items, bodies as clients write them, and requests in lines and over HTTP."""
from __future__ import annotations

import datetime
import json
import re

# Valid LEIs of issuing offices.
ISSUERS = ("506700GE1G29325QX363", "HWUPKR0MPOU8FGXBT394", "5493001KJTIIGC8Y1R12", "00000000000000000195")
ISSUER = ISSUERS[0]
TODAY = datetime.datetime.now(datetime.timezone.utc).date()
# A moment before today, and one up to which a record may be renewed: at most 400 days ahead.
PAST = "2025-01-10T09:00:00Z"
TABLES = ("lei", "rr", "repex")
FORMS = ("csv", "json")

# The fields of each kind of item, in the order of docs/FORMATS.md, which is that of the columns of CSV.
RECORD_NAMES = """LEI Entity.LegalName Entity.LegalName.xmllang Entity.LegalAddress.FirstAddressLine Entity.LegalAddress.City
Entity.LegalAddress.Region Entity.LegalAddress.Country Entity.LegalAddress.PostalCode
Entity.HeadquartersAddress.FirstAddressLine Entity.HeadquartersAddress.City Entity.HeadquartersAddress.Region
Entity.HeadquartersAddress.Country Entity.HeadquartersAddress.PostalCode
Entity.RegistrationAuthority.RegistrationAuthorityID Entity.RegistrationAuthority.RegistrationAuthorityEntityID
Entity.LegalJurisdiction Entity.EntityCategory Entity.LegalForm.EntityLegalFormCode Entity.EntityStatus
Entity.EntityCreationDate Entity.SuccessorEntity.1.SuccessorLEI Registration.InitialRegistrationDate
Registration.LastUpdateDate Registration.RegistrationStatus Registration.NextRenewalDate Registration.ManagingLOU
Registration.ValidationSources Register.TransferTo Entity.Event.1.Type Entity.Event.1.EffectiveDate
Entity.Event.1.RecordedDate Entity.Event.1.Status""".split()
RELATIONSHIP_NAMES = """Relationship.StartNode Relationship.RelationshipType Relationship.EndNode
Relationship.RelationshipStatus Relationship.StartDate Relationship.EndDate Registration.InitialRegistrationDate
Registration.LastUpdateDate Registration.RegistrationStatus Registration.ManagingLOU
Registration.ValidationSources""".split()
EXCEPTION_NAMES = "LEI ExceptionCategory ExceptionReason ExceptionReference".split()
AUTHORITY_ID = "Entity.RegistrationAuthority.RegistrationAuthorityEntityID"
SUCCESSORS = "Entity.SuccessorEntity.1.SuccessorLEI"


def code(number):
    """The LEI whose first 18 characters are a number, with check digits by ISO/IEC 7064."""
    return f"{number:018}{98 - number * 100 % 97:02}"


def moment(days):
    """A moment so many days after today."""
    return f"{TODAY + datetime.timedelta(days=days)}T00:00:00Z"


# ---- items


def in_order(names, texts):
    """The fields in the order of these names, and any others after them."""
    return {name: texts[name] for name in names if name in texts} | texts


def record(number, others=None, issuer=ISSUER):
    """A record that is accepted: its LEI and its number at its authority are those of a number. Others take the place of
    some fields, or are added."""
    return in_order(RECORD_NAMES, {
        "LEI": code(number),
        "Entity.LegalName": "Alpha",
        "Entity.LegalAddress.FirstAddressLine": "1 Main Street",
        "Entity.LegalAddress.City": "Paris",
        "Entity.LegalAddress.Country": "FR",
        "Entity.HeadquartersAddress.FirstAddressLine": "1 Main Street",
        "Entity.HeadquartersAddress.City": "Paris",
        "Entity.HeadquartersAddress.Country": "FR",
        "Entity.RegistrationAuthority.RegistrationAuthorityID": "RA000001",
        AUTHORITY_ID: str(number),
        "Entity.LegalJurisdiction": "FR",
        "Entity.EntityCategory": "GENERAL",
        "Entity.LegalForm.EntityLegalFormCode": "AB12",
        "Entity.EntityStatus": "ACTIVE",
        "Registration.InitialRegistrationDate": PAST,
        "Registration.LastUpdateDate": PAST,
        "Registration.RegistrationStatus": "ISSUED",
        "Registration.NextRenewalDate": moment(100),
        "Registration.ManagingLOU": issuer,
        "Registration.ValidationSources": "FULLY_CORROBORATED",
        **(others or {}),
    })


def long_record(number, size, issuer=ISSUER):
    """A record with all its fields but the last, of about so many bytes as compact JSON: an address is as long as that
    takes."""
    def with_line(line):
        return record(number, {
            "Entity.LegalName.xmllang": "fr",
            "Entity.LegalAddress.FirstAddressLine": line,
            "Entity.LegalAddress.Region": "FR-ARA",
            "Entity.LegalAddress.PostalCode": "69001",
            "Entity.HeadquartersAddress.Region": "FR-ARA",
            "Entity.HeadquartersAddress.PostalCode": "69001",
            "Entity.EntityCreationDate": "1998-03-02T00:00:00+01:00",
        }, issuer)
    return with_line("1".ljust(max(1, min(500, size - len(compact(with_line("")))))))


def relationship(start, end, others=None, issuer=ISSUER):
    """The entity of one number is directly consolidated by that of the other."""
    return in_order(RELATIONSHIP_NAMES, {
        "Relationship.StartNode": code(start),
        "Relationship.RelationshipType": "IS_DIRECTLY_CONSOLIDATED_BY",
        "Relationship.EndNode": code(end),
        "Relationship.RelationshipStatus": "ACTIVE",
        "Relationship.StartDate": PAST,
        "Registration.InitialRegistrationDate": PAST,
        "Registration.LastUpdateDate": PAST,
        "Registration.RegistrationStatus": "PUBLISHED",
        "Registration.ManagingLOU": issuer,
        "Registration.ValidationSources": "FULLY_CORROBORATED",
        **(others or {}),
    })


def exception(number, others=None):
    """The entity of a number gives a reason for reporting no direct parent."""
    return in_order(EXCEPTION_NAMES, {
        "LEI": code(number),
        "ExceptionCategory": "DIRECT_ACCOUNTING_CONSOLIDATION_PARENT",
        "ExceptionReason": "NON_CONSOLIDATING",
        **(others or {}),
    })


# ---- bodies


def compact(value):
    """JSON without blanks, with the names of each object in byte order: the register's own form."""
    return json.dumps(value, separators=(",", ":"), sort_keys=True, ensure_ascii=False).encode()


def as_it_stands(value):
    """JSON without blanks, with the names in the order in which they stand: for items of this module, that of
    docs/FORMATS.md."""
    return json.dumps(value, separators=(",", ":"), ensure_ascii=False).encode()


def with_blanks(value):
    """JSON with blanks and tabs, on one line."""
    return json.dumps(value, separators=(" ,\t", " : "), ensure_ascii=False).encode()


def by_default(value):
    """JSON as Python's `json.dumps` writes it: a blank after each comma and colon, and escapes for what isn't ASCII."""
    return json.dumps(value).encode()


def in_no_order(value, chance):
    """JSON without blanks, with the names of each object in no order."""
    def mixed(value):
        if isinstance(value, list):
            return [mixed(each) for each in value]
        if isinstance(value, dict):
            return {name: mixed(value[name]) for name in chance.sample(list(value), len(value))}
        return value
    return as_it_stands(mixed(value))


def writings(chance):
    """How clients write a body, by name."""
    return {
        "names in byte order": compact,
        "names in the order of FORMATS": as_it_stands,
        "names in no order": lambda value: in_no_order(value, chance),
        "blanks": with_blanks,
        "json.dumps": by_default,
    }


# ---- requests


def accredit(issuer=ISSUER):
    return f"ACCREDIT {issuer}\n".encode()


def upload(number, body, issuer=ISSUER):
    """The line of an upload. Its body has no end of a line."""
    return f"UPLOAD {issuer} {number} ".encode() + body + b"\n"


def records(first, count, others=None, issuer=ISSUER):
    """The value of an upload of records, whose numbers go on from the first."""
    return {"records": [record(number, others, issuer) for number in range(first, first + count)]}


def http_request(method, path, body=None, headers=""):
    """The bytes of a request over HTTP. One without a body says nothing of its length."""
    length = "" if body is None else f"Content-Length: {len(body)}\r\n"
    return f"{method} {path} HTTP/1.1\r\nHost: localhost\r\n{headers}{length}\r\n".encode() + (body or b"")


def http_upload(number, body, issuer=ISSUER):
    return http_request("PUT", f"/v1/issuers/{issuer}/uploads/{number}", body)


STATUS = http_request("GET", "/v1/status")
LAST_STATUS = http_request("GET", "/v1/status", headers="Connection: close\r\n")


# ---- replies


def answer_to_accredit(entry, issuer=ISSUER):
    """The answer to an accreditation that became this entry."""
    return compact({"entry": entry, "issuer": issuer})


def answer_to_upload(entry, number, verdicts, issuer=ISSUER):
    """The answer to an upload of this number that became this entry, with these verdicts."""
    return compact({"entry": entry, "issuer": issuer, "items": verdicts, "number": number})


def answer_to_status(**counts):
    """The answer to STATUS, by the counts that aren't 0."""
    names = "entries exceptions issuers keptBytes publications records relationships".split()
    return compact({**dict.fromkeys(names, 0), **counts})


def reply(answer):
    """The line that has an answer."""
    return b"200 " + answer + b"\n"


def reply_to_accredit(entry, issuer=ISSUER):
    return reply(answer_to_accredit(entry, issuer))


def reply_to_upload(entry, number, verdicts, issuer=ISSUER):
    return reply(answer_to_upload(entry, number, verdicts, issuer))


def reply_to_status(**counts):
    return reply(answer_to_status(**counts))


# ---- copies


def csv_line(texts):
    return ",".join('"' + text.replace('"', '""') + '"' for text in texts) + "\n"


def csv_row(names, fields):
    """The line of an item in CSV, with a column for each of these names."""
    return csv_line([fields.get(name, "") for name in names])


# ---- answers


def entry_of(text):
    """The number of the entry in an answer, or 0 if there is none."""
    entry = re.match(rb'{"entry":([1-9][0-9]{0,8}),', text)
    return int(entry[1]) if entry else 0
