"""The fields of each kind of item and the shapes of their texts, as docs/FORMATS.md has them."""
import datetime
import functools
import re

EPOCH = datetime.date(1970, 1, 1)
FIRST, LAST = "0001-01-01T00:00:00Z", "9998-12-31T23:59:59Z"

# Each field in the order of its place: its name, its shape or its list of values, and whether it is needed.
RECORD = """
LEI code yes; Entity.LegalName free yes; Entity.LegalName.xmllang lang no;
Entity.LegalAddress.FirstAddressLine free yes; Entity.LegalAddress.City free yes; Entity.LegalAddress.Region free no;
Entity.LegalAddress.Country country yes; Entity.LegalAddress.PostalCode free no;
Entity.HeadquartersAddress.FirstAddressLine free yes; Entity.HeadquartersAddress.City free yes;
Entity.HeadquartersAddress.Region free no; Entity.HeadquartersAddress.Country country yes;
Entity.HeadquartersAddress.PostalCode free no; Entity.RegistrationAuthority.RegistrationAuthorityID authority yes;
Entity.RegistrationAuthority.RegistrationAuthorityEntityID free no; Entity.LegalJurisdiction jurisdiction yes;
Entity.EntityCategory GENERAL,BRANCH,FUND,SOLE_PROPRIETOR,RESIDENT_GOVERNMENT_ENTITY,INTERNATIONAL_ORGANIZATION yes;
Entity.LegalForm.EntityLegalFormCode form yes; Entity.EntityStatus ACTIVE,INACTIVE,NULL yes;
Entity.EntityCreationDate moment no; Entity.SuccessorEntity.1.SuccessorLEI codes no;
Registration.InitialRegistrationDate moment yes; Registration.LastUpdateDate moment yes;
Registration.RegistrationStatus ISSUED,LAPSED,PENDING_TRANSFER,PENDING_ARCHIVAL,RETIRED,DUPLICATE,ANNULLED yes;
Registration.NextRenewalDate moment yes; Registration.ManagingLOU code yes; Registration.ValidationSources PENDING,
ENTITY_SUPPLIED_ONLY,PARTIALLY_CORROBORATED,FULLY_CORROBORATED yes; Register.TransferTo code if;
Entity.Event.1.Type CHANGE_LEGAL_NAME,CHANGE_LEGAL_ADDRESS,CHANGE_HQ_ADDRESS,CHANGE_LEGAL_FORM,MERGER,LIQUIDATION,
DISSOLUTION,BANKRUPTCY no; Entity.Event.1.EffectiveDate moment no; Entity.Event.1.RecordedDate moment no;
Entity.Event.1.Status IN_PROGRESS,COMPLETED,WITHDRAWN_CANCELLED no
"""
RELATIONSHIP = """
Relationship.StartNode code yes; Relationship.RelationshipType IS_DIRECTLY_CONSOLIDATED_BY,
IS_ULTIMATELY_CONSOLIDATED_BY,IS_INTERNATIONAL_BRANCH_OF,IS_FUND-MANAGED_BY,IS_SUBFUND_OF,IS_FEEDER_TO yes;
Relationship.EndNode code yes; Relationship.RelationshipStatus ACTIVE,INACTIVE yes;
Relationship.StartDate moment yes; Relationship.EndDate moment no; Registration.InitialRegistrationDate moment yes;
Registration.LastUpdateDate moment yes; Registration.RegistrationStatus ISSUED,PUBLISHED,LAPSED,RETIRED,ANNULLED yes;
Registration.ManagingLOU code yes; Registration.ValidationSources PENDING,ENTITY_SUPPLIED_ONLY,PARTIALLY_CORROBORATED,
FULLY_CORROBORATED yes
"""
EXCEPTION = """
LEI code yes; ExceptionCategory DIRECT_ACCOUNTING_CONSOLIDATION_PARENT,ULTIMATE_ACCOUNTING_CONSOLIDATION_PARENT yes;
ExceptionReason NATURAL_PERSONS,NON_CONSOLIDATING,NO_KNOWN_PERSON,NO_LEI,NON_PUBLIC,CONSENT_NOT_OBTAINED,
BINDING_LEGAL_COMMITMENTS,LEGAL_OBSTACLES,DISCLOSURE_DETRIMENTAL,DETRIMENT_NOT_EXCLUDED if;
ExceptionReference free no; Action PUT,WITHDRAW no
"""

def matches(pattern):
    """The shape of the texts that match a pattern as a whole."""
    found = re.compile(pattern)
    return lambda text: found.fullmatch(text) is not None


def is_code(text):
    return re.fullmatch("[0-9A-Z]{18}[0-9]{2}", text) is not None


def is_codes(text):
    codes = text.split(" ")
    return len(codes) <= 5 and all(map(is_code, codes)) and len(set(codes)) == len(codes)


SHAPES = {
    "code": is_code,
    "codes": is_codes,
    "free": matches("[^\x00-\x1f\x7f-\x9f]{1,500}"),
    "lang": matches("[A-Za-z0-9-]{1,35}"),
    "country": matches("[A-Z]{2}"),
    "authority": matches("RA[0-9]{6}"),
    "jurisdiction": matches("[A-Z]{2}(-[A-Z0-9]{1,3})?"),
    "form": matches("[A-Z0-9]{4}"),
    "moment": lambda text: moment_of(text) is not None,
}


def fields_of(table):
    """The fields of a kind of item, as their names, what says whether a text has the shape, the word for the shape, and
    whether they are needed."""
    rows = [field.split() for field in table.replace(",\n", ",").split(";")]
    return [(name, SHAPES.get(shape) or shape.split(",").__contains__, shape, needed) for name, shape, needed in rows]


KINDS = {"records": fields_of(RECORD), "relationships": fields_of(RELATIONSHIP), "exceptions": fields_of(EXCEPTION)}
NAMES = {kind: [name for name, *_ in fields] for kind, fields in KINDS.items()}


def has_check_digits(code):
    """Whether the number of a code, each letter of which is two digits, leaves the remainder 1 when divided by 97."""
    return int("".join(str(int(each, 36)) for each in code)) % 97 == 1


def is_lei(text):
    return is_code(text) and has_check_digits(text)


# ---- moments

DATE = r"(?P<year>[0-9]{4}|[+-][0-9]{6})(?:-(?P<month>[0-9]{2})-(?P<day>[0-9]{2})|(?P<month2>[0-9]{2})(?P<day2>[0-9]{2}))"
FRACTION = r"(?:[.,][0-9]{1,9})?"
TIME = (rf"(?P<hour>[0-9]{{2}})(?::(?P<minute>[0-9]{{2}})(?::(?P<second>[0-9]{{2}}){FRACTION})?"
        rf"|(?P<minute2>[0-9]{{2}})(?:(?P<second2>[0-9]{{2}}){FRACTION})?)?")
OFFSET = (r"(?:[Zz]|(?P<sign>[+-])(?P<hours>[0-9]{2})"
          r"(?::(?P<minutes>[0-9]{2})(?::(?P<seconds>[0-9]{2})(?P<part>[.,][0-9]{1,9})?)?"
          r"|(?P<minutes2>[0-9]{2})(?:(?P<seconds2>[0-9]{2})(?P<part2>[.,][0-9]{1,9})?)?)?)")
ZONE = r"(?:\[!?(?:[+-](?:[01][0-9]|2[0-5])(?::?[0-5][0-9])?|[A-Za-z._][A-Za-z0-9._+-]*(?:/[A-Za-z._][A-Za-z0-9._+-]*)*)\])?"
REMARKS = r"(?:\[[a-z_][a-z0-9_-]*=[A-Za-z0-9]+(?:-[A-Za-z0-9]+)*\])*"
MOMENT = re.compile(DATE + "[ Tt]" + TIME + OFFSET + ZONE + REMARKS)


def offset(part):
    """The seconds from UTC, or None if there is no such offset. A part of a second is rounded, a half of one up."""
    hours, minutes, seconds = (int(part(name) or 0) for name in ("hours", "minutes", "seconds"))
    if hours > 25 or minutes > 59 or seconds > 59:
        return None
    total = 3600 * hours + 60 * minutes + seconds + ((part("part") or ".0")[1] >= "5")
    return None if total > 93_599 else -total if part("sign") == "-" else total


@functools.lru_cache(maxsize=10_000)
def moment_of(text):
    """The moment that a text says, in printed form, or None if it says none in the range. Moments in printed form are in
    order as texts. What is after the whole second is dropped, which rounds down."""
    found = MOMENT.fullmatch(text)
    if not found:
        return None

    def part(name):
        return found[name] or found.groupdict().get(name + "2")
    year, month, day = int(part("year")), int(part("month")), int(part("day"))
    hour, minute, second = (int(part(name) or 0) for name in ("hour", "minute", "second"))
    away = offset(part)
    if part("year") == "-000000" or not 0 <= year <= 9999 or hour > 23 or minute > 59 or second > 60 or away is None:
        return None
    try:
        # The calendar repeats itself after 400 years, and that of Python starts with the year 1.
        days = datetime.date(year or 400, month, day).toordinal() - EPOCH.toordinal() - (0 if year else 146_097)
        return moment_text(86_400 * days + 3600 * hour + 60 * minute + min(second, 59) - away)
    except (ValueError, OverflowError):
        return None


def moment_text(seconds):
    """A moment in printed form, or None if it is out of the range."""
    text = (datetime.datetime(1970, 1, 1) + datetime.timedelta(seconds=seconds)).isoformat() + "Z"
    return text if FIRST <= text <= LAST else None


def day(moment):
    """The number of the day of a moment in printed form."""
    return (datetime.date.fromisoformat(moment[:10]) - EPOCH).days
