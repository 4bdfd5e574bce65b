"""A small register of made-up entities as they are met in a real one: names in many scripts, groups, a fund, a branch,
exceptions, and records whose entity ended or whose registration lapsed. It grows over eight publications."""
from __future__ import annotations

import datetime
import random

from checks.common.inputs import ISSUER, ISSUERS, SUCCESSORS, TODAY, in_order, moment
from checks.common.inputs import EXCEPTION_NAMES, RECORD_NAMES, RELATIONSHIP_NAMES

PUBLICATIONS = 8
DIRECT, ULTIMATE = "IS_DIRECTLY_CONSOLIDATED_BY", "IS_ULTIMATELY_CONSOLIDATED_BY"
MARKUP = "<b>Bold</b> & <img src=x onerror=alert(1)> Trading Ltd"
LONG = ("Internationale Gesellschaft für außerordentlich ausführliche Firmennamen " * 8)[:495] + " GmbH"

# A word for each entity, its name, the language of the name, and its city and country.
ENTITIES = """
issuer|Havneby Registreringskontor|da|Aarhus|DK
nordhavn|Nordhavn Holding A/S|da|Copenhagen|DK
shipping|Nordhavn Shipping A/S|da|Copenhagen|DK
energi|Nordhavn Energi AB|sv|Malmö|SE
horlogerie|Manufacture d’Horlogerie du Haut-Doubs SA|fr|Besançon|FR
tiefbau|Straßen- und Tiefbau Weiß GmbH|de|Gießen|DE
zeytin|İzmir Zeytin Ürünleri A.Ş.|tr|İzmir|TR
alyki|Ελληνικές Αλυκές Α.Ε.|el|Μεσολόγγι|GR
baltia|Baltia Merenkulku Oy|fi|Helsinki|FI
manager|Alder Bridge Fund Management S.à r.l.|fr|Luxembourg|LU
kettle|Kettle & Crane Brewing Ltd|en|Leeds|GB
crane|Crane Breweries plc|en|York|GB
meridian|Meridian Quay Insurance plc|en|Bristol|GB
beech|Copper Beech Foods Limited|en|Cork|IE
double|Copper Beech Foods Ltd|en|Cork|IE
lodz|Łódzkie Zakłady Włókiennicze S.A.|pl|Łódź|PL
galil|מאפיית הגליל בע״מ|he|חיפה|IL
solar|Балкански Соларни Паркове АД|bg|Пловдив|BG
logistik|Nordhavn Logistik GmbH|de|Hamburg|DE
fund|Alder Bridge Infrastructure Fund|en|Luxembourg|LU
kogyo|東海精密工業株式会社|ja|名古屋市|JP
haewoon|한빛해운 주식회사|ko|부산|KR
oasis|شركة الواحة للتجارة ش.م.م|ar|دبي|AE
terminals|Nordhavn Rotterdam Terminals B.V.|nl|Rotterdam|NL
gdynia|Nordhavn Gdynia Sp. z o.o.|pl|Gdynia|PL
branch|Nordhavn Shipping A/S, Singapore Branch|en|Singapore|SG
saddle|Saddler & Daughters Ltd|en|Walsall|GB
oldmill|Old Mill Paper Company|en|Dayton|US
subfund|Alder Bridge Infrastructure Fund - Wind|en|Luxembourg|LU
harbour|Nordhavn Sadamateenused OÜ|et|Tallinn|EE
markup|MARKUP|en|Reading|GB
long|LONG|de|Köln|DE
kapiti|Kāpiti Wind Farms Limited|en|Paraparaumu|NZ
litoral|Ação Litoral Comércio Ltda.|pt|Santos|BR
bunkering|Nordhavn Bunkering Pte. Ltd.|en|Singapore|SG
prairie|Prairie Line Rail Holdings, Inc.|en|Omaha|US
tamarack|Tamarack Timber Cooperative|en|Thunder Bay|CA
viento|Viento Sur Energía S.A.|es|Cádiz|ES
fjord|Fjordlaks Oppdrett AS|nb|Bodø|NO
dolomiti|Latteria Dolomiti Società Cooperativa|it|Belluno|IT
""".strip().replace("|LONG|", f"|{LONG}|").replace("|MARKUP|", f"|{MARKUP}|")
CATEGORIES = {"branch": "BRANCH", "fund": "FUND", "subfund": "FUND", "saddle": "SOLE_PROPRIETOR"}
# How many of the entities are there in each of the first publications.
GROWTH = [18, 20, 23, 26, 29, 34, 38]
# Who is whose direct parent, and who reports another ultimate parent than these come to.
PARENTS = {"shipping": "nordhavn", "energi": "nordhavn", "logistik": "nordhavn", "terminals": "logistik",
           "gdynia": "logistik", "harbour": "terminals", "bunkering": "shipping"}
REPORTED = {"gdynia": "baltia"}
FUNDS = [("branch", "IS_INTERNATIONAL_BRANCH_OF", "shipping"), ("fund", "IS_FUND-MANAGED_BY", "manager"),
         ("subfund", "IS_SUBFUND_OF", "fund"), ("subfund", "IS_FUND-MANAGED_BY", "manager")]
EXCEPTIONS = {"nordhavn": "NATURAL_PERSONS", "kogyo": "NO_KNOWN_PERSON", "tiefbau": "NATURAL_PERSONS",
              "horlogerie": "NON_CONSOLIDATING", "alyki": "NON_CONSOLIDATING"}
ROWS = [line.split("|") for line in ENTITIES.splitlines()]
NAMES = {word: name for word, name, *_ in ROWS}


def check_digits(start):
    """The check digits of 18 characters, by docs/FORMATS.md."""
    digits = "".join(str(int(letter, 36)) for letter in f"{start}00")
    return f"{98 - int(digits) % 97:02}"


def made_up_codes():
    """An LEI for each entity. The issuer has its own."""
    chance = random.Random(42)
    starts = ["9845" + "00" + "".join(chance.choices("0123456789ABCDEFGHIJKLMNOPQRSTUVWXYZ", k=12)) for _ in ROWS]
    codes = {word: start + check_digits(start) for (word, *_), start in zip(ROWS, starts)}
    return codes | {"issuer": ISSUER}


CODES = made_up_codes()


def entity(word, **others):
    """The record of an entity. Others of its fields are given by the last part of their names."""
    place, (_, name, language, city, country) = next((at, row) for at, row in enumerate(ROWS) if row[0] == word)
    address = {"FirstAddressLine": f"{3 + 7 * place} {['Harbour Road', 'Station Square', 'Market Street'][place % 3]}",
               "City": city, "Country": country, "PostalCode": f"{10_115 + 37 * place}"}
    fields = {
        "LEI": CODES[word],
        "Entity.LegalName": name,
        "Entity.LegalName.xmllang": language,
        **{f"Entity.LegalAddress.{part}": text for part, text in address.items()},
        **{f"Entity.HeadquartersAddress.{part}": text for part, text in address.items()},
        "Entity.RegistrationAuthority.RegistrationAuthorityID": f"RA{170 + place:06}",
        "Entity.RegistrationAuthority.RegistrationAuthorityEntityID": f"{40_310_000 + 1_117 * place}",
        "Entity.LegalJurisdiction": country,
        "Entity.EntityCategory": CATEGORIES.get(word, "GENERAL"),
        "Entity.LegalForm.EntityLegalFormCode": ["ZRPO", "2HBR", "5KU5", "V06W"][place % 4],
        "Entity.EntityStatus": "ACTIVE",
        "Entity.EntityCreationDate": f"{1923 + 2 * place}-03-0{1 + place % 9}T00:00:00Z",
        "Registration.InitialRegistrationDate": "2019-05-14T08:30:00Z",
        "Registration.LastUpdateDate": moment(-300 + place),
        "Registration.RegistrationStatus": "ISSUED",
        "Registration.NextRenewalDate": moment(40 + 7 * place),
        "Registration.ManagingLOU": ISSUER,
        "Registration.ValidationSources": "FULLY_CORROBORATED",
    }
    given = {next(name for name in RECORD_NAMES if name == ending or name.endswith(f".{ending}")): text
             for ending, text in others.items()}
    return in_order(RECORD_NAMES, fields | given)


def relation(start, kind, end, status="ACTIVE", registration="PUBLISHED"):
    return in_order(RELATIONSHIP_NAMES, {
        "Relationship.StartNode": CODES[start],
        "Relationship.RelationshipType": kind,
        "Relationship.EndNode": CODES[end],
        "Relationship.RelationshipStatus": status,
        "Relationship.StartDate": "2020-01-01T00:00:00Z",
        "Registration.InitialRegistrationDate": "2020-02-03T10:00:00Z",
        "Registration.LastUpdateDate": moment(-200),
        "Registration.RegistrationStatus": registration,
        "Registration.ManagingLOU": ISSUER,
        "Registration.ValidationSources": "FULLY_CORROBORATED",
    })


def reason(word, why, **others):
    category = "ULTIMATE_ACCOUNTING_CONSOLIDATION_PARENT"
    fields = {"LEI": CODES[word], "ExceptionCategory": category, "ExceptionReason": why, **others}
    return in_order(EXCEPTION_NAMES, fields)


def top_of(word):
    return top_of(PARENTS[word]) if word in PARENTS else word


def relations_of(words):
    """The relationships that start at some entities."""
    direct = [relation(word, DIRECT, PARENTS[word]) for word in words if word in PARENTS]
    ultimate = [relation(word, ULTIMATE, REPORTED.get(word) or top_of(word)) for word in words if word in PARENTS]
    return [*direct, *ultimate, *(relation(*fund) for fund in FUNDS if fund[0] in words)]


def first_uploads():
    """What is uploaded before each of the first publications: the entities that are new, and what starts at them."""
    done, uploads = 0, []
    for many in GROWTH:
        words = [word for word, *_ in ROWS[done:many]]
        uploads.append([{"records": [entity(word) for word in words], "relationships": relations_of(words),
                         "exceptions": [reason(word, why) for word, why in EXCEPTIONS.items() if word in words]}])
        done = many
    return uploads


def last_uploads():
    """What is uploaded before the last publication: some new entities, and changes of others."""
    updated = {"LastUpdateDate": moment(-1)}
    ended = {"EntityStatus": "INACTIVE", "RegistrationStatus": "RETIRED", **updated}
    merger = {"Event.1.Type": "MERGER", "Event.1.Status": "COMPLETED", "Event.1.EffectiveDate": moment(-3),
              "Event.1.RecordedDate": moment(-2)}
    transferred = {"RegistrationStatus": "PENDING_TRANSFER", **updated}
    return [{
        "records": [
            *(entity(word) for word, *_ in ROWS[GROWTH[-1]:]),
            entity("kettle", **{"SuccessorLEI": CODES["crane"], **ended, **merger}),
            entity("double", **{"SuccessorLEI": CODES["beech"], "EntityStatus": "NULL",
                                "RegistrationStatus": "DUPLICATE", **updated}),
            entity("meridian", **{"RegistrationStatus": "LAPSED", "NextRenewalDate": moment(-20), **updated}),
            entity("tamarack", **transferred),
            entity("energi", **{"LegalAddress.City": "Helsingborg", "HeadquartersAddress.City": "Helsingborg",
                                **updated}),
        ],
        "relationships": [
            relation("subfund", "IS_SUBFUND_OF", "fund"),
            relation("bunkering", ULTIMATE, "nordhavn", "INACTIVE", "ANNULLED"),
        ],
        "exceptions": [
            reason("dolomiti", "NATURAL_PERSONS"),
            reason("horlogerie", "", Action="WITHDRAW"),
        ],
    }, {
        "records": [entity("tamarack", **{**transferred, "RegistrationStatus": "PENDING_ARCHIVAL",
                                          "TransferTo": ISSUERS[1]})],
    }]


def all_uploads():
    """The uploads before each publication, in order."""
    return [*first_uploads(), last_uploads()]
