"""The checks of items by rules 3, as docs/RULES.md has them. Each function yields the verdicts of the checks that fail, in
the order of their numbers, and the first one counts."""
from checks.model.fields import KINDS, day, has_check_digits

SUCCESSORS, CHAIN, RENEWAL_DAYS = 200, 200, 400
LIVE = ("ISSUED", "LAPSED", "PENDING_TRANSFER", "PENDING_ARCHIVAL")
EVENT = "Entity.Event.1."
AUTHORITY = "Entity.RegistrationAuthority.RegistrationAuthority"
DIRECT, ULTIMATE = "IS_DIRECTLY_CONSOLIDATED_BY", "IS_ULTIMATELY_CONSOLIDATED_BY"
PARENTS = {DIRECT: "DIRECT_ACCOUNTING_CONSOLIDATION_PARENT", ULTIMATE: "ULTIMATE_ACCOUNTING_CONSOLIDATION_PARENT"}
ENTITY_STATUS = {"ISSUED": ["ACTIVE"], "RETIRED": ["INACTIVE"], "DUPLICATE": ["ACTIVE", "INACTIVE", "NULL"],
                 "ANNULLED": ["ACTIVE", "INACTIVE", "NULL"]}

# Who may change a status: the manager, the receiver or nobody.
COLUMNS = ["ISSUED", "LAPSED", "PENDING_TRANSFER", "PENDING_ARCHIVAL", "RETIRED", "DUPLICATE", "ANNULLED"]
CHANGES = {"ISSUED": "MMM-MMM", "LAPSED": "MMM-MMM", "PENDING_TRANSFER": "MMMM---", "PENDING_ARCHIVAL": "RRM----",
           "RETIRED": "M---M--", "DUPLICATE": "-----M-", "ANNULLED": "-------"}
RELATION_COLUMNS = ["ISSUED", "PUBLISHED", "LAPSED", "RETIRED", "ANNULLED"]
RELATION_CHANGES = {None: "yy---", "ISSUED": "yyyyy", "PUBLISHED": "yyyyy", "LAPSED": "yyyyy", "RETIRED": "yy-yy",
                    "ANNULLED": "yy---"}


def itself_fails(kind, item):
    """C01 to C04, of an item with the fields that it was sent with."""
    fields = KINDS[kind]
    names = [name for name, *_ in fields]
    if unknown := sorted(set(item) - set(names)):
        yield f"C01 FIELD_UNKNOWN {unknown[0]}"
    is_pending = item.get("Registration.RegistrationStatus") == "PENDING_ARCHIVAL"
    is_conditional = is_pending if kind == "records" else item.get("Action") != "WITHDRAW"
    for name, _, _, needed in fields:
        if not item.get(name) and (needed == "yes" or needed == "if" and is_conditional):
            yield f"C02 FIELD_MISSING {name}"
    for name, has_shape, _, _ in fields:
        if item.get(name) and (not has_shape(item[name]) or name == "Register.TransferTo" and not is_pending):
            yield f"C03 FIELD_SHAPE {name}"
    for name, _, shape, _ in fields:
        if item.get(name) and shape in ("code", "codes") and not all(map(has_check_digits, item[name].split(" "))):
            yield f"C04 CHECK_DIGITS {name}"


def successors(record):
    text = record.get("Entity.SuccessorEntity.1.SuccessorLEI")
    return set(text.split(" ")) if text else set()


def authority_key(record):
    """The authority key of a live record, or None."""
    key = record[AUTHORITY + "ID"], record.get(AUTHORITY + "EntityID")
    is_keyed = record["Registration.RegistrationStatus"] in LIVE and key[1] and key[0] not in ("RA888888", "RA999999")
    return key if is_keyed else None


def levels_above(table, item):
    """The LEIs of levels 1 to 201 of the successors of an item."""
    level, found = successors(item), set()
    for _ in range(SUCCESSORS + 1):
        found |= level
        level = set().union(*(successors(table.records.get(lei, {})) for lei in level - {item["LEI"]}))
    return found


def record_fails(table, item, uploader, today):
    """C05 to C22."""
    held = table.records.get(item["LEI"])
    yield from dates_and_status_fail(item, today)
    if item["Registration.ManagingLOU"] != uploader:
        yield "C09 MANAGER_NOT_UPLOADER"
    yield from change_fails(held, item, uploader)
    status, renewal = item["Registration.RegistrationStatus"], day(item["Registration.NextRenewalDate"])
    if status == "ISSUED" and not today <= renewal <= today + RENEWAL_DAYS or status == "LAPSED" and not renewal < today:
        yield "C15 RENEWAL_DATE"
    if successors(item):
        yield from successors_fail(table, item)
    key = authority_key(item)
    for lei, record in table.records.items() if key else ():
        if lei != item["LEI"] and authority_key(record) == key:
            yield f"C19 AUTHORITY_KEY_TAKEN {lei}"
    if held is None and len(table.records) >= table.most_records:
        yield "C20 REGISTER_FULL"
    yield from event_fails(item, today)


def dates_and_status_fail(item, today):
    """C05 to C08."""
    status = item["Registration.RegistrationStatus"]
    if item["Entity.EntityStatus"] not in ENTITY_STATUS.get(status, ["ACTIVE", "INACTIVE"]):
        yield "C05 STATUS_ENTITY"
    later = item["Registration.LastUpdateDate"], item["Registration.NextRenewalDate"]
    if min(later) < item["Registration.InitialRegistrationDate"]:
        yield "C06 DATES_ORDER"
    past = item["Registration.LastUpdateDate"], item.get("Entity.EntityCreationDate")
    if any(day(moment) > today for moment in past if moment):
        yield "C07 DATE_FUTURE"
    if successors(item) and status not in ("RETIRED", "DUPLICATE") or not successors(item) and status == "DUPLICATE":
        yield "C08 SUCCESSOR_SHAPE"


def change_fails(held, item, uploader):
    """C10 to C14: the change from the record that is held."""
    status = item["Registration.RegistrationStatus"]
    if held is None:
        if status != "ISSUED":
            yield "C10 NOT_ISSUED"
        return
    before = held["Registration.RegistrationStatus"]
    may_change = CHANGES[before][COLUMNS.index(status)]
    if may_change == "-":
        yield f"C11 TRANSITION {before}"
    if (held["Register.TransferTo"] if may_change == "R" else held["Registration.ManagingLOU"]) != uploader:
        yield "C12 NOT_MANAGER"
    if held["Registration.InitialRegistrationDate"] != item["Registration.InitialRegistrationDate"]:
        yield "C13 INITIAL_DATE_CHANGED"
    if held["Registration.LastUpdateDate"] > item["Registration.LastUpdateDate"]:
        yield "C14 UPDATE_EARLIER"


def successors_fail(table, item):
    """C16 to C18."""
    if not successors(item) <= table.records.keys():
        yield "C16 SUCCESSOR_UNKNOWN"
    above = levels_above(table, item)
    if len(above - {item["LEI"]}) <= SUCCESSORS and item["LEI"] in above:
        yield "C17 SUCCESSOR_CYCLE"
    if len(above - {item["LEI"]}) > SUCCESSORS:
        yield "C18 SUCCESSOR_CHAIN_LONG"


def event_fails(item, today):
    """C21 and C22."""
    if not any(EVENT + name in item for name in ("Type", "EffectiveDate", "RecordedDate", "Status")):
        return
    for name in ("Type", "RecordedDate", "Status"):
        if EVENT + name not in item:
            yield f"C21 EVENT_INCOMPLETE {EVENT}{name}"
    effective = item.get(EVENT + "EffectiveDate")
    is_early = item[EVENT + "Status"] == "COMPLETED" and (effective is None or day(effective) > today)
    if day(item[EVENT + "RecordedDate"]) > today or is_early:
        yield "C22 EVENT_DATES"


def walk(table, item):
    """The first 201 members of the walk along direct parents from an item."""
    members = [item["Relationship.EndNode"]]
    while len(members) <= CHAIN and (end := table.active_end(members[-1], DIRECT)):
        members.append(end)
    return members


def relationship_fails(table, item, uploader, today):
    """C30 to C36, and those of an ACTIVE relationship."""
    start, end, kind = (item["Relationship." + name] for name in ("StartNode", "EndNode", "RelationshipType"))
    if start == end:
        yield "C30 SAME_NODE"
    begun = item["Relationship.StartDate"]
    if item.get("Relationship.EndDate", begun) < begun or \
            item["Registration.LastUpdateDate"] < item["Registration.InitialRegistrationDate"]:
        yield "C31 PERIOD_ORDER"
    if start not in table.records:
        yield "C32 START_UNKNOWN"
    if end not in table.records:
        yield "C33 END_UNKNOWN"
    if not item["Registration.ManagingLOU"] == table.records[start]["Registration.ManagingLOU"] == uploader:
        yield "C34 START_NOT_MANAGED"
    needed = {DIRECT: None, ULTIMATE: None, "IS_INTERNATIONAL_BRANCH_OF": "BRANCH"}.get(kind, "FUND")
    if needed not in (None, table.records[start]["Entity.EntityCategory"]):
        yield "C35 START_CATEGORY"
    status, is_active = item["Registration.RegistrationStatus"], item["Relationship.RelationshipStatus"] == "ACTIVE"
    held = table.relationships.get((start, kind, end), {}).get("Registration.RegistrationStatus")
    if RELATION_CHANGES[held][RELATION_COLUMNS.index(status)] == "-" or is_active and status in ("RETIRED", "ANNULLED"):
        yield "C36 RELATION_TRANSITION"
    if is_active:
        yield from active_fails(table, item, start, kind, end)


def active_fails(table, item, start, kind, end):
    """C37 to C40."""
    other = table.active_end(start, kind)
    if other not in (None, end):
        yield f"C37 ACTIVE_TAKEN {other}"
    members = walk(table, item) if kind == DIRECT else []
    if start in members[:CHAIN]:
        yield "C38 PARENT_CYCLE"
    if len(members) > CHAIN:
        yield "C39 PARENT_CHAIN_LONG"
    if kind in PARENTS and (start, PARENTS[kind]) in table.exceptions:
        yield "C40 EXCEPTION_STANDS"


def exception_fails(table, item, uploader, today):
    """C50 to C53."""
    lei, category = item["LEI"], item["ExceptionCategory"]
    if lei not in table.records:
        yield "C50 LEI_UNKNOWN"
    if table.records[lei]["Registration.ManagingLOU"] != uploader:
        yield "C51 NOT_MANAGED"
    is_withdrawal = item.get("Action") == "WITHDRAW"
    parent = table.active_end(lei, next(kind for kind, about in PARENTS.items() if about == category))
    if not is_withdrawal and parent:
        yield f"C52 PARENT_STANDS {parent}"
    if is_withdrawal and (lei, category) not in table.exceptions:
        yield "C53 NOTHING_TO_WITHDRAW"
