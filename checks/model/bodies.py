"""What a body is: docs/FORMATS.md, "Bodies". Python's json reads it, and what it takes beyond RFC 8259 is refused here."""
import json
import math

KINDS = ("records", "relationships", "exceptions")
LEVELS, MOST_ITEMS = 127, 5_000


class Object(list):
    """A JSON object as its members in order, of which several may have one name."""

    @property
    def members(self):
        """The members by name: the last value of a name counts."""
        return dict(self)


def number(text):
    """A number. One too large for a double is refused, and so are the constants that only Python knows, such as NaN."""
    if not math.isfinite(float(text)):
        raise ValueError(f"no number: {text}")
    return float(text)


def levels(value):
    """How many lists and objects are one in another, at most."""
    if isinstance(value, Object):
        return 1 + max((levels(each) for _, each in value), default=0)
    return 1 + max(map(levels, value), default=0) if isinstance(value, list) else 0


def json_value(body):
    """The value of a JSON text in bytes. Raises a ValueError or a RecursionError if it has none."""
    text = body.decode()
    value = json.loads(text, object_pairs_hook=Object, parse_float=number, parse_int=number, parse_constant=number)
    if levels(value) > LEVELS:
        raise ValueError("too many levels")
    if "\\u" in text:
        json.dumps(value, ensure_ascii=False).encode()  # Python takes half of a surrogate pair, but can't encode it.
    return value


def items_of(value):
    """The items of a value, each with its kind, or None if it isn't an upload."""
    if not isinstance(value, Object) or not set(value.members) <= set(KINDS):
        return None
    items = []
    for kind in KINDS:
        member = value.members.get(kind, [])
        if isinstance(member, Object) or not isinstance(member, list):
            return None
        for item in member:
            if not isinstance(item, Object) or not all(isinstance(text, str) for text in item.members.values()):
                return None
            items.append((kind, item.members))
    return items


def read(body):
    """The items of a body, each with its kind, or the name of its fault."""
    try:
        value = json_value(body)
    except (ValueError, RecursionError):
        return "NOT_JSON"
    items = items_of(value)
    if items is None:
        return "NOT_AN_UPLOAD"
    if not items:
        return "NO_ITEMS"
    return "TOO_MANY_ITEMS" if len(items) > MOST_ITEMS else items
