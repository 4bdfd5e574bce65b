"""What `leireg group WHO FORM LEICOPY RRCOPY` reports, by docs/FORMATS.md."""
from __future__ import annotations

from checks.models.sheets import NAMES, read_sheet

DIRECT, ULTIMATE = "IS_DIRECTLY_CONSOLIDATED_BY", "IS_ULTIMATELY_CONSOLIDATED_BY"
NAME = NAMES["lei"].index("Entity.LegalName")
STATUS = NAMES["rr"].index("Relationship.RelationshipStatus")
NONE = "-"


class Groups:
    """Who is whose parent by the rows of `rr`, and what entities are called by those of `lei`."""

    def __init__(self, entities, relationships):
        self.names = {key[0]: row[NAME] for key, row in entities.rows.items()}
        self.starts = sorted({start for start, _, _ in relationships.rows})
        self.direct, self.reported, self.children = {}, {}, {}
        for (start, kind, end), row in relationships.rows.items():
            parents = {DIRECT: self.direct, ULTIMATE: self.reported}.get(kind)
            if parents is not None and row[STATUS] == "ACTIVE":
                parents.setdefault(start, end)
        for start, end in self.direct.items():
            self.children.setdefault(end, []).append(start)
        # A walk ends at an entity that has no direct parent. Those that return to where they were don't end.
        tops = [entity for entity in self.children if entity not in self.direct]
        self.computed = {entity: top for top in tops for _, entity in self.members(top)}

    def name(self, entity):
        return self.names.get(entity) or NONE

    def members(self, root):
        """The entities, other than the root, from which a walk leads to it, each after the number of steps, from level to
        level."""
        found, level, steps = [], [root], 0
        while level:
            steps += 1
            level = [child for parent in level for child in self.children.get(parent, []) if child != root]
            found += [(steps, entity) for entity in level]
        return found

    def disagreements(self, entities):
        """The lines of those among some entities that disagree, and how many they are."""
        lines = []
        for entity in sorted(entities):
            reported, computed = self.reported.get(entity), self.computed.get(entity)
            if reported != computed:
                lines.append(f"DISAGREES {entity} {word(reported)} {word(computed)}")
        return [*lines, f"disagreements {len(lines)}"]

    def group(self, root):
        members = sorted(self.members(root))
        return [
            f"GROUP {root} {self.name(root)}",
            *(f"{depth} {entity} {word(self.direct.get(entity))} {self.name(entity)}" for depth, entity in members),
            f"members {len(members)}",
            *self.disagreements([root, *(entity for _, entity in members)]),
        ]


def word(entity):
    return NONE if entity is None else entity


def group(who, form, entities, relationships):
    """The lines that a run over the bytes of both copies writes, and its status."""
    lines, status = report(who, read_sheet(entities, "lei", form), read_sheet(relationships, "rr", form))
    return [f"{line}\n".encode() for line in lines], status


def report(who, entities, relationships):
    if entities is None:
        return ["refused LEI_COPY_NOT_READ"], 2
    if relationships is None:
        return ["refused RR_COPY_NOT_READ"], 2
    if entities.number != relationships.number:
        return [f"refused OTHER_PUBLICATION {entities.number} {relationships.number}"], 2
    groups = Groups(entities, relationships)
    if who == "ALL":
        return groups.disagreements(groups.starts), 0
    if who not in groups.names:
        return ["refused LEI_UNKNOWN"], 2
    return groups.group(who), 0
