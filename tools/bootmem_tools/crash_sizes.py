"""The results of bootmem-crash for a machine, as lines and as an object: the greatest sizes, and
whether the areas that are asked for fit."""

from __future__ import annotations

from typing import NamedTuple, Optional, Sequence

from bootmem_tools import ranges
from bootmem_tools.objects import Object


class Greatest(NamedTuple):
    """The greatest size in MiB that fits in a form, 0 if none does, and its area. If that area isn't
    below 4 GiB, `below` is the greatest size for areas below 4 GiB."""

    form: str
    size: int
    area: Sequence[ranges.Range]
    below: Optional[Greatest] = None


class Outcome(NamedTuple):
    """The outcome of asking for an area: `what` was asked for; `picked`, the size on this machine if it
    depends on total memory; and the area, or the reasons why there is none."""

    head: str
    what: str
    picked: str | None
    area: Sequence[ranges.Range]
    reasons: Sequence[str] = ()


class Found(NamedTuple):
    """All results for a machine."""

    machine: str
    greatest: Sequence[Greatest]
    outcomes: Sequence[Outcome]

    @property
    def fits(self) -> bool:
        """Returns whether all areas that are asked for fit or, if none is, whether any size fits."""
        if self.outcomes:
            return all(one.area for one in self.outcomes)
        return any(one.size for one in self.greatest)


def total_of(found: Sequence[ranges.Range]) -> int:
    """Returns the bytes of an area together with its low part."""
    return sum(last + 1 - first for first, last in found)


def area_text(found: Sequence[ranges.Range]) -> str:
    """Returns the area, and its low part if it has one, with the size of both together."""
    area = f"at {ranges.range_text(*found[-1])}"
    if len(found) == 1:
        return area
    low, both = (ranges.size_text(total_of(parts)) for parts in (found[:-1], found))
    return f"{area}, low part {ranges.range_text(*found[0])} ({low}), {both} in all"


def greatest_lines(found: Greatest) -> list[str]:
    """Returns the lines for a greatest size."""
    if found.size == 0:
        return [f"{found.form:<6} no size fits"]
    lines = [f"{found.form:<6} at most {found.size}M, {area_text(found.area)}"]
    if found.below is not None:
        below = found.below
        lines.append(f"{'':<6} below 4 GiB at most {below.size}M" + (f", {area_text(below.area)}" if below.size else ""))
    return lines


def outcome_lines(found: Outcome) -> list[str]:
    """Returns the lines for what was asked for."""
    asked = found.what + (f", {found.picked} here," if found.picked is not None else "")
    if found.area:
        return [f"{found.head:<6} {asked} fits {area_text(found.area)}"]
    return [f"{found.head:<6} {asked} doesn't fit", *(f"{'':<6} {reason}" for reason in found.reasons)]


def range_object(found: ranges.Range) -> Object:
    """Returns a range as an object."""
    return {"first": ranges.hex_text(found[0]), "last": ranges.hex_text(found[1])}


def area_object(found: Sequence[ranges.Range]) -> Object | None:
    """Returns the area with its low part as an object, or None if there is none."""
    if not found:
        return None
    low = range_object(found[0]) if len(found) > 1 else None
    return {**range_object(found[-1]), "low": low, "total": total_of(found)}


def greatest_object(found: Greatest) -> Object:
    """Returns a greatest size as an object."""
    made: Object = {"size": found.size * ranges.MIB, "area": area_object(found.area)}
    if found.below is not None:
        made["below_4g"] = greatest_object(found.below)
    return made


def as_object(found: Found, notes: Sequence[str]) -> Object:
    """Returns all results as an object, with the notes that are otherwise printed on standard
    error."""
    asked = [{"from": one.head, "asked": one.what, "picked": one.picked, "fits": bool(one.area), "area": area_object(one.area),
              "reasons": list(one.reasons)} for one in found.outcomes]
    return {"machine": found.machine, "fits": found.fits, "greatest": {one.form: greatest_object(one) for one in found.greatest},
            "asked": asked, "notes": list(notes)}
