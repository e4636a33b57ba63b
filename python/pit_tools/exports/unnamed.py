"""Columns of a header that no option names, but whose names show their contents: they are compared
with what is read.

An export of sub-blocks has their sizes, a model of tonnes its density: so it shows whether the sums
agree."""
from __future__ import annotations

import re
from dataclasses import dataclass, field
from typing import TYPE_CHECKING, Optional, Sequence

from pit_tools.texts.formulas import short_name

if TYPE_CHECKING:
    from pit_tools.exports.words import Words

# The letters and words of an axis, and what precedes or follows them in the name of a size.
AXES = ("x|e|east|easting", "y|n|north|northing", "z|rl|elev|elevation|level")
SIZE = "size|dim|dimension|inc|increment|len|length|extent|width|blocksize|blocklength|blockdim"

DENSITY = re.compile(
    r"(sg|density|dens|bulkdensity|rho|specificgravity|insitudensity|dbd)(tm3|gcm3|gcc|kgm3)?")
MASS = re.compile(r"(tonnes|tonnage|tons|mass)(t|kt|st)?")
VOLUME = re.compile(r"(volume|vol|blockvolume|blockvol|cellvol)(m3|bcm)?")
SHARE = "(pct|percent|perc|prop|frac|fraction|share|part)?"
REST = re.compile(rf"{SHARE}(waste|wst|air){SHARE}")


@dataclass(frozen=True)
class Unnamed:
    """Positions of columns in a header: three sizes of a row's block, the density or the tonnes,
    whichever is not read, its volume, and shares of waste or air."""

    sizes: Sequence[int] = ()
    weight: Optional[int] = None
    volume: Optional[int] = None
    rests: Sequence[int] = ()
    names: Sequence[str] = field(default=(), compare=False)

    @property
    def columns(self) -> list[int]:
        return [*self.sizes, *self.rests,
                *(at for at in (self.weight, self.volume) if at is not None)]

    def names_text(self, columns: Sequence[int]) -> str:
        return ", ".join(" ".join(self.names[at].split()) for at in columns)


def unnamed_in(names: Sequence[str], words: Words) -> Unnamed:
    """Returns the columns of a header besides those that these options read."""
    plain = [re.sub(r"[\W_]", "", name.casefold()) for name in names]
    sizes = () if words.sub_size else sizes_in(names)
    whole = not (words.share or words.ore_share)
    weight = _only(plain, DENSITY if words.tonnes else MASS) if whole else None
    volume = _only(plain, VOLUME) if whole and not (words.volume or words.tonnes) else None
    rests = ([at for at, name in enumerate(plain) if REST.fullmatch(name)]
             if words.ore_share and not words.waste_share else [])
    return Unnamed(sizes, weight, volume, rests, names)


def sizes_in(names: Sequence[str]) -> tuple[int, ...]:
    """Returns the columns of sizes along x, y and z, as XINC, dim_x, `_x_size` or `x length`; none
    if one is missing or repeated."""
    plain = [re.sub(r"[\W_]", "", short_name(name)) for name in names]
    found = []
    for axis in AXES:
        named = [at for at, name in enumerate(plain)
                 if re.fullmatch(rf"({axis})({SIZE})s?|({SIZE})s?({axis})|d({axis[0]})", name)]
        if not named:
            # Micromine has the size of EAST as _EAST.
            named = [at for at, name in enumerate(names)
                     if re.fullmatch(rf"_({axis})", name.strip().strip('"').casefold())]
        if len(named) != 1:
            return ()
        found.append(named[0])
    return tuple(found)


def _only(names: Sequence[str], pattern: re.Pattern) -> Optional[int]:
    """The only column of such a name."""
    found = [at for at, name in enumerate(names) if pattern.fullmatch(name)]
    return found[0] if len(found) == 1 else None
