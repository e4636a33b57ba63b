"""How mining packages write block models: the names of their columns, the lines above the header,
and the marks of missing values. `packages` reads by these."""
from __future__ import annotations

from dataclasses import dataclass
from typing import Sequence

#: The names of three columns, of x, y and z.
Triple = tuple[str, str, str]


@dataclass(frozen=True)
class Package:
    """The form of a package's exports. Names of columns are compared in lower case, without units
    in brackets, blanks, points and underscores except a leading one; of several triples the first
    that the header has is used.

    `world` are coordinates along the map's axes, in addition to `places` along the model's own.
    `corner`, `counts`, `origin`, `angles` and `axes` are columns with one value in all rows: the
    smallest corner, the numbers of parents, the corner in world coordinates, and turns about axes
    by number. `has_parents` is true if no block is larger than a parent. `bearing` is what an
    azimuth above the header means: the direction of the model's +x or +y. `order` is the order of
    three numbers above the header. `marks` mean missing values; a header is recognised by all
    columns of a group in `identifying`."""

    title: str
    places: Sequence[Triple]
    sizes: Sequence[Triple]
    identifying: Sequence[Sequence[str]]
    world: Sequence[Triple] = ()
    index: str = ""
    corner: Sequence[str] = ()
    counts: Sequence[str] = ()
    origin: Sequence[str] = ()
    angles: Sequence[str] = ()
    axes: Sequence[str] = ()
    has_parents: bool = True
    bearing: str = "y"
    order: str = "xyz"
    marks: Sequence[str] = ()


PACKAGES = {
    "datamine": Package(
        "Datamine", [("xc", "yc", "zc")], [("xinc", "yinc", "zinc")],
        [("ijk", "xinc"), ("xc", "xinc"), ("ijk", "xmorig"), ("xc", "xmorig")],
        world=[("xworld", "yworld", "zworld")], index="ijk", corner=("xmorig", "ymorig", "zmorig"),
        counts=("nx", "ny", "nz"), origin=("x0", "y0", "z0"),
        angles=("angle1", "angle2", "angle3"), axes=("rotaxis1", "rotaxis2", "rotaxis3"),
        marks=("-", "1e30")),
    "vulcan": Package(
        "Vulcan", [("centroidx", "centroidy", "centroidz"), ("xcentre", "ycentre", "zcentre"),
                   ("xcenter", "ycenter", "zcenter"), ("xworld", "yworld", "zworld")],
        [("dimx", "dimy", "dimz"), ("xlength", "ylength", "zlength")],
        [("centroidx", "dimx"), ("xcentre", "xlength"), ("xcenter", "xlength"),
         ("xworld", "xlength")],
        world=[("xworld", "yworld", "zworld")], has_parents=False, bearing="x"),
    "surpac": Package(
        "Surpac", [("x", "y", "z"), ("xcentre", "ycentre", "zcentre"), ("_x", "_y", "_z"),
                   ("centroidx", "centroidy", "centroidz")],
        [("_xsize", "_ysize", "_zsize"), ("_xextent", "_yextent", "_zextent"),
         ("xsize", "ysize", "zsize"), ("xextent", "yextent", "zextent")],
        [("_xsize", "_ysize"), ("_xextent", "_yextent")], order="yxz", marks=("null",)),
    "leapfrog": Package(
        "Leapfrog", [("x", "y", "z"), ("xc", "yc", "zc"), ("xcentre", "ycentre", "zcentre"),
                     ("centroidx", "centroidy", "centroidz"),
                     ("xcentroid", "ycentroid", "zcentroid"), ("east", "north", "elev")],
        [("dx", "dy", "dz"), ("xsize", "ysize", "zsize"), ("sizex", "sizey", "sizez")], [],
        marks=("blank", "without_grade", "outside")),
    "micromine": Package(
        "Micromine", [("east", "north", "rl"), ("easting", "northing", "rl"), ("x", "y", "z")],
        [("_east", "_north", "_rl"), ("_easting", "_northing", "_rl"), ("_x", "_y", "_z")],
        [("east", "_east"), ("easting", "_easting"), ("x", "y", "_x", "_y")], marks=("-",)),
    "deswik": Package(
        "Deswik", [("xcentroid", "ycentroid", "zcentroid"), ("xc", "yc", "zc"), ("x", "y", "z"),
                   ("centroidx", "centroidy", "centroidz")],
        [("xsize", "ysize", "zsize"), ("sizex", "sizey", "sizez"), ("xinc", "yinc", "zinc"),
         ("dx", "dy", "dz")], [],
        corner=("xmorig", "ymorig", "zmorig"), origin=("x0", "y0", "z0"),
        angles=("angle1", "angle2", "angle3"), axes=("rotaxis1", "rotaxis2", "rotaxis3"),
        marks=("-",)),
}

NAMES = tuple(PACKAGES)

# The names of a number or three above the header, without case and blanks.
ABOVE = {
    "corner": ("origin", "modelorigin", "basepoint", "minimumcoordinates", "minimumcorner",
               "corner", "minimum"),
    "parents": ("size", "blocksize", "parentblocksize", "parentsize", "userblocksize",
                "parentblocks"),
    "azimuth": ("azimuth", "bearing"),
    "dip": ("dip",),
    "pitch": ("pitch", "plunge"),
    "rotation": ("rotation",),
}
