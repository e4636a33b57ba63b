"""Pictures as files: PNG, SVG or PDF, by the ending of the name."""
from __future__ import annotations

from typing import TYPE_CHECKING

from pit_tools.files import outputs

if TYPE_CHECKING:
    from matplotlib.figure import Figure

ENDINGS = (".png", ".svg", ".pdf")


def write_picture(drawn: Figure, place: str) -> None:
    """Writes a picture in the form of its ending; equal pictures make equal SVG files."""
    import matplotlib

    form = place.rpartition(".")[2].lower()
    matplotlib.rcParams.update({"svg.hashsalt": "section", "svg.fonttype": "none"})
    about = {"Date": None} if form == "svg" else None
    with outputs.opened(place, f"{form.upper()} picture") as file:
        drawn.savefig(file, format=form, dpi=110, metadata=about)
