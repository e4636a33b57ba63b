"""`pit-tools survey`: how a plan and its zone files were understood."""
from __future__ import annotations

import argparse
from typing import TYPE_CHECKING, Sequence

from pit_tools.commands import add_json, add_outs, by_ending, print_json

if TYPE_CHECKING:
    from pit_tools.surveys.facts import Facts
    from pit_tools.surveys.pictures import Plane
    from pit_tools.pits.files import NamedPit

HELP = """\
Reports how a plan and its zone files were understood: first LOOK AT, what is unusual, in words;
then positions, rock, tonnes and grade above cut-offs, benches, slopes requested and obtained, walls
by height, sides of the model, destinations, the pit's contents by zone, its cash flow by bench and
by nested pit, resources, and whether the files belong to the plan.

    pit-tools survey deposit.plan deposit oxide.csv west.csv east.csv --out survey.html

reads deposit.blocks, deposit.prec and deposit.pcpsp; zone files, in the order of `pitc compile`,
are named, and their lines counted. The page begins with a summary to pass on: the pit, the date and
versions, the plan in words, what `import` omitted, and the sums of the files. It also has pictures:
maps of metal, of the ground and of the floor of the ultimate pit, sections and a bench, the
grade-tonnage curve, slopes as a rose, tonnes by period, the pit by zone and its cash flow, and the
pit with its ore, to turn. It opens without a network. `--out pictures/` writes them as files.

    pit-tools survey deposit.plan deposit --section y=2320 --pit k1.pit='K = 1' \\
        --pit k9.pit='K = 9' --out section.png

draws one section, and prints nothing: a picture needs only the block file. y=.. is a section along
x, seen from the south; x=.. one along y; z=.. a bench, from above, each in metres: the plane of
blocks nearest to them, or without --section the section along x through most metal.

Units and names of zones come from the sidecar file deposit.plan.json, which `pit-tools plan`
writes.
"""

WRITES = "surveys and pictures"

#: The smallest number of steps of a survey's pictures.
PICTURES = 7


def add_arguments(parser: argparse.ArgumentParser) -> None:
    parser.add_argument("plan", help="the plan")
    parser.add_argument("base", help="the instance: BASE.blocks, BASE.prec, BASE.pcpsp")
    parser.add_argument("zones", nargs="*", metavar="zone",
                        help="the zone files, in the plan's order")
    add_outs(parser, "a page, .html; all pictures, a folder with a slash at its end; or one "
             "section with the outlines of pits, .png, .svg or .pdf")
    parser.add_argument("--section", action="append", default=[], metavar="AXIS=METRES",
                        help="a section, as y=2320, or a bench, as z=350; may be repeated")
    parser.add_argument("--pit", action="append", default=[], metavar="FILE[=NAME]",
                        help="the blocks of a pit, one per line, in place of the ultimate pit; a "
                             "picture of a section may have several, with names")
    parser.add_argument("--by", choices=["grade", "zone"], default="grade",
                        help="what a picture of a section shows (grade)")
    parser.add_argument("--title", default="", help="the line above a picture of a section")
    add_json(parser)


def run(args: argparse.Namespace) -> int:
    from pit_tools import progress
    from pit_tools.errors import UserError
    from pit_tools.pits.files import NamedPit
    from pit_tools.surveys.picture_files import ENDINGS

    outs = by_ending(args.out, ".html", *ENDINGS, "/")
    pictures = [place for ending in ENDINGS for place in outs[ending]]
    pits = [NamedPit.of(word) for word in args.pit]
    if len(args.section) > 1 and pictures:
        raise UserError("--section: a picture shows one; all are in a page or a folder of pictures")
    if pictures and len(pictures) == len(args.out):
        from pit_tools.surveys.sections import facts_of_blocks

        _draw(args, facts_of_blocks(args.plan, args.base), pits, pictures)
        return 0
    if len(pits) > 1:
        raise UserError("--pit: a survey is of one pit; only a picture of a section shows several")
    with progress.shown("survey", 5 + PICTURES * (len(outs[".html"]) + len(outs["/"]))):
        _survey(args, pits, outs, pictures)
    return 0


def _draw(args: argparse.Namespace, facts: Facts, pits: Sequence[NamedPit],
          places: Sequence[str]) -> None:
    """Writes the picture of the section."""
    from pit_tools.surveys.picture_files import write_picture
    from pit_tools.surveys.sections import drawn_section, plane_of

    plane = plane_of(facts, args.section[0]) if args.section else None
    drawn = drawn_section(facts, plane, pits, args.by, args.title)
    for place in places:
        write_picture(drawn, place)


def _survey(args: argparse.Namespace, pits: Sequence[NamedPit], outs: dict[str, list[str]],
            pictures: Sequence[str]) -> None:
    from pit_tools import progress
    from pit_tools.files import outputs
    from pit_tools.surveys.box import Inputs
    from pit_tools.surveys.facts import read_facts
    from pit_tools.surveys.text import survey_record, survey_text

    facts = read_facts(args.plan, args.base, args.zones, pits[0].path if pits else None)
    if facts.note.reconciled.rows:
        facts.note.reconciled.judge(facts.held, facts.measures, args.base)
    planes = _planes(facts, args.section)
    progress.step("counts")
    text = survey_text(facts)
    with progress.hidden():
        if args.json:
            print_json(survey_record(facts))
        else:
            print(text, end="")
    with outputs.together():
        for place in outs[".html"]:
            from pit_tools.surveys.page import survey_page

            page = survey_page(facts, Inputs(args.plan, args.base, args.zones), text, planes)
            with outputs.opened(place, "survey", "utf-8") as file:
                file.write(page)
        for folder in outs["/"]:
            _write_pictures(facts, planes, folder)
        if pictures:
            _draw(args, facts, pits, pictures)


def _planes(facts: Facts, words: Sequence[str]) -> list[Plane]:
    if not words:
        return []
    from pit_tools.surveys.sections import plane_of

    return [plane_of(facts, word) for word in words]


def _write_pictures(facts: Facts, planes: Sequence[Plane], folder: str) -> None:
    import os

    from pit_tools.files import outputs
    from pit_tools.surveys.pictures import all_of_them, png_of

    outputs.folder(folder)
    with outputs.together(record=os.path.join(folder, "pictures")):
        for name, _, drawn in all_of_them(facts, planes):
            with outputs.opened(os.path.join(folder, name + ".png"), "PNG picture") as file:
                file.write(png_of(drawn))
