"""Inputs and texts that several tables have."""
import plain
from rows.trial import ANY, MARK, Trial, lines
from shared import ENDINGS, compile_arguments, header, model


def input_of(path):
    """Returns the plan and the zone files of an input of the pipe form in this repository."""
    plan, zones = model(path)
    return plan.encode(), *(zone.encode() for zone in zones)


# One ore block under a mill, and its zone file in another format.
PLAN, ORE = input_of("crates/pitc/stdin")
OTHER_ORE = MARK + b'"grade",Z,rock,y,X,tonnes\r\n" 5000 ",0,"ox, hard",0,0,1000.000\r\n'

CUBES = "0,0,0,10,10,10"
MILL = "mill,mill,900,600,1500|"
ONE_PERIOD = "periods,1|rate,0.1|"


def plan_of(destinations=MILL, cones=("1,1,1",), name="one", grid=CUBES, rest=ONE_PERIOD):
    """Returns a plan of these records, with a zone for each cone; defaults are those of `PLAN`."""
    zones = "".join(f"zone,{cone}|" for cone in cones)
    return lines(f"name,{name}|grid,{grid}|{zones}{destinations}{rest}")


# A plan under which all is waste.
WASTE = plan_of("dump,dump,200|", name="waste")


def heading(kind, **values):
    """Returns the header of a model file, whose lines end in bars."""
    return "".join(line + "|" for line in header(kind, **values))


def instance(blocks, prec, worths, name="one"):
    """Returns the texts by their endings of an instance with one destination, one period and no resource.

    The lines of its block file and of its precedence file end in bars; each block has this value.
    """
    values = "".join(f"{block} {worth}|" for block, worth in enumerate(worths))
    objective = "OBJECTIVE_FUNCTION:|" + values
    resources = "RESOURCE_CONSTRAINT_COEFFICIENTS:|RESOURCE_CONSTRAINT_LIMITS:|"

    def model_file(kind, rest):
        return heading(kind, name=name, blocks=len(worths)) + objective + rest

    models = [model_file("UPIT", ""), model_file("PCPSP", resources), model_file("CPIT", resources)]
    return dict(zip(ENDINGS, map(lines, [blocks, prec, *models])))


ONE_ORE_BLOCK = instance("0 0 0 0 1000 5000 0|", "0 0|", [12000])


def plain_texts(plan, *zones):
    """Returns the texts by their endings that the plain computation makes of a plan and its zone files."""
    texts = plain.compiled(plan.decode(), [zone.decode() for zone in zones])
    return {ending: text.encode() for ending, text in texts.items()}


def sections(texts):
    """The texts, each under its section line."""
    return b"".join(b"== %s\n%s" % (ending.encode(), text) for ending, text in texts.items())


def at(base, texts):
    """The files of texts at a base."""
    return {f"{base}.{ending}": text for ending, text in texts.items()}


def unlisted(first, after):
    """The lines of a precedence file of blocks that have none above them."""
    return "".join(f"{block} 0|" for block in range(first, after))


def arcs_of(name, counts, plan, *zones):
    """Returns what `check` counts of the files that `compile` writes for a plan and its zone files."""
    files = {f"zone{number}": text for number, text in enumerate(zones)}
    return Trial(
        name,
        files={"plan": plan, **files},
        before=[compile_arguments("plan", "b", files)],
        arguments=["check", "b"],
        out=lines(counts + "|"),
        left=at("b", dict.fromkeys(ENDINGS, ANY)),
    )


LIMITED = input_of("tools/models/limits_and_coefficients.txt")

# The largest number of destinations and of resources, each of which covers all.
NINE = input_of("tools/models/nine_blocks_of_many_numbers.txt")

SAME = input_of("tools/models/same_block_in_two_files.txt")

LIMITS = "RESOURCE_CONSTRAINT_LIMITS:|0 0 L 500.5|0 1 I 0 900|"
TWO = {"blocks": 2, "periods": 2, "destinations": 2, "resources": 1}

LIMITED_TEXTS = dict(zip(ENDINGS, map(lines, [
    "0 0 0 0 1000 5000 0|1 1 0 0 0 7 0|",
    "0 0|1 0|",
    heading("UPIT", **TWO) + "OBJECTIVE_FUNCTION:|0 12000|1 0|",
    heading("PCPSP", **TWO) + "OBJECTIVE_FUNCTION:|0 12000 -2000|1 0 0|"
    "RESOURCE_CONSTRAINT_COEFFICIENTS:|0 0 0 1000|" + LIMITS,
    heading("CPIT", **TWO) + "OBJECTIVE_FUNCTION:|0 12000|1 0|"
    "RESOURCE_CONSTRAINT_COEFFICIENTS:|0 0 1000|" + LIMITS,
])))

NINE_PREC = "0 5 3 4 6 7 8|1 6 3 4 5 6 7 8|2 5 4 5 6 7 8|3 2 6 7|4 3 6 7 8|5 2 7 8|6 0|7 0|8 0|"

NINE_TEXTS = {**plain_texts(*NINE), "prec": lines(NINE_PREC)}

NO_BLOCK = instance("", "", [])

TWO_ZONES = instance("0 0 0 0 1000 5000 1|1 1 0 0 1 0 0|", "0 0|1 0|", [12000, -15])
