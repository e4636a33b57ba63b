"""The commands whose allocations tools/refused-memory refuses, one by one.

Other tables have their results with ample memory. If a run of `compile` or of pitc_thin may write, there are files before it.
"""
from rows.instance import LIMITED, MILL, ORE, PLAN, SAME, at, plain_texts, plan_of
from rows.trial import Trial, piped, zone_file
from shared import ENDINGS, compile_arguments

LEACH = plan_of(
    MILL + "leach,heap,600,100,1,300,2.5,450|dump,dump,200|",
    cones=["1,1,1"] * 2,
    rest="periods,2|rate,0.1|resource,plant,mill|limit,plant,1,I,0,900|limit,plant,0,L,500.5|",
)
GOOD = LEACH, zone_file("0,0,0,1000,5000", "10,0,0,0,7"), zone_file("0,0,10,1,0", "10,0,10,1,0")

# Blocks on four benches, each in the cones of those up to three below.
PLACES = [f"{x},{y},{z},1,0" for z in range(0, 40, 10) for y in range(0, 30, 10) for x in range(0, 30, 10)]
BENCHES = plan_of(cones=["1,1,3"]), zone_file(*PLACES)

ONE = "one_ore_block", (PLAN, ORE)

# Plans and their zone files, and whether what is written of them is checked too.
MODELS = [
    ("good", GOOD, True),
    ("same", (LEACH, zone_file("0,0,0,1,0"), zone_file("10,0,0,1,0", "0,0,0,1,0")), False),
    ("faulty", (LEACH, zone_file("0,0,0,1,0"), zone_file("10,0,0,1,?")), False),
    (*ONE, True),
    ("same_block_in_two_files", SAME, False),
    ("limits_and_coefficients", LIMITED, True),
]


def compiles(name, model, capacity=None):
    """The files at the base come first, in the order in which they are written."""
    plan, *zones = model
    files = {f"zone{number}": text for number, text in enumerate(zones)}
    arguments = compile_arguments("plan", "base", files, capacity=capacity)
    before = at("base", dict.fromkeys(ENDINGS, b"before\n"))
    return Trial(f"compile {name}", arguments=arguments, files={**before, "plan": plan, **files})


def pipes(name, model):
    return Trial(f"pipe {name}", given=piped(*model))


def checks(name, texts):
    return Trial(f"check {name}", arguments=["check", "base"], files=at("base", texts))


def thins(name, model, capacity=None):
    """A run of pitc_thin. The file that it writes comes first."""
    plan, *zones = model
    files = {f"zone{number}": text for number, text in enumerate(zones)}
    arguments = compile_arguments("plan", "thin", files, capacity=capacity)[1:]
    return Trial(f"pitc_thin {name}", arguments=arguments, files={"thin": b"before\n", "plan": plan, **files})


def trials():
    """Yields the commands of pitc."""
    for name, model, is_checked in MODELS:
        yield compiles(name, model)
        yield pipes(name, model)
        if is_checked:
            texts = plain_texts(*model)
            yield checks(name, texts)
            del texts["cpit"]
            yield checks(f"{name}, no cpit", texts)
    yield checks("of an invalid file", {**plain_texts(*GOOD), "prec": b"0 1\n"})
    yield checks("of nothing", {})
    yield pipes("with an invalid plan", [b"name\n"])
    yield pipes("with wrong settings", [LEACH])
    yield Trial("refused words", arguments=["nope"])
    yield Trial("help", arguments=["--help"])


def trials_of_thin():
    """Yields the commands of pitc_thin."""
    for name, model, _ in MODELS:
        yield thins(name, model)
    yield thins("arcs that follow from others", BENCHES)
    yield thins("with an invalid plan", [b"name\n", ORE])
    yield thins("with wrong settings", (LEACH, ORE))
    yield Trial("pitc_thin, refused words", arguments=["nope"])
    yield Trial("pitc_thin, help", arguments=["--help"])
