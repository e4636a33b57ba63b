"""The examples: the pipe form on pit.txt and waste.txt, `check` on one, `compile` on march, and
all on a deposit.

The texts of the deposit, whose files `pit-tools deposit` makes, were made without pitc in half a minute. So their sums are here:

    tools/plain.py deposit deposit.plan deposit-oxide.csv deposit-west.csv deposit-east.csv
"""
import os
import subprocess
import sys
import tempfile

from rows.instance import at, input_of, plain_texts, sections
from rows.trial import Sum, Trial, piped
from shared import CHECKED, TOP, compile_arguments

EXAMPLES = os.path.join(TOP, "examples")

ZONES = ["deposit-oxide.csv", "deposit-west.csv", "deposit-east.csv"]

DEPOSIT = {
    "deposit.plan": Sum("038d3ac21e68f934c9cb0a493170fe67e89cc0162eb048d46bd9e616d47b112b"),
    "deposit-oxide.csv": Sum("1507c32bdad86da8d85aca93abc01925f4530da69bcbe2c54e0138201a4fbf98"),
    "deposit-west.csv": Sum("52da268dd8363c1b026cf3bdc533db7d223e57645c9eaf01acaf03c80285370d"),
    "deposit-east.csv": Sum("17af72d6df70bd3b7041c22cc5430c01f19b0375b59dd63cb2ef576a839d4a04"),
}

TEXTS = {
    "blocks": Sum("6201497d65f5c7df660e8ec04006f4312fb4698a0fc0e95446d54398672b26f2"),
    "prec": Sum("962c9ff452b1b37a3076135e538ae1ffcc49944c6a055998ce251e6c821e9363"),
    "upit": Sum("ff35e4ffc14f0b35b05f9c4ed746bddb14d3093751b0e8a6743b181793fc0b1b"),
    "pcpsp": Sum("905faa2757737e71354dcad73605943e39a7852cbae3d22957d9b08a88df6f35"),
    "cpit": Sum("f67130ac2640a1cff5beba57869d36871cbda4d6c4a2309082a11db69e25fd87"),
}

# The texts, each under its section line.
PIPED = Sum("8e099a9905653825d2237a1b4282bbec41943ef9fdf15edd04a9749849ff101c")


def read(*path):
    with open(os.path.join(*path), "rb") as file:
        return file.read()


def deposit():
    """The files that `pit-tools deposit` makes, without the record of their sums."""
    with tempfile.TemporaryDirectory() as folder:
        subprocess.run([os.path.join(TOP, "python", "pit-tools"), "deposit"], cwd=folder, check=True)
        files = {name: read(folder, name) for name in os.listdir(folder) if not name.endswith(".sums")}
    if files.keys() != DEPOSIT.keys() or not all(DEPOSIT[name].fits(files[name]) for name in files):
        sys.exit("tools/worked-rows: pit-tools made another deposit")
    return files


def trials():
    for name in ("pit.txt", "waste.txt"):
        texts = plain_texts(*input_of("examples/" + name))
        files = {name: read(EXAMPLES, name)}
        yield Trial(f"the pipe form on {name}", source=name, files=files, out=sections(texts))
    one = {f"one.{ending}": read(EXAMPLES, f"one.{ending}") for ending in CHECKED}
    counts = b"blocks 1 arcs 0 coefficients 0 limits 0 cpit 0\n"
    yield Trial("check on one", arguments=["check", "one"], files=one, out=counts)
    names = ["march.plan", "north.csv", "south.csv"]
    files = {name: read(EXAMPLES, name) for name in names}
    texts = at("march", plain_texts(*files.values()))
    arguments = compile_arguments("march.plan", "march", names[1:])
    yield Trial("compile on march", arguments=arguments, files=files, left=texts, out=b"rows 48\n")
    files, texts = deposit(), at("deposit", TEXTS)
    arguments = ["compile", "--plan", "deposit.plan", "--out", "deposit", *ZONES]
    both = {"files": files, "left": texts}
    yield Trial("compile on the deposit", arguments=arguments, out=b"rows 4157\n", **both)
    counts = b"blocks 4157 arcs 22547 coefficients 20785 limits 8 cpit 5957\n"
    arguments, before = ["check", "deposit"], [arguments]
    yield Trial("check on the deposit", arguments=arguments, before=before, out=counts, **both)
    given = piped(*(files[name] for name in DEPOSIT))
    yield Trial("the pipe form on the deposit", source="input", files={"input": given}, out=PIPED)
