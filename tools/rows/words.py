"""Arguments of the command line: which are accepted, which request a text, and which are refused."""
from rows.instance import ONE_ORE_BLOCK, ORE, PLAN, at
from rows.trial import Prefix, Parts, Trial, refused
from shared import ENDINGS

FILES = {"one.plan": PLAN, "ore.csv": ORE, **at("base", dict.fromkeys(ENDINGS, b"older\n"))}

# The arguments of a run on one block, cut at blanks like all that follow.
TAKEN = [
    "compile ore.csv --plan one.plan --out base",
    "compile --plan one.plan ore.csv --valuers 1 --out base --capacity 4096",
    "compile --plan=one.plan --out=base --valuers=64 --capacity=1 ore.csv",
    "compile --plan one.plan --out base --valuers +5 --capacity 007 ore.csv",
    "compile --plan one.plan --out base --valuers 00064 --capacity 0000004096 ore.csv",
    "compile --capacity 1 --valuers 1 --out base --plan one.plan ore.csv",
    "compile --plan one.plan --out=base --capacity +5 ore.csv",
    "compile --plan one.plan --out base --valuers +64 --capacity +0004096 -- ore.csv",
    "compile --plan=one.plan --out base --valuers=+1 --capacity=+1 ore.csv",
    "compile --plan one.plan --out base ore.csv --",
    "compile --plan one.plan --valuers 2 --out base ore.csv --",
    "compile --out base --plan one.plan -- ore.csv",
]

# Bases of runs, used as they are written, and the arguments that name them.
BASES = [
    ("", ["--out", ""]), ("", ["--out="]), ("-b", ["--out=-b"]), ("--plan", ["--out=--plan"]),
    ("-", ["--out", "-"]), ("b=c", ["--out=b=c"]), ("b.blocks", ["--out=b.blocks"]),
    ("B.PREC", ["--out", "B.PREC"]), ("compile", ["--out", "compile"]), (" ", ["--out", " "]),
]

# Checks of a base after other arguments.
CHECKED_BASES = [
    ("base", ["check", "--", "base"]), ("base", ["check", "base", "--"]),
    ("-b", ["check", "--", "-b"]), ("--help", ["check", "--", "--help"]), ("", ["check", ""]),
    ("-", ["check", "-"]), ("-", ["check", "--", "-"]), ("check", ["check", "check"]),
    ("b=c", ["check", "b=c"]),
]

# Arguments that are accepted, and what is refused after them. A plan is checked before its zone files.
ONE, BASE = ["--plan", "one.plan"], ["--out", "base"]
REPORTED = [
    ("plan: FeedFailed", ["compile", "--plan", "", *BASE, "ore.csv"]),
    ("plan: FeedFailed", ["compile", "--plan=", *BASE, "ore.csv"]),
    ("plan: FeedFailed", ["compile", "--plan=-p", *BASE, "ore.csv"]),
    ("plan: FeedFailed", ["compile", "--plan", "-", *BASE, "ore.csv"]),
    ("plan: FeedFailed", ["compile", "--plan", "no", *BASE, "--valuers", "64", "ore.csv"]),
    ("plan: FeedFailed", ["compile", "--plan", "no", *BASE, "--capacity", "+4096", "no"]),
    ("file 0: FeedFailed", ["compile", *ONE, *BASE, "--", "--"]),
    ("file 1: FeedFailed", ["compile", *ONE, *BASE, "ore.csv", "--", "--help"]),
    ("file 0: FeedFailed", ["compile", *ONE, *BASE, "--", "-h", "ore.csv"]),
    ("file 1: FeedFailed", ["compile", *ONE, *BASE, "ore.csv", "-", "ore.csv"]),
    ("blocks: FeedFailed", ["check", "--", "--"]),
    ("blocks: FeedFailed", ["check", "--", "--version"]),
    ("blocks: FeedFailed", ["check", "help"]), ("blocks: FeedFailed", ["check", "BASE"]),
]

ABOUT = "Turns the block models of an open pit mine into a MineLib instance."
ABOUT_COMPILE = "Writes the files of the instance of a plan and its zone files"
ABOUT_CHECK = "Reads the files of an instance and prints its counts"

# The arguments that request a text, and parts of it.
SHOWN = [
    ("--version", "pitc "),
    (
        "--help",
        ABOUT,
        "Without arguments, pitc reads a plan and then its zone files from standard input",
        "a terminal that brings nothing is yours to end",
        "pitc compile --plan march.plan --out out/march north.csv south.csv",
        "pitc check out/march",
        "  4  memory or a thread was refused",
    ),
    ("help", ABOUT),
    ("compile --help", ABOUT_COMPILE, "prints `rows N`"),
    ("check --help", ABOUT_CHECK, "and ` cpit P` behind it where there is a cpit file"),
    ("help check", ABOUT_CHECK),
    ("check base --help", ABOUT_CHECK),
    ("help compile", "[default: 4]"),
    ("-h", ABOUT), ("compile -h", ABOUT_COMPILE), ("check -h", ABOUT_CHECK),
    ("check -h base", ABOUT_CHECK),
    ("-V", "pitc "), ("--help compile", ABOUT), ("--version check", "pitc "),
    ("compile --plan one.plan --help", ABOUT_COMPILE), ("compile ore.csv -h", ABOUT_COMPILE),
    ("compile --plan one.plan --out base ore.csv --help", ABOUT_COMPILE),
]

# The arguments that are refused by their own text.
REFUSED = [
    "nope",
    "--nope",
    "check",
    "check base more",
    "check base --nope",
    "--quiet check base",
    "nope base",
    "compile",
    "compile ore.csv",
    "compile --plan one.plan --out base",
    "compile --plan one.plan ore.csv",
    "compile --out base ore.csv",
    "compile --plan one.plan --plan one.plan --out base ore.csv",
    "compile --plan one.plan --out base --nope ore.csv",
    "compile --plan one.plan --out base ore.csv --valuers",
    "compile --plan one.plan --out base ore.csv --valuers 0",
    "compile --plan one.plan --out base ore.csv --valuers 65",
    "compile --plan one.plan --out base ore.csv --valuers 4.0",
    "compile --plan one.plan --out base ore.csv --valuers -1",
    "compile --plan one.plan --out base ore.csv --capacity 0",
    "compile --plan one.plan --out base ore.csv --capacity 4097",
    *(
        f"compile --plan one.plan --out base ore.csv --{option}{more}"
        for option, most in (("valuers", 64), ("capacity", 4096))
        for more in [
            # what narrower counters would read as 1
            *(f" {2**bits + 1}" for bits in (16, 32, 64, 128)),
            "=", "=-4", " x", " 0x4", " 1e1", " 4x", " 4,", " ++4", " \u0664", f" -{most}", f"={most}.",
        ]
    ),
    "compile --plan one.plan --out base ore.csv --valuers 257",
    "compile --plan one.plan --out base ore.csv --valuers 5 --valuers 5",
    "compile --valuers 5 --plan one.plan --valuers=5 --out base ore.csv",
    "compile --plan one.plan --out base ore.csv --valuers 4 --valuers 4",
    "compile --plan one.plan --out base --out base ore.csv",
    "check base --valuers 4",
    # no prefix of a word, no other letters, no other hyphens
    *(
        f"compile {plan} one.plan {out} base {more} ore.csv".replace("  ", " ")
        for plan, out, more in [
            *((plan, "--out", "") for plan in [
                "--pla", "--p", "-p", "-plan", "--PLAN", "--Plan", "plan", "---plan", "--plans",
                "\u2013plan", "/plan",
            ]),
            *(("--plan", out, "") for out in ["--ou", "-o", "-out", "--OUT", "--output", "--outs"]),
            *(("--plan", "--out", more) for more in [
                "--val 4", "--v 4", "-v 4", "-v4", "--valuer 4", "--VALUERS 4", "--threads 4",
                "-j4", "--valuerss 4", "--capacitys 4", "--cap 4", "-c 4", "--Capacity 4",
                "--valuers:4", "--version", "-q",
                "--help=1", "--capacity 5 --capacity 6", "--capacity 5 --capacity 5",
                "--capacity=5 --valuers 2 --capacity 6", "--valuers=1 --valuers=2",
            ]),
        ]
    ),
    "COMPILE --plan one.plan --out base ore.csv",
    "Compile --plan one.plan --out base ore.csv",
    "comp --plan one.plan --out base ore.csv",
    "c --plan one.plan --out base ore.csv",
    "compiles --plan one.plan --out base ore.csv",
    "--compile --plan one.plan --out base ore.csv",
    "--plan one.plan --out base compile ore.csv",
    "--plan one.plan --out base ore.csv",
    *(f"{word} base" for word in [
        "CHECK", "Check", "chec", "ch", "c", "checks", "--check", "-c", "-check"]),
    "-", "--", "-- check base", "- check base", "-- compile", "--HELP", "-H", "--hel", "-elp",
    "--Version", "-v", "version", "help nope", "help nope check", "help check nope", "help base",
    "help --nope", "HELP", "hel", "h",
    # a value that looks like an option is none, except after `=`
    "compile --plan one.plan --out -b ore.csv",
    "compile --plan one.plan --out --base ore.csv",
    "compile --plan -p --out base ore.csv",
    "compile --plan --out base ore.csv",
    "compile --plan one.plan --out -- ore.csv",
    "compile --plan one.plan --out base --valuers -- ore.csv",
    "compile --plan one.plan --out base -x ore.csv",
    "compile --plan one.plan --out base ore.csv -x",
    "compile --plan one.plan --out base -1",
    "check -b",
    "check --base",
    "check -1",
    "check -- base more",
    "check base -- more",
    "check --",
    "compile --plan one.plan --out base --",
    # the arguments are checked before the plan, and the first that is wrong before a later help
    "compile --nope --help",
    "compile --plan one.plan --nope --help",
    "compile --valuers 65 --help",
    "check --nope --help",
    "--nope --help",
    "nope --help",
    "compile --plan no/such.plan --out base --valuers 65 ore.csv",
    "compile --plan no/such.plan --out base --capacity 0 no/such.csv",
    "compile --plan ore.csv --out base ore.csv --valuers 0",
    "compile --plan one.plan --out no/such/base ore.csv --capacity 4097",
    "compile --plan one.plan --out base --valuers 1 2 ore.csv --capacity",
]

# The report on some of them, one for each kind of fault, as `clap` prints it.
RUN = "compile --plan one.plan --out base"
MISSING = "the following required arguments were not provided:"
NO_NUMBER = "invalid digit found in string"
LINES = {
    "nope": "unrecognized subcommand 'nope'",
    "check": f"{MISSING}\n  <BASE>",
    "check base more": "unexpected argument 'more' found",
    RUN: f"{MISSING}\n  <ZONE>...",
    f"{RUN} --nope ore.csv": "unexpected argument '--nope' found",
    "compile --plan one.plan --plan one.plan --out base ore.csv":
        "the argument '--plan <P>' cannot be used multiple times",
    f"{RUN} ore.csv --valuers": "a value is required for '--valuers <N>' but none was supplied",
    f"{RUN} ore.csv --valuers 65": "invalid value '65' for '--valuers <N>': 65 is not in 1..=64",
    f"{RUN} ore.csv --valuers 4.0": f"invalid value '4.0' for '--valuers <N>': {NO_NUMBER}",
    f"{RUN} ore.csv --capacity 0": "invalid value '0' for '--capacity <N>': 0 is not in 1..=4096",
}

# The same, with a blank in an argument.
REFUSED_WHOLE = [
    ["compile", "--plan", "one.plan", "--out", "base", "ore.csv", f"--{option}", number]
    for option in ("valuers", "capacity") for number in (" 5", "5 ", "", " ", "5 6", "\t5")
] + [["check base"], [" check", "base"], ["compile "], [""]]

# The arguments that are not UTF-8.
NOT_UTF8 = [b"\xFF", b"check \xFF", b"compile --plan one.plan --out base \xFF"]


# A run of all options, whose arguments are dropped and repeated one by one, and the report: on a number that is no longer an option's, as
# on a missing file.
ALL = "compile --plan one.plan --out base --valuers 2 --capacity 3 ore.csv".split()
LEFT_OUT = {"--valuers": "file 0: FeedFailed", "--capacity": "file 0: FeedFailed"}
TWICE = {
    "one.plan": "settings: Files", "base": "settings: Files", "ore.csv": "settings: Files",
    "2": "file 0: FeedFailed", "3": "file 0: FeedFailed",
}

# The files that runs of other bases begin with.
FEW = {"one.plan": PLAN, "ore.csv": ORE}


def report_of(arguments):
    """The beginning of the text for refused arguments."""
    return Prefix(f"error: {LINES[arguments]}\n".encode() if arguments in LINES else b"error: ")


def of_bases():
    """Bases of any spelling, the empty one too."""
    for base, named in BASES:
        arguments = ["compile", *ONE, *named, "ore.csv"]
        given = {"arguments": arguments, "files": FEW, "out": b"rows 1\n"}
        yield Trial(f"of_bases: {arguments}", left=at(base, ONE_ORE_BLOCK), **given)
    for base, arguments in CHECKED_BASES:
        files, counts = at(base, ONE_ORE_BLOCK), b"blocks 1 arcs 0 coefficients 0 limits 0 cpit 0\n"
        yield Trial(f"of_bases: {arguments}", arguments=arguments, files=files, out=counts)
    for line, arguments in REPORTED:
        yield refused(f"words that are taken: {arguments}", line, arguments=arguments, files=FEW)


def one_by_one():
    """Yields each argument of a run except the first dropped, and repeated: the run, and the line that is reported or None if the text
    is that of refused arguments."""
    for at, word in enumerate(ALL[1:], 1):
        yield f"without {word}", ALL[:at] + ALL[at + 1 :], LEFT_OUT.get(word)
        yield f"twice {word}", [*ALL[: at + 1], *ALL[at:]], TWICE.get(word)


def of_each_word(prefix=0, files={**FEW, "base": b"older\n"}):
    """The same as rows, without this number of arguments at the start."""
    for name, arguments, line in one_by_one():
        given = {"arguments": arguments[prefix:], "files": files}
        if line:
            yield refused(f"one_by_one: {name}", line, **given)
        else:
            yield Trial(f"one_by_one: {name}", 2, errors=Prefix(b"error: "), **given)


def trials():
    yield from of_bases()
    yield from of_each_word()
    for arguments in TAKEN:
        left = at("base", ONE_ORE_BLOCK)
        yield Trial(arguments, arguments=arguments.split(), files=FILES, out=b"rows 1\n", left=left)
    for arguments, *parts in SHOWN:
        out = Parts([part.encode() for part in parts])
        yield Trial(arguments, arguments=arguments.split(), files=FILES, out=out)
    for arguments in REFUSED:
        yield Trial(arguments, 2, arguments=arguments.split(), files=FILES, errors=report_of(arguments))
    for arguments in REFUSED_WHOLE:
        name = f"words with blanks: {arguments}"
        yield Trial(name, 2, arguments=arguments, files=FILES, errors=Prefix(b"error: "))
    for arguments in NOT_UTF8:
        name = f"words that are not UTF-8: {arguments}"
        yield refused(name, "command line: NotUtf8", arguments=arguments.split(), files=FILES)
