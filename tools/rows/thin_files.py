"""What pitc_thin reports on its arguments, on plans and zone files, and what becomes of the file that it writes: the rows of `compile`, as
far as they apply to it.
"""
from rows import compile_form, names, pairs, plans, words as rows_of_compile, zone_rows
from rows.compile_form import ACCEPTED, INVALID_ROWS, REFUSED, WRITTEN, compile_arguments
from rows.instance import ONE_ORE_BLOCK, ORE, PLAN, unlisted
from rows.trial import Folder, Prefix, Link, Parts, Trial, lines, refused, zone_file

# Files in place of the one that is written: it is as long as its text, whatever its length was, and stays if the run is refused.
OLDER = {"longer": b"0 0\n1 1 0\n" * 1000, "shorter": b"9", "as long": b"9 9\n", "empty": b""}


def thin_arguments(arguments):
    """Returns the arguments of a run of compile, as arguments of pitc_thin, and its files."""
    run = compile_arguments(arguments)
    return {"arguments": ["--out", "thin", *run["arguments"][3:]], "files": run["files"]}


def no_arcs(count):
    """Returns what a run prints for blocks without predecessors, and their text."""
    return b"rows %d arcs 0 of 0\n" % count, lines(unlisted(0, count))


def as_thin(trial, older=OLDER["longer"], left=()):
    """A run of `compile`, as one of pitc_thin into the file at its base, over an older one: it is refused in the same way, or prints and
    writes these."""
    arguments, base = trial.arguments[1:], trial.arguments[trial.arguments.index("--out") + 1]
    at_base = {name: text for name, text in trial.files.items() if name.startswith(base + ".")}
    others = {name: text for name, text in trial.files.items() if name not in at_base}
    is_full = Link("/dev/full") in at_base.values()
    put = Link("/dev/full") if is_full else older
    files = {**others, base: others.get(base, put)}
    run = trial._replace(arguments=arguments, files=files, out=b"", left={})
    return run._replace(out=left[0], left={base: left[1]}) if left else run


def of_refusals():
    for name, line, arguments in REFUSED:
        yield refused(name, line, **thin_arguments(arguments))
        run = thin_arguments(arguments)
        for which, older in list(OLDER.items())[:2]:
            files = {**run["files"], "thin": older}
            yield refused(f"{name}, and a {which} file", line, arguments=run["arguments"], files=files)
    for name, put in (("a folder", Folder()), ("a full device", Link("/dev/full"))):
        run = thin_arguments("one ore")
        run["files"]["thin"] = put
        yield refused(f"{name} in the place of the file", "sink prec: SinkFailed", **run)
    for base in ("no/such/thin", "ore/thin", "one/"):
        run = thin_arguments("one ore")
        run["arguments"][1] = base
        yield refused(f"a file in no folder: {base}", "sink prec: SinkFailed", **run)
    for row, fault in INVALID_ROWS:
        run = thin_arguments("one odd")
        run["files"] = {**run["files"], "odd": zone_file(row), "thin": OLDER["shorter"]}
        yield refused(f"the row {row}", f"file 0 row 2 column {fault}", **run)


def of_files():
    """The files that are written, on files of every length, and on those that are read."""
    out, text = no_arcs(1)
    for which, older in OLDER.items():
        run = thin_arguments("one ore")
        run["files"] = {**run["files"], "thin": older}
        yield Trial(f"a {which} file before it", out=out, left={"thin": text}, **run)
    for which, name in [("zone file", "ore"), ("plan", "one")]:
        run = thin_arguments("one ore")
        run["arguments"][1] = name
        yield Trial(f"the file is the {which}", out=out, left={name: text}, **run)
        run = thin_arguments("one ore ore")
        run["arguments"][1] = name
        yield refused(f"the file is the {which}, and a refusal", "settings: Files", **run)
    for name in ("place/thin", "place/../thin", "./thin", ".//place//thin"):
        run = thin_arguments("one ore")
        run["arguments"][1], run["files"]["place"] = name, Folder()
        left = {"thin" if "place/t" not in name.replace("//", "/") else "place/thin": text}
        yield Trial(f"a path to the file: {name}", out=out, left=left, **run)
    run = thin_arguments("one ore")
    run["files"] = {**run["files"], "thin": Link("other"), "other": OLDER["longer"]}
    yield Trial("a link to another file", out=out, left={"other": text}, **run)


def of_spellings():
    """Plans and zone files in every format."""
    for name, arguments, given in ACCEPTED:
        out, text = no_arcs(1)
        yield Trial(name, given=given, out=out, left={"thin": text}, **thin_arguments(arguments))
    for name, arguments, texts in WRITTEN:
        if texts["prec"] == lines(unlisted(0, texts["prec"].count(b"\n"))):
            out, text = no_arcs(texts["prec"].count(b"\n"))
            yield Trial(name, out=out, left={"thin": text}, **thin_arguments(arguments))
    for trial in zone_rows.second_files():
        if trial.arguments:
            count = int(trial.out.split()[1]) if trial.out else 0
            yield as_thin(trial, OLDER["shorter"], no_arcs(count) if trial.status == 0 else ())


def of_plans():
    """Plans that are invalid, and some that are accepted and have no zone file."""
    for trial in plans.trials():
        if trial.arguments:
            yield as_thin(trial)
    for plan, result in plans.table():
        yield as_thin(plans.reported_by_compile(f"plan_table: {plan}", lines(plan), result))


def of_names():
    """Names that users have, of plans, zone files and the file, which has no ending."""
    for trial in names.trials():
        if trial.arguments[0] == "compile" and b"sink" not in trial.errors:
            yield as_thin(trial, left=no_arcs(1) if trial.status == 0 else ())
    run, (out, text) = thin_arguments("one ore"), no_arcs(1)
    longest = names.named(names.LONGEST)
    arguments = ["--out", longest, *run["arguments"][2:]]
    yield Trial("the longest name of the file", arguments=arguments, files=run["files"], out=out, left={longest: text})
    arguments = ["--out", longest + "n", *run["arguments"][2:]]
    yield refused("a name of the file that is too long", "sink prec: SinkFailed", arguments=arguments, files=run["files"])


# The arguments of a run of pitc_thin that request a text, and parts of it.
ABOUT = "Writes the precedences of a model without arcs that follow from others."
SHOWN = [
    ("--help", ABOUT, "a solver has fewer arcs to take", "prints `rows N arcs M of L`", "[default: 64]"),
    ("-h", ABOUT), ("--version", "pitc_thin "), ("-V", "pitc_thin "),
    ("--plan one.plan --help", ABOUT), ("ore.csv -h", ABOUT),
    ("--plan one.plan --out base ore.csv --version", "pitc_thin "),
    ("--plan one.plan --out base --version ore.csv", "pitc_thin "),
]

# The arguments that are refused besides those of compile.
ALSO_REFUSED = ["help", "check base", "compile", "ore.csv help"]


def of_words():
    """The arguments of runs of compile, without the first, and the arguments of pitc_thin alone."""
    files, one = rows_of_compile.FEW, {"out": b"rows 1 arcs 0 of 0\n", "files": rows_of_compile.FEW}
    for arguments in rows_of_compile.TAKEN:
        yield Trial(f"words that are taken: {arguments}", arguments=arguments.split()[1:], left={"base": b"0 0\n"}, **one)
    for base, named in rows_of_compile.BASES:
        arguments = [*rows_of_compile.ONE, *named, "ore.csv"]
        if base:
            yield Trial(f"a file of any spelling: {arguments}", arguments=arguments, left={base: b"0 0\n"}, **one)
        else:
            yield refused(f"a file without a name: {arguments}", "sink prec: SinkFailed", arguments=arguments, files=files)
    for arguments, *parts in SHOWN:
        out = Parts([part.encode() for part in parts])
        yield Trial(f"words that ask: {arguments}", arguments=arguments.split(), files=files, out=out)
    of_compile = [arguments.split()[1:] for arguments in rows_of_compile.REFUSED if arguments.split()[0] == "compile"]
    asking = [arguments.split() for arguments, *_ in SHOWN]
    for arguments in [*of_compile, *map(str.split, ALSO_REFUSED)]:
        if arguments not in asking:
            reported = rows_of_compile.report_of(" ".join(["compile", *arguments]))
            yield Trial(f"words that are refused: {arguments}", 2, arguments=arguments, files=files, errors=reported)
    for arguments in rows_of_compile.REFUSED_WHOLE:
        if arguments[0] == "compile":
            yield Trial(f"words with blanks: {arguments[1:]}", 2, arguments=arguments[1:], files=files, errors=Prefix(b"error: "))
    for line, arguments in rows_of_compile.REPORTED:
        if arguments[0] == "compile":
            arguments = arguments[1:]
            yield refused(f"arguments that are accepted, and reported: {arguments}", line, arguments=arguments, files=files)
    yield from rows_of_compile.of_each_word(1)
    yield refused("words that are not UTF-8", "command line: NotUtf8", arguments=[b"--plan", b"\xFF"], files=files)


def trials():
    yield from of_words()
    yield from of_refusals()
    yield from of_files()
    yield from of_spellings()
    yield from of_plans()
    yield from of_names()
    yield from map(as_thin, pairs.of_compile())
