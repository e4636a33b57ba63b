"""Outcomes of commands, right ones and altered ones, on which tools/run-pages tries the contracts of `work` of both programs."""
import functools
import itertools
from typing import Any, Dict, Iterator, List, NamedTuple, Optional, Tuple

import outcomes
from library import optional, read_words, rows_of
from outcomes import NAMES
from pages import Function, Made, Page, Pages, applied, chain, each
from shared import CHECKED, ENDINGS

# What a command finds: texts for both outputs, and how many threads it may start.
TEXT, LINES, ALLOWED = b"0\n", b"pitc: 0\n", 128
VALUERS, CAPACITY = 2, 3
STEP = 5


def of_run(tag: str, *held: Any) -> Made:
    """Returns the program's error for an error of a run."""
    return Made("Run", (Made(tag, held),))


def not_fed(tag: str, *held: Any) -> Made:
    """Returns the program's error for a source that cannot be read."""
    return Made("FeedFailed", (Made(tag, held),))


def invalid_row(file: int, row: int) -> Made:
    """Returns the error for a row with too few cells."""
    return of_run("Row", file, {"row": row, "column": Made("Whole"), "kind": Made("Width")})


OUT_OF_MEMORY = of_run("OutOfMemory")
INVALID_PLAN = Made("Plan", ({"row": 1, "kind": Made("Key")},))
IDLE = (0, 0, 0, 0, False)
SETTINGS = [Made(kind) for kind in ("Files", "Valuers", "Capacity", "Destinations")]
FILES = [Made(ending.title()) for ending in CHECKED]


class Model(NamedTuple):
    """A plan and its zone files, with the texts and the line that a command on them must leave."""

    plan: bytes
    zones: Tuple[bytes, ...]
    texts: Tuple[bytes, ...]
    line: bytes


class Sink(NamedTuple):
    """A file that a command writes: its path, whether it was begun, its bytes, and how many calls failed."""

    path: bytes
    begun: bool = False
    text: bytes = b""
    failures: int = 0


class Command(NamedTuple):
    """What a command did. A file that could not be opened has no bytes. `refused` is why it did not do more; `is_returned` says that the
    caller of `work` reports it. A command that reads standard input has its bytes in `given`."""

    words: Tuple[bytes, ...]
    opened: Tuple[Tuple[bytes, Optional[bytes]], ...] = ()
    made: Tuple[bytes, ...] = ()
    sinks: Tuple[Sink, ...] = ()
    text: bytes = TEXT
    lines: bytes = LINES
    status: int = 0
    threads: Tuple[int, int, int, int, bool] = IDLE
    refused: Optional[Made] = None
    is_returned: bool = False
    failed: Tuple[bytes, ...] = ()
    given: bytes = b""
    read: int = 0
    input_failed: bool = False
    missing: bytes = b""


def threads_of(valuers: int, files: int) -> Tuple[int, int, int, int, bool]:
    """Returns how many threads were started, were readers, were joined and got marks, if all were started."""
    return valuers + files, files, valuers + files, valuers, False


def line_of(words: str) -> bytes:
    return LINES + f"pitc: {words}\n".encode()


def is_quiet(command: Command) -> bool:
    """Returns whether no line says why a command failed, since memory was refused."""
    return not command.is_returned and command.status == 4 and command.lines == LINES


def seen(command: Command) -> Command:
    """Returns what can be seen of an outcome. If no line says why a command failed, a feed may have failed or not."""
    return command._replace(missing=b"", refused=command.refused if command.is_returned else None,
                            status=0 if command.is_returned else command.status,
                            failed=() if is_quiet(command) else command.failed)


# Right outcomes


def failing(command: Command, status: int, words: str, refused: Made, **other: Any) -> Command:
    """Returns a command that ends with a status and the line of an error."""
    return command._replace(**{"status": status, "text": TEXT, "lines": line_of(words), "refused": refused, **other})


def returned(command: Command, refused: Made, **other: Any) -> Command:
    """Returns a command that gives its error to its caller before it does anything but open files."""
    return command._replace(**{"text": TEXT, "lines": LINES, "refused": refused, "is_returned": True, "made": (), "sinks": (),
                               "threads": IDLE, **other})


def run(name: Tuple[bytes, ...], out: bytes, model: Model, paths: Tuple[bytes, ...]) -> Command:
    """Returns a command that opens a plan and zone files, and writes files."""
    zones = tuple(f"z{number}".encode() for number in range(len(model.zones)))
    options = (b"--plan", b"p", b"--out", out, b"--valuers", str(VALUERS).encode(), b"--capacity", str(CAPACITY).encode())
    return Command((*name, *options, *zones), ((b"p", model.plan), *zip(zones, model.zones)), paths,
                   tuple(Sink(path, True, text) for path, text in zip(paths, model.texts)), TEXT + model.line,
                   threads=threads_of(VALUERS, len(zones)))


def runs(whole: Command, names: List[str]) -> Iterator[Tuple[str, Command]]:
    """Yields outcomes of a command that reads a plan and zone files, and writes the texts with these names."""
    idle = whole._replace(sinks=tuple(Sink(sink.path) for sink in whole.sinks))
    plan, *zones = whole.opened
    yield "all is done", whole
    yield "no plan file", returned(whole, not_fed("Plan"), opened=((plan[0], None),))
    yield "the plan's feed fails", returned(whole, not_fed("Plan"), opened=(plan,), failed=(plan[0],))
    yield "an invalid plan", returned(whole, INVALID_PLAN, opened=((plan[0], b"x\n"),))
    yield "no memory for the plan", returned(whole, OUT_OF_MEMORY, opened=(plan,))
    yield "no memory before it", returned(whole, OUT_OF_MEMORY, opened=())
    for number in range(len(zones)):
        there = (plan, *zones[:number], (zones[number][0], None))
        refused = not_fed("Zone", number)
        yield f"no file {number}", failing(idle, 3, f"file {number}: FeedFailed", refused, opened=there, threads=IDLE)
        feed = of_run("FeedFailed", number)
        yield f"the feed of file {number} fails", failing(idle, 3, f"file {number}: FeedFailed", feed, failed=(zones[number][0],))
    for started in (0, 1):
        yield f"{started} threads", failing(idle, 4, "NoThread", of_run("NoThread"), threads=(started, 0, started, started, True))
    quiet = {"lines": LINES}
    yield "no memory for threads", failing(idle, 4, "", OUT_OF_MEMORY, **quiet, threads=IDLE)
    for count in range(1, len(whole.opened)):
        yield f"no memory after {count} files", failing(idle, 4, "", OUT_OF_MEMORY, **quiet, opened=whole.opened[:count], threads=IDLE)
    yield "no memory for the instance", failing(idle, 4, "", OUT_OF_MEMORY, **quiet)
    yield "no memory for the line", whole._replace(text=TEXT, status=4, refused=OUT_OF_MEMORY)
    for place, name in enumerate(names):
        for failures, status, refused, line in ((1, 3, Made("SinkFailed", (Made(name.title()),)), f"sink {name}: SinkFailed"),
                                                (0, 4, Made("OutOfMemory"), "")):
            sink = whole.sinks[place]
            half = len(sink.text) // 2
            cut = (*whole.sinks[:place], sink._replace(text=sink.text[:half], failures=failures), *idle.sinks[place + 1 :])
            yield f"{name} is cut off by {refused.tag}", failing(
                whole, status, line, Made("Run", (refused,)), sinks=cut, missing=sink.text[half:], **({} if failures else quiet))
        never = (*whole.sinks[:place], Sink(sink.path, failures=1), *idle.sinks[place + 1 :])
        yield f"{name} is not begun", failing(whole, 3, f"sink {name}: SinkFailed", of_run("SinkFailed", Made(name.title())), sinks=never)


def invalid_zones(whole: Command) -> Iterator[Tuple[str, Command]]:
    """Yields outcomes of the same on an invalid zone file, and on a file too few."""
    idle = whole._replace(sinks=tuple(Sink(sink.path) for sink in whole.sinks))
    path, text = whole.opened[-1]
    number, rows = len(whole.opened) - 2, text.count(b"\n")
    yield "an invalid row", failing(idle, 1, f"file {number} row {rows + 1} column whole: Width", invalid_row(number, rows + 1),
                                    opened=(*whole.opened[:-1], (path, text + b"0\n")))
    again = tuple({"file": number, "row": row} for row in (rows, rows + 1))
    line = f"file {number} row {rows + 1} repeats file {number} row {rows}"
    yield "a row again", failing(idle, 1, line, of_run("Same", *again),
                                 opened=(*whole.opened[:-1], (path, text + text.splitlines(True)[-1])))
    settings = of_run("Settings", Made("Files"))
    yield "a file too few", failing(idle._replace(words=whole.words[:-1]), 2, "settings: Files", settings, opened=whole.opened[:-1],
                                    threads=IDLE)


def texts_shown(name: Tuple[bytes, ...], wrong: Tuple[bytes, ...]) -> Iterator[Tuple[str, Command]]:
    """Yields outcomes of a program that is called for its help, and with invalid arguments."""
    yield "the help", Command((name[0], b"--help"), text=TEXT + b"help\n")
    yield "the version", Command((name[0], b"--version"), text=TEXT + b"1\n")
    yield "wrong arguments", Command(wrong, lines=LINES + b"error\n", status=2)
    yield "no memory for the text of arguments", returned(Command(wrong), OUT_OF_MEMORY)


def checks(files: Dict[str, bytes], line: bytes) -> Iterator[Tuple[str, Command]]:
    """Yields outcomes of a check of these files."""
    texts = [(f"b.{ending}".encode(), files.get(ending)) for ending in CHECKED]
    whole = Command((b"pitc", b"check", b"b"), tuple(texts), text=TEXT + line)
    yield "all is counted", whole
    yield "no memory for the arguments", returned(whole, OUT_OF_MEMORY, opened=())
    for place, (path, _) in enumerate(texts):
        refused = not_fed("Text", FILES[place])
        if place < 3:
            yield f"no file {path!r}", failing(whole, 3, f"{CHECKED[place]}: FeedFailed", refused, opened=(*texts[:place], (path, None)))
        if texts[place][1] is not None:
            yield f"the feed of {path!r} fails", failing(whole, 3, f"{CHECKED[place]}: FeedFailed", refused,
                                                         opened=tuple(texts[: place + 1]), failed=(path,))
        yield f"no memory before {path!r}", failing(whole, 4, "", OUT_OF_MEMORY, opened=tuple(texts[:place]), lines=LINES)
    fault = Made("Text", ({"file": FILES[1], "line": 1, "kind": Made("Number")},))
    yield "an invalid line", failing(whole, 1, "prec line 1: Number", fault, opened=(texts[0], (texts[1][0], b"x 0\n"), *texts[2:]))
    yield "no memory for the line", failing(whole, 4, "", OUT_OF_MEMORY, lines=LINES)


def pipes(given: bytes, zones: int, out: bytes) -> Iterator[Tuple[str, Command]]:
    """Yields outcomes of the pipe form."""
    whole = Command((b"pitc",), text=TEXT + out, threads=threads_of(4, zones), given=given, read=len(given))
    yield "all is printed", whole
    yield "the input fails", returned(whole, not_fed("Input"), input_failed=True, read=0)
    for count in (len(given) - 1, len(given)):
        yield f"no memory after {count} bytes", returned(whole, OUT_OF_MEMORY, read=count)
    yield "no thread", failing(whole, 4, "NoThread", of_run("NoThread"), threads=(1, 0, 1, 1, True))
    yield "no memory for the instance", failing(whole, 4, "", OUT_OF_MEMORY, lines=LINES)
    yield "an invalid plan", returned(whole, INVALID_PLAN, given=b"x\n", read=2)
    yield "a zone file too many", returned(whole, of_run("Settings", Made("Files")), given=given + b"--\n", read=len(given) + 3)
    file, row = zones - 1, given.rpartition(b"--\n")[2].count(b"\n") + 1
    yield "an invalid row", failing(whole, 1, f"file {file} row {row} column whole: Width", invalid_row(file, row), given=given + b"0\n",
                                    read=len(given) + 2)


def of_runs(name: Tuple[bytes, ...], out: bytes, model: Model, paths: Dict[str, bytes],
            wrong: Tuple[bytes, ...]) -> List[Tuple[str, Command]]:
    """Returns outcomes of a program that reads a plan and zone files, or whose arguments are shown. It writes the files at `paths`."""
    whole = run(name, out, model, tuple(paths.values()))
    return [*runs(whole, list(paths)), *invalid_zones(whole), *texts_shown(name, wrong)]


# Altered outcomes


def altered_effects(command: Command) -> Iterator[Tuple[str, Command]]:
    """Yields outcomes in which the files that are opened or made, or the threads, differ in one thing."""
    opened, made, other = command.opened, command.made, (b"other", b"x")
    # (a CPIT need not be there; and without a line, memory may be refused before the last file, or a start)
    last = [] if opened[-1:] and opened[-1][0] == b"b.cpit" else [(path, None) for path, _ in opened[-1:]]
    for name, files in [
        ("a file too many", (*opened, other)), ("a file too many at first", (other, *opened)),
        ("an unopened file too many", (*opened, (b"other", None))),
        ("a file less", opened[:-1] if not is_quiet(command) else opened), ("the first file missing", opened[1:]),
        ("files in another order", opened[::-1]),
        ("another path", (*opened[:-1], *((b"other", text) for _, text in opened[-1:]))), ("a file twice", (*opened, *opened[-1:])),
        ("a file that cannot be opened", (*opened[:-1], *last) if last else opened),
    ]:
        if files != opened:
            there = {path for path, text in files if text is not None}
            yield f"{name} opened", command._replace(opened=files, failed=tuple(path for path in command.failed if path in there))
    for name, paths in [("a slot too many", (*made, b"other")), ("a slot less", made[:-1]), ("slots in another order", made[::-1]),
                        ("slots of another base", tuple(b"other" + path for path in made))]:
        if paths != made:
            yield name, command._replace(made=paths)
    spent, readers, joined, marks, refused = command.threads
    for name, threads in [
        ("a thread that is not joined", (spent, readers, joined - 1, marks, refused)),
        ("a valuer without its mark", (spent, readers, joined, marks - 1, refused)),
        ("a thread too many, not settled", (spent + 1, readers, joined, marks, refused)),
        ("a refused start", (spent, readers, joined, marks, refused or not is_quiet(command))),
        ("a valuer too many", (spent + 1, readers, joined + 1, marks + 1, refused)),
        ("a reader too many", (spent + 1, readers + 1, joined + 1, marks, refused)),
        ("a thread less", (spent - 1, readers, joined - 1, marks - 1, refused)),
    ]:
        # (any number of threads may be started before a start is refused)
        if min(threads) >= 0 and threads != command.threads and not (refused and threads[0] == threads[2] == threads[1] + threads[3]):
            yield name, command._replace(threads=threads)


def altered_texts(command: Command) -> Iterator[Tuple[str, Command]]:
    """Yields outcomes in which what is printed, the status or a written file differs in one thing."""
    # (clap's text may have any lines)
    is_shown = command.refused is None and not command.opened and not command.given
    for name, text in [("a line too many on standard output", command.text + b"x\n" * (not is_shown or command.text == TEXT)),
                       ("nothing on standard output", TEXT),
                       ("earlier text replaced", command.text.removeprefix(TEXT) or b"x\n"),
                       ("a byte less on standard output", command.text[:-1])]:
        if text != command.text:
            yield name, command._replace(text=text)
    for name, lines in [("a line too many on standard error", command.lines + b"pitc: x\n"), ("nothing on standard error", LINES),
                        ("earlier lines replaced", command.lines.removeprefix(LINES) or b"x\n"),
                        ("another line on standard error", LINES + b"pitc: other\n")]:
        if lines != command.lines and not (is_shown and LINES not in (lines, command.lines) and lines.startswith(LINES)):
            yield name, command._replace(lines=lines)
    if not command.is_returned:
        yield from ((f"status {status}", command._replace(status=status)) for status in range(6) if status != command.status)
    for place, sink in enumerate(command.sinks):
        for name, other in [
            ("with a byte altered", sink._replace(text=bytes([sink.text[0] ^ 1]) + sink.text[1:] if sink.text else b"x")),
            ("not begun", sink._replace(begun=False)),
            ("begun", sink._replace(begun=True)), ("with a failed call", sink._replace(failures=sink.failures + 1)),
            ("with a byte more", sink._replace(text=sink.text + b"x")),
            ("at another path", sink._replace(path=b"other")),
        ]:
            if other != sink:
                yield f"{sink.path!r} {name}", command._replace(sinks=(*command.sinks[:place], other, *command.sinks[place + 1 :]))


def altered(command: Command) -> Iterator[Tuple[str, Command]]:
    """Yields outcomes that differ from a right one in one thing, each with this thing."""
    yield from altered_effects(command)
    yield from altered_texts(command)
    if command.failed or command.input_failed:
        yield "no feed that fails", command._replace(failed=(), input_failed=False)
    if not command.given and command.words[0] == b"pitc":
        yield "standard input read", command._replace(given=b"x\n", read=2)
    if command.given and command.read and not (command.is_returned and command.refused == OUT_OF_MEMORY):
        yield "standard input read in part", command._replace(read=command.read - 1)
    if command.is_returned:
        yield "nothing returned", command._replace(is_returned=False, status=0)
        yield "another error returned", command._replace(refused=of_run("NoThread"))
    else:
        yield "an error returned", command._replace(is_returned=True, refused=OUT_OF_MEMORY)


def other_errors(named: List[Tuple[str, Command]]) -> Iterator[Tuple[str, Command]]:
    """Yields outcomes with a file too few, or with one too many in the pipe form, that report another error, and the other way round."""
    found = dict(named)
    few, row, thread = (found.get(name) for name in ("a file too few", "an invalid row", "0 threads"))
    if few and row and thread:
        path, text = few.opened[-1]
        rows = (text or b"").count(b"\n")
        yield "an invalid row in place of the settings", row._replace(
            words=few.words, opened=(*few.opened[:-1], (path, (text or b"") + b"0\n")),
            lines=line_of(f"file 0 row {rows + 1} column whole: Width"),
            refused=invalid_row(0, rows + 1), threads=threads_of(VALUERS, 1))
        yield "a refused thread in place of the settings", thread._replace(words=few.words, opened=few.opened)
    many, thread = (found.get(name) for name in ("a zone file too many", "no thread"))
    if many and row and thread:
        yield "an invalid row in place of the settings", row._replace(
            given=row.given + b"--\n", read=row.read + 3, threads=threads_of(4, row.threads[1] + 1))
        yield "a refused thread in place of the settings", thread._replace(given=many.given, read=many.read)
        yield "the settings in place of an invalid row", many._replace(given=row.given, read=row.read)


def tried(named: List[Tuple[str, Command]]) -> Iterator[Tuple[str, Command, bool]]:
    """Yields outcomes, also some in which memory for the line of an error is refused, and altered ones, each with whether it is right. All
    alterations of the first are tried, and each STEPth of the others, from another one on for each."""
    found = [*named, *((f"{name}, and no memory for its line", command._replace(status=4, lines=LINES))
                       for name, command in named if command.refused and command.lines != LINES)]
    right = [seen(command) for _, command in found]
    for number, (name, command) in enumerate(found):
        yield name, command, True
        others = [(f"{name}: {thing}", other, False) for thing, other in altered(command) if seen(other) not in right]
        yield from others[number % STEP :: STEP] if number else others
    yield from ((name, other, False) for name, other in other_errors(named))


# Judging


def view(path: bytes, text: bytes, has_failed: bool = False, given: int = 0) -> Dict[str, Any]:
    """Returns a feed over a file that has a text, of which it gave some bytes."""
    return {"path": listed(path), "remaining": Made("Some", (listed(text[given:]),)), "given": given, "failures": int(has_failed)}


@functools.cache
def listed(text: bytes) -> Tuple:
    """Returns bytes as the definitions have them, the same each time."""
    return chain(text)


def remembering(function: Function) -> Function:
    """Returns a function that is called once for the same arguments."""
    known: Dict[Tuple[int, ...], Tuple[Any, Any]] = {}

    def call(*arguments: Any) -> Any:
        key = tuple(map(id, arguments))
        if key not in known:
            known[key] = arguments, function.call(*arguments)
        return known[key][1]

    return Function(function.count, call)


# Words that take long, and that statements use again for each value that they are tried on.
SLOW = [("command_io.Pieces", "plan_piece"), ("command_io.Pieces", "zone_pieces"), ("pit_model.Planned", "planned"),
        ("check_command.Counts", "counted"), ("pit_compile.ZoneFiles", "instance_from"), ("minelib_writing.Texts", "text_named"),
        ("thin_command.Thin", "thin_text"),
        ("pit_compile.Rows", "model_rows"), ("pit_compile.Rows", "model_sends"), ("pit_compile.Rows", "fault_in"),
        ("command_io.Sections", "printed"),
        ("thin_command.Thin", "counts_of"), ("pit_compile.Rows", "model_blocks")]


class Judge:
    """Decides whether the contract of `work` of a program, or of `run` of pitc, has an outcome."""

    NAMES = "result arguments input world I O F task"

    def __init__(self, pages: Pages, program: str, function: str = "work"):
        self.pages, self.program, self.function = pages, program, function
        self.page = Page.of_contract(f"crates/{program}/src/main.rt", function, self.NAMES)
        pages.pages[self.page.name] = self.page
        word = pages.call
        for page, name in SLOW:
            crate, _, rest = page.partition(".")
            pages.ready[f"Rattle.{crate}.specs.{rest}", name] = remembering(word(page, name))
        self.state = word("devices.feeds.FileFeedView", "file_state")
        self.paths = Function(1, lambda file: file["path"])
        self.lists: Dict[Tuple[int, ...], Tuple] = {}
        self.models: Dict[Tuple[int, int, int], Dict[str, Any]] = {}
        self.checked: Dict[Tuple, Dict[str, Any]] = {}

    def texts(self, opened: Tuple[Tuple[bytes, bytes], ...]) -> Dict[str, Any]:
        """Returns the texts of the files that a check opened."""
        found = {path.rpartition(b".")[2].decode(): listed(text) for path, text in opened}
        return self.checked.setdefault(opened, {ending: found.get(ending,
                                                                  ()) for ending in CHECKED[:3]} | {"cpit": optional(found.get("cpit"))})

    def sink(self, sink: Sink) -> Dict[str, Any]:
        return {"path": listed(sink.path), "has_slot": not sink.begun, "begun": sink.begun, "held": Made("Some", (listed(sink.text),)),
                "failures": sink.failures}

    def result(self, command: Command) -> Made:
        """Returns what `work` returns."""
        if command.is_returned:
            return Made("Err", (command.refused,))
        sinks = [self.sink(sink) for sink in command.sinks]
        of_names = dict(zip(ENDINGS, sinks)) if len(sinks) == len(ENDINGS) else None
        return Made("Ok", ({"status": command.status, "sinks": optional(sinks[0] if len(sinks) == 1 else of_names)},))

    @staticmethod
    def starts(spent: int, readers: int, joined: int, marks: int, refused: bool) -> Dict[str, Any]:
        return {"allowed": ALLOWED, "spent": spent, "readers": readers, "joined": joined, "marks": marks, "refused": refused}

    def openings(self, command: Command) -> List[Made]:
        return [Made("Unopened", (listed(path),)) if text is None else Made("Opened",
                                                                            (listed(path), Made("Some", (listed(text),)))) for path,
                                                                            text in command.opened]

    def world(self, command: Command) -> Dict[str, Any]:
        """Returns the world before and after."""
        opened = () if self.function == "work" or command.given else chain(self.openings(command)[:1])
        old = {"reports": True, "opened": opened, "made": (), "starts": self.starts(*IDLE), "text": chain(TEXT), "lines": chain(LINES)}
        new = {"reports": True, "opened": chain(self.openings(command)), "made": chain(map(chain, command.made)),
               "starts": self.starts(*command.threads),
               "text": chain(command.text), "lines": chain(command.lines)}
        return {"old": old, "new": new}

    def input(self, command: Command) -> Dict[str, Any]:
        """Returns standard input before and after."""
        old, new = (view(b"", command.given, failed, given) for failed, given in ((False, 0), (command.input_failed, command.read)))
        return {"old": old, "new": new}

    @staticmethod
    def refusals(command: Command) -> List[Made]:
        """Returns errors of the program, among them the command's own."""
        others = [OUT_OF_MEMORY, not_fed("Plan"), not_fed("Text", FILES[0]),
                  *(Made("Run", (why,)) for why in (Made("NoThread"), Made("FeedFailed", (0,)), Made("SinkFailed", (NAMES[0],)),
                                                    Made("Settings", (SETTINGS[0],))))]
        return [*([command.refused] if command.refused else []), *(other for other in others if other != command.refused)]

    def jobs(self, command: Command) -> List[Any]:
        """Returns the job, or the run, that arguments state."""
        words = list(map(chain, command.words))
        if words[1:2] == [chain(b"check")]:
            return [Made("Check", (words[2],))] if len(words) > 2 else []
        options = {bytes(each(name)): value for name, value in itertools.pairwise(words)}
        if b"--plan" not in options:
            return []
        numbers = [int(bytes(each(options[name]))) for name in (b"--valuers", b"--capacity")]
        zones = words[words.index(chain(b"--capacity")) + 2 :]
        settings = dict(zip(("valuers", "capacity"), numbers))
        found = {"plan": options[b"--plan"], "out": options[b"--out"], "settings": settings, "zones": {"items": chain(zones)}}
        return [found if self.program == "pitc_thin" else Made("Compile", (found,))]

    def values(self, command: Command) -> Dict[str, Any]:
        """Returns the values of each type on which the contract's statements are tried."""
        word, opened = self.pages.call, [(path, text) for path, text in command.opened if text is not None]
        pieces = {"plan": word("command_io.Pieces", "plan_piece", listed(command.given)),
                  "zones": word("command_io.Pieces", "zone_pieces", listed(command.given))}
        zones = [*each(pieces["zones"])] if command.given else [listed(text) for _, text in opened[1:]]
        planned = word("pit_model.Planned", "planned", pieces["plan"] if command.given or not opened else listed(opened[0][1]))
        plans = [planned.held[0]] if planned.tag == "Ok" else []
        fresh = [view(path, text) for path, text in opened]
        ended = [view(path, text, True) if path in command.failed else view(path, text, given=len(text)) for path, text in opened]
        remainders = [Made("Some", (zone,)) for zone in zones]
        texts = self.texts(tuple(opened))
        contents = [text for _, text in opened] + [path for path, text in command.opened if text is None]
        appended = [text.removeprefix(before) for text, before in ((command.text, TEXT), (command.lines, LINES))]
        printed = [part for text in appended for part in (text, text[:-1])]
        values: Dict[str, Any] = {
            "F": [*ended, *fresh], "T": fresh, "FeedState": [applied(self.state, feed) for feed in fresh], "List F": [chain(fresh[1:])],
            "List Opening": [chain(self.openings(command)[:count]) for count in range(len(command.opened) + 1)],
            "Option (List ℕ)": remainders,
            "List (Option (List ℕ))": [chain(remainders[:count]) for count in range(len(remainders) + 1)],
            "List ℕ": [*map(listed, dict.fromkeys([*contents, command.given, command.missing, *printed]))],
            "List (List ℕ)": [self.lists.setdefault(tuple(map(id, zones)), chain(zones))],
            "Text": [*map(listed, [*printed, *command.words])],
            "PlanParts": plans, "Plan": plans, "PiecesView": [pieces], "Texts": [texts], "TextFile": FILES, "TextName": NAMES,
            "List TextName": [chain(NAMES[a:b]) for a, b in itertools.combinations_with_replacement(range(len(NAMES) + 1), 2)],
            "Refused": self.refusals(command), "SettingsFault": SETTINGS,
            "SlurpFault": [Made("FeedFailed"), Made("TooLong"), Made("OutOfMemory")],
            "A": self.jobs(command), "List Row": self.rows(command), "GatheredView": [], "Instance": [], "List Taken": [], "Block": [],
            "ℕ": range(4),
        }
        values["Refusal"] = [refused.held[0] for refused in values["Refused"] if refused.tag == "Run"]
        values["JobFault"] = [Made("OutOfMemory"), *(Made("Line", ({"kind": Made(kind)},)) for kind in ("DisplayHelp", "DisplayVersion",
                                                                                                        "MissingRequiredArgument"))]
        values["TextFault"] = [refused.held[0] for refused in values["Refused"] if refused.tag == "Text"]
        is_check = self.program == "pitc" and command.words[1:2] == (b"check",)
        counted = word("check_command.Counts", "counted", texts) if is_check else Made("Err")
        values["Counts"] = list(counted.held) if counted.tag == "Ok" else []
        if plans and zones:
            values.update(self.values_of_model(plans[0], values["List (List ℕ)"][0], 4 if command.given else VALUERS))
        return values

    def rows(self, command: Command) -> List[Any]:
        """Returns what clap finds in arguments."""
        page, name = ("ThinLine", "thin_program") if self.program == "pitc_thin" else ("CommandLine", "program")
        return [rows_of(read_words(self.pages.call(f"command_lines.{page}", name), chain(map(chain, command.words))))]

    def values_of_model(self, plan: Dict[str, Any], zones: Tuple, valuers: int) -> Dict[str, Any]:
        """Returns the values that a plan and its zone files add: what passed the lane, and the instance."""
        key = id(plan), id(zones), valuers
        if key not in self.models:
            word = self.pages.call
            blocks = list(each(word("pit_compile.Rows", "model_blocks", plan, zones)))
            sent = [list(each(file)) for file in each(word("pit_compile.Rows", "model_sends", plan, zones))]
            view_of_all = {**outcomes.gathered(sent, valuers), "capacity": 64 if valuers == 4 else CAPACITY}
            lists = [*each(view_of_all["sent"])]
            most = max([len(blocks), *(len(list(each(file))) for file in [*lists, *each(view_of_all["took"])]), len(lists)]) + 2
            self.models[key] = {"GatheredView": [view_of_all], "Instance": [word("pit_compile.ZoneFiles", "instance_from", plan, zones)],
                                "List Taken": lists, "Block": blocks[:1], "ℕ": range(most)}
        return self.models[key]

    def is_for(self, command: Command) -> bool:
        """Returns whether the function has a part in an outcome: `run` has one once the plan is read."""
        if self.function == "work":
            return True
        is_piped = len(command.words) == 1 and command.read == len(command.given) and not command.input_failed
        is_compile = command.words[1:2] == (b"compile",) and not command.given and [path for path, text in command.opened[:1] if text] == [b"p"]
        return not command.is_returned and (is_piped or is_compile)

    def task(self, command: Command, values: Dict[str, Any]) -> Optional[Made]:
        """Returns the task of `run`."""
        if self.function == "work":
            return None
        plan = values["PlanParts"][0]
        if command.given:
            return Made("Pipe", ({"plan": plan, "pieces": values["PiecesView"][0]},))
        job = values["A"][0].held[0]
        return Made("Files", (plan, job["settings"], job["out"], job["zones"]))

    def refusing(self, command: Command) -> Iterator[str]:
        """Yields the clauses that do not have this outcome."""
        trying = self.pages.trying = self.values(command)
        device = {"state": self.state}
        values = (self.result(command), Made("Ok", ({"items": chain(map(chain, command.words))},)), self.input(command),
                  self.world(command), device, {"Opened": device, "File": {"path": self.paths}}, {"Slot": {"reports": True}},
                  {"now": self.task(command, trying)})
        yield from (name for name in reversed(self.page.clauses) if not applied(self.pages.word(self.page.name, name), *values))
