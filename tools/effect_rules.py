"""The tables and rules of docs/effects.md on what a run may do to the system, and a check of its record against them."""
import os
import re
from typing import Dict, Iterator, List, NamedTuple, Sequence, Tuple

import shared
from traced import Record, Used

INPUT, OUTPUT = "O_RDONLY|O_NOCTTY|O_CLOEXEC", "O_WRONLY|O_CREAT|O_NOCTTY|O_TRUNC|O_CLOEXEC, 0666"

# The most bytes that an input may have (docs/formats.md).
MOST = {"plan": 1 << 20, "file": 1 << 28, "input": 1 << 28}

# The most bytes of a path that a system accepts; the library rejects a longer one itself.
LONGEST_PATH = 4_095

# A file takes a few calls, and one for each of this many bytes.
CALLS, LARGE = 6, 32_768

Row = Dict[str, str]

SOME: Row = dict.fromkeys(["reads", "creates", "starts threads"], "some")


def tables() -> Tuple[List[Row], List[Row], List[Row]]:
    """The tables of the page, each a list of rows by the words of its header: files and threads, outcomes, memory."""
    found: List[List[Row]] = []
    head: List[str] = []
    for line in shared.read(os.path.join(shared.TOP, "docs/effects.md")).splitlines():
        cells = [cell.strip().replace("`", "") for cell in line.strip("|").split("|")] if line.startswith("|") else []
        if not cells:
            head = []
        elif not head:
            head = cells
            found.append([])
        elif set(cells[0]) != {"-"}:
            found[-1].append(dict(zip(head, cells)))
    files, outcomes, memory = found
    return files, outcomes, memory


class Ran(NamedTuple):
    """What a run was given and how it ended: the program's arguments, the texts that it could read, its status, its output, the sizes of
    the files that exist now, and the most bytes that it may use for what it reads and prints, if known."""

    is_thin: bool
    arguments: Sequence[str]
    given: List[bytes]
    status: int
    out: bytes
    errors: bytes
    sizes: Dict[str, int]
    most: int = -1

    @property
    def line(self) -> str:
        return self.errors.decode(errors="replace").rstrip("\n").replace("pitc: ", "", 1)


class May(NamedTuple):
    """What a run may use: its command, the paths of inputs and outputs, each with the name that its errors have, whether it reads
    standard input, and its threads."""

    command: str
    inputs: List[Tuple[str, str]]
    outputs: List[Tuple[str, str]]
    is_stream: bool
    threads: int
    zones: int


def option(arguments: List[str], name: str, default: str = "") -> Tuple[str, List[str]]:
    """Returns the value of an option in these arguments, and the arguments without it."""
    rest: List[str] = []
    found = default
    for n, word in enumerate(arguments):
        if word == "--":
            return found, rest + arguments[n:]
        if word.startswith(name + "=") or n and arguments[n - 1] == name:
            found = word[len(name) + 1:] if word.startswith(name + "=") else word
        elif word != name:
            rest.append(word)
    return found, rest


def command_of(ran: Ran) -> str:
    """Returns the command of the page that a run is."""
    before = ran.arguments[:ran.arguments.index("--")] if "--" in ran.arguments else ran.arguments
    is_shown = {"-h", "--help", "-V", "--version", "help"} & set(before)
    if is_shown or ran.status == 2 and not ran.line.startswith("settings"):
        return "help, the version, and refused arguments"
    return "pitc_thin" if ran.is_thin else f"pitc {ran.arguments[0]}" if ran.arguments else "pitc"


def may_of(ran: Ran, files: List[Row]) -> May:
    """Returns what a run may use, by the first table."""
    command = command_of(ran)
    row = next(row for row in files if row["command"] == command)
    arguments = list(ran.arguments[0 if ran.is_thin else 1:])
    plan, arguments = option(arguments, "--plan")
    out, arguments = option(arguments, "--out")
    valuers, arguments = option(arguments, "--valuers", "4")
    _, arguments = option(arguments, "--capacity")
    rest = [word for n, word in enumerate(arguments) if word != "--" or "--" in arguments[:n]]
    base = rest[0] if command == "pitc check" else out
    zones = rest if "ZONE.." in row["reads, in this order"] else []
    count = cut_at(ran.given[0]) if command == "pitc" else len(zones)
    inputs, outputs = [], []
    for name in filter(None, row["reads, in this order"].split(", ")):
        if name == "P":
            inputs.append((plan, "plan"))
        elif name == "ZONE..":
            inputs += [(zone, f"file {n}") for n, zone in enumerate(zones)]
        elif name != "standard input":
            inputs.append((name.replace("BASE", base), name.replace("BASE.", "")))
    for name in filter(None, row["creates, in this order"].split(", ")):
        outputs.append((out, "sink prec") if name == "FILE" else (name.replace("BASE", base), name.replace("BASE.", "sink ")))
    numbers = {"N": int(valuers) if valuers.isdigit() else 0, "ZONE": count, "4": 4}
    threads = sum(numbers[word] for word in filter(None, row["starts threads"].split(" + ")))
    return May(command, inputs, outputs, row["reads, in this order"] == "standard input", threads, len(zones))


def cut_at(given: bytes) -> int:
    """Returns the number of lines at which the pipe form's input is cut, which is its number of zone files."""
    return len(re.findall(rb"(?m)^--\r?$", given))


def outcome_of(ran: Ran, may: May, outcomes: List[Row]) -> Row:
    """Returns the row of the second table that fits a run."""
    if not may.inputs and not may.is_stream:
        return dict.fromkeys(SOME, "none")
    for row in outcomes:
        if may.command in row["command"].split(", ") and str(ran.status) in row["status"].split(", ") and ran.line.startswith(row["line"]):
            return row
    return {}


class Judged:
    """A run and its record, side by side with what it may do. `findings` has what it did besides."""

    def __init__(self, record: Record, ran: Ran, page: Tuple[List[Row], List[Row], List[Row]]):
        self.record, self.ran = record, ran
        files, outcomes, self.costs = page
        self.may = may_of(ran, files)
        # If standard error cannot be written, no line says which outcome it is.
        is_silent = any(call.is_refused for call in record.streams[2].calls)
        self.outcome = SOME if is_silent and self.may.inputs else outcome_of(ran, self.may, outcomes)
        # An opening that a signal interrupts is made again.
        opened = [used for used in record.files if used.opened and used.opened.error != "EINTR"]
        self.inputs, self.outputs = opened[:len(self.may.inputs)], opened[len(self.may.inputs):]

    def findings(self) -> Iterator[str]:
        """Returns what the run did that the page does not have."""
        yield from self.record.strange
        if not self.outcome:
            yield f"status {self.ran.status}, {self.ran.line!r}: no outcome of the page"
            return
        yield from self.of_paths()
        yield from self.of_each()
        yield from self.of_order()
        yield from self.of_reading()
        yield from self.of_threads()
        yield from self.of_memory()
        yield from self.of_faults()
        yield from self.of_outcome()

    def of_paths(self) -> Iterator[str]:
        """Checks paths, their order and modes."""
        for used, wanted, mode in [(self.inputs, self.may.inputs, INPUT), (self.outputs, self.may.outputs, OUTPUT)]:
            for n, file in enumerate(used):
                if n >= len(wanted):
                    yield f"{os.fsdecode(file.path)!r} is opened besides"
                elif file.flags not in (mode, "FAULT") or file.flags == mode and file.path != os.fsencode(wanted[n][0]):
                    yield f"{os.fsdecode(file.path)!r} is opened by {file.flags} in place of {wanted[n][0]!r} by {mode}"
        for file in self.record.left_open():
            yield f"{os.fsdecode(file.path)!r} is never closed"

    def named(self) -> Iterator[Tuple[str, str, Used]]:
        """Returns each file and stream with its name, and with what is done with it."""
        yield from (("read", name, used) for (_, name), used in zip(self.may.inputs, self.inputs))
        yield from (("write", name, used) for (_, name), used in zip(self.may.outputs, self.outputs))
        yield from zip(("read", "write", "write"), ("input", "output", "errors"), self.record.streams)

    def of_each(self) -> Iterator[str]:
        """Checks what is done with one file or stream."""
        for what, name, used in self.named():
            for n, call in enumerate(used.calls, 1):
                if call.name != what:
                    yield f"a {call.name} of {name}"
                if n < len(used.calls) and call.is_refused:
                    yield f"a {what} of {name} after {call.error}"
                if n < len(used.calls) and what == "read" and call.result == 0 and not call.error:
                    yield f"a read of {name} after its end"
            # A pipe accepts and returns what it has.
            if name not in ("input", "output") and len(used.calls) > CALLS + used.total // LARGE:
                yield f"{len(used.calls)} calls for {used.total} bytes of {name}"
            if used.total > MOST.get(name.split()[0], used.total) + 1:
                yield f"{used.total} bytes read of {name}"
            if used.opened is None and used.closed:
                yield f"{name} is closed"
        if (self.record.streams[0].calls or self.record.asks_place) and not self.may.is_stream:
            yield "standard input is read"

    def of_order(self) -> Iterator[str]:
        """Checks the order: inputs, threads, outputs, printing."""
        record = self.record
        ends = {call.thread: call.end for call in record.calls if call.name == "exit"}
        reads = [call.end for used in [*self.inputs, record.streams[0]] for call in used.calls]
        last = max([0, *reads, *(ends.get(thread, 1 << 60) for thread in record.threads)])
        for used, following in zip(self.outputs, [*self.outputs[1:], None]):
            assert used.opened
            if used.opened.begin < last:
                yield f"{os.fsdecode(used.path)!r} is created before all is read and all threads have ended"
            if following and following.opened and used.calls and used.calls[-1].end > following.opened.begin:
                yield f"{os.fsdecode(used.path)!r} is written after the next one is created"
        opened = [used for used in [*self.inputs, *self.outputs] if used.is_open]
        closed = max([0, *(used.closed.end if used.closed else 1 << 60 for used in opened)])
        if any(call.begin < closed for stream in record.streams[1:] for call in stream.calls):
            yield "something is printed before each file is closed"

    def of_reading(self) -> Iterator[str]:
        """Checks the order in which files are opened, read and closed, and who reads them."""
        pairs = list(zip(self.inputs, self.inputs[1:]))
        is_check = self.may.command == "pitc check"
        for one, following in pairs if is_check else pairs[:1]:
            assert following.opened
            if one.is_open and (one.closed is None or one.closed.end > following.opened.begin):
                yield f"{os.fsdecode(one.path)!r} is open at the same time as the next file"
        zones = [] if is_check else self.inputs[1:]
        first = min([1 << 60, *(call.begin for used in zones for call in used.calls)])
        if any(used.opened and used.opened.end > first for used in zones):
            yield "a zone file is read before all are opened"
        readers = [{call.thread for call in used.calls} for used in zones if used.calls]
        starts = self.record.threads[self.may.threads - self.may.zones:]
        if any(len(threads) > 1 for threads in readers) or sum(map(len, readers)) > len(set().union(*readers)):
            yield "a zone file is not read by its own thread"
        if not set().union(*readers) <= set(starts):
            yield "a zone file is read by none of the threads that are started last"

    def of_threads(self) -> Iterator[str]:
        """Checks the number of threads, and that none remains."""
        record, count = self.record, len(self.record.threads)
        wanted = {"all": [self.may.threads], "none": [0], "some": range(self.may.threads + 1)}[self.outcome["starts threads"]]
        if count not in wanted:
            yield f"{count} threads in place of {self.may.threads}"
        if set(record.threads) - {call.thread for call in record.calls if call.name == "exit"}:
            yield "a thread remains"

    def of_memory(self) -> Iterator[str]:
        """Checks the memory that is requested, used or not."""
        most = self.most_memory()
        if self.record.memory.peak > most:
            yield f"{self.record.memory.peak} bytes of memory, of at most {most}"

    def most_memory(self) -> int:
        """Returns the sum of the third table. If it is known what a run uses for what it reads and prints, this replaces the table's
        rows."""
        record, given = self.record, self.ran.given
        lines = sum(text.count(b"\n") + text.count(b"\r") + 1 for text in given)
        counts = {"run": 1, "file to read, thread": len(self.inputs) + len(record.threads),
                  "thread, if more than 1,024 lines are read": len(record.threads) * (lines > 1_024)}
        if self.ran.most >= 0:
            return self.ran.most + sum(count * self.cost(what) for what, count in counts.items())
        counts.update({
            "byte read": sum(used.total for used in [*self.inputs, record.streams[0]]), "byte printed": len(self.ran.out),
            "line read": lines,
            "byte of the longest line": max([0, *(len(line) for text in given for line in text.split(b"\n"))]),
        })
        return sum(count * self.cost(what) for what, count in counts.items())

    def cost(self, what: str) -> int:
        """Returns the bytes of this command for each of these, by the third table."""
        rows = (row for row in self.costs if row["for each"] == what)
        return sum(int(row["bytes"].replace(",", "")) for row in rows if row["of"] == "any command" or self.may.command in row["of"].split(", "))

    def failed(self) -> Iterator[str]:
        """Returns the lines that report the calls that the system refused."""
        for what, name, used in self.named():
            # A `cpit` may be missing, and an error of standard error cannot be reported.
            is_missing = name == "cpit" and not used.is_open
            if used.is_refused and not is_missing and name != "errors":
                yield f"{name}: {'FeedFailed' if what == 'read' else 'SinkFailed'}"
        for paths, kind in ((self.may.inputs, "FeedFailed"), (self.may.outputs, "SinkFailed")):
            for path, name in paths:
                if len(os.fsencode(path)) > LONGEST_PATH and self.ran.line == f"{name}: {kind}":
                    yield self.ran.line

    def of_faults(self) -> Iterator[str]:
        """Checks for errors that were reported and did not occur, or occurred and were not reported."""
        record, line, status = self.record, self.ran.line, self.ran.status
        if any(call.is_refused for call in record.streams[2].calls):
            return
        wanted = set(self.failed())
        number = re.match(r"file (\d+)[ :]", line)
        earlier = number and all(printed.startswith("file ") and int(printed.split()[1][:-1]) > int(number[1]) for printed in wanted)
        is_printed = (status, line in wanted) == (3, True) or status == 1 and earlier
        if wanted and not is_printed:
            yield f"status {status}, {line!r} in place of {sorted(wanted)}"
        if status == 3 and not wanted:
            yield f"{line!r}, and no call failed"
        if status == 4 and not (record.memory.is_refused or record.is_thread_refused):
            yield f"{line!r}, and neither memory nor a thread was refused"
        if record.is_thread_refused and (status, line) != (4, "NoThread"):
            yield f"status {status}, {line!r}, and a thread was refused"
        if (status != 0) != bool(record.streams[2].calls) or (status == 0) != bool(self.ran.out) and line != "output: SinkFailed":
            yield f"status {status}, {len(self.ran.out)} bytes printed, {record.streams[2].total} reported"
        for stream, text in zip(record.streams[1:], (self.ran.out, self.ran.errors)):
            if stream.total != len(text):
                yield f"{len(text)} bytes printed, {stream.total} of them written"

    def of_outcome(self) -> Iterator[str]:
        """Checks the numbers of the outcome's files that are read and created, and whether each is complete."""
        reads, creates = self.outcome["reads"], self.outcome["creates"]
        wanted = {"all": len(self.may.inputs), "opened": len(self.may.inputs), "first": 1, "none": 0}
        if len(self.inputs) != wanted.get(reads, len(self.inputs)):
            yield f"{len(self.inputs)} files are opened in place of {wanted[reads]}"
        if reads in ("all", "first"):
            for what, name, used in self.named():
                is_input = what == "read" and (name != "input" or self.may.is_stream)
                if is_input and used.is_open and not (used.is_read_whole or used.is_refused or used.total > MOST.get(name.split()[0], 1 << 60)):
                    yield f"{name} is not read to its end"
        if reads == "opened" and any(used.calls for used in self.inputs[1:]):
            yield "a zone file is read"
        if len(self.outputs) != {"all": len(self.may.outputs), "none": 0}.get(creates, len(self.outputs)):
            yield f"{len(self.outputs)} files are created in place of {creates} of {len(self.may.outputs)}"
        for n, used in enumerate(self.outputs):
            size = self.ran.sizes.get(os.path.normpath(os.fsdecode(used.path)))
            is_last = all(used.path != other.path for other in self.outputs[n + 1:])
            if size is not None and is_last and used.is_open and used.total != size:
                yield f"{os.fsdecode(used.path)!r} has {size} bytes, of which {used.total} were written by this run"
