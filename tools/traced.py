"""The requests of a run to the system, by its trace: calls on files, threads, memory, and what was refused."""
import errno
import os
import re
import subprocess
from typing import Dict, Iterator, List, NamedTuple, Optional, Sequence, Tuple

# A descriptor that no run has: tools/effects.c writes to it for which call it returns an error.
REPORTS = "1023"

STRACE = ["strace", "-f", "-qq", "--seccomp-bpf", "-xx", "-s", "64", "-e", "signal=none"]

MEMORY = {"brk", "mmap", "munmap", "mprotect", "madvise", "mremap"}

# The calls of threads that start, wait and end, and the end of the program.
OF_THREADS = {"set_robust_list", "rseq", "rt_sigprocmask", "exit", "exit_group", "getrandom"}

# The C library counts the processors if many threads allocate, and reads the system's overcommit policy if it returns much memory.
OF_LIBRARY = {(path, "O_RDONLY|O_CLOEXEC") for path in (b"/sys/devices/system/cpu/online", b"/proc/sys/vm/overcommit_memory")}


class Call(NamedTuple):
    """A call: the lines of the trace where it began and ended, its thread, its result, and its error, if any."""

    begin: int
    end: int
    thread: int
    name: str
    args: str
    result: int = -1
    error: str = ""

    @property
    def is_refused(self) -> bool:
        """Returns whether it failed with an error after which it is not repeated."""
        return self.error not in ("", "EINTR")


def arguments_of(program: Sequence[str], trace: str, shown: Dict[str, str], is_long: bool = False) -> List[str]:
    """Returns the arguments that run a program, trace it into a file, and give it these variables alone. The waits of its threads, which
    are many in a long run, are then not traced."""
    return [*STRACE, "-e", "trace=!sched_yield" + ",futex" * is_long, "-o", trace, *(word for item in shown.items() for word in ("-E", "=".join(item))), *program]


def why_not() -> Optional[str]:
    """Returns why no run can be traced here; None if one can."""
    try:
        ran = subprocess.run(arguments_of(["true"], os.devnull, {}), capture_output=True, text=True, check=False)
    except FileNotFoundError:
        return "strace is not installed"
    return None if ran.returncode == 0 else (ran.stderr.strip().splitlines() or ["strace fails"])[-1]


def bytes_of(escaped: str) -> bytes:
    """Returns a text as strace shows it, each byte as \\x and two digits."""
    return bytes.fromhex(escaped.replace("\\x", ""))


def fault_of(call: Call, text: bytes) -> Call:
    """Returns the call for which tools/effects.c returned an error, by its report."""
    name, code, args = text.split(b" ", 2)
    shown = f'AT_FDCWD, "{args.hex()}", FAULT' if name == b"openat" else args.decode()
    return call._replace(name=name.decode(), args=shown, result=-1, error=errno.errorcode[int(code)])


def calls_in(trace: str) -> List[Call]:
    """Returns the calls in the order in which they ended; an injected error replaces its call."""
    begun: Dict[int, Tuple[int, str, str]] = {}
    calls: List[Call] = []
    for number, line in enumerate(trace.splitlines()):
        thread_number, text = line.split(None, 1)
        thread = int(thread_number)
        if text.startswith(("+++", "---")):
            calls.append(Call(number, number, thread, "+++", text))
            continue
        resumed = re.match(r"<\.\.\. \w+ resumed>(.*)$", text)
        if resumed:
            first, name, prefix = begun.pop(thread)
            rest = prefix + resumed[1]
        else:
            first, (name, rest) = number, text.split("(", 1)
        if rest.endswith("<unfinished ...>"):
            begun[thread] = (first, name, rest[:-len("<unfinished ...>")])
            continue
        done = re.match(r"(.*)\) += (-?\w+|\?)(?: (E\w+))?", rest)
        assert done, line
        result = -1 if done[2] in ("?", "-1") else int(done[2], 0)
        call = Call(first, number, thread, name, done[1].strip(), result, done[3] or "")
        if name == "write" and call.args.startswith(REPORTS + ","):
            call = fault_of(call, bytes_of(call.args.split('"')[1]))
            if call.name == "close":
                # The previous call closed the file nevertheless.
                at = max(n for n, e in enumerate(calls) if e.name == "close" and e.thread == thread)
                calls[at] = calls[at]._replace(error=call.error)
                continue
        calls.append(call)
    return calls


class Used:
    """A file that was to be opened, or a standard stream, and what was done with it. `flags` has the rights of a new file after a comma."""

    def __init__(self, path: bytes, flags: str, opened: Optional[Call]):
        self.path, self.flags, self.opened = path, flags, opened
        self.calls: List[Call] = []
        self.closed: Optional[Call] = None

    @property
    def total(self) -> int:
        """Returns the number of bytes that were read or written."""
        return sum(max(call.result, 0) for call in self.calls)

    @property
    def is_open(self) -> bool:
        """Returns whether it was opened."""
        return self.opened is None or not self.opened.error

    @property
    def is_refused(self) -> bool:
        """Returns whether a call failed, besides its close."""
        return any(call.is_refused for call in [*filter(None, [self.opened]), *self.calls])

    @property
    def is_read_whole(self) -> bool:
        """Returns whether it was read to its end."""
        return bool(self.calls) and self.calls[-1].result == 0 and not self.calls[-1].error


class Memory:
    """The memory that a run has requested, used or not, besides the stacks of its threads, and its maximum."""

    def __init__(self) -> None:
        self.areas: Dict[int, int] = {}
        self.stacks: List[range] = []
        self.first = self.last = self.peak = 0
        self.is_refused = False

    def take(self, call: Call) -> None:
        """Records a call on memory."""
        self.is_refused |= call.error == "ENOMEM"
        if call.error:
            return
        args = call.args.split(", ")
        if call.name == "brk":
            self.first, self.last = self.first or call.result, call.result
            size = 0
        else:
            size = int(args[2 if call.name == "mremap" else 1])
        at = 0 if call.name == "brk" or args[0] == "NULL" else int(args[0], 0)
        if call.name == "mmap" and "MAP_STACK" in call.args:
            self.stacks.append(range(call.result, call.result + size))
        elif call.name in ("mremap", "munmap"):
            self.areas.pop(at, None)
        if call.name == "mremap" or call.name == "mmap" and "PROT_WRITE" in call.args and "MAP_STACK" not in call.args:
            self.areas[call.result] = size
        elif call.name == "mprotect" and "PROT_WRITE" in call.args and not any(at in stack for stack in self.stacks):
            self.areas[at] = size
        self.peak = max(self.peak, self.last - self.first + sum(self.areas.values()))


class Record:
    """What one run did, after the loading of its libraries. `strange` has the calls that no run makes."""

    def __init__(self, trace: str):
        calls = calls_in(trace)
        self.main = calls[0].thread
        begin = next(n for n, call in enumerate(calls) if call.name == "rt_sigaction" and "SIGPIPE" in call.args)
        self.calls = calls[begin + 1:]
        self.files: List[Used] = []
        self.streams = [Used(b"", "", None) for _ in range(3)]
        self.memory = Memory()
        self.threads: List[int] = []
        self.strange: List[str] = []
        self.is_thread_refused = self.asks_place = False
        self.by_number: Dict[int, Used] = dict(enumerate(self.streams))
        for call in calls[:begin]:
            if call.name == "brk":
                self.memory.take(call)
        for call in self.calls:
            self.strange += filter(None, [self.strangeness(call)])

    def strangeness(self, call: Call) -> str:
        """Records a call, and notes what no run does."""
        shown = f"{call.name}({call.args[:90]})"
        if call.name == "+++":
            return "" if "exited" in call.args else f"a thread ends by {call.args}"
        if call.name in MEMORY:
            self.memory.take(call)
            is_file = call.name == "mmap" and "MAP_ANONYMOUS" not in call.args
            return shown if is_file or "PROT_EXEC" in call.args else ""
        if call.name == "clone3":
            self.is_thread_refused |= bool(call.error)
            self.threads += [] if call.error else [call.result]
            return "" if call.error or "CLONE_THREAD" in call.args else f"a process is started: {shown}"
        if call.name == "futex":
            return shown if "tv_sec" in call.args and str(2**63 - 1) not in call.args else ""
        if call.name == "rt_sigaction":
            return "" if call.args.startswith("SIGRT_1,") else shown
        if call.name == "openat":
            return self.open(call)
        if call.name in ("read", "write", "close"):
            return self.use(call)
        if (call.name, call.args) == ("lseek", "0, 0, SEEK_CUR"):
            self.asks_place = True
            return ""
        return "" if call.name in OF_THREADS else shown

    def open(self, call: Call) -> str:
        """Records the opening of a file."""
        found = re.match(r'([^,]*), "([^"]*)", (.*)', call.args)
        assert found, call
        path, flags = bytes_of(found[2]), found[3]
        used = Used(path, flags, call)
        if (path, flags) not in OF_LIBRARY:
            self.files.append(used)
        if not call.error:
            self.by_number[call.result] = used
        return "" if found[1] == "AT_FDCWD" else f"openat({call.args})"

    def use(self, call: Call) -> str:
        """Records a read, a write or a close."""
        number = int(call.args.split(",")[0])
        used = self.by_number.get(number)
        if used is None:
            return f"{call.name} of the descriptor {number}, which is not open"
        if call.name == "close":
            used.closed = call
            del self.by_number[number]
        else:
            used.calls.append(call)
        return ""

    def left_open(self) -> Iterator[Used]:
        """Returns the files that were never closed."""
        return (used for number, used in self.by_number.items() if number > 2)
