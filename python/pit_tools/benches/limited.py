"""Runs another program within limits of time and memory, and leaves none of its processes.

A supervisor, a process of a new interpreter, starts the program. A process that the program starts
becomes a child of the supervisor at the latest when its parent ends, in any session. The supervisor
ends all of these at a limit, when the program ends, and when the process that waits for the
supervisor ends, for any cause. Without /proc it ends only the program's process group, and has no
memory limit.
"""
from __future__ import annotations

import ctypes
import fcntl
import json
import os
import resource
import select
import shutil
import signal
import subprocess
import sys
import time
from dataclasses import asdict, dataclass
from typing import Any, Optional, Sequence

from pit_tools.errors import UserError

# The code of the new interpreter: it finds modules in the same folders as this one.
_CODE = ("import json, sys; sys.path[:] = json.loads(sys.argv[1]); "
         "from pit_tools.benches import limited; limited.supervise()")

# Calls of Linux: a process ends with its parent; and it adopts the processes that its children
# leave.
_PR_SET_PDEATHSIG, _PR_SET_CHILD_SUBREAPER = 1, 36
_F_SETPIPE_SZ = 1031

# Bytes that a pipe of Linux is asked to hold.
_PIPE = 1 << 20

#: Seconds between two measurements of memory; seconds from TERM to KILL; bytes that are kept of the
#: program's last output.
PAUSE, GRACE, TAIL = 0.05, 1.0, 4096

#: Seconds after which a supervisor that the program has stopped continues; and seconds beyond the
#: limit after which it is killed.
WAKE, PATIENCE = 1.0, 60.0

TIME, MEMORY = "time limit", "memory limit"


@dataclass(frozen=True)
class Ran:
    """How a program ended: `status 0`, `signal 9`, `time limit` or `memory limit`; its seconds, its
    processor seconds, the peak memory of all its processes, in MB, and the end of its output."""

    ended: str
    seconds: float
    cpu: float
    megabytes: float
    printed: str


def run(words: Sequence[str], scratch: str, seconds: float,
        megabytes: Optional[float] = None) -> Ran:
    """Runs a program in the current folder, at most `seconds` and in `megabytes` of memory. The
    folder `scratch` goes too if this process is ended meanwhile.

    Raises UserError if there is no such program, or its supervisor was ended or keeps being
    stopped."""
    with subprocess.Popen([sys.executable, "-I", "-c", _CODE, json.dumps(sys.path)],
                          stdin=subprocess.PIPE, stdout=subprocess.PIPE,
                          start_new_session=True) as supervisor:
        assert supervisor.stdin is not None and supervisor.stdout is not None
        task = {"words": list(words), "scratch": scratch, "seconds": seconds,
                "megabytes": megabytes}
        try:
            supervisor.stdin.write(json.dumps(task).encode() + b"\n")
            supervisor.stdin.flush()
            printed = _printed(supervisor, time.monotonic() + seconds + PATIENCE)
        finally:
            # The supervisor ends what still runs.
            supervisor.stdin.close()
            _printed(supervisor, time.monotonic() + PATIENCE)
            supervisor.wait()
    if not printed:
        raise UserError("the process that watches the solver was ended from outside")
    found = json.loads(printed)
    if "error" in found:
        raise UserError(found["error"])
    return Ran(**found)


def _printed(supervisor: subprocess.Popen[bytes], end: float) -> bytes:
    """Returns what a supervisor prints until it ends; kills it if it has not ended by then."""
    assert supervisor.stdout is not None
    printed = b""
    while time.monotonic() < end:
        if not select.select([supervisor.stdout], [], [], WAKE)[0]:
            supervisor.send_signal(signal.SIGCONT)
            continue
        chunk = os.read(supervisor.stdout.fileno(), 1 << 16)
        if not chunk:
            return printed
        printed += chunk
    supervisor.kill()
    return b""


# In the supervisor


def supervise() -> None:
    """Runs, in the supervisor, the program of the line that standard input has, and prints how it
    ended."""
    result = os.dup(1)
    os.dup2(2, 1)
    line = b""
    while not line.endswith(b"\n"):
        chunk = os.read(0, 1 << 16)
        if not chunk:
            return
        line += chunk
    task = json.loads(line)
    _call(_PR_SET_CHILD_SUBREAPER, 1)
    try:
        watch = _Watch(task["seconds"], task["megabytes"])
        found: dict[str, Any] = asdict(watch.run(task["words"]))
    except OSError as error:
        found = {"error": f"{task['words'][0]} cannot be run: {error.strerror}"}
    except _Alone:
        shutil.rmtree(task["scratch"], ignore_errors=True)
        return
    os.write(result, json.dumps(found).encode())


class _Alone(Exception):
    """The process that waits for the result has ended."""


def _call(what: int, value: int) -> None:
    if sys.platform == "linux":
        ctypes.CDLL(None).prctl(what, value, 0, 0, 0)


def _widen(pipe: int) -> None:
    """Gives a pipe of Linux a megabyte, so that a program with much output need not wait for the
    reader."""
    if sys.platform == "linux":
        try:
            fcntl.fcntl(pipe, _F_SETPIPE_SZ, _PIPE)
        except OSError:
            pass


class _Watch:
    """A program that is watched until it ends, or a limit is reached."""

    def __init__(self, seconds: float, megabytes: Optional[float]):
        self.seconds, self.megabytes = seconds, megabytes
        self.peak, self.printed, self.looked = 0.0, b"", 0.0
        self.status: Optional[int] = None
        self.first = 0
        self.woken, waker = os.pipe()
        os.set_blocking(waker, False)
        signal.signal(signal.SIGCHLD, lambda *_: None)
        signal.set_wakeup_fd(waker)
        self.sources = {0, self.woken}

    def run(self, words: Sequence[str]) -> Ran:
        """Runs the program. Raises OSError if it cannot be started, _Alone if nobody waits."""
        reader, writer = os.pipe()
        _widen(writer)
        begin = time.monotonic()
        # It is reaped below, with all that it leaves. The object is held: when it goes, it would
        # reap a program that has ended already, and its status would be lost.
        # pylint: disable-next=consider-using-with,subprocess-popen-preexec-fn
        child = subprocess.Popen(
            words, stdin=subprocess.DEVNULL, stdout=writer, stderr=writer, start_new_session=True,
            preexec_fn=lambda: _call(_PR_SET_PDEATHSIG, signal.SIGKILL))
        self.first = child.pid
        os.close(writer)
        self.sources.add(reader)
        ended = None
        try:
            while ended is None and self.status is None:
                self._wait(PAUSE)
                ended = self._limit(begin)
            seconds = time.monotonic() - begin
        finally:
            self._end_all()
            child.returncode = self.status
        self._read_rest(reader)
        used = resource.getrusage(resource.RUSAGE_CHILDREN)
        unit = 1e3 if sys.platform == "linux" else 1e6
        return Ran(ended or _text_of(self.status), round(seconds, 3),
                   round(used.ru_utime + used.ru_stime, 3),
                   round(max(self.peak, used.ru_maxrss / unit), 1),
                   self.printed.decode("utf-8", "replace"))

    def _limit(self, begin: float) -> Optional[str]:
        """Returns the limit that is reached, None if the program has ended or no limit is."""
        now = time.monotonic()
        if self.status is not None:
            return None
        if now - begin > self.seconds:
            return TIME
        if now - self.looked < PAUSE:
            return None
        self.looked = now
        self.peak = max(self.peak, sum(_below().values()) / 1e6)
        return MEMORY if self.megabytes is not None and self.peak > self.megabytes else None

    def _wait(self, pause: float) -> None:
        """Waits for output, for an end, or until the pause is over."""
        for source in select.select(list(self.sources), [], [], pause)[0]:
            chunk = os.read(source, 1 << 16)
            if source == 0 and not chunk:
                raise _Alone
            if not chunk:
                self.sources.discard(source)
            elif source not in (0, self.woken):
                self._keep(chunk)
        self._reap()

    def _keep(self, chunk: bytes) -> None:
        self.printed = (self.printed + chunk)[-TAIL:]

    def _read_rest(self, reader: int) -> None:
        """Reads what a program that has ended left in the pipe: one read empties it, and does not
        wait."""
        if select.select([reader], [], [], 0)[0]:
            self._keep(os.read(reader, _PIPE))

    def _reap(self) -> None:
        while True:
            try:
                process, status = os.waitpid(-1, os.WNOHANG)
            except ChildProcessError:
                return
            if process == 0:
                return
            if process == self.first:
                self.status = status

    def _end_all(self) -> None:
        """Ends the program and all processes that it has started: by TERM, and what remains by
        KILL."""
        self.sources.discard(0)
        begin, how = time.monotonic(), signal.SIGTERM
        self._signal(how)
        while self._is_there() and time.monotonic() - begin < 10 * GRACE:
            self._wait(PAUSE / 5)
            if time.monotonic() - begin > GRACE:
                self._signal(signal.SIGKILL)

    def _is_there(self) -> bool:
        self._reap()
        return bool(_below()) or self.status is None

    def _signal(self, how: int) -> None:
        targets = [(os.kill, process) for process in _below()]
        for call, target in [*targets, *([(os.killpg, self.first)] if self.status is None else [])]:
            try:
                call(target, how)
            except (ProcessLookupError, PermissionError):
                pass


def _text_of(status: Optional[int]) -> str:
    assert status is not None
    if os.WIFSIGNALED(status):
        return f"signal {os.WTERMSIG(status)}"
    return f"status {os.WEXITSTATUS(status)}"


def _below() -> dict[int, int]:
    """The processes below this one, with the bytes that each holds in memory."""
    found: dict[int, tuple[int, int]] = {}
    page = os.sysconf("SC_PAGE_SIZE")
    for name in os.listdir("/proc") if os.path.isdir("/proc/self") else []:
        if name.isdigit():
            try:
                with open(f"/proc/{name}/stat", "rb") as file:
                    # The name of the program, in brackets, may have blanks.
                    fields = file.read().rpartition(b")")[2].split()
            except OSError:
                continue
            found[int(name)] = (int(fields[1]), int(fields[21]) * page)
    below: dict[int, int] = {}
    parents = {os.getpid()}
    while parents:
        parents = {process for process, (parent, _) in found.items()
                   if parent in parents and process not in below}
        below |= {process: found[process][1] for process in parents}
    return below
