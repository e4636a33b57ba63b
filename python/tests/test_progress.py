"""Progress bars: on a terminal alone; and `compile`, which passes on what pitc prints."""
import errno
import fcntl
import os
import pty
import re
import signal
import struct
import subprocess
import sys
import termios
import time

import pytest

import mines
from pit_tools import progress
from pit_tools.cli import main

SOURCE = os.path.join(mines.TOP, "python")

WORDS = [sys.executable, "-m", "pit_tools"]

ENVIRONMENT = {**os.environ, "COLUMNS": "200",
               "PYTHONPATH": os.pathsep.join(filter(None, [SOURCE, os.environ.get("PYTHONPATH")]))}

#: A substitute for pitc: it reads and writes slowly, prints a line, and ends as instructed.
SLOW = """#!/bin/sh
plan=$3 base=$5
sleep 0.3
cat "$7" > /dev/null
sleep 0.3
for text in blocks upit pcpsp cpit; do : > "$base.$text"; done
for part in 1 2; do head -c 100000 /dev/zero >> "$base.prec"; sleep 0.3; done
[ -z "$FAULT" ] || { echo "pitc: $FAULT" >&2; exit 3; }
echo "rows 7"
"""


def terminal():
    """The two ends of a terminal of 200 columns."""
    ours, theirs = pty.openpty()
    fcntl.ioctl(theirs, termios.TIOCSWINSZ, struct.pack("HHHH", 50, 200, 0, 0))
    return ours, theirs


def on_terminal(words, folder, is_printed_there=False, **more):
    """Runs pit-tools with a terminal as its standard error; returns the status, what was
    printed, and what was on the terminal."""
    ours, theirs = terminal()
    output = theirs if is_printed_there else subprocess.PIPE
    child = subprocess.Popen([*WORDS, *words], cwd=folder, stdout=output, stderr=theirs,
                             env={**ENVIRONMENT, **more}, text=True)
    os.close(theirs)
    shown = b""
    while True:
        try:
            chunk = os.read(ours, 1 << 16)
        except OSError:
            break
        if not chunk:
            break
        shown += chunk
    message = child.stdout.read() if child.stdout else ""
    status = child.wait()
    os.close(ours)
    return status, message, shown.decode("utf-8", "replace")


def apart(words, folder, **more):
    """The same with pipes."""
    done = subprocess.run([*WORDS, *words], cwd=folder, capture_output=True, text=True,
                          env={**ENVIRONMENT, **more}, check=False)
    return done.returncode, done.stdout, done.stderr


def what_stays(shown: str) -> str:
    """Returns what stays readable on a terminal: a carriage return moves to the start of the
    line."""
    lines = []
    for line in shown.replace("\r\n", "\n").split("\n"):
        seen = ""
        for chunk in line.split("\r"):
            seen = chunk + seen[len(chunk):]
        lines.append(seen.rstrip())
    return "\n".join(lines)


@pytest.fixture(name="folder")
def folder_with_a_mine(tmp_path):
    mines.six_blocks(tmp_path)
    (tmp_path / "export.csv").write_text(mines.SIX_ROWS)
    (tmp_path / "pitc").write_text(SLOW)
    (tmp_path / "pitc").chmod(0o755)
    return tmp_path


IMPORT = ["import", "export.csv", "--x", "x", "--y", "y", "--z", "z", "--tonnes", "tonnes",
          "--grade", "grade", "--size", "10,10,10", "--out", "from"]


@pytest.mark.parametrize("words, seen", [
    (IMPORT, ["reads rows", "6 rows of export.csv", "writes zone files"]),
    (["survey", "mine.plan", "mine"], ["reads mine.prec", "counts", "finds the ultimate pit"]),
    (["nested", "mine.plan", "mine", "--factors", "0.5,1"], ["0 of 2", "factor 0.5", "1 of 2"]),
    (["pit", "mine", "--plan", "mine.plan", "--K", "1,2"], ["K = 1", "K = 2"]),
])
def test_a_bar_is_seen_on_a_terminal_alone_and_nothing_of_it_stays(folder, words, seen):
    status, message, shown = on_terminal(words, folder)
    assert status == 0 and all(text in shown for text in seen), shown
    assert f"{words[0]} |" in shown and what_stays(shown).strip() == ""
    assert apart(words, folder) == (0, message, "")
    # What is printed on the same terminal appears there as it does elsewhere.
    status, _, shown = on_terminal(words, folder, is_printed_there=True)
    assert status == 0 and what_stays(shown) == message.rstrip("\n") + "\n"


def test_rows_that_are_printed_have_no_bar(folder):
    assert apart(IMPORT, folder)[0] == 0
    (folder / "mine.pit").write_text("0\n3\n4\n")
    words = ["back", "mine.plan", "mine", "mine.pit", "--onto", "from.json"]
    status, message, error = apart(words, folder)
    assert (status, error) == (0, "6 rows, of which 6 are blocks of the instance\n")
    status, _, shown = on_terminal(words, folder, is_printed_there=True)
    lines = (message + error).splitlines()
    assert status == 0 and sorted(shown.replace("\r", "").splitlines()) == sorted(lines)
    assert "back |" in on_terminal([*words, "--out", "rows.csv"], folder)[2]


def test_a_error_is_alone_after_the_bar(folder):
    os.remove(folder / "mine.pcpsp")
    words = ["survey", "mine.plan", "mine"]
    status, _, shown = on_terminal(words, folder)
    assert status == 2 and "reads mine.pcpsp" in shown
    assert what_stays(shown) == apart(words, folder)[2]


def test_without_tqdm_there_is_no_bar(monkeypatch, capsys):
    monkeypatch.setitem(sys.modules, "tqdm", None)
    monkeypatch.setattr(progress, "is_terminal", lambda: True)
    with progress.shown("survey", 3):
        progress.step("counts")
        with progress.hidden():
            assert capsys.readouterr().err == ""


COMPILE = ["compile", "--plan", "mine.plan", "--out", "slow", "--pitc", "./pitc", "mine-0.csv"]


@pytest.mark.parametrize("fault, status, line", [
    ("", 0, "rows 7\n"),
    ("sink prec: SinkFailed", 3, "pitc: sink prec: SinkFailed\npit-tools compile: slow.prec: it cannot be "
     "written: is the disk full, or the folder not yours?\n")])
def test_compile_shows_bytes_and_passes_on_line_and_status(folder, fault, status, line):
    wanted = (status, "" if fault else line, line if fault else "")
    assert apart(COMPILE, folder, FAULT=fault) == wanted
    os.remove(folder / "slow.prec")
    for is_printed_there in (False, True):
        ended, message, shown = on_terminal(COMPILE, folder, is_printed_there, FAULT=fault)
        assert ended == status and "compile reads |" in shown
        assert re.search(r"compile writes slow.prec [1-9][0-9.]*k?B", shown)
        assert what_stays(shown) == (line if fault or is_printed_there else "")
        assert message == ("" if fault or is_printed_there else line)


def test_compile_reports_a_file_that_the_system_does_not_store(folder, monkeypatch, capfd):
    """pitc ends with 0 there, since it does not notice; no record says that the files are
    complete."""
    def rejected(descriptor):
        if os.readlink(f"/proc/self/fd/{descriptor}").endswith("slow.prec"):
            raise OSError(errno.EDQUOT, "Disk quota exceeded")

    monkeypatch.chdir(folder)
    assert main(COMPILE) == 0 and (folder / "slow.sums").exists()
    os.remove(folder / "slow.sums")
    monkeypatch.setattr(os, "fsync", rejected)
    capfd.readouterr()
    assert main(COMPILE) == 2
    assert capfd.readouterr().err == "pit-tools compile: slow.prec: Disk quota exceeded\n"
    assert (folder / "slow.prec").exists() and not (folder / "slow.sums").exists()


@pytest.mark.parametrize("number", [signal.SIGINT, signal.SIGTERM])
@pytest.mark.parametrize("is_seen", [False, True])
def test_a_signal_ends_pitc_too(folder, number, is_seen):
    (folder / "pitc").write_text("#!/bin/sh\necho $$ > started\nexec sleep 60\n")
    ours, theirs = terminal()
    errors = theirs if is_seen else subprocess.PIPE
    child = subprocess.Popen([*WORDS, *COMPILE], cwd=folder, stderr=errors, env=ENVIRONMENT)
    try:
        for _ in range(200):
            if (folder / "started").exists() and (folder / "started").read_text():
                break
            time.sleep(0.05)
        time.sleep(0.3)
        other = int((folder / "started").read_text())
        child.send_signal(number)
        assert child.wait(20) == 128 + number
        with pytest.raises(ProcessLookupError):
            os.kill(other, 0)
    finally:
        child.kill()
        os.close(ours)
        os.close(theirs)


def test_compile_prints_what_pitc_prints(tmp_path, pitc):
    """A plan, an invalid plan, no zone file, and no plan at all."""
    mines.six_blocks(tmp_path)
    (tmp_path / "bad.plan").write_text("nothing\n")
    for words in (["--plan", "mine.plan", "--out", "a", "mine-0.csv"],
                  ["--plan", "bad.plan", "--out", "a", "mine-0.csv"],
                  ["--plan", "gone.plan", "--out", "a", "mine-0.csv"],
                  ["--plan", "mine.plan", "--out", "a"],
                  ["--plan", "mine.plan", "--out", "a", "--valuers", "0", "mine-0.csv"],
                  ["--out", "a", "mine-0.csv"]):
        done = subprocess.run([pitc, "compile", *words], cwd=tmp_path, capture_output=True,
                              text=True, check=False)
        status, message, error = apart(["compile", "--pitc", pitc, *words], tmp_path)
        assert (status, message) == (done.returncode, done.stdout), words
        assert error.startswith(done.stderr), words
        reasons = error[len(done.stderr):].splitlines()
        assert all(reason.startswith("pit-tools compile: ") for reason in reasons), words
    done = apart(["compile", "--pitc", "no-such-program", "--plan", "mine.plan"], tmp_path)
    assert done[0] == 2 and "no program `no-such-program`" in done[2]
