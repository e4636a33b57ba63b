"""How the command ends: no traceback, each error with its name, and no code of the current
folder."""
import errno
import os
import re
import signal
import subprocess
import sys

import pytest

from pit_tools import cli
from pit_tools.commands import former
from pit_tools.cli import main

HERE = os.path.dirname(os.path.dirname(os.path.abspath(__file__)))
PIT_TOOLS = os.path.join(HERE, "pit-tools")


def ran(*words, **how):
    return subprocess.run([PIT_TOOLS, *words], text=True, check=False,
                          **{"capture_output": True, **how})


@pytest.fixture()
def failing(monkeypatch):
    """Returns a function that makes `bounds` fail so."""
    def make(error):
        def fail(_):
            raise error
        monkeypatch.setattr("pit_tools.commands.solving.bounds.run", fail)
    return make


@pytest.mark.parametrize("error, status, message", [
    (KeyError("depth"), 3, "internal error of pit-tools: KeyError: 'depth' "
     "(test_cli.py, line "), (MemoryError("Unable to allocate 3.64 TiB"), 2,
                              "out of memory: Unable to allocate 3.64 TiB\n"),
    (MemoryError(), 2, "out of memory\n"),
    (OSError(errno.EIO, "Input/output error", "a.csv"), 2, "a.csv: Input/output error\n"),
    (OSError(errno.ENOSPC, "No space left on device"), 2,
     "standard output: No space left on device\n"),
    (ImportError("no openpyxl"), 2, "a Python package is missing or damaged: no openpyxl\n"),
    (KeyboardInterrupt(), 130, ""), (BrokenPipeError(), 1, "")], ids=lambda one: type(one).__name__)
def test_a_error_is_reported_in_a_line(failing, capsys, error, status, message):
    failing(error)
    assert main(["bounds", "mine"]) == status
    err = capsys.readouterr().err
    assert (err.startswith(f"pit-tools bounds: {message}" if message else "")
            and err.count("\n") == bool(message))
    assert ("please report it" in err) == (status == 3)


def test_debug_shows_where_a_error_arose(failing, capsys):
    failing(KeyError("depth"))
    assert main(["bounds", "mine", "--debug"]) == 3
    assert "Traceback" in capsys.readouterr().err


@pytest.mark.parametrize("words", [["--help"], ["import", "--help"], ["--version"]], ids=" ".join)
def test_a_pipe_that_is_closed_is_quiet(words):
    reads, writes = os.pipe()
    os.close(reads)
    done = ran(*words, stdout=writes, capture_output=False, stderr=subprocess.PIPE)
    os.close(writes)
    assert (done.returncode, done.stderr) == (1, "")


@pytest.mark.parametrize("closes, message",
                         [(">&-", "pit-tools: standard output is closed\n"),
                          ("> /dev/full", "pit-tools: standard output: No space left on device\n"),
                          ("2>&-", ""), ("<&-", "")])
def test_closed_and_full_streams(closes, message):
    done = subprocess.run(["sh", "-c", f'"{PIT_TOOLS}" --help {closes}'], capture_output=True,
                          text=True, check=False)
    assert (done.returncode, done.stderr) == (2 if message else 0, message)


def test_what_is_printed_goes_into_no_file_if_output_is_closed(tmp_path):
    done = subprocess.run(["sh", "-c", f'"{PIT_TOOLS}" deposit --size 2,2,2 2>&- <&-'],
                          cwd=tmp_path, check=False)
    assert done.returncode == 0
    assert (tmp_path / "deposit.plan").read_text().startswith("name,deposit\n")


def test_a_name_that_is_no_utf_8_is_rejected(tmp_path):
    done = subprocess.run([PIT_TOOLS.encode(), b"import", b"a\xff.csv"], capture_output=True,
                          cwd=tmp_path, check=False, env={**os.environ, "LC_ALL": "C.UTF-8"})
    assert done.returncode == 2
    assert done.stderr == (b"pit-tools import: b'a\\xff.csv' is not UTF-8: rename the file, or give "
                           b"a link to it\n")


OWN = 'open("was-run", "w").write("x")\nraise SystemExit("a file of the current folder was run")\n'

NAMES = ("random", "csv", "contextlib", "types", "warnings", "pandas", "numpy", "decimal", "typing",
         "runpy", "site")


@pytest.mark.parametrize("way", ["script", "script, PYTHONPATH", "module", "command"])
def test_no_file_of_the_current_folder_is_run(tmp_path, way):
    for name in NAMES if way != "module" else set(NAMES) - {"runpy"}:
        (tmp_path / f"{name}.py").write_text(OWN)
    words, env = [PIT_TOOLS], dict(os.environ)
    if "PYTHONPATH" in way:
        env["PYTHONPATH"] = ":" + str(tmp_path)
    if way == "module":
        words, env["PYTHONPATH"] = [sys.executable, "-c", MODULE], HERE
    if way == "command":
        words, env["PYTHONPATH"] = [sys.executable, "-c", COMMAND], HERE
    done = subprocess.run([*words, "deposit", "--size", "3,3,3"], cwd=tmp_path, env=env,
                          capture_output=True, text=True, check=False)
    assert (done.returncode, done.stderr) == (0, "")
    assert (tmp_path / "deposit.plan").exists() and not (tmp_path / "was-run").exists()


#: As `python3 -m pit_tools` and the command that pip installs find the package, with the current
#: folder first.
MODULE = ("import os, runpy, sys; sys.path.insert(0, os.getcwd()); runpy.run_module('pit_tools', "
          "run_name='__main__', alter_sys=True)")
COMMAND = ("import sys; sys.path.insert(0, ''); from pit_tools.__main__ import main; "
           "sys.exit(main())")


def test_ctrl_c_is_quiet():
    code = f"import sys; sys.path.insert(0, {HERE!r}); import pit_tools.commands.solving.bounds as b; " \
           "b.run = lambda _: (print('begun', flush=True), __import__('time').sleep(60)); " \
           "from pit_tools.cli import main; sys.exit(main(['bounds', 'mine']))"
    run = subprocess.Popen([sys.executable, "-c", code], stdout=subprocess.PIPE,
                           stderr=subprocess.PIPE)
    assert run.stdout.readline() == b"begun\n"
    run.send_signal(signal.SIGINT)
    assert run.communicate() == (b"", b"") and run.returncode == 130


def test_each_status_and_command_is_in_the_help():
    lines = cli.full_parser().format_help()
    assert all(f"{status} " in lines for status in (0, 1, 2, 3, 130))
    assert re.findall(r"(?m)^    ([a-z-]+)", lines) == [*cli.COMMANDS, "help"]


@pytest.mark.parametrize("words, same", [
    (["help"], ["--help"]), (["help", "--help"], ["-h"]), (["-V"], ["--version"]),
    *(([["help", command], [command, "--help"]]) for command in ("import", "by-zone"))],
    ids=lambda words: " ".join(words))
def test_words_that_print_the_same(words, same):
    done, other = ran(*words), ran(*same)
    assert done.returncode == other.returncode == 0
    assert done.stdout == other.stdout != "" and not done.stderr


@pytest.mark.parametrize("words, today", [line.split(" > ") for line in (
    "slopes a.plan --brief > plan --walls a.plan --brief",
    "dimacs a.upit a.prec --out f > lp --dimacs --all-arcs a.upit a.prec --out f",
    "sample-export a.csv b.csv > deposit --export a.csv b.csv",
    "texts a > compile --sections - --out a",
    "section a.plan a --y -20 --pit p=last --out a.png > "
    "survey a.plan a --section y=-20 --pit p=last --out a.png",
    "by-zone both a:0 b:1,2 > by-zone a:0 b:1,2 --out both",
    "import a.csv --x X --base from > import a.csv --x X --out from",
    "survey a.plan a --html=a.html --pictures b > survey a.plan a --out a.html --out b/",
    "report a.plan a p --csv a.csv --workbook a.xlsx > report a.plan a p --out a.csv --out a.xlsx",
    "nested a.plan a --picture n.svg > nested a.plan a --out n.svg",
    "read a --immediate b > read a --fewer-arcs --out b",
    "read a --write b --arrays b.npz > read a --out b --out b.npz",
    "minelib --publish a --out b --immediate > minelib --publish a --out b --fewer-arcs",
    "library --build a > library --seek all --out a", "library --write a > library --out a",
    "deposit --folder a > deposit --out a", "vary a.plan --folder a > vary a.plan --out a")])
def test_a_former_name_shows_what_to_write(capsys, words, today):
    found = former.renewed(words.split())
    assert " ".join(found) == today and cli.parser_of(found[0]).parse_args(found[1:])
    assert capsys.readouterr().err == f"pit-tools: these names are of the previous version: write `pit-tools {today}`\n"
    assert former.renewed(found) == found and not capsys.readouterr().err


@pytest.mark.parametrize("words, message", [
    ("python a.py b", "a.py b`"), ("read a --arrays b", "write `--out FILE.npz`: `b` does not end"),
    ("survey a.plan a --html b", "does not end with .html"), ("report a b c --csv d", "with .csv"),
    ("read a --write b --immediate c", "run it by itself"), ("import a --base", "value is missing"),
    ("read a --write b.npz", "a base without .npz"), ("read a --immediate=b.NPZ", "a base without")])
def test_a_former_name_that_would_do_something_else_is_rejected(capsys, words, message):
    assert main(words.split()) == 2
    error = capsys.readouterr().err
    assert message in error and error.count("\n") == 1


def test_help_of_a_command_is_its_own(capsys):
    with pytest.raises(SystemExit):
        cli.run(["help", "import"])
    assert capsys.readouterr().out.startswith("usage: pit-tools import ")


@pytest.mark.parametrize("words, message", [
    (["imprt"], "; did you mean `import`? "), (["help", "imprt"], "; did you mean `import`? "),
    (["checkschedule"], "; did you mean `check-schedule`? "),
    (["sruvey"], "; did you mean `survey`? "), (["xyzzy"], ": "), (["--colour"], ": ")],
    ids=" ".join)
def test_a_mistyped_command_shows_the_nearest_one(capsys, words, message):
    assert main(words) == 2
    assert capsys.readouterr().err == (f"pit-tools: no command `{words[-1]}`{message}`pit-tools "
                                       "--help` lists all\n")


@pytest.mark.parametrize("status, words", [(0, []), (2, []), (0, ["--debug"]), (2, ["--debug"])])
def test_what_packages_warn_of_is_reported_once_and_never_before_an_error(monkeypatch, capfd, status,
                                                                      words):
    def run(_):
        import logging
        import warnings

        for number in range(3):
            warnings.warn(f"{words} overflow {number}\nencountered {status}", RuntimeWarning)
        logging.getLogger("matplotlib.font_manager").warning("findfont: %s", "none")
        if status:
            raise cli.UserError("no depth")
        return 0

    monkeypatch.setattr("pit_tools.commands.solving.bounds.run", run)
    assert main(["bounds", "mine", *words]) == status
    message = capfd.readouterr().err
    assert message.count("a Python package warns") == (0 if status else 4 if words else 1)
    assert "no depth" in message if status else "overflow 0 encountered" in message
    assert words or message.count("\n") == 1 and ("(4 in all" in message) == (status == 0)


@pytest.mark.skipif(os.geteuid() != 0, reason="only root can make files of another user")
@pytest.mark.parametrize("owner, mode, is_run", [
    (0, 0o755, True), (65534, 0o755, False), (0, 0o777, False), (0, 0o775, True)])
@pytest.mark.parametrize("of_file", [False, True])
def test_the_launcher_runs_no_code_of_another_owner(tmp_path, owner, mode, is_run, of_file):
    """The folder above belongs to the test; a `.pth` in it, or the folder of users' packages
    in HOME, belongs to another, or others may write there."""
    env = {**os.environ, "HOME": str(tmp_path), "PATH": "/usr/bin:/bin"}
    where = subprocess.run(["/usr/bin/python3", "-c", "import site; print(site.getusersitepackages())"],
                           env=env, text=True, capture_output=True).stdout.strip()
    os.makedirs(where)
    path = os.path.join(where, "a.pth")
    with open(path, "w") as file:
        file.write(f"import os; open({str(tmp_path / 'ran')!r}, 'w').close()\n")
    os.chown(path if of_file else where, owner, 0)
    os.chmod(path if of_file else where, mode)
    assert ran("--version", env=env).returncode == 0
    assert (tmp_path / "ran").exists() == is_run
