"""The module for all that is written: old or new files, all of them or none, and nothing that
is read."""
import errno
import hashlib
import os
import signal
import stat
import subprocess
import sys
from dataclasses import replace

import pytest

import mines
from pit_tools.cli import main
from pit_tools.errors import UserError
from pit_tools.files import inputs, outputs
from pit_tools.files.records import File, read_record

HERE = os.path.dirname(os.path.dirname(os.path.abspath(__file__)))

EXPORT = "X,Y,Z,T,AU,DOMAIN\n" + "".join(f"{x},0,{z},1000,{x % 3}.5,d{x % 2}\n"
                                         for x in range(0, 40, 10) for z in (0, 10))

WORDS = ["--x", "X", "--y", "Y", "--z", "Z", "--tonnes", "T", "--grade", "AU", "--size", "10,10,10"]


def files_of(folder):
    return {name: (folder / name).read_bytes() for name in sorted(os.listdir(folder))}


def write(path, text, kind="pit"):
    with outputs.opened(str(path), kind, "ascii") as file:
        file.write(text)


@pytest.fixture()
def here(tmp_path, monkeypatch):
    monkeypatch.chdir(tmp_path)
    return tmp_path


def linked(make, here):
    (here / "export.csv").write_text(EXPORT)
    make("export.csv", "mine-all.csv")


@pytest.mark.parametrize("make", [os.rename, os.link, os.symlink],
                         ids=["itself", "hard link", "link"])
def test_an_export_is_not_written_over(here, capsys, make):
    linked(make, here)
    read = "export.csv" if os.path.exists("export.csv") else "mine-all.csv"
    before = files_of(here)
    assert main(["import", read, *WORDS, "--out", "mine", "--force"]) == 2
    message = capsys.readouterr().err
    assert "mine-all.csv" in message and read in message and "reads" in message
    assert files_of(here) == before


def test_a_dash_is_no_file_if_nothing_is_printed(here, capsys):
    """Other commands, such as lp, print what is written to -."""
    base = mines.six_blocks(here)
    before = files_of(here)
    for words in (["pit", base], ["bounds", base], ["solve", base + ".cpit", base + ".prec"],
                  ["lp", base + ".upit", base + ".prec", "--dimacs"]):
        assert main([*words, "--out", "-"]) == 2 and files_of(here) == before
        assert "-: the output must be a file" in capsys.readouterr().err
    assert main(["lp", base + ".upit", base + ".prec", "--out", "-"]) == 0
    assert capsys.readouterr().out.startswith("\\ ")
    write("./-", "0\n")
    assert (here / "-").read_text() == "0\n"


def test_the_json_of_an_import_is_not_written_over_its_export(here, capsys):
    (here / "mine.json").write_text(EXPORT)
    assert main(["import", "mine.json", *WORDS, "--out", "mine"]) == 2
    assert "mine.json: this command reads it" in capsys.readouterr().err
    assert files_of(here) == {"mine.json": EXPORT.encode()}


def test_a_table_of_zones_is_not_written_over(here, capsys):
    (here / "export.csv").write_text(EXPORT)
    (here / "mine-d0.csv").write_text("DOMAIN,zone\nd0,d0\nd1,d1\n")
    before = files_of(here)
    assert main(["import", "export.csv", *WORDS, "--zones", "mine-d0.csv", "--out", "mine"]) == 2
    assert "mine-d0.csv: this command reads it" in capsys.readouterr().err
    assert files_of(here) == before


def test_a_file_of_another_kind_is_kept_unless_forced(here, capsys):
    (here / "export.csv").write_text(EXPORT)
    (here / "mine-all.csv").write_text("assays of 1998\n")
    assert main(["import", "export.csv", *WORDS, "--out", "mine"]) == 2
    assert ("mine-all.csv: the file there is of another kind than `zone "
            "file`" in capsys.readouterr().err)
    assert set(files_of(here)) == {"export.csv", "mine-all.csv"}
    assert main(["import", "export.csv", *WORDS, "--out", "mine", "--force"]) == 0
    assert main(["import", "export.csv", *WORDS, "--out", "mine"]) == 0
    assert files_of(here)["mine-all.csv"].startswith(b"x,y,z,tonnes,grade\n0,0,0,1000,0.5\n")


def test_a_name_of_one_kind_is_not_taken_by_another(here):
    (here / "deposit.prec").write_text("0 1 2\n1 0\n2 0\n")
    with inputs.of_command(), pytest.raises(UserError, match="deposit.prec: the file there is of "
                                             "another kind"):
        write("deposit.prec", "0 1\n", "schedule")


def test_several_files_come_together_or_none(here):
    write("one", "1\n")
    before = files_of(here)
    with pytest.raises(ZeroDivisionError), outputs.together():
        write("one", "2\n")
        write("two", "2\n")
        assert files_of(here)["one"] == b"1\n"
        raise ZeroDivisionError
    assert files_of(here) == before
    with outputs.together():
        write("one", "2\n")
        write("two", "2\n")
    assert files_of(here) == {"one": b"2\n", "two": b"2\n"}


@pytest.mark.parametrize("fails_at", [0, 1, 2])
def test_the_old_files_come_back_if_a_rename_fails(here, monkeypatch, fails_at):
    write("one", "1\n")
    write("three", "1\n")
    before, calls, replace = files_of(here), [], os.replace

    def failing(source, target):
        calls.append(target)
        if len(calls) == fails_at + 1:
            raise OSError(5, "Input/output error")
        replace(source, target)

    monkeypatch.setattr(os, "replace", failing)
    with pytest.raises(OSError) as fault, outputs.together():
        for name in ("one", "two", "three"):
            write(name, "2\n")
    assert fault.value.filename == ("one", "two", "three")[fails_at]
    assert files_of(here) == before


def test_two_files_of_one_name_are_rejected(here):
    with pytest.raises(UserError, match="two files would have this name"), outputs.together():
        write("one", "1\n")
        write("./one", "2\n")
    assert files_of(here) == {}


def test_modes_are_those_of_a_plain_open_and_old_ones_stay(here):
    before = os.umask(0o027)
    try:
        write("new", "1\n")
    finally:
        os.umask(before)
    (here / "old").write_text("")
    os.chmod("old", 0o604)
    write("old", "1\n")
    assert [stat.S_IMODE(os.stat(name).st_mode) for name in ("new", "old")] == [0o640, 0o604]


def test_a_link_stays_a_link(here):
    os.mkdir("far")
    write("far/old", "1\n")
    os.symlink("far/old", "link")
    os.symlink("far/new", "dangling")
    write("link", "2\n")
    write("dangling", "3\n")
    assert os.readlink("link") == "far/old" and files_of(here / "far") == {"new": b"3\n",
                                                                           "old": b"2\n"}


def test_a_hard_link_keeps_the_old_file(here):
    write("one", "1\n")
    os.link("one", "two")
    write("one", "2\n")
    assert files_of(here) == {"one": b"2\n", "two": b"1\n"}


def test_devices_and_pipes_are_written_through(here):
    os.mkfifo("pipe")
    reader = subprocess.Popen(["cat", "pipe"], stdout=subprocess.PIPE)
    write("pipe", "1\n")
    write("/dev/null", "1\n")
    assert reader.communicate()[0] == b"1\n" and stat.S_ISFIFO(os.stat("pipe").st_mode)
    assert stat.S_ISCHR(os.stat("/dev/null").st_mode)


SCRIPT = """
import os, sys, time
from pit_tools.files import outputs
with outputs.together():
    for name in ("one", "two"):
        with outputs.opened(name, "pit", "ascii") as file:
            file.write("2\\n" * 100_000)
    print("written", flush=True)
    time.sleep(60)
"""


def ended(number):
    """The status of a run that is ended by a signal while files are unfinished."""
    run = subprocess.Popen([sys.executable, "-c", SCRIPT], stdout=subprocess.PIPE,
                           stderr=subprocess.DEVNULL, env={**os.environ, "PYTHONPATH": HERE})
    assert run.stdout.readline() == b"written\n"
    run.send_signal(number)
    return run.wait()


@pytest.mark.parametrize("number", [signal.SIGINT, signal.SIGTERM, signal.SIGHUP])
def test_a_signal_leaves_the_old_files_alone(here, number):
    write("one", "1\n")
    assert ended(number) == (-number if number == signal.SIGINT else 128 + number)
    assert files_of(here) == {"one": b"1\n"}


def test_a_kill_leaves_the_old_files_and_names_that_show_what_they_are(here):
    write("one", "1\n")
    assert ended(signal.SIGKILL) == -signal.SIGKILL
    found = files_of(here)
    assert (found.pop("one") == b"1\n" and len(found) == 2
            and all(".unfinished-" in name for name in found))
    write("one", "3\n")
    assert files_of(here)["one"] == b"3\n"


def test_a_full_disk_is_reported_with_the_file(here, capsys):
    assert main(["deposit", "--size", "2,2,2", "--list", "/dev/full"]) == 2
    assert capsys.readouterr().err == "pit-tools deposit: /dev/full: No space left on device\n"
    assert files_of(here) == {}


def test_a_folder_that_was_made_goes_again(here):
    with pytest.raises(ZeroDivisionError), outputs.together():
        outputs.folder("a/b")
        write("a/b/one", "1\n")
        raise ZeroDivisionError
    assert files_of(here) == {}


def test_every_command_that_writes_states_what_it_replaces(capsys):
    for command in ("import", "plan", "compile", "back", "report", "nested", "shell", "survey",
                    "read", "pit", "lp", "solve", "check-schedule", "minelib", "deposit", "vary",
                    "by-zone", "library"):
        assert main([command, "--help"]) == 0
        message = capsys.readouterr().out
        assert "It replaces" in message and "--force" in message, command


CALLS = ("open", "fchmod", "fsync", "link", "replace")

DEPOSIT = ["deposit", "--name", "a", "--size", "3,3,3", "--list", "LIST"]


def counted(monkeypatch, name, nth, instead):
    """Makes the Nth call of a function of os do something else; returns how often it is
    called."""
    real, calls = getattr(os, name), []

    def call(*words, **named):
        calls.append(name)
        if len(calls) == nth:
            instead()
        return real(*words, **named)

    monkeypatch.setattr(os, name, call)
    return calls


@pytest.fixture()
def versions(here):
    """The new files of `deposit`, and older ones of their kinds."""
    assert main(DEPOSIT) == 0
    new = files_of(here)
    old = {name: content + content[-20:] for name, content in new.items()}
    record = read_record("LIST.sums")
    old["LIST.sums"] = replace(record, outputs=tuple(
        File(file.name, len(old[file.name]), hashlib.sha256(old[file.name]).hexdigest())
        for file in record.outputs)).text.encode()
    return old, new


def fail():
    raise OSError(errno.EIO, "Input/output error")


@pytest.mark.parametrize("name", CALLS)
def test_each_failed_call_leaves_all_old_or_all_new(here, versions, name, capsys):
    old, new = versions
    for nth in range(1, 100):
        for file, content in old.items():
            (here / file).write_bytes(content)
        with pytest.MonkeyPatch.context() as patched:
            calls = counted(patched, name, nth, fail)
            status = main(DEPOSIT)
        if len(calls) < nth:
            assert nth > 5
            return
        message = capsys.readouterr().err
        assert (status, files_of(here)) in ((2, old), (0, new)), f"{name} {nth}: {message}"
        assert message.count("\n") == (status == 2) and (status == 0
                                                         or any(file in message for file in old))


@pytest.mark.parametrize("name", CALLS)
def test_a_kill_before_each_call_leaves_each_file_old_or_new(here, versions, name):
    old, new = versions
    for nth in range(1, 100):
        for file, content in old.items():
            (here / file).write_bytes(content)
        child = os.fork()
        if not child:
            with pytest.MonkeyPatch.context() as patched:
                counted(patched, name, nth, lambda: os.kill(os.getpid(), signal.SIGKILL))
                os._exit(main(DEPOSIT))
        is_done = os.waitstatus_to_exitcode(os.waitpid(child, 0)[1]) == 0
        found = files_of(here)
        left = {file: found.pop(file) for file in set(found) - set(old)}
        assert all(content in (old[file], new[file])
                   for file, content in found.items()) and set(found) == set(old)
        assert all(".unfinished-" in file or ".before-" in file for file in left)
        for file in left:
            os.remove(here / file)
        if is_done:
            assert nth > 5 and found == new and not left
            return
