"""Files that belong together are tied by a record: if they are of two runs, or changed, their
readers reject them."""
import errno
import fcntl
import json
import os
import signal
import subprocess
import sys

import pytest

import mines
from pit_tools.cli import main
from pit_tools.files import records
from pit_tools.files.records import File, Record, read_record

EXPORT = "X,Y,Z,T,AU,DOMAIN\n" + "".join(
    f"{x},{y},{z},1000,{(x + z) % 7}.5,{'west' if x < 30 else 'east'}\n"
    for x in range(0, 60, 10) for y in range(0, 60, 10) for z in (0, 10))

IMPORT = ["import", "export.csv", "--x", "X", "--y", "Y", "--z", "Z", "--tonnes", "T", "--grade",
          "AU", "--zone", "DOMAIN", "--out", "from"]

PLAN = ["plan", "from.json", "--out", "mine.plan", "--price", "58 USD/g", "--mill",
        "recovery 92 %, cost 16.50 USD/t", "--dump", "cost 4 USD/t", "--slope", "45"]

ZONES = ["from-west.csv", "from-east.csv"]

SURVEY = ["survey", "mine.plan", "mine", *ZONES]

#: A pitc that copies an instance which was made before.
COPYING = """#!/bin/sh
[ "$1" = --version ] && exec echo pitc 9.9.9
for text in blocks prec upit pcpsp cpit; do cp made.$text "$5.$text"; done
"""


@pytest.fixture()
def here(tmp_path, monkeypatch, capsys):
    """An export, what `import` and `plan` made of it, and an instance that `compile` made."""
    monkeypatch.chdir(tmp_path)
    (tmp_path / "export.csv").write_text(EXPORT)
    assert main(IMPORT) == 0 and main(PLAN) == 0
    zones = [(tmp_path / name).read_text() for name in ZONES]
    mines.quickly_compiled(tmp_path, (tmp_path / "mine.plan").read_text(), zones, "made")
    (tmp_path / "pitc").write_text(COPYING)
    os.chmod("pitc", 0o755)
    assert main(COMPILE) == 0
    capsys.readouterr()
    return tmp_path


COMPILE = ["compile", "--plan", "mine.plan", "--out", "mine", *ZONES, "--pitc", "./pitc"]


def error_of(words, capsys):
    """Returns the one line with which a command fails."""
    assert main(words) == 2
    message = capsys.readouterr().err
    assert message.count("\n") == 1
    return message


def change(path, old, new):
    text = path.read_text()
    assert old in text
    path.write_text(text.replace(old, new, 1))


def names_of(files):
    return [file.name for file in files]


def test_records_name_what_went_in_and_what_came_out(here):
    made = read_record("from.json.sums")
    assert names_of(made.outputs) == [*ZONES, "from.json"] and names_of(made.inputs) == [
        "export.csv"]
    made = read_record("mine.plan.sums")
    assert names_of(made.outputs) == ["mine.plan", "mine.plan.json"]
    assert names_of(made.inputs) == ["from.json", *ZONES]
    made = read_record("mine.sums")
    assert len(made.outputs) == 5 and names_of(made.inputs) == ["mine.plan", *ZONES]
    for name in ("from.json.sums", "mine.plan.sums", "mine.sums"):
        assert subprocess.run(["sha256sum", "-c", "--quiet", "--strict", name]).returncode == 0
        record = read_record(name)
        assert all(os.path.getsize(file.name) == file.size
                   for file in (*record.outputs, *record.inputs))


def test_one_run_is_read_by_each_command(here, capsys):
    assert main(SURVEY) == 0 and main(["pit", "mine", "--out", "mine.pit"]) == 0
    for words in (["report", "mine.plan", "mine", "mine.pit"],
                  ["nested", "mine.plan", "mine", "--factors", "0.5,1", "--out", "n"],
                  ["back", "mine.plan", "mine", "mine.pit", "--onto", "from.json"],
                  ["shell", "mine.plan", "mine", "mine.pit", "--out", "mine.obj"],
                  ["lp", "mine.upit", "mine.prec", "--out", "mine.lp"],
                  ["read", "mine", "--out", "copy"], ["report", "mine.plan", "copy", "n1.pit"],
                  IMPORT, PLAN, COMPILE, ["plan", "--walls", "mine.plan"]):
        assert main(words) == 0, words


@pytest.mark.parametrize("words", [PLAN, COMPILE, SURVEY], ids=lambda words: words[0])
def test_a_cell_that_was_changed_is_noticed(here, capsys, words):
    change(here / "from-west.csv", ",1000,", ",1001,")
    message = error_of(words, capsys)
    assert ("from-west.csv: it is not the file that from.json.sums names" in message
            and "run `pit-tools import` again" in message and "--edited" in message)
    assert main([*words, "--edited"]) == 0
    message = "- FILES: from-west.csv: it is not the file that from.json.sums names"
    assert (message in capsys.readouterr().out) == (words is SURVEY)


@pytest.mark.parametrize("name, words", [
    ("mine.prec", ["read", "mine"]), ("mine.cpit", ["solve", "mine.cpit", "mine.prec"]),
    ("mine.upit", ["pit", "mine"]),
    ("mine.upit", ["lp", "--dimacs", "mine.upit", "mine.prec", "--out", "f"]),
    ("mine.upit", ["lp", "mine.upit", "mine.prec"]), ("mine.prec", ["bounds", "mine"]),
    ("mine.pcpsp", ["report", "mine.plan", "mine", "some.pit"]),
    ("mine.pcpsp", ["nested", "mine.plan", "mine"]),
    ("mine.blocks", ["back", "mine.plan", "mine", "some.pit"]),
    ("mine.blocks", ["survey", "mine.plan", "mine", "--out", "f.png"]),
    ("mine.plan", ["shell", "mine.plan", "mine", "some.pit", "--out", "f.obj"]),
    ("mine.plan", ["vary", "mine.plan", "--set", "K=2"]), ("mine.plan", ["plan", "--walls", "mine.plan"]),
    ("mine.blocks", ["by-zone", "mine:0,1", "--out", "both"]),
    ("mine.blocks", ["minelib", "--publish", "mine", "--out", "f"])],
    ids=lambda words: " ".join(words[:1]) if isinstance(words, list) else words)
def test_each_command_that_reads_notices(here, capsys, name, words):
    (here / "some.pit").write_text("0\n")
    with open(name, "a") as file:
        file.write("\n")
    assert f"{name}: it is not the file that {name.split('.')[0]}" in error_of(words, capsys)


@pytest.mark.parametrize("name, old, new", [("mine.plan", "0.08", "0.09"),
                                            ("from-west.csv", ",1000,", ",1001,")])
def test_an_edited_file_passes_with_what_was_made_of_it(here, capsys, name, old, new):
    assert main(["other" if word == "mine" else word for word in COMPILE]) == 0
    other = ["other" if word == "mine" else word for word in SURVEY]
    change(here / name, old, new)
    assert main([*COMPILE, "--edited"]) == 0
    for words in (SURVEY, COMPILE, SURVEY):
        capsys.readouterr()
        assert main(words) == 0
    assert f"- FILES: {name}: it is not the file that" in capsys.readouterr().out
    assert "from which other.blocks (with all of other.sums) was made" in error_of(other, capsys)
    change(here / name, new, old)
    assert "from which mine.blocks (with all of mine.sums) was made" in error_of(SURVEY, capsys)
    assert main(other) == 0
    change(here / name, old, new + "1")
    assert f"{name}: it is not the file that" in error_of(SURVEY, capsys)


@pytest.mark.parametrize("name, old, new", [("mine.plan", "0.08", "0.09"),
                                            ("from-west.csv", ",1000,", ",1001,")])
def test_an_edited_file_passes_with_an_instance_in_another_folder(here, capsys, name, old, new):
    os.mkdir("other")
    change(here / name, old, new)
    other = [["other/mine" if word == "mine" else word for word in words] for words in (
        COMPILE, SURVEY, ["report", "mine.plan", "mine", "some.pit"])]
    (here / "some.pit").write_text("0\n")
    assert f"{name}: it is not the file that" in error_of(other[0], capsys)
    assert main([*other[0], "--edited"]) == 0
    for words in other[1:]:
        assert main(words) == 0
    assert main(other[1]) == 0
    assert f"- FILES: {name}: it is not the file that" in capsys.readouterr().out
    assert f"{name}: it is not the file" in error_of(SURVEY, capsys)
    change(here / name, new, new + "1")
    assert f"{name}: it is not the file" in error_of(other[1], capsys)


def test_complete_runs_that_do_not_belong_together_are_rejected(here, capsys):
    change(here / "export.csv", ",0.5,", ",0.75,")
    assert main(["back", "mine.plan", "mine", "mine.cpit", "--onto", "from.json"]) == 2
    assert main(IMPORT) == 0
    capsys.readouterr()
    assert "which mine.plan (with all of mine.plan.sums) was made" in error_of(SURVEY, capsys)
    assert main(PLAN) == 0
    capsys.readouterr()
    assert "which mine.blocks (with all of mine.sums) was made" in error_of(SURVEY, capsys)
    assert main(COMPILE) == 0 and main(SURVEY) == 0


def test_files_without_a_record_pass(here, capsys):
    for name in ("from.json.sums", "mine.plan.sums", "mine.sums"):
        os.remove(name)
    change(here / "from-west.csv", ",1000,", ",1001,")
    (here / "mine.sums").write_text("0" * 64 + "  mine.blocks\n")
    for words in (PLAN[:2] + PLAN[4:], SURVEY, ["read", "mine"]):
        assert main(words) == 0
        out, error = capsys.readouterr()
        assert not error and "sums" not in out


@pytest.mark.parametrize("text", ["# {\"tool\": \"pit-tools 0.2.0\"}\n", None, "cut"])
def test_a_damaged_record_is_reported_and_replaced(here, capsys, text):
    whole = (here / "from.json.sums").read_text()
    (here / "from.json.sums").write_text(
        whole[:-20] if text is None else whole.replace("  from-west", " from-west")
        if text == "cut" else text)
    assert "from.json.sums: this record of sums is damaged" in error_of(PLAN, capsys)
    os.remove("from.json.sums")
    assert main(IMPORT) == 0 and (here / "from.json.sums").read_text() == whole


def test_a_record_that_cannot_be_read_is_named(here, capsys):
    os.symlink("circle.sums", "circle.sums")
    assert "circle.sums: this record of sums cannot be read" in error_of(["pit", "mine"], capsys)
    os.remove("circle.sums")
    assert main(["pit", "mine"]) == 0


def test_names_are_written_as_sha256sum_does(tmp_path, monkeypatch):
    monkeypatch.chdir(tmp_path)
    names = ["a b", "a\\b", "a\nb", "\\n", "a\\\nb"]
    for name in names:
        (tmp_path / name).write_text(name)
    record = Record("all.sums", "import", tuple(File.of(name, ".") for name in names))
    (tmp_path / "all.sums").write_text(record.text)
    assert read_record("all.sums") == record
    assert subprocess.run(["sha256sum", "-c", "--quiet", "--strict", "all.sums"]).returncode == 0


def test_a_file_that_is_replaced_alone_leaves_its_record(here):
    assert main(["pit", "mine", "--plan", "mine.plan", "--K", "1,2,3", "--out", "k"]) == 0
    assert len(read_record("k.pits.sums").outputs) == 3
    for number, left in ((1, ["k2.pit", "k3.pit"]), (2, ["k3.pit"]), (3, None)):
        assert main(["pit", "mine", "--out", f"k{number}.pit"]) == 0
        record = read_record("k.pits.sums")
        assert (record and names_of(record.outputs)) == left
        assert main(["report", "mine.plan", "mine", f"k{number}.pit"]) == 0
    assert not os.path.exists("k.pits.sums")


# Stale files


def test_a_file_of_an_earlier_instance_is_removed_or_rejected(here, capsys):
    assert main(["read", "mine", "--out", "copy"]) == 0
    os.remove("mine.cpit"), os.remove("mine.sums")
    capsys.readouterr()
    assert main(["read", "mine", "--out", "copy"]) == 0 and not os.path.exists("copy.cpit")
    assert "\nremoved: copy.cpit\n" in capsys.readouterr().out
    (here / "copy.cpit").write_bytes((here / "made.cpit").read_bytes())
    before = os.stat("copy.blocks").st_ino
    assert "copy.cpit: it has a name of this output" in error_of(["read", "mine", "--out",
                                                                    "copy"], capsys)
    assert os.stat("copy.blocks").st_ino == before and os.path.exists("copy.cpit")
    assert main(["read", "mine", "--out", "copy", "--force"]) == 0
    assert not os.path.exists("copy.cpit") and main(["read", "copy"]) == 0


def test_a_zone_that_is_no_more_loses_its_file_unless_it_was_edited(here, capsys):
    words = [*IMPORT, "--where", 'DOMAIN == "east"']
    change(here / "from-west.csv", ",1000,", ",1001,")
    assert "from-west.csv: it has a name of this output" in error_of(words, capsys)
    assert "removed: " not in capsys.readouterr().out
    change(here / "from-west.csv", ",1001,", ",1000,")
    assert main(words) == 0 and not os.path.exists("from-west.csv")
    assert "\nremoved: from-west.csv\n" in capsys.readouterr().out
    assert names_of(read_record("from.json.sums").outputs) == ["from-east.csv", "from.json"]
    assert main(IMPORT) == 0
    change(here / "from-west.csv", ",1000,", ",1001,")
    capsys.readouterr()
    assert main([*words, "--force"]) == 0 and not os.path.exists("from-west.csv")
    assert "removed: from-west.csv\n" in capsys.readouterr().out


def test_files_of_another_command_stay_where_its_record_has_the_name(here):
    assert main(["mine2" if word == "mine.plan" else word for word in PLAN]) == 0
    plan, note = (here / "mine2").read_text(), (here / "mine2.json").read_text()
    assert main(["read", "mine", "--out", "mine2"]) == 0
    assert (here / "mine2").read_text() == plan and (here / "mine2.json").read_text() == note
    assert (here / "mine2.blocks").exists()


def test_a_record_names_its_inputs_if_a_link_leads_to_its_folder(here):
    (here / "far" / "away").mkdir(parents=True)
    (here / "link").symlink_to(here / "far" / "away")
    assert main(["link/mine" if word == "mine" else word for word in COMPILE]) == 0
    made = read_record(str(here / "far" / "away" / "mine.sums"))
    assert [made.at(file) for file in made.inputs] == [
        os.path.realpath(name) for name in ("mine.plan", *ZONES)]


def test_compile_rejects_sums_of_the_user_before_it_replaces_files(here, capsys):
    (here / "mine.sums").write_text(f"{'0' * 64}  notes.txt\n")
    (here / "mine.blocks").write_text("old\n")
    assert "mine.sums" in error_of(COMPILE, capsys)
    assert (here / "mine.blocks").read_text() == "old\n"


def test_compile_names_the_base_if_its_folder_cannot_be_written(here, capsys):
    message = error_of(["nowhere/mine" if word == "mine" else word for word in COMPILE], capsys)
    assert message == ("pit-tools compile: nowhere/mine: the lock and the record of sums cannot be "
                       "written in its folder (No such file or directory): make it writable, or name "
                       "another place; `pitc compile` itself needs neither\n")


def test_compile_replaces_no_file_if_it_can_write_files_but_not_their_folder(
        here, capsys, monkeypatch):
    before, real = {name: (here / name).read_bytes() for name in os.listdir(here)}, os.open

    def failing(path, flags, *words, **named):
        if flags & os.O_CREAT and not os.path.exists(path):
            raise PermissionError(errno.EACCES, "Permission denied", path)
        return real(path, flags, *words, **named)

    monkeypatch.setattr(os, "open", failing)
    (here / "made.blocks").write_text("new\n")
    message = error_of(COMPILE, capsys)
    assert "mine: the lock and the record of sums cannot be written in its folder (Permission denied)" in message
    assert {name: (here / name).read_bytes() for name in before} == {**before,
                                                                     "made.blocks": b"new\n"}


def test_a_failed_stat_is_an_error(here, monkeypatch, capsys):
    real = os.stat

    def failing(path, *words, **named):
        if os.fspath(path).endswith("mine.cpit"):
            raise PermissionError(errno.EACCES, "Permission denied", path)
        return real(path, *words, **named)

    monkeypatch.setattr(os, "stat", failing)
    assert "mine.cpit: Permission denied" in error_of(["read", "mine", "--out", "copy"], capsys)
    assert not os.path.exists("copy.blocks")


# Two runs, and runs that are cut short


def killed(words, name, nth):
    """Runs a command that is killed before the Nth call of a function of os."""
    child = os.fork()
    if not child:
        real, calls = getattr(os, name), []

        def call(*given, **named):
            calls.append(given)
            if len(calls) == nth:
                os.kill(os.getpid(), signal.SIGKILL)
                # Another thread may take the signal a while later.
                signal.pause()
            return real(*given, **named)

        setattr(os, name, call)
        os._exit(main(words))
    return os.waitstatus_to_exitcode(os.waitpid(child, 0)[1])


@pytest.mark.parametrize("is_recorded", [True, False])
def test_a_kill_between_two_renames_is_rejected_by_the_next_command(here, capsys, is_recorded):
    assert main(PLAN) == 0
    change(here / "export.csv", ",0.5,", ",0.75,")
    text = (here / "export.csv").read_text().replace(",1.5,", ",1.25,")
    (here / "export.csv").write_text(text)
    if not is_recorded:
        for name in ("from.json.sums", "mine.plan.sums", "mine.sums"):
            os.remove(name)
    rejected = 0
    before = {name: (here / name).read_bytes() for name in os.listdir(here)}
    for nth in range(1, 6):
        for name in set(os.listdir(here)) - set(before):
            os.remove(name)
        for name, content in before.items():
            (here / name).write_bytes(content)
        status = killed(IMPORT, "replace", nth)
        capsys.readouterr()
        new = [name for name in [*ZONES, "from.json"]
               if (here / name).read_bytes() != before[name]]
        if status == 0:
            break
        assert status == -signal.SIGKILL
        if new:
            rejected += 1
            message = error_of(PLAN, capsys)
            assert any(name in message for name in new) and "run `pit-tools import` again" in message
        else:
            assert main(PLAN) == 0
        assert main(IMPORT) == 0 and main(PLAN) == 0
    assert rejected >= 2 and nth == 5


SCRIPT = """
import os, sys, time
from pit_tools.cli import main
real = os.replace
def slow(*words, **named):
    time.sleep(0.1)
    return real(*words, **named)
os.replace = slow
sys.exit(main(sys.argv[1:]))
"""


def test_two_commands_at_once_leave_the_files_of_one(here, capsys):
    env = {**os.environ, "PYTHONPATH": mines.TOP + "/python"}
    (here / "other.csv").write_text(EXPORT.replace(",1000,", ",2000,"))
    for _ in range(3):
        runs = [subprocess.Popen([sys.executable, "-c", SCRIPT, *words], env=env,
                                 stdout=subprocess.DEVNULL)
                for words in (IMPORT, ["import", "other.csv", *IMPORT[2:]])]
        assert [run.wait() for run in runs] == [0, 0]
        assert main(PLAN) == 0, capsys.readouterr().err
        (tonnes,) = {line.split(",")[3] for name in ZONES
                     for line in (here / name).read_text().splitlines()[1:]}
        export = json.loads((here / "from.json").read_text())["exports"]
        assert export == [{"1000": "export.csv", "2000": "other.csv"}[tonnes]]


def test_two_compiles_of_one_base_are_not_at_once(here, capsys):
    with open(".mine.lock", "w") as file:
        fcntl.flock(file, fcntl.LOCK_EX)
        assert "mine: another command writes this instance" in error_of(COMPILE, capsys)
    assert main(COMPILE) == 0 and not os.path.exists(".mine.lock")


@pytest.mark.parametrize("number", [errno.ENOLCK, errno.EOPNOTSUPP, errno.ENOSYS])
def test_a_file_system_without_locks_is_written_all_the_same(here, monkeypatch, number):
    def failing(*_words):
        raise OSError(number, os.strerror(number))

    os.remove("mine.blocks")
    monkeypatch.setattr(fcntl, "flock", failing)
    assert main(COMPILE) == 0
    assert os.path.exists("mine.blocks") and not os.path.exists(".mine.lock")


def test_a_lock_that_never_goes_is_reported(here, monkeypatch, capsys):
    monkeypatch.setattr("pit_tools.files.renames.SECONDS_OF_A_PUT", 0.1)
    descriptor = os.open(".", os.O_RDONLY)
    fcntl.flock(descriptor, fcntl.LOCK_EX)
    before = sorted(os.listdir("."))
    assert "another command has been putting files there" in error_of(PLAN, capsys)
    os.close(descriptor)
    assert sorted(os.listdir(".")) == before and main(PLAN) == 0


def test_an_input_that_changes_meanwhile_is_reported(here, monkeypatch, capsys):
    real = records.Reading.inputs

    def later(*words):
        change(here / "export.csv", ",0.5,", ",0.125,")
        return real(*words)

    monkeypatch.setattr(records.Reading, "inputs", later)
    assert "export.csv: it was changed while this command ran" in error_of(IMPORT, capsys)


# Disks that fail


def failing_from(monkeypatch, name, nth, number=errno.EIO, last=10 ** 6):
    """The calls of a function of os fail from the Nth on."""
    real, calls = getattr(os, name), []

    def call(*words, **named):
        calls.append(words)
        if nth <= len(calls) <= last:
            raise OSError(number, os.strerror(number))
        return real(*words, **named)

    monkeypatch.setattr(os, name, call)


@pytest.mark.parametrize("nth", range(1, 9))
def test_without_links_the_old_files_come_back(here, monkeypatch, capsys, nth):
    before = {name: (here / name).read_bytes() for name in os.listdir(here)}
    change(here / "export.csv", ",0.5,", ",0.75,")
    before["export.csv"] = (here / "export.csv").read_bytes()
    failing_from(monkeypatch, "link", 1, errno.EPERM)
    failing_from(monkeypatch, "replace", nth, last=nth)
    message = error_of(IMPORT, capsys)
    assert "Input/output error" in message
    assert {name: (here / name).read_bytes() for name in os.listdir(here)} == before
    assert main(IMPORT) == 0 and main(PLAN) == 0


@pytest.mark.parametrize("nth", [2, 3, 4])
@pytest.mark.parametrize("has_links", [True, False])
def test_a_disk_that_fails_from_a_call_on_has_its_mixture_reported(here, monkeypatch, capsys, nth,
                                                               has_links):
    before = {name: (here / name).read_bytes() for name in os.listdir(here)}
    for old, new in ((",0.5,", ",0.75,"), (",1.5,", ",1.25,")):
        text = (here / "export.csv").read_text()
        (here / "export.csv").write_text(text.replace(old, new))
    with monkeypatch.context() as patched:
        if not has_links:
            failing_from(patched, "link", 1, errno.EOPNOTSUPP)
        failing_from(patched, "replace", nth)
        message = error_of(IMPORT, capsys)
    assert "the former files cannot be restored" in message
    for name in [*ZONES, "from.json", "from.json.sums"]:
        content = (here / name).read_bytes() if os.path.exists(name) else None
        kept = [left for left in os.listdir(here) if left.startswith(f"{name}.before-")]
        if content == before[name]:
            assert f"{name} is" not in message and not kept
        else:
            assert f"{name} is {'gone' if content is None else 'new'}, and was {kept[0]}" in message
            assert (here / kept[0]).read_bytes() == before[name]
    assert main(IMPORT) == 0 and main(PLAN) == 0
