"""Batches, with a program in place of pitc: tools/plain.py."""
import csv
import fcntl
import os
import random
import resource
import shutil
import signal
import subprocess
import sys
import time

import pytest

import mines
import pit_tools
from pit_tools.batches import build as batch_build, engines
from pit_tools.batches.build import Way, sum_of_modules
from pit_tools.batches.engines import by_processes, in_turn
from pit_tools.batches.listing import Part, read_list
from pit_tools.batches.runs import LOCK, Batch
from pit_tools.cli import main
from pit_tools.errors import UserError
from pit_tools.files.records import read_record
from pit_tools.instances.files import read_instance
from pit_tools.schedules import programs
from pit_tools.schedules.programs import program_of

PITC = """#!{python}
import os, sys
sys.path.insert(0, "{top}/tools")
words = sys.argv[1:]
is_thin = os.path.basename(sys.argv[0]) == "pitc_thin"
if words == ["--version"]:
    print("pitc 9.9.9")
elif words[0] == "compile" or is_thin:
    import plain, shared
    plan, base = words[1 - is_thin:5 - is_thin][1::2]
    zones = [word for word in words if word.endswith(".csv")]
    text = shared.read(plan)
    if "refused" in text:
        sys.exit("pitc: plan row 1: Name")
    texts = plain.compiled(text, list(map(shared.read, zones)))
    if is_thin:
        shared.write(base, texts["prec"] if isinstance(texts, dict) else texts[1])
        print("rows 6 arcs 7 of 7")
    else:
        with open("calls", "a") as file:
            file.write(os.path.basename(base) + "\\n")
        if os.path.exists("changing"):
            with open(zones[0], "a") as file:
                file.write("30,0,10,2650,0\\n")
        shared.write_texts(base, texts)
        print("rows 6")
else:
    parts = {{}}
    for ending in ("blocks", "prec", "pcpsp", "cpit"):
        section = ending
        for line in open(f"{{words[1]}}.{{ending}}"):
            section = ending + line.split(":")[0] if line.endswith(":\\n") else section
            parts.setdefault(section, []).append(line)
    arcs = sum(int(line.split()[1]) for line in parts["prec"])
    uses, limits, cpit = (len(parts[f"{{name}}"]) - 1 for name in (
        "pcpspRESOURCE_CONSTRAINT_COEFFICIENTS", "pcpspRESOURCE_CONSTRAINT_LIMITS",
        "cpitRESOURCE_CONSTRAINT_COEFFICIENTS"))
    print(f"blocks {{len(parts['blocks'])}} arcs {{arcs}} coefficients {{uses}} limits {{limits}} "
          f"cpit {{cpit}}")
"""

ONE, TWO = "one.plan 'six blocks.csv'\n", "two.plan 'six blocks.csv'\n"

TEXTS = ("blocks", "prec", "upit", "pcpsp", "cpit")


def plan_named(name):
    return "\n".join(mines.SIX).replace("name,pit", f"name,{name}") + "\n"


def program(folder, name="pitc"):
    path = folder / name
    path.write_text(PITC.format(python=sys.executable, top=mines.TOP))
    path.chmod(0o755)


@pytest.fixture()
def here(tmp_path, monkeypatch):
    """A folder with a program pitc, the six blocks and two plans."""
    monkeypatch.chdir(tmp_path)
    program(tmp_path)
    (tmp_path / "six blocks.csv").write_text(mines.SIX_ROWS)
    for name in ("one", "two"):
        (tmp_path / f"{name}.plan").write_text(plan_named(name))
    return tmp_path


def way(**how):
    batch_build.build_text_once.cache_clear()
    return Way(os.getcwd(), os.path.abspath("pitc"), **how)


def run_batch(text=ONE + TWO, engine=in_turn, goes_on=False, part=Part(), **how):
    with open("LIST", "w") as file:
        file.write(text)
    batch = Batch("LIST", way(**how), part)
    return batch, batch.run(engine, goes_on)


def read(name="MANIFEST"):
    with open(name) as file:
        return file.read()


def calls():
    """Returns the instances that were compiled since the last call."""
    found = read("calls").split() if os.path.exists("calls") else []
    open("calls", "w").close()
    return found


def is_accepted():
    return subprocess.run(["sha256sum", "-c", "--quiet", "MANIFEST"]).returncode == 0


def remainder_of(folder="."):
    return [name for name in os.listdir(folder) if "making" in name or "unfinished" in name]


# What a batch makes


def test_a_list_without_a_last_line_end_loses_nothing(here):
    batch, whole = run_batch("one.plan 'six blocks.csv'\n\n# a comment\ntwo.plan 'six blocks.csv'",
                             seconds=20)
    assert whole and not batch.failed
    table = [line.split() for line in open("SIZES")]
    assert [row[0] for row in table[1:]] == ["one", "two"]
    message = dict(zip(table[0], table[2]))
    assert message | {"bytes": "", "rate": "", "cpit_bound": "", "pcpsp_bound": ""} == {
        "name": "two", "blocks": "6", "arcs": "7", "coefficients": "24", "limits": "4",
        "cpit": "10", "positive": "4", "bytes": "", "periods": "3", "destinations": "3",
        "resources": "2", "rate": "", "tonnes": "16050.000", "pit_blocks": "6",
        "pit_tonnes": "16050.000", "pit_value": "606965.00", "cpit_bound": "", "pcpsp_bound": "",
        "thin_arcs": "-"}
    assert message["cpit_bound"] == message["pcpsp_bound"] == "606965.00" and message["rate"] == "0.08"
    assert int(message["bytes"]) == sum(os.path.getsize(f"two.{text}") for text in TEXTS)
    assert is_accepted() and remainder_of() == []
    record = read_record("MANIFEST")
    assert [file.name for file in record.inputs] == ["LIST", "one.plan", "six blocks.csv",
                                                     "two.plan"]
    names = [file.name for file in (*record.outputs, *record.inputs)]
    assert sorted(names) == sorted(["BUILD", "SIZES", "LIST", "six blocks.csv",
                                    *(f"{name}.{text}" for name in ("one", "two")
                                      for text in ("plan", *TEXTS))])
    build = read("BUILD")
    assert (build.startswith("pitc 9.9.9\n") and "modules of pit-tools" in build
            and "closure.cpp" in build and "numpy" in build)
    assert "relaxations: 20 s each\n" in build


def test_options_go_to_each_run(here):
    with open("LIST", "w") as file:
        file.write(ONE)
    assert main(["batch", "LIST", "--pitc", "./pitc", "--options", "--valuers 1"]) == 0
    assert "options: --valuers 1\n" in read("BUILD")


def test_thin_files_can_be_next_to_complete_ones_and_the_pit_is_found_by_them(here):
    program(here, "pitc_thin")
    _, whole = run_batch(thin=os.path.abspath("pitc_thin"))
    assert whole and is_accepted() and "  one.thin\n" in read() and "  pitc_thin\n" in read("BUILD")
    thin = [line.split() for line in open("SIZES")]
    assert (thin[1][-1] == "7" and thin[1][15] == "606965.00"
            and read("one.thin") == read("one.prec"))
    (here / "pitc_thin").write_text((here / "pitc_thin").read_text().replace("of 7", "of 8"))
    batch, whole = run_batch(thin=os.path.abspath("pitc_thin"))
    assert not whole and "arcs 7 of 8" in batch.failed[0] and not os.path.exists("MANIFEST")


def test_a_name_with_a_space_or_a_backslash_is_one_name(here):
    for name in ("o ne", "o\\ne"):
        shutil.copy("one.plan", f"{name}.plan")
    _, whole = run_batch("'o ne.plan' 'six blocks.csv'\n'o\\ne.plan' 'six blocks.csv'\n")
    assert whole and is_accepted() and read().count("\n") == 17
    with open("SIZES", newline="") as file:
        assert [row[0] for row in csv.reader(file, delimiter=" ")] == ["name", "o ne", "o\\ne"]


def test_one_sum_of_modules_has_all_of_them(tmp_path):
    folder = os.path.dirname(pit_tools.__file__)
    shutil.copytree(folder, tmp_path / "copy", ignore=shutil.ignore_patterns("__pycache__"))
    assert sum_of_modules(str(tmp_path / "copy")) == sum_of_modules()
    for name in ("batches/runs.py", "commands/making/batch.py", "pits/closure.cpp"):
        text = (tmp_path / "copy" / name).read_text()
        (tmp_path / "copy" / name).write_text(text + "\n")
        assert sum_of_modules(str(tmp_path / "copy")) != sum_of_modules()
        (tmp_path / "copy" / name).write_text(text)


# What it refuses


@pytest.mark.parametrize("text, message", [
    (ONE + ONE, "line 2: `one` appears twice, also in line 1"),
    (ONE + "./one.plan 'six blocks.csv'\n", "line 2: `one` appears twice"),
    (ONE + "link/one.plan 'six blocks.csv'\n", "line 2: `link/one` appears twice"),
    ("one.plan gone.csv\n", "line 1: gone.csv is missing"),
    ("one.plan .\n", "line 1: . is missing, or is not a file"),
    ("one.plan\n", "line 1: a line must be a plan NAME.plan and its zone files"),
    ("one.txt 'six blocks.csv'\n", "line 1: a line must be a plan"),
    (ONE + "two.plan 'six blocks.csv\n", "line 2: no closing quotation"),
    (ONE + "two.plan \udcff.csv\n", "line 2: it is not UTF-8"),
    (ONE + "two.plan 'a\0b.csv'\n", "line 2: a name has a character that does not print"),
    ("\n", "it has no line"),
    ("one.plan one.blocks\n", "one.blocks would be overwritten by the instance `one`"),
    ("one.plan linked.csv\n", "linked.csv, which is one.blocks, would be overwritten"),
    ("one.plan other.csv\n", "other.csv, which is one.blocks, would be overwritten"),
    ("one.plan SIZES\n", "SIZES would be overwritten by the batch"),
    ("one.plan RECORD\n", "RECORD would be overwritten by the batch"),
])
def test_a_list_that_would_lose_something_is_rejected_before_anything_runs(here, text, message):
    for name in ("one.blocks", "SIZES", "RECORD"):
        (here / name).write_text(mines.SIX_ROWS)
    os.symlink("one.blocks", "linked.csv")
    os.link("one.blocks", "other.csv")
    os.symlink(".", "link")
    (here / "LIST").write_bytes(text.encode(errors="surrogateescape"))
    with pytest.raises(UserError, match=message.replace("(", r"\(")):
        read_list("LIST", others=["RECORD"])
    assert main(["batch", "LIST", "--pitc",
                 "./pitc"]) == 2 and not os.path.exists("BUILD") and not os.path.exists("MANIFEST")
    assert read("one.blocks") == read("SIZES") == mines.SIX_ROWS


def test_a_list_that_has_the_name_of_a_table_is_not_written_over(here, capsys):
    (here / "BUILD").write_text(ONE)
    assert main(["batch", "BUILD", "--pitc", "./pitc"]) == 2
    assert ("BUILD would be overwritten by the batch" in capsys.readouterr().err
            and read("BUILD") == ONE)


@pytest.mark.parametrize("name", ["MANIFEST", "SIZES", "BUILD", "RECORD", "one.cpit"])
def test_a_file_of_another_kind_stays(here, capsys, name):
    (here / "LIST").write_text(ONE)
    (here / name).write_text("mine\n")
    assert main(["batch", "LIST", "--pitc", "./pitc"]) == 2
    assert f"{name}: " in capsys.readouterr().err and read(name) == "mine\n" and calls() == []


def test_nothing_is_taken_away_if_pitc_does_not_work(here, capsys):
    run_batch()
    before = {name: read(name) for name in ("MANIFEST", "SIZES", "BUILD", "RECORD", "one.blocks")}
    for text, message in (("#!/bin/false\n", "--version ends with 1"),
                          ("#!/no/such\n", "cannot be run: No such file")):
        (here / "broken").write_text(text)
        (here / "broken").chmod(0o755)
        assert main(["batch", "LIST", "--pitc",
                     "./broken"]) == 2 and message in capsys.readouterr().err
    assert main(["batch", "LIST", "--pitc",
                 "./gone"]) == 2 and "no program `./gone`" in capsys.readouterr().err
    assert {name: read(name) for name in before} == before


@pytest.mark.parametrize("words, message", [
    (["--jobs", "0"], "--jobs must be 1 or more"), (["--part", "3/2"], "`3/2` is not a part"),
    (["--part", "0/2"], "`0/2` is not a part"),
    (["--jobs", "2", "--scheduler", "tcp://127.0.0.1:1"], "excludes --jobs"),
    (["--join", ".", "--part", "1/2"], "so it excludes --part"),
    (["--join", ".", "--continue"], "so it excludes --continue")])
def test_words_that_do_not_fit_are_reported(here, capsys, words, message):
    (here / "LIST").write_text(ONE)
    assert main(["batch", "LIST", *([] if "--join" in words else ["--pitc", "./pitc"]),
                 *words]) == 2
    assert message in capsys.readouterr().err and calls() == []


# A failure leaves no manifest


def test_a_plan_that_is_rejected_leaves_no_manifest_and_what_was_there(here):
    run_batch()
    older = read("two.blocks")
    (here / "two.plan").write_text("refused\n")
    batch, whole = run_batch()
    assert not whole and batch.failed == ["two.plan: pitc compile: pitc: plan row 1: Name"]
    assert not os.path.exists("MANIFEST") and read("two.blocks") == older and remainder_of() == []
    assert len(open("SIZES").readlines()) == 2


def test_a_batch_stops_if_nothing_succeeds(here, capsys):
    """One instance that is made, or that an earlier run made, lets the batch continue to the end."""
    for name in ("two", "three", "four"):
        (here / f"{name}.plan").write_text("refused\n")
    bad = [f"{name}.plan 'six blocks.csv'\n" for name in ("two", "three", "four")]
    (here / "LIST").write_text("".join(bad))
    words = ["batch", "LIST", "--pitc", "./pitc", "--stop-at", "2"]
    message = "pitc compile: pitc: plan row 1: Name"
    assert main(words) == 1
    assert capsys.readouterr().err == (f"pit-tools batch: two.plan: {message}\n"
                                       f"pit-tools batch: three.plan: {message}\n"
                                       "pit-tools batch: stopped: 2 failed, and none succeeded\n")
    (here / "LIST").write_text(ONE + "".join(bad))
    for goes_on in ([], ["--continue"]):
        assert main([*words, *goes_on]) == 1
        assert capsys.readouterr().err.count(message) == 3
    assert calls() == ["one"] and main([*words[:-1], "0"]) == 2


def test_an_input_that_changes_after_its_compile_is_reported(here):
    open("changing", "w").close()
    batch, whole = run_batch(ONE)
    assert not whole and batch.failed == ["one.plan: six blocks.csv was changed while the instance "
                                          "was made"]
    assert not os.path.exists("MANIFEST") and not os.path.exists("one.blocks")


@pytest.mark.parametrize("name", ["six blocks.csv", "one.plan", "LIST"])
def test_an_input_that_changes_between_two_instances_is_reported(here, name):
    def engine(step, entries):
        for found in in_turn(step, entries):
            yield found
            with open(name, "a") as file:
                file.write("\n")

    batch, whole = run_batch(engine=engine)
    assert (not whole and batch.failed == [f"{name} was changed while the batch ran"]
            and not os.path.exists("MANIFEST"))


def test_a_program_that_is_replaced_meanwhile_is_reported(here):
    def engine(step, entries):
        yield from in_turn(step, entries)
        with open("pitc", "a") as file:
            file.write("\n")

    batch, whole = run_batch(engine=engine)
    assert not whole and batch.failed == ["the programs or the tool were changed while the batch "
                                          "ran"]
    assert not os.path.exists("MANIFEST")


@pytest.mark.parametrize("most, begins", [(200, False), (700, True), (900, True)])
def test_a_disk_that_takes_no_more_leaves_no_manifest(here, most, begins):
    """If not even RECORD can be begun, nothing is changed, and the manifest of the batch
    before stays."""
    run_batch()
    before = read()
    words = [sys.executable, "-m", "pit_tools", "batch", "LIST", "--pitc", "./pitc"]
    # Without compiled modules: Python would leave half-written ones.
    done = subprocess.run(words, env={**environment(), "PYTHONDONTWRITEBYTECODE": "1"},
                          capture_output=True, text=True,
                          preexec_fn=lambda: resource.setrlimit(resource.RLIMIT_FSIZE,
                                                                (most, most)))
    assert done.returncode in (
        1, 2) and "File too large" in done.stderr and "Traceback" not in done.stderr
    assert read() == before and is_accepted() if not begins else not os.path.exists("MANIFEST")
    assert remainder_of() == []


def environment():
    return {**os.environ, "PYTHONPATH": os.path.join(mines.TOP, "python")}


# One batch at a time


def held(name=LOCK, how=fcntl.LOCK_EX):
    file = open(name, "w")
    fcntl.flock(file, how)
    return file


def test_two_batches_in_one_folder_are_rejected(here, capsys):
    run_batch()
    before = read()
    with held():
        assert main(["batch", "LIST", "--pitc", "./pitc"]) == 2
        assert main(["batch", "LIST", "--pitc", "./pitc", "--part", "1/2"]) == 2
        assert main(["batch", "LIST", "--join", "."]) == 2
    assert (capsys.readouterr().err.count("another batch runs in this folder") == 3
            and read() == before)
    assert main(["batch", "LIST", "--pitc", "./pitc"]) == 0


def test_parts_run_in_parallel_and_none_twice(here, capsys):
    (here / "LIST").write_text(ONE + TWO)
    with held(how=fcntl.LOCK_SH), held(f"{LOCK}-1-of-2"):
        assert main(["batch", "LIST", "--pitc", "./pitc", "--part",
                     "2/2"]) == 0 and calls() == ["two"]
        assert main(["batch", "LIST", "--pitc", "./pitc", "--part", "1/2"]) == 2
        assert main(["batch", "LIST", "--pitc", "./pitc"]) == 2
    assert (capsys.readouterr().out == "part 2 of 2: 1 of 1 instances\n"
            and not os.path.exists("MANIFEST"))


# Continuing


def test_what_is_complete_is_kept_by_its_sums(here, capsys):
    run_batch()
    before = read()
    calls()
    assert main(["batch", "LIST", "--pitc", "./pitc", "--continue"]) == 0
    assert (capsys.readouterr().out == "2 of 2 instances, 2 of them kept\n" and calls() == []
            and read() == before)
    header, one, two = read("RECORD").split("\n")[:3]
    for damage in (lambda: os.remove("two.prec"), lambda: (here / "two.prec").write_text("0 0\n"),
                   lambda: (here / "RECORD").write_text(f"{header}\n{one}\n{two[:-9]}")):
        damage()
        _, whole = run_batch(goes_on=True)
        assert whole and calls() == ["two"] and read() == before
    (here / "one.plan").write_text(plan_named("one").replace("rate,0.08", "rate,0.09"))
    _, whole = run_batch(goes_on=True)
    assert whole and calls() == ["one"] and read() != before and is_accepted()


def test_leftovers_of_a_killed_batch_are_removed(here):
    for name in ("MANIFEST.unfinished-7", "SIZES.before-7.12", "RECORD.unfinished-7", "notes",
                 "MANIFESTO.unfinished-7", "MANIFEST.unfinished-x", "RECORD-1-of-2.unfinished-7"):
        (here / name).write_text("x")
    _, whole = run_batch()
    assert whole and sorted(name for name in os.listdir() if "-7" in name or "-x" in name) == [
        "MANIFEST.unfinished-x", "MANIFESTO.unfinished-7", "RECORD-1-of-2.unfinished-7"]


def test_what_another_build_made_is_made_anew(here):
    run_batch()
    calls()
    _, whole = run_batch(goes_on=True, options=("--valuers", "1"))
    assert whole and calls() == ["one", "two"]


def begun(words):
    """A new process that runs a command."""
    process = os.fork()
    if process == 0:
        status = 99
        try:
            status = main(words)
        finally:
            os._exit(status)
    return process


def ended(process):
    """Returns the status of a process, below 0 if a signal ended it."""
    return os.waitstatus_to_exitcode(os.waitpid(process, 0)[1])


@pytest.mark.parametrize("jobs", [1, 3])
def test_a_batch_that_is_killed_continues_to_the_same_sums(pitc, here, jobs):
    """Ended at random moments, and again while it continues: no manifest remains of less than
    all."""
    names = [f"mine{number}" for number in range(8)]
    for name in names:
        (here / f"{name}.plan").write_text(plan_named(name))
    (here / "LIST").write_text("".join(f"{name}.plan 'six blocks.csv'\n" for name in names))
    words = ["batch", "LIST", "--pitc", pitc, "--jobs", str(jobs)]
    at_first = time.monotonic()
    assert ended(begun(words)) == 0
    wanted, most = read(), time.monotonic() - at_first
    chances, cut_short = random.Random(jobs), 0
    tries = int(os.environ.get("KILLED_BATCHES", "10"))
    for _ in range(tries):
        begin_anew(names)
        for goes_on in ([], ["--continue"]):
            process = begun([*words, *goes_on])
            time.sleep(chances.uniform(0, most))
            os.kill(process, chances.choice([signal.SIGINT, signal.SIGTERM, signal.SIGKILL]))
            cut_short += ended(process) != 0
            assert not os.path.exists("MANIFEST") or read() == wanted
        assert with_patience([*words, "--continue"]) == 0
        assert read() == wanted and is_accepted() and remainder_of() == []
    assert cut_short > 0
    print(f"{cut_short} of {2 * tries} runs were cut short")


def begin_anew(names):
    for name in ("MANIFEST", "SIZES", "BUILD", "RECORD",
                 *(f"{name}.{text}" for name in names for text in TEXTS)):
        if os.path.exists(name):
            os.remove(name)


def with_patience(words):
    """Returns the status of a command, tried again for as long as the remains of a killed one
    hold the folder."""
    for _ in range(600):
        status = ended(begun(words))
        if status != 2:
            break
        time.sleep(0.1)
    return status


# Several at a time, parts, other machines


def test_several_at_a_time_make_the_same(here):
    run_batch()
    before = read()
    _, whole = run_batch(engine=by_processes(3))
    assert whole and read() == before
    (here / "two.plan").write_text("refused\n")
    batch, whole = run_batch(engine=by_processes(3))
    assert not whole and batch.failed == ["two.plan: pitc compile: pitc: plan row 1: Name"]


def test_a_batch_ends_in_a_program_that_has_used_a_solver(here):
    """HiGHS has threads, which a copy of this process would wait for and not have."""
    mine = read_instance(mines.six_blocks(here))
    assert programs._solved(program_of(mine.cpit, mine.precedence), None, 0.0, None).status == "best"
    (here / "pickle.py").write_text("raise SystemExit(7)\n")
    batch, whole = run_batch(engine=by_processes(2), seconds=60.0)
    assert whole and len(batch.made) == 2
    assert "PYTHONSAFEPATH" not in os.environ


def test_processes_end_though_one_ended_with_a_lock(here, monkeypatch):
    """When a process gets TERM while it makes an instance, it would continue and wait for the
    next one; if another one had ended with the lock of the queue, for ever."""
    (here / "pitc").write_text((here / "pitc").read_text().replace(
        'elif words[0] == "compile"', 'elif __import__("time").sleep(60) or words[0] == "compile"'))
    monkeypatch.setattr(engines, "PATIENCE", 1)
    with open("LIST", "w") as file:
        file.write(ONE + TWO)
    batch = Batch("LIST", way())
    held_by_none = []

    def engine(step, entries):
        with engines._processes(2) as executor:
            running = [executor.submit(step, entry) for entry in entries]
            while not all(future.running() for future in running):
                time.sleep(0.01)
            time.sleep(0.5)
            executor._call_queue._rlock.acquire(timeout=1)
            held_by_none.append(executor)
            raise KeyboardInterrupt
        yield

    begun_at = time.monotonic()
    with pytest.raises(KeyboardInterrupt):
        batch.run(engine)
    assert time.monotonic() - begun_at < 30 and held_by_none
    assert not os.path.exists("MANIFEST") and remainder_of() == []


def test_a_process_that_is_ended_from_outside_is_reported(here):
    (here / "pitc").write_text((here / "pitc").read_text().replace(
        'elif words[0] == "compile"', 'elif os.kill(os.getppid(), 9) or words[0] == "compile"'))
    with pytest.raises(UserError, match="a process of the batch was ended from outside"):
        run_batch(engine=by_processes(2))
    assert not os.path.exists("MANIFEST")


def parts_of(here, count, folder_of):
    """Makes the parts of LIST, each in its own folder with LIST and the inputs, or all in one."""
    for number in range(1, count + 1):
        folder = here / folder_of(number)
        folder.mkdir(exist_ok=True)
        for name in ("LIST", "one.plan", "two.plan", "six blocks.csv", "pitc"):
            if folder != here:
                shutil.copy(name, folder)
        done = subprocess.run([sys.executable, "-m", "pit_tools", "batch", "LIST", "--pitc",
                               "./pitc", "--part", f"{number}/{count}"], cwd=folder,
                              env=environment(), capture_output=True, text=True)
        assert done.returncode == 0 and not (folder / "MANIFEST").exists()


@pytest.mark.parametrize("folder_of", ["part{}".format, lambda number: "."],
                         ids=["folders", "one folder"])
def test_parts_are_joined_to_the_batch_that_one_run_makes(here, folder_of, capsys):
    run_batch()
    wanted = read()
    begin_anew(["one", "two"])
    parts_of(here, 3, folder_of)
    folders = list(dict.fromkeys(map(folder_of, (1, 2, 3))))
    assert main(["batch", "LIST", "--join",
                 *folders]) == 0 and capsys.readouterr().out == "2 of 2 instances\n"
    assert read() == wanted and is_accepted()
    calls()
    assert main(["batch", "LIST", "--pitc", "./pitc",
                 "--continue"]) == 0 and calls() == [] and read() == wanted


@pytest.mark.parametrize("damage, message",
                         [(lambda: os.remove("part2/RECORD-2-of-2"), "two.plan: no part has it"),
                          (lambda: os.remove("part2/two.prec"), "two.plan: part2/two.prec differs "
                           "from the one that part2/RECORD-2-of-2 names"),
                          (lambda: shutil.copy("part1/one.prec", "part2/two.upit"),
                           "two.plan: part2/two.upit differs from the one"),
                          (lambda: shutil.copy("one.plan", "two.plan"),
                           "two.plan: two.plan differs from the one that part2/RECORD-2-of-2 names")])
def test_parts_that_are_incomplete_are_not_joined(here, capsys, damage, message):
    (here / "LIST").write_text(ONE + TWO)
    parts_of(here, 2, "part{}".format)
    damage()
    assert main(["batch", "LIST", "--join", "part1", "part2"]) == 1
    assert (message in capsys.readouterr().err and not os.path.exists("MANIFEST")
            and not os.path.exists("one.blocks"))


def test_parts_of_different_builds_are_not_joined(here, capsys):
    (here / "LIST").write_text(ONE + TWO)
    parts_of(here, 2, "part{}".format)
    record = here / "part2" / "RECORD-2-of-2"
    record.write_text(record.read_text().replace("pitc 9.9.9", "pitc 9.9.8"))
    assert main(["batch", "LIST", "--join", "part1",
                 "part2"]) == 2 and "different builds" in capsys.readouterr().err
    assert main(["batch", "LIST", "--join",
                 "."]) == 2 and "no record of a batch is in ." in capsys.readouterr().err
