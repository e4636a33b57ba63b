"""A batch by the workers of a Dask scheduler, one of which is killed in the middle."""
import os
import signal
import subprocess
import sys
import time

import pytest

import test_batches
from pit_tools.batches import engines
from pit_tools.batches.engines import by_dask
from pit_tools.cli import main
from pit_tools.errors import UserError
from test_batches import (environment, here, is_accepted, remainder_of, plan_named, read,  # noqa: F401
                          run_batch)

NAMES = [f"mine{number}" for number in range(12)]

LIST = "".join(f"{name}.plan 'six blocks.csv'\n" for name in NAMES)

#: With a program that waits, so that a worker is killed while it makes an instance.
SLOW = 'elif words[0] == "compile" or is_thin:\n    import time\n    time.sleep(0.5)\n'


def begun(command, *words):
    """A process of distributed that listens on this machine alone."""
    words = [sys.executable, "-m", f"distributed.cli.dask_{command}", "--host", "127.0.0.1", *words]
    return subprocess.Popen(words, env=environment(), stdout=subprocess.DEVNULL,
                            stderr=subprocess.DEVNULL)


def waited(is_so, seconds=600):
    """Waits until a condition holds."""
    end = time.monotonic() + seconds
    while not is_so():
        assert time.monotonic() < end
        time.sleep(0.05)


@pytest.fixture()
def cluster(here):  # noqa: F811
    """The address of a scheduler with four workers of a thread each, and their processes."""
    distributed = pytest.importorskip("distributed")
    place = str(here / "scheduler.json")
    processes = [begun("scheduler", "--port", "0", "--no-dashboard", "--scheduler-file", place)]
    try:
        waited(lambda: os.path.exists(place))
        worker = ("--nthreads", "1", "--no-nanny", "--no-dashboard", "--scheduler-file", place,
                  "--local-directory", str(here / "dask"))
        processes += [begun("worker", *worker) for _ in range(4)]
        with distributed.Client(scheduler_file=place, timeout=600, set_as_default=False) as client:
            client.wait_for_workers(4, timeout=600)
            address = client.scheduler.address
        yield address, processes[1:]
    finally:
        for process in processes:
            process.kill()
            process.wait()


def test_a_worker_that_is_killed_loses_nothing(cluster):
    address, workers = cluster
    for name in NAMES:
        with open(f"{name}.plan", "w") as file:
            file.write(plan_named(name))
    with open("pitc") as file:
        text = file.read()
    with open("pitc", "w") as file:
        file.write(text.replace('elif words[0] == "compile" or is_thin:\n', SLOW))
    _, whole = run_batch(LIST)
    wanted = read()
    assert whole
    test_batches.calls()
    engine = by_dask(address)

    def ended_in_the_middle(step, entries):
        for number, found in enumerate(engine(step, entries)):
            if number == 2:
                workers[0].send_signal(signal.SIGKILL)
            yield found

    batch, whole = run_batch(LIST, engine=ended_in_the_middle)
    assert whole and not batch.failed and read() == wanted and is_accepted()
    assert (workers[0].wait() == -signal.SIGKILL
            and [worker.poll() for worker in workers[1:]] == [None] * 3)
    made = test_batches.calls()
    assert set(made) == set(NAMES) and len(made) >= len(NAMES)
    assert main(["batch", "LIST", "--pitc", "./pitc",
                 "--continue"]) == 0 and remainder_of() == [] and read() == wanted


def test_a_scheduler_that_is_missing_is_reported(here, capsys):  # noqa: F811
    pytest.importorskip("distributed")
    with open("LIST", "w") as file:
        file.write("one.plan 'six blocks.csv'\n")
    assert main(["batch", "LIST", "--pitc", "./pitc", "--scheduler", "tcp://127.0.0.1:1"]) == 2
    assert ("no scheduler responds at tcp://127.0.0.1:1" in capsys.readouterr().err
            and not os.path.exists("MANIFEST"))


def test_a_python_without_distributed_is_reported(monkeypatch):
    monkeypatch.setitem(sys.modules, "distributed", None)
    with pytest.raises(UserError, match="apt-get install --no-install-recommends python3-distributed"):
        engines.by_dask("tcp://127.0.0.1:1")
