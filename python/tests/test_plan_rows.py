"""`read_plan` rejects the plans that `pitc` rejects, with the same record and kind: all plans
of the tables tools/rows/plans.py and pairs.py, on which CI runs a built pitc too."""
import subprocess
from multiprocessing.pool import ThreadPool

import mines  # noqa: F401  # pylint: disable=unused-import
from rows import pairs, plans

from pit_tools.errors import UserError
from pit_tools.plans.file import PlanError, read_plan

TAKEN = "settings: Files"


def rows():
    """Yields the bytes of each plan, and the line that pitc prints for it without a zone file."""
    for page in (plans, pairs):
        for trial in page.trials():
            line = trial.errors.decode()[len("pitc: "):-1] if trial.errors else ""
            plan = trial.given or trial.files.get("plan", b"")
            if page is plans and trial.given or line.startswith("plan") and b"\n--" not in plan:
                yield plan, line if line.startswith("plan") else TAKEN


def result(path):
    """The same line by `read_plan`."""
    try:
        read_plan(str(path))
    except PlanError as error:
        assert f"record {error.row}: " in str(error) and str(error).endswith(f"({error.kind})")
        return f"plan row {error.row}: {error.kind}"
    except UserError as error:
        assert "more than 1,048,576 bytes" in str(error)
        return "plan: TooLong"
    return TAKEN


def test_read_plan_returns_what_the_tables_state(tmp_path):
    path, kinds = tmp_path / "a.plan", set()
    for plan, line in rows():
        path.write_bytes(plan)
        assert result(path) == line, plan[-200:]
        kinds.add(line.rpartition(" ")[2])
    assert kinds == {"Key", "Width", "Number", "TooFine", "Range", "Name", "Twice", "Order",
                     "TooMany", "Missing", "TooLong", "Files"}


def test_pitc_returns_what_read_plan_does(pitc, tmp_path):
    def lines_of(numbered):
        number, (plan, _) = numbered
        path = tmp_path / f"{number}.plan"
        path.write_bytes(plan)
        done = subprocess.run([pitc], input=plan, capture_output=True, check=False)
        return done.stderr.decode(), f"pitc: {result(path)}\n"

    with ThreadPool(4) as pool:
        found = pool.map(lines_of, enumerate(rows()), chunksize=16)
    assert [one for one in found if one[0] != one[1]] == [] and len(found) >= 5000
