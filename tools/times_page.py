"""The parts of docs/times.md that tools write: what they measured, of which commit, on which machine.

A part is between a line `<!-- NAME -->` and a line `<!-- end of NAME -->`, which is missing before the first measurement. Its first line has
the commit, and the machine if it is not the one that docs/times.md names at its beginning.
"""
import os
import re
import subprocess
import time
from typing import Iterable, List, Sequence

import shared

PAGE = "docs/times.md"
PART = re.compile(r"(?ms)^<!-- (?!end of )([\w ]+) -->\n(.*?)^<!-- end of \1 -->$")
COMMIT = re.compile(r"\bCommit ([0-9a-f]{8})\b")


def git(*arguments: str) -> str:
    return subprocess.run(["git", *arguments], cwd=shared.TOP, capture_output=True, text=True, check=True).stdout.strip()


def commit() -> str:
    """Returns the commit of the crates here, and whether they differ from it."""
    changed = " with changes" if git("status", "--porcelain", "crates") else ""
    return git("rev-parse", "--short=8", "HEAD") + changed


def machine() -> str:
    """Returns the processors and the memory of this machine."""
    info = shared.read("/proc/cpuinfo")
    models = re.findall(r"(?m)^model name\s*: (.*)$", info)
    kilobytes = int(re.search(r"MemTotal:\s+(\d+)", shared.read("/proc/meminfo"))[1])
    kind = "virtual processors" if re.search(r"(?m)^flags.*\bhypervisor\b", info) else "processors"
    model = " ".join(models[0].split()) if models else os.uname().machine
    return f"{os.cpu_count()} {kind} ({model}), {kilobytes / 2**20:.0f} gigabytes"


def head() -> str:
    """Returns the first line of a part, made before anything is measured. It names this machine unless the page names it for all."""
    load, here = os.getloadavg()[0], machine()
    work = f"with other work (a load of {load:.1f} at the beginning)" if load > 0.5 else "with no other work"
    is_usual = f"of {here}, unless they name another" in " ".join(shared.read(os.path.join(shared.TOP, PAGE)).split())
    return f"Commit {commit()}, {time.strftime('%Y-%m-%d', time.gmtime())}{'' if is_usual else '; ' + here}, {work}."


def table(columns: Sequence[str], rows: Iterable[Sequence[object]]) -> List[str]:
    head, *lines = [f"| {' | '.join(map(str, row))} |" for row in [columns, *rows]]
    return [head, "|" + "---|" * len(columns), *lines]


def parts(page: str = PAGE) -> dict:
    """Returns the parts of a page, by their names."""
    return dict(PART.findall(shared.read(os.path.join(shared.TOP, page))))


def write_part(name: str, lines: Iterable[str], page: str = PAGE) -> None:
    """Replaces the part with this name by these lines."""
    path = os.path.join(shared.TOP, page)
    text = shared.read(path)
    part = re.compile(rf"(?ms)^(<!-- {name} -->\n)(?:.*?^<!-- end of {name} -->\n)?")
    if not part.search(text):
        raise SystemExit(f"{page} has no part {name}")
    shared.write(path, part.sub(lambda found: found[1] + "\n".join([*lines, f"<!-- end of {name} -->\n"]), text))
