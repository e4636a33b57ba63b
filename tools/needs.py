"""The programs that pages, recipes and tests call besides the toolchain's, and the Debian packages that have them."""
import os
import re
import shutil
import subprocess
import tempfile
from typing import Dict, Iterable, List, NamedTuple, Optional, Sequence, Tuple

import malloc
import shared


class Need(NamedTuple):
    """A program by its names, of which one is enough; the Debian package that has it, unless each system has it; and what calls it."""

    names: List[str]
    package: str
    callers: str


NEEDS = [
    Need(["bash"], "", "CI, completions, a recipe"),
    Need(["cat"], "", "recipes: with it come cksum, cp, head, ls, sort, tr, wc and the like"),
    Need(["awk"], "", "recipes"),
    Need(["grep"], "", "recipes"),
    Need(["sed"], "", "recipes"),
    Need(["xargs"], "", "recipes"),
    Need(["cmp"], "", "recipes"),
    Need(["sha256sum"], "", "recipes, tools/archive"),
    Need(["gzip"], "", "a recipe"),
    Need(["parallel"], "parallel", "a recipe: a batch over several machines"),
    Need(["git"], "git", "tools/archive: the commit, and which files there are"),
    Need(["cbc"], "coinor-cbc", "recipes: schedules"),
    Need(["glpsol"], "glpk-utils", "recipes: the pit as a linear program"),
    Need(["g++", "c++", "clang++"], "g++", "recipes and tests of python/: the pit"),
    Need(["cc", "gcc", "clang"], "gcc", "tools/effects, tools/refused-memory, tools/refused-files"),
    Need(["strace"], "strace", "tools/effects"),
    Need(["zsh"], "zsh", "completions"),
    Need(["fish"], "fish", "completions"),
    Need(["groff"], "groff-base", "tools/man-page"),
    Need(["man"], "man-db", "SECURITY.md: man pitc"),
    Need(["dpkg-deb"], "", "tools/archive: the Debian package"),
    Need(["time"], "time", "the peak memory of a run"),
    Need(["mypy"], "mypy", "tools/lint"),
    Need(["pylint"], "pylint", "tools/lint"),
    Need(["chromium", "chromium-browser", "google-chrome"], "chromium", "a test of python/: the page of a survey"),
]

# Modules of Python that pit-tools needs, and with which `./try planner` runs; Debian's packages begin with python3-.
OF_PIT_TOOLS = ["pandas", "numpy", "scipy", "matplotlib", "openpyxl"]

# Modules that one interpreter must have, all of them. `python3 -m venv` needs ensurepip to make the environment in which tools/archive
# tries the wheel; tools/recipes runs notebooks by nbclient and ipykernel; tools/pit-tools-pages makes completions by shtab.
MODULES = [*OF_PIT_TOOLS, "pytest", "distributed", "hypothesis", "ezdxf", "meshio", "tqdm", "nbclient", "ipykernel", "ensurepip", "shtab"]

# Devices, which no package has.
DEVICES = ["/dev/full"]

LOOK = "import importlib.util as u, sys; print(*[name for name in sys.argv[1:] if not u.find_spec(name)])"


def is_strict() -> bool:
    """Returns whether nothing may be skipped: if CI is set, as servers set it that try each change."""
    return bool(os.environ.get("CI"))


def is_there(need: Need) -> bool:
    """Returns whether a program is in the PATH, or is the toolchain's C compiler."""
    return any(map(shutil.which, need.names)) or "cc" in need.names and malloc.compiler() is not None


def interpreters() -> List[str]:
    """Returns each python3 once: those of the PATH in order, and the system's."""
    folders = [*os.environ.get("PATH", "").split(os.pathsep), "/usr/bin"]
    paths = (os.path.join(folder or ".", "python3") for folder in folders)
    return list(dict.fromkeys(path for path in paths if os.access(path, os.X_OK)))


def missing_of(python: str, modules: List[str]) -> List[str]:
    """Returns which of these modules an interpreter does not have."""
    done = subprocess.run([python, "-c", LOOK, *modules], capture_output=True, text=True)
    return done.stdout.split() if done.returncode == 0 else modules


def first_with_modules(modules: Sequence[str] = tuple(MODULES)) -> Tuple[Optional[str], Dict[str, List[str]]]:
    """Returns the first interpreter that has all these modules, and the modules that earlier ones do not have."""
    missing = {}
    for python in interpreters():
        missing[python] = missing_of(python, list(modules))
        if not missing[python]:
            return python, missing
    return None, missing


def pages_of_tool() -> Dict[str, bytes]:
    """Returns the man page and the completions of pit-tools, by the names of their files; none if no interpreter has all modules."""
    python, _ = first_with_modules()
    if python is None:
        return {}
    with tempfile.TemporaryDirectory() as folder:
        subprocess.run([python, os.path.join(shared.TOP, "tools/pit-tools-pages"), folder], check=True)
        found = {}
        for name in os.listdir(folder):
            with open(os.path.join(folder, name), "rb") as file:
                found[name] = file.read()
        return found


def packages_of(modules: Iterable[str]) -> List[str]:
    """Returns the Debian packages that have these modules."""
    return [f"python3-{'venv' if name == 'ensurepip' else name}" for name in modules]


def of_recipes() -> List[str]:
    """Returns the programs that command blocks on the pages name, after ```sh."""
    pages = (shared.read(path) for path in shared.pages_with_recipes())
    words = (line.split() for page in pages for line in re.findall("(?m)^```sh (.+)$", page))
    return sorted(set(sum(words, [])))


def missing_of_planner() -> Dict[str, Tuple[List[str], str]]:
    """Returns what is missing for `./try planner`, like `missing`."""
    found = {need.names[0]: ([need.package], "the pit in a survey") for need in NEEDS if need.package == "g++" and not is_there(need)}
    if first_with_modules(OF_PIT_TOOLS)[0] is None:
        found["a python3 with " + ", ".join(OF_PIT_TOOLS)] = (packages_of(OF_PIT_TOOLS), "pit-tools")
    return found


def missing() -> Dict[str, Tuple[List[str], str]]:
    """Returns what is missing, by its name: the packages that have it, and what calls it."""
    found = {need.names[0]: (list(filter(None, [need.package])), need.callers) for need in NEEDS if not is_there(need)}
    if first_with_modules()[0] is None:
        callers = "tests of python/, recipes, and tools/archive: the wheel"
        found["a python3 with " + ", ".join(MODULES)] = (packages_of(MODULES), callers)
    known = {name for need in NEEDS for name in need.names} | {"python3"}
    for name in of_recipes():
        if name not in known and not shutil.which(name):
            found[name] = ([], "a recipe")
    found.update({path: ([], "tools/commands") for path in DEVICES if not os.path.exists(path)})
    return found


def packages() -> List[str]:
    """Returns all Debian packages, for a manual installation."""
    return [need.package for need in NEEDS if need.package] + packages_of(MODULES)


def packages_of_planner() -> List[str]:
    """Returns the packages of Debian with which `./try planner` runs."""
    return ["g++", *packages_of(OF_PIT_TOOLS)]


def skipped_text(count: int, names: Iterable[str]) -> str:
    """Returns what a tool prints at its end if it skipped something because these are missing; otherwise nothing."""
    return f"; {count} skipped, since these are missing: {' '.join(dict.fromkeys(names))}" if count else ""


def status(wrong: object, left: object) -> int:
    """Returns a tool's status: something was wrong, or skipped when nothing may be."""
    return 1 if wrong or left and is_strict() else 0
