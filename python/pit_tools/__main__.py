"""Runs the command `pit-tools`, also by `python3 -m pit_tools`.

Python looks for modules in the current folder first, or in the place of an empty part of
PYTHONPATH: it would run a user's own `random.py` or `csv.py` there. So this looks only in the
folder of this package and where packages are installed.
"""
import os
import site
import sys

OWN = os.path.dirname(os.path.dirname(os.path.abspath(__file__)))


def look_nowhere_else() -> None:
    """Removes the current folder from Python's search path. If Python was started by `-I`, as the
    script pit-tools does, this adds the user's installed packages to the path."""
    try:
        current = os.getcwd()
        sys.path[:] = [folder
                       for folder in sys.path if os.path.abspath(folder) not in (current, OWN)]
    except FileNotFoundError:
        pass
    sys.path.insert(0, OWN)
    # In a folder of the system, byte code that root wrote next to the package would outlive its
    # removal.
    if os.stat(OWN).st_uid == 0 or os.environ.get("PYTHONDONTWRITEBYTECODE"):
        sys.dont_write_bytecode = True
    from pit_tools.files.owners import may_add

    if sys.flags.isolated and may_add(site.getusersitepackages()):
        site.addsitedir(site.getusersitepackages())


def main() -> int:
    """Runs the command line of the process."""
    look_nowhere_else()
    from pit_tools.version import missing_packages

    if sys.argv[1:] == ["--missing"]:
        print(missing_packages())
        return int(bool(missing_packages()))
    from pit_tools.cli import main as run

    return run()


if __name__ == "__main__":
    sys.exit(main())
