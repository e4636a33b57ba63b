"""A wheel of pitc, pitc_thin and pit-tools, which pip installs without a network, and how it is tried.

It has what the archive has: the package pit_tools with its compiled program, the two programs, and below share/ their man pages,
completions, pages and examples. The requirements of pit-tools are in python/pyproject.toml.
"""
import ast
import base64
import hashlib
import io
import os
import re
import shutil
import stat
import subprocess
import tempfile
import time
import zipfile

import page_recipes
import shared

METADATA = """Metadata-Version: 2.1
Name: {name}
Version: {version}
Summary: {summary}
Author: The Jetburin team
Classifier: Operating System :: POSIX :: Linux
Classifier: Programming Language :: Python :: 3
Requires-Python: {python}
{needs}
Description-Content-Type: text/markdown

`pitc` turns the block models of an open pit mine into a MineLib instance. `pitc_thin` writes the precedences alone, with fewer
arcs. `pit-tools` goes from a mining package's export to an instance and back. The pages are in `share/pitc`, next to
`bin`. Licences are in `NOTICES.md` there; pitc itself has none yet.
"""

WHEEL = """Wheel-Version: 1.0
Generator: tools/archive
Root-Is-Purelib: false
Tag: {tag}
"""

# The versions of the C++ library that systems with glibc 2.34 have, as manylinux_2_34 names them.
OF_CPP = {b"GLIBCXX": (3, 4, 29), b"CXXABI": (1, 3, 13)}


# The settings of the same distribution without the programs.
PYPROJECT = shared.read(os.path.join(shared.TOP, "python/pyproject.toml"))


def setting(key):
    """Returns a setting that is a text."""
    return re.search(rf'(?m)^{key} = "(.*)"', PYPROJECT)[1]


NAME = setting("name")


def settings():
    """Returns what python/pyproject.toml requires of packages, as lines of METADATA, and its commands."""
    lines = [f"Requires-Dist: {need}" for need in ast.literal_eval(re.search(r"(?ms)^dependencies = (\[.*?\])", PYPROJECT)[1])]
    for name, needs in re.findall(r"(?m)^(\w+) = (\[.*\])$", PYPROJECT.split("[project.optional-dependencies]\n")[1].split("\n\n")[0]):
        if name != "test":
            lines.append(f"Provides-Extra: {name}")
            lines += [f'Requires-Dist: {need} ; extra == "{name}"' for need in ast.literal_eval(needs)]
    commands = re.findall(r'(?m)^(\S+) = "(\S+:\S+)"$', PYPROJECT.split("[project.scripts]\n")[1].split("\n\n")[0])
    return "\n".join(lines), commands


def summed(text):
    """Returns a sum as RECORD has it."""
    return "sha256=" + base64.urlsafe_b64encode(hashlib.sha256(text).digest()).rstrip(b"=").decode()


def files_of(version, tag, programs, below_share, texts):
    """Returns the files of the wheel by their paths: its package, its programs, the files below share/, and what pip reads."""
    prefix, (needs, commands) = f"{NAME}-{version}", settings()
    package = {path[len("python/"):]: text for path, text in texts.items() if path.startswith("python/pit_tools/")}
    data = {**below_share, **{f"pitc/{path}": text for path, text in texts.items() if not path.startswith("python/")}}
    files = dict(sorted(package.items()))
    files.update({f"{prefix}.data/scripts/{name}": program for name, program in programs.items()})
    files.update({f"{prefix}.data/data/share/{path}": text for path, text in sorted(data.items())})
    about = f"{prefix}.dist-info/"
    files[about + "METADATA"] = METADATA.format(name=NAME, version=version, summary=setting("description"), python=setting("requires-python"), needs=needs).encode()
    files[about + "WHEEL"] = WHEEL.format(tag=tag).encode()
    files[about + "entry_points.txt"] = "\n".join(["[console_scripts]", *map(" = ".join, commands), ""]).encode()
    lines = [f"{path},{summed(text)},{len(text)}\n" for path, text in files.items()]
    files[about + "RECORD"] = "".join([*lines, f"{about}RECORD,,\n"]).encode()
    return files


def packed(files, day):
    """Returns these files as a wheel, the same for the same files and day."""
    made = io.BytesIO()
    with zipfile.ZipFile(made, "w") as wheel:
        for path, text in files.items():
            entry = zipfile.ZipInfo(path, time.gmtime(day)[:6])
            mode = 0o755 if ".data/scripts/" in path or path.endswith(".so") else 0o644
            entry.compress_type, entry.create_system, entry.external_attr = zipfile.ZIP_DEFLATED, 3, (stat.S_IFREG | mode) << 16
            wheel.writestr(entry, text, compresslevel=9)
    return made.getvalue()


def too_new(name, program):
    """Returns what a compiled library calls that systems with its C library need not have."""
    for library, least in OF_CPP.items():
        needed = [tuple(map(int, found.split(b"."))) for found in re.findall(library + rb"_([\d.]+)", program)]
        if needed and max(needed) > least:
            yield f"{name} calls {library.decode()} {'.'.join(map(str, max(needed)))}"


def fault_of(arguments, **more):
    """Returns None if a command ends with 0, otherwise the last line that it prints."""
    done = subprocess.run(arguments, stdout=subprocess.PIPE, stderr=subprocess.STDOUT, text=True, check=False, **more)
    return None if done.returncode == 0 else (done.stdout.strip().splitlines() or ["no output"])[-1]


def is_there(path, text):
    """Returns whether a file exists and has these bytes."""
    if not os.path.exists(path):
        return False
    with open(path, "rb") as file:
        return file.read() == text


def listed(folder):
    """Returns the files in a folder and in all folders below it. (pip keeps empty folders that others may share.)"""
    return {os.path.relpath(os.path.join(above, name), folder) for above, _, names in os.walk(folder) for name in names}


def of_commands(installed, folder):
    """Returns what is wrong with the commands of docs/tutorial.md, run from an installed wheel."""
    recipes = page_recipes.recipes_of(os.path.join(shared.TOP, "docs/tutorial.md"))
    top, cache, apart = (os.path.join(folder, name) for name in ("top", "cache", "apart"))
    shutil.copytree(os.path.join(installed, "share/pitc"), top)
    os.mkdir(apart)
    environment = {**os.environ, "PATH": f"{installed}/bin:{os.environ['PATH']}", "XDG_CACHE_HOME": cache}
    for recipe, printed in zip(recipes, page_recipes.printed_by(recipes, top, apart, environment)):
        yield from (f"{recipe.place}: {what}" for what in page_recipes.differences(recipe, *printed))
    if os.path.exists(os.path.join(cache, "pit-tools")):
        yield "it compiles the program of C++ that it brings"


def tried(path, python, programs, below_share):
    """Returns what is wrong with a wheel that is installed in a new environment over an interpreter's packages, used, and removed."""
    quiet = {**os.environ, "PIP_DISABLE_PIP_VERSION_CHECK": "1", "PIP_NO_CACHE_DIR": "1"}
    with tempfile.TemporaryDirectory() as folder:
        installed = os.path.join(folder, "installed")
        pip = [os.path.join(installed, "bin/python"), "-I", "-B", "-m", "pip"]
        if fault := fault_of([python, "-m", "venv", "--system-site-packages", installed]):
            return [f"no environment can be made: {fault}"]
        before = listed(installed)
        if fault := fault_of([*pip, "install", "--no-index", path], env=quiet):
            return [f"it cannot be installed: {fault}"]
        kept = {**{f"bin/{name}": program for name, program in programs.items()},
                **{f"share/{name}": text for name, text in below_share.items()}}
        wrong = [f"{name} is not installed, or another" for name, text in kept.items() if not is_there(os.path.join(installed, name), text)]
        if fault := fault_of([os.path.join(shared.TOP, "tools/page-links"), os.path.join(installed, "share/pitc")]):
            wrong.append(f"links of its pages: {fault}")
        wrong += of_commands(installed, folder)
        if fault := fault_of([*pip, "uninstall", "--yes", NAME], env=quiet):
            return [*wrong, f"it cannot be removed: {fault}"]
        return wrong + [f"removing it leaves {name}" for name in sorted(listed(installed) - before)]
