"""A page with blocks of commands as a notebook for Jupyter, whose cells run in one shell, and how it is run.

    notebook.py NOTEBOOK FOLDER     runs a notebook from this folder, and prints what each cell printed and whether it came to its end

The text between the blocks becomes cells of text; a block becomes a cell of its commands, followed by their output as the page has it.
"""
import json
import os
import re
import subprocess
import sys

# The pages that are also notebooks.
PAGES = ["docs/planners.md", "docs/solvers.md"]

BLOCK = re.compile(r"(?ms)^```sh([^\n]*)\n(.*?)^```\n(?:\s*```text\n(.*?)^```\n)?")

# The first cell of each notebook. One shell reads all cells that begin with %%shell; it starts in the folder above the pages.
SHELL = '''\
# Cells that begin with %%shell are commands. All are read by one shell; it begins in the folder that has examples/.
import pathlib
import shutil
import subprocess
import tempfile

from IPython.core.magic import register_cell_magic

here = pathlib.Path.cwd()
top = next(folder for folder in [here, *here.parents] if (folder / "examples/begin.sh").is_file())
reader = subprocess.Popen(["sh"], cwd=top, stdin=subprocess.PIPE, stdout=subprocess.PIPE, stderr=subprocess.STDOUT, encoding="utf-8")


@register_cell_magic
def shell(words, commands):
    """Prints what the commands print, line by line. Skips them if a program after %%shell is missing."""
    missing = [program for program in words.split() if not shutil.which(program)]
    if missing:
        print("skipped, since these are missing:", *missing)
        return
    with tempfile.NamedTemporaryFile("w", encoding="utf-8") as cell:
        print(commands, file=cell, flush=True)
        print(f"{{ . '{cell.name}'; }} < /dev/null; printf '\\\\nended with %s\\\\n' $?", file=reader.stdin, flush=True)
        held, line = "", ""
        for line in reader.stdout:
            if line.startswith("ended with "):
                break
            print(held, end="", flush=True)
            held = line
        print(held[:-1], end="")
    if line != "ended with 0\\n":
        raise RuntimeError(line.strip() or "the shell is gone: restart the notebook")
'''


def text_cell(text):
    return {"cell_type": "markdown", "metadata": {}, "source": text.strip("\n")}


def code_cell(source, printed=""):
    outputs = [{"output_type": "stream", "name": "stdout", "text": printed}] if printed else []
    return {"cell_type": "code", "execution_count": None, "metadata": {}, "outputs": outputs, "source": source.rstrip("\n")}


def notebook_of(page):
    """Returns the notebook of a page's text, the same for the same text."""
    cells, end = [code_cell(SHELL)], 0
    for block in BLOCK.finditer(page):
        if page[end:block.start()].strip():
            cells.append(text_cell(page[end:block.start()]))
        cells.append(code_cell(f"%%shell{block[1]}\n{block[2]}", block[3] or ""))
        end = block.end()
    cells.append(text_cell(page[end:]))
    # The title comes first.
    cells[:2] = cells[1::-1]
    kernel = {"display_name": "Python 3", "language": "python", "name": "python3"}
    notebook = {"cells": cells, "metadata": {"kernelspec": kernel}, "nbformat": 4, "nbformat_minor": 4}
    return json.dumps(notebook, ensure_ascii=False, indent=1) + "\n"


def printed_by(python, path, folder):
    """Returns what each cell of commands of a notebook prints, and its status, which is none if it did not finish."""
    quiet = {**os.environ, "PYDEVD_DISABLE_FILE_VALIDATION": "1"}
    done = subprocess.run([python, __file__, path, folder], stdin=subprocess.DEVNULL, stdout=subprocess.PIPE, env=quiet, check=True)
    return json.loads(done.stdout)


def main(path, folder):
    import nbclient
    import nbformat
    notebook = nbformat.read(path, as_version=4)
    nbformat.validate(notebook)
    for cell in notebook.cells:
        cell.update({"outputs": []} if cell.cell_type == "code" else {})
    nbclient.NotebookClient(notebook, timeout=1800, kernel_name="python3", allow_errors=True, resources={"metadata": {"path": folder}}).execute()
    printed = []
    for cell in notebook.cells:
        if cell.source.startswith("%%shell"):
            faults = [output.evalue for output in cell.outputs if output.output_type == "error"]
            status = re.fullmatch(r"ended with (\d+)", " ".join(faults))
            printed.append(("".join(output.text for output in cell.outputs if output.output_type == "stream"),
                         int(status[1]) if status else None if faults else 0))
    print(json.dumps(printed))


if __name__ == "__main__":
    main(*map(os.path.abspath, sys.argv[1:]))
