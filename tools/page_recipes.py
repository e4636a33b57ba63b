"""The command blocks on the pages of docs/, and what they must print."""
import os
import re
import shutil
import subprocess
import sys

import shared


class Recipe:
    """A command block, its place on the page, which programs are missing for it, and what it must print."""

    def __init__(self, place, commands, programs):
        self.place, self.commands, self.wanted = place, commands, None
        self.missing = [program for program in programs if not shutil.which(program)]


def recipes_of(page):
    """Returns the blocks ```sh of a page, each with the block ```text after it."""
    text, recipes = shared.read(page), []
    blocks = list(re.finditer(r"(?ms)^```([^\n]*)\n(.*?)^```$", text))
    if len(re.findall("(?m)^```", text)) != 2 * len(blocks):
        sys.exit(f"{page}: a block has no end")
    for block in blocks:
        if block[1].startswith("sh"):
            line = text.count("\n", 0, block.start()) + 1
            place = f"{os.path.relpath(page, shared.TOP)} line {line}"
            recipes.append(Recipe(place, block[2], block[1].split()[1:]))
        elif block[1] == "text" and recipes and recipes[-1].wanted is None:
            recipes[-1].wanted = block[2]
    return recipes


def printed_by(recipes, top, folder, environment=None):
    """Returns what each of these recipes of a page prints, and its status, if it finished: they run in one shell at the top, with their
    own files in a folder."""
    script = f"cd '{top}' || exit\n"
    for number, recipe in enumerate(recipes):
        piece = os.path.join(folder, str(number))
        shared.write(piece, recipe.commands)
        script += f"{{ . '{piece}'; }} > '{piece}.printed' 2>&1\necho $? > '{piece}.status'\n"
    # A writer without a reader would wait forever.
    jobs = os.path.join(folder, "jobs")
    script += f"jobs -p > '{jobs}'\n[ ! -s '{jobs}' ] || kill $(cat '{jobs}') 2> /dev/null\n"
    shell = subprocess.Popen(["sh", "-c", script], stdin=subprocess.DEVNULL, env=environment)
    try:
        shell.wait(1800)
    except subprocess.TimeoutExpired:
        shell.kill()
    for piece in (os.path.join(folder, str(number)) for number in range(len(recipes))):
        printed = shared.read(piece + ".printed") if os.path.exists(piece + ".printed") else ""
        ended = os.path.exists(piece + ".status")
        yield printed, int(shared.read(piece + ".status")) if ended else None


def differences(recipe, printed, status):
    """Returns what is wrong with a recipe."""
    if status is None:
        yield f"its commands did not finish\n{printed}"
    elif printed != (recipe.wanted or ""):
        yield f"its commands print\n{printed}in place of\n{recipe.wanted or ''}"
    elif status != 0:
        yield f"its commands end with {status}"
