"""The files of an instance as arrays and sparse matrices, and back byte for byte.

    from pit_tools import read_instance, write_instance
    mine = read_instance("deposit")              # deposit.blocks, .prec, .upit, .pcpsp, .cpit
    mine.precedence                              # CSR, (b, p) if block p precedes b
    mine.pcpsp.values                            # (blocks, destinations), in units of 100 cents
    mine.pcpsp.uses.matrix(0)                    # tonnes of resource 0, (blocks, destinations)
    write_instance(mine, "copy")

docs/formats.md defines each line of the files. All files that `pitc check` accepts are read, with
blank lines, comments and tabs. Values are floats nearest to their decimals: `cents(values)` makes
sums in cents exact.
"""
from __future__ import annotations

import os
from itertools import chain, takewhile
from typing import Any, Callable, Iterable, Iterator, Optional, Sequence

import numpy as np
from scipy import sparse

from pit_tools.errors import UserError, quoted
from pit_tools.files import outputs
from pit_tools.files.records import status_of
from pit_tools.instances.arrays import Blocks, Instance, Problem, UltimatePit, Uses, arcs_of
from pit_tools.instances.block_files import MOST_OF_A_BLOCK, read_blocks
from pit_tools.instances.models import (COEFFICIENTS, LIMITS, OBJECTIVE, read_model, read_upit)
from pit_tools.texts import number_texts
from pit_tools.texts.formats import (MOST_BLOCKS, MOST_DESTINATIONS, MOST_PERIODS, MOST_RESOURCES,
                                     NAME, WHAT_A_NAME_IS)
from pit_tools.texts.lines import Chunk, integers_of, line_lengths, opened, chunks_of

TEXTS = ("blocks", "prec", "upit", "pcpsp", "cpit")


# Reading


def remarks_of(path: str) -> list[str]:
    """The comments with which a file of an instance begins, without their marks: at most 9, of at
    most 200 bytes each.

    Raises UserError if the file cannot be opened.
    """
    with opened(path) as file:
        lines = [file.readline(200) for _ in range(9)]
    prefix = takewhile(lambda line: line.startswith(b"%"), lines)
    return [line[1:].decode("utf-8", "replace").strip() for line in prefix]


def arcs_in(chunk: Chunk) -> tuple[np.ndarray, np.ndarray, np.ndarray]:
    """The identifiers, numbers of predecessors, and predecessors of lines `id k p1 .. pk`."""
    lengths = line_lengths(chunk.text)
    fields = integers_of(chunk.text)
    starts = np.cumsum(lengths) - lengths
    if not len(lengths) or len(fields) != lengths.sum() or lengths.min() < 2:
        for row, (_, line) in enumerate(chunk.lines()):
            cells = line.split()
            if len(cells) < 2 or not all(cell.lstrip("+-").isdecimal() for cell in cells):
                chunk.reject(row, "it is not a line `id k p1 .. pk`")
        raise UserError(f"{chunk.path}: lines from {chunk.first} on cannot be read")
    is_wrong = fields[starts + 1] != lengths - 2
    if is_wrong.any():
        row = int(is_wrong.argmax())
        chunk.reject(row, f"a line `id k p1 .. pk` has {lengths[row] - 2} predecessors, but k is "
                          f"{fields[starts[row] + 1]}")
    is_predecessor = np.ones(len(fields), dtype=bool)
    is_predecessor[starts] = is_predecessor[starts + 1] = False
    return fields[starts], lengths - 2, fields[is_predecessor]


def _in_turn(chunk: Chunk, ids: np.ndarray, done: int) -> None:
    """Raises UserError, with the line, if identifiers do not rise by one."""
    is_wrong = ids != np.arange(done, done + len(ids))
    if is_wrong.any():
        chunk.reject(int(is_wrong.argmax()), "identifiers are not 0, 1, 2, ..")


def read_precedence(path: str, blocks: Optional[int] = None) -> sparse.csr_matrix:
    """Reads a precedence file as a matrix (n, n), 1 at (b, p) if block p is a predecessor of block
    b.

    It uses 5 bytes per arc. Raises UserError if a line is not `id k p1 .. pk`, identifiers are not
    0, 1, 2, .., the number of lines differs from the number of blocks, or a predecessor is not a
    block.
    """
    counts, above, done = [], [], 0
    for chunk in chunks_of(path, True):
        ids, count, predecessors = arcs_in(chunk)
        _in_turn(chunk, ids, done)
        done += len(ids)
        counts.append(count)
        if len(predecessors) and not 0 <= predecessors.min() <= predecessors.max() < 2**31:
            raise UserError(f"{path}: a predecessor is not a block")
        above.append(predecessors.astype(np.int32))
    starts = (np.concatenate([[0], np.cumsum(np.concatenate(counts))]) if counts
              else np.zeros(1, int))
    n = len(starts) - 1
    indices = np.concatenate(above) if above else np.empty(0, np.int32)
    if blocks is not None and n != blocks:
        raise UserError(f"{path}: it has {n} lines, but there are {blocks} blocks")
    if len(indices) and indices.max() >= n:
        raise UserError(f"{path}: a predecessor is not a block: {indices.max()}")
    starts = starts.astype(np.int32 if starts[-1] < 2**31 else np.int64)
    matrix = sparse.csr_matrix((n, n), dtype=np.int8)
    matrix.indptr, matrix.indices = starts, indices
    matrix.data = np.ones(len(indices), dtype=np.int8)
    return matrix


def count_predecessors(path: str) -> np.ndarray:
    """Returns the number of predecessors in the second field of each line of a precedence file,
    (n,).

    The remainder of the line is skipped, so a file of hundreds of millions of arcs takes seconds.
    Raises UserError if identifiers are not 0, 1, 2, ..
    """
    counts, done = [], 0
    for chunk in chunks_of(path, True):
        fields = integers_of(_heads(chunk.text))
        ids = fields[::2]
        if not len(ids) or len(fields) % 2:
            raise UserError(f"{path}: not a line of the precedence file of these blocks")
        _in_turn(chunk, ids, done)
        done += len(ids)
        counts.append(fields[1::2])
    return np.concatenate(counts) if counts else np.empty(0, dtype=np.int64)


def _heads(chunk: bytes) -> bytes:
    """The first two fields of each line."""
    text = np.frombuffer(chunk, dtype=np.uint8)
    ends = np.flatnonzero(text == 10)
    starts = np.concatenate([[0], ends[:-1] + 1])
    # An identifier and a count have at most 8 digits each, so that 18 bytes hold both.
    window = starts[:, None] + np.arange(19)
    inside = window <= ends[:, None]
    shown = np.where(inside, text[np.minimum(window, len(text) - 1)], 10)
    blanks = np.cumsum((shown == 32) | (shown == 9), axis=1)
    head = np.where((blanks < 2) & (shown > 32), shown, 32).astype(np.uint8)
    head[:, -1] = 10
    return head.tobytes()


def read_problem(path: str, kind: Optional[str] = None) -> Problem:
    """Reads a PCPSP or a CPIT file: values (n, D) in units of 100 cents, uses and limits in tonnes,
    the rate for one period. The file's ending gives the kind by default.

    Raises UserError for any other file, or if a section is missing or its parts contradict each
    other.
    """
    kind = kind or os.path.splitext(path)[1][1:].upper()
    return read_model(path, kind if kind in ("PCPSP", "CPIT") else _kind_of(path))


def _kind_of(path: str) -> str:
    with opened(path) as file:
        head = file.read(4096).decode("utf-8", "replace")
    for line in head.splitlines():
        key, _, value = line.partition(":")
        if key.strip() == "TYPE" and value.strip() in ("PCPSP", "CPIT"):
            return value.strip()
    raise UserError(f"{path}: its TYPE is neither PCPSP nor CPIT")


def read_instance(base: str, texts: Sequence[str] = TEXTS,
                  precedence: Optional[str] = None) -> Instance:
    """Reads the files BASE.blocks and so on, those in `texts`; BASE.upit and BASE.cpit may be
    missing. The precedence file is the one at `precedence` if it is given, such as one of
    `pitc_thin`.

    Raises UserError if a file is invalid, or if their numbers of blocks differ.
    """
    readers: dict[str, Callable[[str], Any]] = {
        "blocks": read_blocks, "prec": read_precedence, "upit": read_upit,
        "pcpsp": lambda path: read_problem(path, "PCPSP"),
        "cpit": lambda path: read_problem(path, "CPIT")}
    parts: dict[str, Any] = {}
    for text in texts:
        path = precedence if text == "prec" and precedence is not None else f"{base}.{text}"
        if text in ("upit", "cpit") and status_of(path) is None:
            continue
        parts["precedence" if text == "prec" else text] = readers[text](path)
    sizes: dict[str, Callable[[Any], int]] = {"blocks": len,
                                              "precedence": lambda part: part.shape[0]}
    counts = {name: sizes.get(name, lambda part: len(part.values))(part)
              for name, part in parts.items()}
    if len(set(counts.values())) > 1:
        message = ", ".join(f"{name} {count}" for name, count in counts.items())
        raise UserError(f"{base}: the files differ in their numbers of blocks: {message}")
    return Instance(**parts)


# Writing


def write_blocks(blocks: Blocks, path: str, remark: str = "") -> None:
    """A block file, which begins with the remark if there is one."""
    columns = [(np.arange(len(blocks)), 0), (blocks.x, 0), (blocks.y, 0), (blocks.z, 0),
               (number_texts.multiples_of(blocks.tonnes, [3])[0], 3),
               (number_texts.multiples_of(blocks.grade, [6])[0], 6),
               (blocks.zone, 0)]
    _write(path, "blocks", number_texts.lines_of(columns), remark)


def write_precedence(precedence: sparse.spmatrix, path: str, remark: str = "") -> None:
    """A precedence file: a line `id k p1 .. pk` for each row of a matrix of any format, after the
    remark if there is one."""
    precedence = arcs_of(precedence)

    def chunks(rows: int = 1 << 16) -> Iterator[bytes]:
        starts = precedence.indptr
        for first in range(0, precedence.shape[0], rows):
            last = min(first + rows, precedence.shape[0])
            counts = np.diff(starts[first:last + 1]).astype(np.int64)
            heads = np.cumsum(counts + 2) - (counts + 2)
            fields = np.empty(int((counts + 2).sum()), dtype=np.int64)
            is_predecessor = np.ones(len(fields), dtype=bool)
            is_predecessor[heads] = is_predecessor[heads + 1] = False
            fields[heads], fields[heads + 1] = np.arange(first, last), counts
            fields[is_predecessor] = precedence.indices[starts[first]:starts[last]]
            ends = np.full(len(fields), 32, dtype=np.uint8)
            ends[heads + counts + 1] = 10
            yield from number_texts.lines_of([(fields, 0)], ends)
    _write(path, "prec", chunks(), remark)


def write_upit(upit: UltimatePit, path: str, end: bytes = b"", remark: str = "") -> None:
    """A UPIT file, which begins with the remark if there is one; `end` follows its last line."""
    head = f"NAME: {upit.name}\nTYPE: UPIT\nNBLOCKS: {len(upit.values)}\n{OBJECTIVE}:\n"
    _write(path, "model", chain([head.encode()], _objective_lines(upit.values[:, None]), [end]),
           remark)


def write_problem(problem: Problem, path: str, end: bytes = b"", remark: str = "") -> None:
    """A PCPSP or a CPIT file, by the problem's kind, which begins with the remark if there is one;
    `end` follows its last line."""
    is_pcpsp = problem.kind == "PCPSP"
    keys = {"NAME": problem.name, "TYPE": problem.kind, "NBLOCKS": len(problem.values),
            "NPERIODS": problem.periods, "NDESTINATIONS": problem.destinations,
            "NRESOURCE_SIDE_CONSTRAINTS": problem.resources, "NGENERAL_SIDE_CONSTRAINTS": 0,
            "DISCOUNT_RATE": number_texts.shortest(problem.rate)}
    if not is_pcpsp:
        del keys["NDESTINATIONS"], keys["NGENERAL_SIDE_CONSTRAINTS"]
    head = "".join(f"{key}: {value}\n" for key, value in keys.items()) + f"{OBJECTIVE}:\n"
    limits = "".join(f"{limit.resource} {limit.period} {limit.letter} "
                     f"{' '.join(map(number_texts.shortest, limit.ends))}\n"
                     for limit in problem.limits)
    _write(path, "model",
           chain([head.encode()], _objective_lines(problem.values), [f"{COEFFICIENTS}:\n".encode()],
                 _uses_lines(problem.uses, is_pcpsp), [f"{LIMITS}:\n{limits}".encode(), end]),
           remark)


def _objective_lines(values: np.ndarray) -> Iterator[bytes]:
    return number_texts.lines_of_values([np.arange(len(values))], list(values.T), (2, 6))


def _uses_lines(uses: Uses, with_destination: bool) -> Iterator[bytes]:
    whole = [uses.block, *([uses.destination] if with_destination else []), uses.resource]
    return number_texts.lines_of_values(whole, [uses.amount], (3, 6))


def _write(path: str, kind: str, chunks: Iterable[bytes], remark: str) -> None:
    with outputs.opened(path, kind) as file:
        for chunk in chain([f"% {remark}\n".encode()] if remark else [], chunks):
            file.write(chunk)


def _judge(holds: bool, message: str) -> None:
    if not holds:
        raise UserError(f"{message}: pitc check would reject it, so nothing was written")


def _judge_for_pitc(instance: Instance) -> None:
    """Rejects an instance that `pitc check` would reject."""
    problems = [problem for problem in (instance.pcpsp, instance.cpit) if problem]
    counts = [len(part.values) for part in (*problems, instance.upit) if part]
    counts += [len(instance.blocks)] if instance.blocks else []
    counts += [instance.precedence.shape[0]] if instance.precedence is not None else []
    _judge(len(set(counts)) < 2, f"the parts differ in their numbers of blocks: {counts}")
    _judge(all(0 < count <= MOST_BLOCKS for count in counts), f"there are {max(counts, default=0)} "
           "blocks")
    if instance.blocks:
        for (name, most), column in zip(MOST_OF_A_BLOCK.items(), vars(instance.blocks).values()):
            _judge(bool(((column >= 0) & (column <= most)).all()),
                   f"{name} is not from 0 to {most:,} in each block")
    if instance.precedence is not None:
        _judge(not instance.precedence.diagonal().any(), "a block is its own predecessor")
    for name in [part.name for part in problems] + ([instance.upit.name] if instance.upit else []):
        _judge(NAME.fullmatch(name) is not None,
               f"the name is {quoted(name)}, but it must have {WHAT_A_NAME_IS}")
    for problem in problems:
        _judge_problem(problem)


def _look_at_ranges(problem: Problem, path: str) -> None:
    uses = problem.uses
    for what, column, end in (("block", uses.block, len(problem.values)),
                              ("destination", uses.destination, problem.destinations),
                              ("resource", uses.resource, problem.resources)):
        if len(column) and not 0 <= column.min() <= column.max() < end:
            raise UserError(f"{path}: a coefficient's {what} is not below {end}")
    for limit in problem.limits:
        if not (0 <= limit.resource < problem.resources and 0 <= limit.period < problem.periods):
            raise UserError(f"{path}: a limit's resource or period does not exist: "
                            f"{limit.resource} {limit.period}")


def _judge_problem(problem: Problem) -> None:
    """Rejects a PCPSP or a CPIT that `pitc check` would reject."""
    _judge(0 <= problem.rate <= 1 and round(problem.rate, 6) == problem.rate,
           f"the rate is {problem.rate!r}, not a number from 0 to 1 with 6 decimals")
    _judge(1 <= problem.periods <= MOST_PERIODS, f"there are {problem.periods} periods")
    _judge(0 <= problem.resources <= MOST_RESOURCES, f"there are {problem.resources} resources")
    _judge(1 <= problem.destinations <= (MOST_DESTINATIONS if problem.kind == "PCPSP" else 1),
           f"there are {problem.destinations} destinations")
    _look_at_ranges(problem, f"the {problem.kind}")
    uses = problem.uses
    places = ((uses.block.astype(np.int64) * MOST_DESTINATIONS + uses.destination)
              * MOST_RESOURCES + uses.resource)
    _judge(bool((places[1:] > places[:-1]).all()), "coefficients do not rise")
    order = [(limit.resource, limit.period) for limit in problem.limits]
    _judge(order == sorted(set(order)), "limits do not rise by resource and period")
    for limit in problem.limits:
        wanted = {"L": (False, True), "G": (True, False), "I": (True, True)}.get(limit.letter)
        finite = np.isfinite([limit.least, limit.most])
        _judge(wanted == tuple(finite) and limit.least <= limit.most,
               f"a limit {limit.letter} from {limit.least:g} to {limit.most:g}")
        number_texts.nearest(np.array(limit.ends), 6)


def write_instance(instance: Instance, base: str, end: bytes = b"", remark: str = "",
                   as_published: bool = False) -> None:
    """Writes the existing parts of an instance to BASE.blocks and so on: the bytes of `pitc`. They
    appear together, or none does. Each file begins with the remark, one line, if there is one, as a
    comment; `end` follows each model. In a command other files of an instance at BASE are removed,
    or are an error (outputs.together).

    Raises UserError for what `pitc check` rejects: a name, number or order that no file of `pitc`
    has, or parts that differ in their numbers of blocks. `as_published` leaves ranges and orders to
    other programs. Also raises it for a number that has more decimals than its file, and OSError if
    a file cannot be written.
    """
    if not as_published:
        _judge_for_pitc(instance)
    with outputs.together(record=base, others=[f"{base}.{text}" for text in TEXTS]):
        if instance.blocks is not None:
            write_blocks(instance.blocks, base + ".blocks", remark)
        if instance.precedence is not None:
            write_precedence(instance.precedence, base + ".prec", remark)
        if instance.upit is not None:
            write_upit(instance.upit, base + ".upit", end, remark)
        for problem in filter(None, (instance.pcpsp, instance.cpit)):
            write_problem(problem, f"{base}.{problem.kind.lower()}", end, remark)
