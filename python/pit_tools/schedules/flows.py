"""The ultimate pit as a maximum flow, in the DIMACS form."""
from __future__ import annotations

from typing import IO

import numpy as np
from scipy import sparse

from pit_tools.texts.number_texts import lines_of, multiples_of


def write_flow(values: np.ndarray, precedence: sparse.csr_matrix, file: IO[bytes]) -> None:
    """Writes the flow of a UPIT by its values (n,), in units of 100 cents, and its arcs (n, n).

    Node b + 1 is block b; then come the source and the sink. Capacities are cents, or of the finest
    decimal of the values."""
    worth, decimals = multiples_of(values)
    n, some = len(worth), np.flatnonzero(worth)
    no_limit = int(worth[worth > 0].sum()) + 1
    tail = np.where(worth[some] > 0, n + 1, some + 1)
    head = np.where(worth[some] > 0, some + 1, n + 2)
    rows = np.repeat(np.arange(n), np.diff(precedence.indptr))
    scale = "" if decimals == 2 else f"c capacities have {decimals} decimals\n"
    file.write(f"p max {n + 2} {len(some) + precedence.nnz}\n{scale}n {n + 1} s\nn {n + 2} t\n"
               .encode())
    file.writelines(lines_of([(tail, 0), (head, 0), (np.abs(worth[some]), 0)], begin=b"a "))
    file.writelines(lines_of([(rows + 1, 0), (precedence.indices + 1, 0)],
                             f" {no_limit}\n".encode(), b"a "))
