"""Parquet, by pandas and the package that it finds for it."""
from __future__ import annotations

import datetime
from decimal import Decimal

import numpy as np
import pandas as pd

from pit_tools.errors import UserError
from pit_tools.texts.decimals import plain

#: How a file begins.
MARK = b"PAR1"

NO_PARQUET = ("no package that reads and writes Parquet is installed: install pyarrow (python3 -m "
              "pip install pyarrow)")


def frame_of(path: str) -> pd.DataFrame:
    """The columns of a file, as pandas reads them, an index with a name among them. Raises
    UserError if no package reads Parquet, or this file cannot be read."""
    try:
        frame = pd.read_parquet(path)
    except ImportError:
        raise UserError(f"{path}: it is a Parquet file, and {NO_PARQUET}, or export as "
                        "CSV") from None
    except MemoryError:
        raise
    except Exception as error:  # pylint: disable=broad-except
        # Packages do not document what they raise for a damaged file.
        message = " ".join(str(error).split())[:200] or type(error).__name__
        raise UserError(f"{path}: the Parquet file cannot be read: {message}") from None
    if any(name is not None for name in frame.index.names):
        frame = frame.reset_index()
    return frame.rename(columns=str).reset_index(drop=True)


def texts_of(frame: pd.DataFrame) -> pd.DataFrame:
    """Returns the cells as texts, as a CSV file of the same columns has them: the shortest decimals
    of numbers, and an empty text for a missing value."""
    return frame.apply(_texts_of)


def _texts_of(column: pd.Series) -> pd.Series:
    known = column.notna()
    texts = pd.Series("", index=column.index, dtype=object)
    values = column[known]
    if isinstance(column.dtype, np.dtype) and column.dtype.kind in "iuf":
        texts[known] = values.to_numpy().astype(str).astype(object)
    else:
        texts[known] = [_text_of(value) for value in values]
    return texts


def _text_of(value: object) -> str:
    if isinstance(value, (bool, np.bool_)):
        return str(value).upper()
    if isinstance(value, bytes):
        return value.decode("utf-8", "replace")
    if isinstance(value, Decimal):
        return plain(value)
    if isinstance(value, (datetime.date, datetime.time)):
        return value.isoformat()
    return str(value)


def bytes_of(frame: pd.DataFrame) -> bytes:
    """The file of a frame. Raises UserError if no package writes Parquet, or two columns have
    one name."""
    names = frame.columns[frame.columns.duplicated()]
    if len(names):
        raise UserError(f"the export has a column `{names[0]}` already, but in Parquet each name "
                        "is unique: rename it in the export, and import again")
    try:
        return bytes(frame.to_parquet(index=False))
    except ImportError:
        raise UserError(NO_PARQUET) from None
