"""Names and ranges of a plan and of an instance, as docs/formats.md has them."""
from __future__ import annotations

import re

NAME = re.compile(r"[A-Za-z0-9_.-]{1,64}")

#: The description of a name, for a message about one that is invalid.
WHAT_A_NAME_IS = "1 to 64 letters, digits, `_`, `-` and `.`"

#: Bytes of a plan.
MOST_PLAN_BYTES = 1 << 20

#: Rows of a zone file.
MOST_ROWS = 1_000_000

#: Blocks of an instance, the largest index along an axis, and the largest number of a zone.
MOST_BLOCKS, MOST_INDEX, MOST_ZONE = 64_000_000, 9999, 63

#: Tonnes of a block, and its g/t.
MOST_AMOUNT = 1_000_000

#: Benches of a mine.
MOST_HEIGHT = MOST_INDEX + 1

MOST_PERIODS, MOST_DESTINATIONS, MOST_RESOURCES = 100, 8, 8
