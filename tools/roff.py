"""Text in the language of man pages."""
import re
import textwrap
from typing import Iterable


def escaped(text: str) -> str:
    return text.replace("\\", r"\e").replace("-", r"\-")


def line_of(text: str) -> str:
    """Returns a line that is no request, even if its text begins like one."""
    return re.sub("^[.']", r"\\&\g<0>", text) + "\n"


def paragraph(text: str) -> str:
    """Returns a text in the page's language: text in backticks is bold, and no line is a request."""
    text = re.sub("`([^`]*)`", r"\\fB\1\\fR", escaped(text))
    return "".join(map(line_of, textwrap.wrap(text, 98, break_on_hyphens=False)))


def paragraphs(texts: Iterable[str]) -> str:
    return ".PP\n".join(map(paragraph, texts))
