"""The report of an import."""
from __future__ import annotations

from dataclasses import dataclass, field


@dataclass
class Report:
    """The report of an import: `facts` in order, and `warnings` of what may be wrong."""

    facts: list[str] = field(default_factory=list)
    warnings: list[str] = field(default_factory=list)

    def text(self) -> str:
        lines = list(self.facts)
        if self.warnings:
            lines += ["", "LOOK AT"]
            lines += [f"- {line}" for line in self.warnings]
        return "\n".join(lines)


def figure(value: float) -> str:
    """A number with four figures, and no exponent."""
    return f"{float(f'{value:.4g}'):,.10g}"
