"""Each export is right, reported, or refused with its cause: `tools/exports` prints which."""
from __future__ import annotations

import pytest

from export_verdicts import KINDS, verdict_of

EXPORTS = [export for made in KINDS.values() for export in made()]


@pytest.mark.parametrize("export", EXPORTS, ids=lambda export: export.name)
def test_an_export_is_right_reported_or_rejected_with_its_cause(export, tmp_path, monkeypatch):
    monkeypatch.chdir(tmp_path)
    verdict = verdict_of(export)
    assert verdict.outcome in ("right", "reported", "refused"), verdict.line


def test_each_export_has_a_name_and_a_truth_or_a_cause():
    assert len({one.name for one in EXPORTS}) == len(EXPORTS)
    assert all(one.rows or one.rejected for one in EXPORTS)
    counts = {kind: len(made()) for kind, made in KINDS.items()}
    assert counts["mistake"] + counts["various"] >= 88 and counts["preset"] >= 24
