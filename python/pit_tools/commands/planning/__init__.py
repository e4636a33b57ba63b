"""Commands that lead from an export to a pit, and back."""
