"""Numbers, units and lines as texts, and the ranges of the formats."""
