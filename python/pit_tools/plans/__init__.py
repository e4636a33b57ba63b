"""Plans of `pitc` and their zone files: from words, with slopes and walls, varied, read and
written."""
