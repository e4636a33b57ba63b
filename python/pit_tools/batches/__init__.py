"""Many instances by `pitc`, with a manifest of all that went in."""
