"""The contents of zones, compared with a package's resource report and a plan's worths."""
