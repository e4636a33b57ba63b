"""Instances as arrays and sparse matrices: made of a plan, read, written, and as others publish."""
