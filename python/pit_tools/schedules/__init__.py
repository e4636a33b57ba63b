"""Schedules, the programs that they solve, their bounds, and a search for good ones."""
