"""Runs other solvers over many instances, within limits, with judged results."""
