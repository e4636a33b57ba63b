"""Deposits by seed, and the library of their instances with bounds and known schedules."""
