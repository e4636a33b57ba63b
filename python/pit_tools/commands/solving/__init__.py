"""Commands for solvers: instances in other forms, bounds, and schedules."""
