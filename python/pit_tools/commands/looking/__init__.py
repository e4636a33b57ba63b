"""Commands that show what an instance, a pit or a schedule contains."""
