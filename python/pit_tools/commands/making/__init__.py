"""Commands that make many instances."""
