"""The ultimate pit and nested pits, their contents, their surfaces, and the way back to rows."""
