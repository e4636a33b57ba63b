"""How a plan and its instance were understood: facts, text, pictures and a page."""
