"""The rows of exports on a grid of blocks: checks, and the files that are written from them."""
