"""Outputs: the replies as values, and whether they are those of some run."""
