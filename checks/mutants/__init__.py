"""Mutants of the crates: how they are tried, and the record of those that were refused."""
