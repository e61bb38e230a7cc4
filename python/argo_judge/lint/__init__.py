"""Findings about templates, and the rules that make them (recipes/lint)."""
