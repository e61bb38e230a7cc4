"""Checks of README.md, CONTRIBUTING.md, CHANGELOG.md and docs/: their words, command lines, and what is made of
sources."""
