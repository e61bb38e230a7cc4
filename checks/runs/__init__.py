"""Random runs of metrics, by docs/use/phases.md: a board's core, workers, and cases of the suite."""
