"""What another template would have made of AnalysisRuns that ended."""
