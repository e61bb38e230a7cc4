"""What makes documents, shapes and reports of what people have: answers, AnalysisRuns, parts of documents."""
