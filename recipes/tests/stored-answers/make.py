"""Prints an AnalysisRun that has one metric, of a provider, and these texts as the answers that a controller stored."""
import json
import sys

provider, texts = sys.argv[1], sys.argv[2:]
measurements = [{"finishedAt": f"2026-03-05T10:{number:02}:00Z", "phase": "Successful", "value": text}
                for number, text in enumerate(texts)]
json.dump({
    "apiVersion": "argoproj.io/v1alpha1", "kind": "AnalysisRun", "metadata": {"name": "r"},
    "spec": {"metrics": [{"name": "m", "interval": "1m", "provider": {provider: {}}}]},
    "status": {"metricResults": [{"name": "m", "count": len(texts), "successful": len(texts),
                                  "measurements": measurements}]}}, sys.stdout)
