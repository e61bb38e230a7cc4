"""Prints an AnalysisRun of one metric `m`, as a controller leaves it, with the shape in an annotation.

    make.py METRIC SHAPE PHASE [VALUE]    a measurement of that phase, which the metric and the run have, too
    make.py METRIC SHAPE invalid          a metric that the controller refuses: the run is Error, and nothing is measured
"""
import json
import sys

metric, shape, phase, *value = sys.argv[1:]
measurement = {"phase": phase, "startedAt": "2026-03-05T10:00:00Z", "finishedAt": "2026-03-05T10:00:00Z"}
if value:
    measurement["value"] = value[0]
result = {"name": "m", "phase": phase, "count": 1, phase.lower(): 1, "measurements": [measurement]}
status = {"phase": "Error"} if phase == "invalid" else {"phase": phase, "metricResults": [result]}
json.dump({
    "apiVersion": "argoproj.io/v1alpha1", "kind": "AnalysisRun",
    "metadata": {"name": "r", "annotations": {"argo-judge/shapes": json.dumps({"m": json.loads(shape)})}},
    "spec": {"metrics": [{"name": "m", **json.loads(metric)}]}, "status": status}, sys.stdout)
