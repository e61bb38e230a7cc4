"""Prints what a SARIF report has, without its rules, of which it checks that each has a section of the page."""
import json
import pathlib
import sys

ROOT = pathlib.Path(__file__).resolve().parents[3]
report = json.load(sys.stdin)
run = report["runs"][0]
for rule in run["tool"]["driver"]["rules"]:
    page, _, section = rule["help"]["text"].removesuffix(" of argo_judge").partition("#")
    text = (ROOT / page).read_text(encoding="utf-8")
    if f"\n## {section}\n" not in text or section != rule["id"]:
        print(f"{rule['id']}: the page has no section of it")
del run["tool"]
print(json.dumps(report, indent=2))
