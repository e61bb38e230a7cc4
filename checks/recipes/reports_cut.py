"""Cuts a report at each of its characters, and says which of the parts `go-on` takes for a report of its document.

    bin/module checks.recipes.reports_cut DOCUMENT REPORT
"""

import json
import pathlib
import sys

from argo_judge.engine.reports import checked
from argo_judge.errors import Refused


def main(words: list[str]) -> None:
    document, text = (pathlib.Path(word).read_bytes().decode() for word in words)
    whole = json.loads(document)
    for length in range(len(text) - 1):
        try:
            checked(whole, text[:length], "document", "report")
            print(f"{length} characters of the report pass")
        except Refused:
            pass
    print(len(checked(whole, text, "document", "report")), "runs")


if __name__ == "__main__":
    main(sys.argv[1:])
