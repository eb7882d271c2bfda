"""The summary of a run over many reports: those of the reports together."""

from __future__ import annotations

import json
from contextlib import suppress
from typing import Any, Dict, List, Optional

from .counts import MEMBERS
from .marked_output import SUMMARY, is_of_kind, write_marked
from .outcomes import Outcome

SHOWN = ("trueWithoutFacts", "falseWithFacts")


class ManySummaries:
    """Adds up the summaries of the reports that have ended, if a summary is asked for."""

    def __init__(self, path: Optional[str]) -> None:
        """Take the path of the file that is to be written."""
        self.path = path
        self.total = dict.fromkeys(MEMBERS, 0)
        self.outcomes: Dict[str, int] = {}
        self.reports: List[Dict[str, Any]] = []

    def add(self, outcome: Outcome, path: str) -> None:
        """Add a report that has ended, whose summary is at a path if it has one."""
        if self.path is None:
            return
        has_one = is_of_kind(path, SUMMARY)
        summary = read_summary(path) if has_one else {}
        total = summary.get("total")
        numbers = total if isinstance(total, dict) else {}
        for name in MEMBERS:
            self.total[name] += numbers.get(name) or 0
        self.outcomes[outcome.outcome] = self.outcomes.get(outcome.outcome, 0) + 1
        report: Dict[str, Any] = {"report": outcome.report, "outcome": outcome.outcome}
        report["summary"] = path if has_one else None
        report["faults"] = outcome.faults
        report.update((name, numbers.get(name)) for name in MEMBERS)
        report.update((name, summary.get(name, [])) for name in SHOWN)
        self.reports.append(report)

    def write(self, seconds: float) -> None:
        """Write the file."""
        if self.path is None:
            return
        value = {
            "kind": "xbrl-filing summary",
            "outcomes": self.outcomes,
            "seconds": round(seconds, 3),
            "total": self.total,
            "reports": sorted(self.reports, key=lambda report: str(report["report"])),
        }
        write_marked(self.path, SUMMARY, json.dumps(value, indent=2) + "\n")


def read_summary(path: str) -> Dict[str, Any]:
    """Return the summary of a report; nothing if it cannot be read."""
    with suppress(OSError, ValueError, RecursionError):
        with open(path, encoding="utf-8") as file:
            value = json.load(file)
        return value if isinstance(value, dict) else {}
    return {}
