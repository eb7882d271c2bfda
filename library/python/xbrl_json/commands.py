"""The command xbrl-filing of the wheel. The command xbrl-json is the program itself."""
from __future__ import annotations

import os
import sys
from importlib.metadata import files

from .filing.command import main


def program() -> str:
    """Returns the path of the program xbrl-json that was installed with this package."""
    for file in files("xbrl_json") or ():
        if file.name == "xbrl-json":
            return os.path.realpath(file.locate())
    return "xbrl-json"


def filing() -> int:
    """Runs xbrl-filing. Returns its exit status: 3 for what is not a fault of the report."""
    try:
        return main(sys.argv[1:], os.environ.get("XBRL_JSON") or program())
    except KeyboardInterrupt:
        return 130
    except Exception as error:
        if os.environ.get("XBRL_FILING_DEBUG") == "1":
            raise
        print(f"xbrl-filing: cannot start: {type(error).__name__}: {error}", file=sys.stderr)
        return 3
