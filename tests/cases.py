"""Counts the cases of a test script, and prints those that fail."""
from typing import List

failed: List[str] = []
count = 0


def case(name: str, holds: bool, *seen: object) -> None:
    """Counts a case, and prints what was seen if it fails."""
    global count
    count += 1
    if not holds:
        failed.append(name)
        print(f"FAILED {name}: {' | '.join(map(str, seen))}"[:1000])


def told(what: str) -> int:
    """Prints the last line, which tests/run reads, and gives the status."""
    print(f"{what}: {count - len(failed)} as they must be, {len(failed)} not")
    return 1 if failed else 0
