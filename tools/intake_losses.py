"""What was left out or replaced, counted by kind, for tools/take-in."""
import collections
from collections.abc import Iterator

# How many of a kind are named.
MOST_TOLD = 8


class Losses:
    """Counts of what was lost: by kind, and within a kind by what it was."""

    def __init__(self) -> None:
        self.counts: dict[str, collections.Counter[str]] = collections.defaultdict(collections.Counter)

    def add(self, kind: str, what: str = "") -> None:
        self.counts[kind][what] += 1

    def lines(self) -> Iterator[str]:
        """A line for each kind, with what was lost most often."""
        for kind in sorted(self.counts):
            counts = self.counts[kind]
            named = [f"{what} {count}" for what, count in counts.most_common(MOST_TOLD) if what]
            more = [f"{len(counts) - MOST_TOLD} more"] if len(counts) > MOST_TOLD else []
            yield f"{kind}: {sum(counts.values())}" + (f" ({', '.join(named + more)})" if named else "")
