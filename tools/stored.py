"""What the files of cases have in common: how many cases they hold, and how they tell long inputs and answers."""
import hashlib
import json
import re


def lines_of(path: str) -> list[tuple[int, str]]:
    """The lines of a file of cases with their numbers, without comments."""
    with open(path, encoding="utf-8") as file:
        lines = [(number, line.rstrip("\n")) for number, line in enumerate(file, 1)]
    return [(number, line) for number, line in lines if not line.startswith("#")]


def says_count(path: str, count: int) -> bool:
    """Whether the file of cases says of itself, in a comment as `# 12 cases`, that it holds this many."""
    with open(path, encoding="utf-8") as file:
        told = [re.match(r"# ([0-9]+) cases\b", line) for line in file if line.startswith("#")]
    return [int(found[1]) for found in told if found] == [count]


def bytes_of(told: str) -> bytes:
    """The bytes of an input: of a string of JSON, of a list of texts with how often each stands, or of `hex` and its bytes."""
    if told.startswith("hex "):
        return bytes.fromhex(told[4:])
    text = json.loads(told)
    return (text if isinstance(text, str) else "".join(part * count for part, count in text)).encode()


def is_due(answer: bytes, told: str) -> bool:
    """Whether an answer is the one that is due: a string of JSON, or the first sixteen digits of the SHA-256 of its bytes."""
    if told.startswith('"'):
        due: str = json.loads(told)
        return answer == due.encode()
    return hashlib.sha256(answer).hexdigest()[:16] == told
