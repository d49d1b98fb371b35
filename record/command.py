"""What the commands that read logs share."""

import signal
import sys

from heap import RULES
from logs import BadLog


def run(name, usage, lines, with_version=False, many=False):
    """Prints the lines that are made of a version, or none if none is asked for, and of the logs that the words name: the exit status."""
    signal.signal(signal.SIGPIPE, signal.SIG_DFL)
    words, version = sys.argv[1:], None
    if words in (["-h"], ["--help"]):
        print(usage)
        return 0
    if with_version and words[:1] == ["--version"] and words[1:2] and words[1] in map(str, RULES):
        version, words = int(words[1]), words[2:]
    if not words or words[0].startswith("-") or (len(words) > 1 and not many):
        print(usage.splitlines()[0], file=sys.stderr)
        return 1
    try:
        told = list(lines(version, *words))
    except (BadLog, OSError) as why:
        print(f"{name}: {why}", file=sys.stderr)
        return 1
    sys.stdout.writelines(f"{line}\n" for line in told)
    return 0
