"""`python -m cosmos PART ..`: the part `farm` is all that there is so far."""
from __future__ import annotations

import sys
from typing import Sequence

from cosmos.farm import command

USAGE = "usage: python -m cosmos farm faults NET SCRIPT LIST\n       python -m cosmos farm batch NET [L] SCRIPT"


def main(words: Sequence[str]) -> int:
    """Answers the words after the module's name, and gives the status."""
    if words and words[0] == "farm":
        return command.main(words[1:], called="python -m cosmos farm")
    print(USAGE, file=sys.stderr)
    return 2


if __name__ == "__main__":
    sys.exit(main(sys.argv[1:]))
