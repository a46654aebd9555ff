"""Another implementation, if one is named: it judges what the program answers."""

import functools
import sys
from pathlib import Path

STAGE = "r16"  # of the documents that it makes
JUDGED = "r18"  # what it is told that a document may have: every kind of controller
PLANNED = "r20"  # and that plans and workers are asked for: the program has no later word


def other_option(parser, what):
    """Lets the words name another implementation, of which the help says what it does here."""
    parser.add_argument("--other", type=Path, metavar="FOLDER", help=f"of another implementation, {what}")


@functools.cache
def judge(folder):
    """The call by which the other implementation in this folder judges an answer, or None if there is none."""
    if not folder or not (folder / "cm_oracle").is_dir():
        return None
    sys.path.insert(0, str(folder))
    return __import__("cm_oracle").disagreement
