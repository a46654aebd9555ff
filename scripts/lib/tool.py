"""What all tools do alike: a tool has commands, a module each, whose docstring is what `--help` says of it."""

import argparse
import importlib
import sys
from pathlib import Path


def run(says, commands):
    """Runs the command that the first word names, and ends with its status. `commands` has the module of each, which
    has `main(asked)`, and `options(parser)` if it takes words."""
    tool, words = Path(sys.argv[0]).name, sys.argv[1:]
    if words[:1] in ([], ["-h"], ["--help"]):
        print(says.strip(), file=sys.stdout if words else sys.stderr)
        sys.exit(0 if words else 2)
    if words[0] not in commands:
        sys.exit(f"scripts/{tool} has no command {words[0]}. It has: {', '.join(commands)}")
    module = importlib.import_module(f"lib.{commands[words[0]]}")
    sys.exit(status_of(module, f"scripts/{tool} {words[0]}", words[1:]))


def status_of(module, name, words):
    parser = argparse.ArgumentParser(
        prog=name, description=module.__doc__.strip(), formatter_class=argparse.RawDescriptionHelpFormatter
    )
    if hasattr(module, "options"):
        module.options(parser)
    try:
        return module.main(parser.parse_args(words))
    except KeyboardInterrupt:
        return 130


class Tally:
    """How many cases passed and how many failed."""

    def __init__(self, tells_all=True):
        self.tells_all, self.passed, self.failed = tells_all, 0, 0

    def tell(self, name, reason=None):
        """Counts a case, which failed if there is a reason, and prints its line."""
        self.passed, self.failed = self.passed + (not reason), self.failed + bool(reason)
        if reason:
            print(f"FAILED  {name}: {reason}", flush=True)
        elif self.tells_all:
            print(f"passed  {name}", flush=True)

    def end(self):
        """Prints the sums, and returns the exit status: 1 if a case failed, or if there was none."""
        print(f"{self.passed} passed, {self.failed} failed")
        return int(self.failed > 0 or not self.passed)
