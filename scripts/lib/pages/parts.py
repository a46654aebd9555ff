"""The parts of pages that `scripts/pages write` makes: each stands between two marks."""

import re


def rewritten(page, pieces, part=None):
    """Returns the page's text with these pieces in place of what it makes, or of the part of this name."""
    begin = f"{part}, by scripts/pages write" if part else "made by scripts/pages write"
    end = f"end of {part}" if part else "made until here"
    between = re.compile(rf"(?s)(?<=<!-- {begin} -->\n).*?(?=<!-- {end} -->)")
    return between.sub(lambda _: "".join(pieces), page.read_text())
