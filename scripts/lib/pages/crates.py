"""The page of crates, from crates.txt: crates/README.md, a line a crate, and the picture of the floors. A comment of
crates.txt is a floor, lowest first, and the crates under it stand on it.
"""

import re
from html import escape

from ..tree import TOP, floors

SOURCE = "crates.txt says"
LIST, PICTURE = TOP / "crates/README.md", TOP / "docs/floors.svg"
HEAD = "# Crates\n\n"
WIDE, ROW, LEFT, RIGHT = 1160, 22, 24, 330  # of the picture


def sentence(crate):
    """Returns the first sentence of the crate's README."""
    text = (TOP / "crates" / crate / "README.md").read_text().split("\n\n")[1]
    text = re.sub(r"\]\(\.\./", "](", " ".join(text.split()))
    return re.match(r".*?[.:](?= |$)", text)[0].rstrip(":.")


def list_of_crates():
    made = (
        HEAD
        + "The floors of the house, lowest first. A crate stands on floors below it, "
        + "and knows of each crate there its public\n"
        + "contract alone. `scripts/pages write` makes this page from `crates.txt`.\n\n"
        + "![The floors, lowest first](../docs/floors.svg)\n"
    )
    for name, has, crates in floors():
        made += f"\n## {name}\n\n{has[0].upper()}{has[1:]}.\n\n| Crate | What it has |\n|---|---|\n"
        made += "".join(f"| [{crate}]({crate}/README.md) | {sentence(crate)} |\n" for crate in crates)
    return made


def lines_of(crates):
    """Returns the names in as many lines as they need in the picture."""
    lines = [""]
    for crate in crates:
        if len(lines[-1]) + len(crate) > 92:
            lines.append("")
        lines[-1] += crate + "   "
    return lines


def picture():
    made, y = [], LEFT
    for name, _, crates in reversed(floors()):
        lines = lines_of(crates)
        high = ROW * len(lines) + 12
        made.append(f'<rect x="{LEFT}" y="{y}" width="{WIDE - 2 * LEFT}" height="{high}" rx="4"/>')
        made.append(f'<text class="name" x="{LEFT + 14}" y="{y + 22}">{escape(name)}</text>')
        made += [
            f'<text x="{RIGHT}" y="{y + 22 + ROW * k}" xml:space="preserve">{escape(line.rstrip())}</text>'
            for k, line in enumerate(lines)
        ]
        y += high + 6
    style = (
        "svg{background:#fff}rect{fill:#f3f4f9;stroke:#9aa1b1}text{font:13px ui-monospace,monospace;fill:#1c2330}"
        ".name{font:bold 14px system-ui,sans-serif}"
        "@media(prefers-color-scheme:dark){svg{background:#14171d}rect{fill:#1d2230;stroke:#58607a}text{fill:#e6e9f2}}"
    )
    return (
        f'<svg xmlns="http://www.w3.org/2000/svg" viewBox="0 0 {WIDE} {y + LEFT - 6}" width="{WIDE}" '
        f'height="{y + LEFT - 6}">\n'
        f"<title>The floors of the house, the highest first</title>\n<style>{style}</style>\n"
        + "\n".join(made)
        + "\n</svg>\n"
    )


def made():
    """Returns each page with its text."""
    return {LIST: list_of_crates(), PICTURE: picture()}


def findings():
    return []
