"""Where things lie on a page, and which interfaces it names."""

import re

MARKS = ("done-disc", "partly-disc", "bad-disc", "failure", "stop")
INTERFACE = re.compile(r"(?<![\w/…])[A-Za-z]\w*(?:/[A-Za-z]\w*)?/(?:position|velocity|effort)(?![\w/])")


def places(page):
    for name, area, items in page.sections():
        for it in items:
            if not it.box.is_within(area):
                yield f"{told(it)} is not within the section `{name}` ({area})"
    yield from overlaps(page)


def told(item):
    return f"{item.element} {item.kind} `{item.words or item.title}` at {item.box}"


def overlaps(page):
    """Texts that lie on another text or on a mark. The letter of a failure stands in the mark drawn right before it."""
    marks = [it for it in page.items if it.kind in MARKS]
    rows = {}
    for it in [*page.texts, *marks]:
        for row in range(int(it.box.top // 20), int(it.box.bottom // 20) + 1):
            rows.setdefault(row, []).append(it)
    seen = set()
    for items in rows.values():
        items.sort(key=lambda it: it.box.left)
        for place, one in enumerate(items):
            for other in items[place + 1 :]:
                if other.box.left > one.box.right:
                    break
                pair = tuple(sorted((one.order, other.order)))
                if pair not in seen and one.box.lies_on(other.box) and not are_one(one, other):
                    seen.add(pair)
                    yield f"{told(one)} and {told(other)} lie on one another"


def are_one(one, other):
    """Whether neither is a text, or one is the letter of the other, a mark."""
    if one.element != "text" and other.element != "text":
        return True
    letter, mark = (one, other) if one.kind == "letter" else (other, one)
    return letter.kind == "letter" and mark.kind == "failure" and letter.order == mark.order + 1


def names(page, interfaces):
    """`interfaces` are those that `list interfaces` prints, the references among them."""
    items = [it for it in page.items if it.kind != "title"]
    for it in items:
        for name in INTERFACE.findall(f"{it.words} {it.title}"):
            if name not in interfaces:
                yield f"{told(it)} names {name}, which is no interface"
    every = {name for it in items for name in INTERFACE.findall(f"{it.title} {it.words}")}
    for name in sorted(interfaces - every):
        if name.count("/") == 2:
            yield f"the reference {name} is nowhere"
