"""What a trace tells, and whether the log of a page and what stands there in words tell the same."""

from dataclasses import dataclass

from .layout import INTERFACE

CALLS = ("load", "configure", "cleanup", "unload", "rate", "send")
FALLBACK = "fallback"  # what stands in place of a ticket if fallbacks were asked for
LOG = "Requests, and calls that were refused"
NOTHING = "Nothing was refused, left out or stopped, and nothing failed."
MEND = "    mend: "


@dataclass(frozen=True)
class Row:
    """A row of the log: a request that was decided, fallbacks that were asked for, or a call that did nothing."""

    ticket: str
    cycle: str
    who: str
    call: str
    outcome: str


class Told:
    """What a trace tells: rows of the log, how often things happened, and how each line begins that tells what went
    wrong. Of each group its members are given, by its name."""

    def __init__(self, trace, cycles, groups):
        self.rows, self.asked, self.cycles, self.ended = [], {}, cycles, 0
        self.groups = groups
        self.failed = self.stopped = 0
        self.whys = []
        for line in trace.splitlines():
            who, rest = line.split(" ", 1)
            call, reply = rest.split(": ", 1)
            self.read(who, self.with_members(call), reply)

    def with_members(self, call):
        """A call, and behind it the members of each described group that it names."""
        named = (
            dict.fromkeys(word[2:] for word in call.split(" ") if word[1:2] == "@")
            if call.startswith("switch ")
            else ()
        )
        members = [f"{name}: {' '.join(self.groups[name])}" for name in named if name in self.groups]
        return f"{call} ({'; '.join(members)})" if members else call

    def read(self, who, call, reply):
        word = call.split(" ")[0]
        if who == "loop" and word in ("begin", "close"):
            self.decide(reply)
        elif who == "loop" and word == "end":
            items = reply.split("; ")
            self.failed += sum(
                it.startswith("fail ") or it.startswith("run ") and it.endswith(" error") for it in items
            )
            self.stopped += sum(it.startswith("stop ") for it in items)
            self.go_wrong([it.split(" ") for it in items])
            self.ended += 1
        elif reply.startswith("queued "):
            self.asked[reply.split(" ")[1]] = (who, call)
        elif word in ("switch", "hw") or word in CALLS and not reply.startswith("ok"):
            self.rows.append(Row("", self.now(), who, call, reply))
            when = "after the close" if reply == "loop_ended" else f"cycle {self.ended}"
            self.whys.append(f"{when}, {who}: {call}: refused, ")

    def go_wrong(self, items):
        for words in items:
            if words[0] == "fail":
                self.whys.append(f"cycle {self.ended}, {words[1]}: its {words[2]} failed")
            elif words[0] == "run" and words[2:] == ["error"]:
                self.whys.append(f"cycle {self.ended}, {words[1]}: its update failed")
            elif words[0] == "stop":
                self.whys.append(f"cycle {self.ended}, {words[1]}: stopped, ")

    def now(self):
        return str(self.ended) if self.ended < self.cycles else "close"

    def decide(self, reply):
        for one in reply.split("; ") if reply != "none" else []:
            ticket, outcome = one.split(" ", 1)
            if ticket == FALLBACK:
                self.rows.append(Row("", self.now(), "", FALLBACK, outcome))
                self.whys += [
                    f"cycle {self.ended}: {FALLBACK} {one.split(' ')[0]} for " for one in left_out_of(outcome)
                ]
            else:
                self.rows.append(Row(ticket, self.now(), *self.asked[ticket], outcome))
                self.decided(*self.asked[ticket], outcome)

    def decided(self, who, call, outcome):
        if outcome == "loop_ended":
            self.whys.append(f"at the close, {who}: {call}: not decided, ")
        elif outcome.startswith("refused "):
            self.whys.append(
                f"cycle {self.ended}, {who}: {call}: refused, {told_as(outcome.removeprefix('refused '))} "
            )
        for one in left_out_of(outcome):
            self.whys.append(f"cycle {self.ended}, {who}: {call}: left out, {told_as(one)} ")

    def counts(self):
        decided = [it for it in self.rows if it.ticket]
        turned = [it for it in self.rows if not it.ticket and it.call.split(" ")[0] in ("switch", "hw")]
        others = [it for it in self.rows if not it.ticket and it.call != FALLBACK and it not in turned]
        count = lambda word: sum(it.outcome.split(" ")[0] == word for it in decided)
        text = f"requests: {count('done')} done, {count('refused')} refused"
        text += f", {count('loop_ended')} not decided" if count("loop_ended") else ""
        text += f", {len(turned)} turned away" if turned else ""
        text += f" · other calls refused: {len(others)}" if others else ""
        return f"{text} · failures: {self.failed} · stops of controllers: {self.stopped}"


def left_out_of(outcome):
    """The names that were left out of what was done, each with its cause."""
    return outcome.split(" dropped ")[1].split(", ") if " dropped " in outcome else []


def told_as(one):
    """How the words begin that tell of a name and its cause."""
    name, cause = one.split(" ")[:2]
    return f"no group {name}" if cause == "no_group" else name


def log_of(page):
    """The rows of a page's log: texts of facts, and the lines of words; and what it says last of those that it leaves
    out.
    """
    rows, more = [], ""
    for it in page.section(LOG):
        if it.kind in ("done-disc", "partly-disc", "bad-disc"):
            rows.append(([], []))
        elif it.element == "text" and it.kind == "row":
            rows[-1][0].append(it.title or it.words)
        elif it.element == "text" and it.kind.endswith("-words"):
            rows[-1][1].append(it.words)
        elif it.element == "text" and it.kind == "dim" and it.words.startswith("and "):
            more = it.words
    return rows, more


def log(page, told):
    if all(it.words != told.counts() for it in page.texts if it.kind == "note"):
        yield f"the heading does not say `{told.counts()}`"
    rows, more = log_of(page)
    left_out = told.rows[len(rows) :]
    if len(rows) > len(told.rows):
        yield f"the log has {len(rows)} rows, and there were {len(told.rows)}"
    if left_out:
        done = sum(it.outcome.startswith("done") for it in left_out)
        count = len(left_out)
        said = f"and {count} more, which have no room here: {done} done, {count - done} not done"
        if more != said:
            yield f"the log says `{more}` in place of `{said}`"
    for row, (facts, lines) in zip(told.rows, rows):
        yield from row_faults(row, facts, lines)


def row_faults(row, facts, lines):
    wanted = [it for it in (row.ticket, row.cycle, row.who) if it]
    if facts != wanted:
        yield f"the log's row {facts} is to be {wanted}"
    cut = bool(lines) and lines[-1].startswith("… and ")
    said = "".join(lines[:-1] if cut else lines).replace(" ", "")
    call = row.call.replace(" ", "")
    if cut:
        call = call[: len(said)]
    if not said.startswith(call):
        yield f"the log's words `{said[:80]}` do not begin with the call `{row.call[:80]}`"
    if not cut:
        said = said[len(call) :]
        # Behind fallbacks stands whose they are.
        yield from outcome_faults(row, said[said.find(":") :] if row.call == FALLBACK else said)


def outcome_faults(row, said):
    word = row.outcome.split(" ")[0]
    begin = {"done": ":done", "loop_ended": ":notdecided" if row.ticket else ":refused"}.get(word, ":refused")
    if not said.startswith(begin):
        yield f"`{row.call}: {row.outcome}` is told as `{said[:80]}`"
    for name in INTERFACE.findall(row.outcome):
        if name not in said:
            yield f"`{row.call}: {row.outcome}` is told without {name}"
    if row.ticket and word == "refused" and row.outcome.split(" ")[1] not in said:
        yield f"`{row.call}: {row.outcome}` is told without its name"
    dropped = len(left_out_of(row.outcome))
    if said.count(";without") != dropped:
        yield f"`{row.call}: {row.outcome}` tells {said.count(';without')} that were left out"


def whys(text, told):
    """The faults of what is told in words: a line for all that went wrong in the trace, and below each what would mend
    it.
    """
    lines = text.splitlines()
    if not told.whys and lines != [NOTHING]:
        yield "nothing went wrong, which is not told in words"
    elif told.whys and len(lines) != 2 * len(told.whys):
        yield f"{len(lines)} lines tell in words the {len(told.whys)} things that went wrong"
    for wanted, line, mend in zip(told.whys, lines[::2], lines[1::2]):
        if not line.startswith(wanted) or not mend.startswith(MEND):
            yield f"`{line[:120]}` is to begin with `{wanted[:120]}`, and below it what would mend it"
