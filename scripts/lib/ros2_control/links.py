"""Which interfaces of ours the controllers claim and read, and which controllers can run together."""

from dataclasses import dataclass, field

from .listing import Place, Refused, plain, quoted
from .quantities import hint
from .robots import KINDS

# What one document has at most.
MOST = {"controllers": 64, "references": 96, "claims": 192, "reads": 256}
MOST_OF_A_KIND = 32  # that can be loaded: the program's stock has so many blanks of each
MOST_CLAIMS_OF_ONE = 32


@dataclass
class Claim:
    """A claim of ours: the joint and the kind that it commands, and whose reference it is, if it is one."""

    place: Place
    joint: object
    kind: str
    exporter: object = None

    def text(self):
        inner = f"{self.joint.name}/{self.kind}"
        return f"{self.exporter.name}/{inner}" if self.exporter else inner


@dataclass
class Linked:
    """The controllers with their claims and reads, of ours, by the names of the controllers."""

    robot: object
    listing: object
    controllers: list
    claims: dict = field(default_factory=dict)
    reads: dict = field(default_factory=dict)
    references: dict = field(default_factory=dict)  # by their paths in the YAML: the exporter, a joint, a kind

    def link(self):
        """Looks up all that is read and claimed. A controller of which one thing has no counterpart becomes a mock."""
        for it in self.controllers:
            self.export(it)
            is_all = it.reads is None
            self.reads[it.name] = None if is_all else [self.of_joint(it, name, "state") for name in it.reads]
            self.check_twice(it.reads or [], self.reads[it.name] or [], it)
        self.mock_if(lambda it: None in (self.reads[it.name] or []))
        for it in self.controllers:
            self.check_besides(it)
        while self.mock_if(lambda it: None in self.claimed(it)):
            pass
        for it in self.controllers:
            self.claims[it.name] = self.claimed(it) if it.kind != "mock" else []
            self.reads[it.name] = self.reads[it.name] if it.kind != "mock" else []
            self.check_twice(it.claims, self.claims[it.name], it)
        for gear in self.robot.gears:
            self.put_gear(gear)
        self.refuse_too_many()
        self.refuse_loops()

    def put_gear(self, gear):
        """Puts a transmission between its joint, which is the actuator then, and those who command it."""
        joint = self.robot.joint(gear.joint)
        claims = [it for own in self.claims.values() for it in own if joint and it.joint is joint and not it.exporter]
        if why := self.without_counterpart(gear, joint, claims):
            self.listing.left_out(gear.place, f"transmission {quoted(gear.given)}, because {why}")
            return
        it = gear.controller(self)
        self.claims[it.name], self.reads[it.name] = [Claim(gear.place, joint, claims[0].kind)], []
        for claim in claims:
            claim.exporter = it
        self.controllers.insert(0, it)
        joint.turns, joint.offset = gear.reduction, gear.offset
        self.listing.changed(
            gear.place,
            f"joint {quoted(gear.joint)} is the actuator of transmission {quoted(gear.given)}, "
            "also in what is read of it",
        )

    def without_counterpart(self, gear, joint, claims):
        """Answers why a transmission has no counterpart, or nothing."""
        if not claims:
            return f"no controller commands joint {quoted(gear.joint)}"
        if len({claim.kind for claim in claims}) > 1:
            return f"joint {quoted(gear.joint)} is commanded in several ways"
        if gear.reduction <= 0:
            return "its reduction is not above 0"
        for it in self.controllers:
            if it.kind != "broadcaster" and any(read.joint is joint for read in self.reads[it.name] or []):
                return f"{quoted(it.given)} reads joint {quoted(gear.joint)}, and a transmission has no states"
        return None

    def export(self, it):
        """Lists the references of a controller, each with the joint that it ends with."""
        for path in it.exports:
            joint, kind = self.ending(path)
            if joint and kind in KINDS:
                self.references[path] = (it, joint, kind)

    def ending(self, path):
        """Returns the joint that stands before the kind at the end of a path, and the kind."""
        front, _, kind = path.rpartition("/")
        while front:
            if joint := self.robot.joint(front):
                return joint, kind
            front = front.partition("/")[2]
        return None, kind

    def mock_if(self, lacks):
        """Makes a mock of each controller that lacks something, and answers whether there was one."""
        found = [it for it in self.controllers if it.kind != "mock" and lacks(it)]
        for it in found:
            it.kind = "mock"
            self.listing.changed(
                it.place,
                f"controller {quoted(it.given)} is a mock that claims nothing, "
                "because what it claims or reads was left out",
            )
        return bool(found)

    def check_besides(self, it):
        for which, name in it.also:
            self.claim(it, name) if which == "command" else self.of_joint(it, name, which)
        self.claimed(it)
        if it.fault:
            raise it.fault

    def claimed(self, it):
        return [self.claim(it, name) for name in it.claims]

    def check_twice(self, names, found, it):
        texts = [one.text() if one else None for one in found]
        for index, name in enumerate(names[: len(found)]):
            if texts[index] and texts[index] in texts[:index]:
                raise Refused(name.joint_place, f"{quoted(it.given)} has {quoted(name.path)} twice")

    def claim(self, it, name):
        """Returns the claim of ours, or nothing if it has no counterpart."""
        if name.path in self.references:
            exporter, joint, kind = self.references[name.path]
            return Claim(name.joint_place, joint, kind, exporter) if exporter.kind != "mock" else None
        return self.of_joint(it, name, "command")

    def of_joint(self, it, name, which):
        joint, kind = self.robot.joint(name.joint()), name.path.rpartition("/")[2]
        if (which, name.path) in self.robot.left_out:
            return None
        if joint:
            if kind not in getattr(joint, which):
                raise Refused(
                    name.kind_place,
                    f"{quoted(it.given)} names the {which} interface {quoted(name.path)}, "
                    f"and the joint has none of that kind ({joint.place})",
                )
            return Claim(name.joint_place, joint, kind)
        if self.is_of_a_mock(name):
            return None
        raise Refused(
            name.joint_place,
            f"{quoted(it.given)} names the joint {quoted(name.joint())}, "
            f"which no ros2_control tag of {plain(self.robot.file)} has{hint(name.path)}",
        )

    def is_of_a_mock(self, name):
        """Answers whether the path begins with a mock's name. Of another controller it is refused: that exports no such
        reference."""
        first, slash, _ = name.joint().partition("/")
        exporters = [other for other in self.controllers if slash and other.given == first]
        if any(other.kind != "mock" for other in exporters):
            is_other_kind = any(path.startswith(f"{name.joint()}/") for path in self.references)
            raise Refused(
                name.kind_place if is_other_kind else name.joint_place,
                f"{quoted(first)} exports no reference {quoted(name.path)}",
            )
        return bool(exporters)

    def followers(self, it):
        """Returns whom a controller commands, each with the place where it says so."""
        return [(claim.place, claim.exporter) for claim in self.claims[it.name] if claim.exporter]

    def refuse_loops(self):
        """Follows each controller to those that it leads, and refuses one that is reached from itself."""
        done = set()

        def follow(it, way):
            for place, follower in self.followers(it):
                if follower.name in way:
                    raise Refused(place, f"{quoted(it.given)} leads {quoted(follower.given)}, which leads back to it")
                if follower.name not in done:
                    follow(follower, way | {follower.name})
            done.add(it.name)

        for it in self.controllers:
            follow(it, {it.name})

    def refuse_too_many(self):
        states = sum(len(joint.state) for joint in self.robot.joints())
        counts, kinds = dict.fromkeys(MOST, 0), {}
        for it in self.controllers:
            claims, reads = self.claims[it.name], self.reads[it.name]
            kinds[it.kind] = kinds.get(it.kind, 0) + 1
            if len(claims) > MOST_CLAIMS_OF_ONE:
                raise Refused(it.place, f"{quoted(it.given)} claims more than {MOST_CLAIMS_OF_ONE} interfaces")
            if kinds[it.kind] > MOST_OF_A_KIND:
                why = f"with {quoted(it.given)} there are more than {MOST_OF_A_KIND} of the kind {it.kind}"
                raise Refused(it.place, why)
            counts["controllers"] += 1
            counts["references"] += len(claims) if it.kind in ("passthrough", "pid", "transmission") else 0
            counts["claims"] += len(claims)
            counts["reads"] += states if reads is None else len(reads)
            for what, count in counts.items():
                if count > MOST[what]:
                    raise Refused(it.place, f"with {quoted(it.given)} there are more than {MOST[what]} {what}")


@dataclass
class Together:
    """Which controllers are switched on, in one request, and why each other is not."""

    linked: Linked
    active: list = field(default_factory=list)
    resting: dict = field(default_factory=dict)  # by the names of the controllers: the joint, and who has it
    users: dict = field(default_factory=dict)  # who has a joint or a reference, and of which kind its claim is

    def join(self, it):
        """Switches a controller on with all that it leads, if each interface is free for them."""
        coming, users = self.with_followers(it), dict(self.users)
        for member in coming:
            for claim in self.linked.claims[member.name]:
                # A joint has one command at a time, of whatever kind.
                key = (claim.exporter.name, claim.joint.name, claim.kind) if claim.exporter else claim.joint.name
                use = (member.name, claim.kind)
                if users.setdefault(key, use) != use:
                    self.resting[it.name] = (claim.joint.name, users[key][0])
                    return
        self.users = users
        self.active += [member for member in coming if member not in self.active]

    def with_followers(self, it):
        """Returns the controller behind those that it leads, at any distance."""
        found = []

        def visit(member):
            for _, follower in self.linked.followers(member):
                if follower not in found:
                    visit(follower)
            if member not in found:
                found.append(member)

        visit(it)
        return found

    def is_led(self, it):
        return any(follower is it for other in self.active for _, follower in self.linked.followers(other))


def together(linked):
    """Returns who is switched on: each controller as the YAML lists it, if those before it leave it what it claims."""
    found = Together(linked)
    for it in linked.controllers:
        if it not in found.active:
            found.join(it)
    return found
