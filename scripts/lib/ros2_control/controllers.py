"""What a YAML says of its controllers: each becomes one of our kinds, or a mock that claims nothing."""

import difflib
import re
from dataclasses import dataclass, field

from .gains import tuning
from .listing import Place, Refused, plain, quoted
from .names import Names
from .quantities import HIGHEST_RATE
from .yaml_files import nodes_of, value_of, yaml_file

MANAGER = "controller_manager"
USUAL_RATE = 100  # hertz, of a manager that is told none
INITIAL = "hardware_components_initial_state"
TYPE = re.compile(r"[a-z]\w*/[A-Z]\w*", re.ASCII)
FALLBACKS = "fallback_controllers"
MOST_FALLBACKS = 8  # of one controller of ours
OF_CONTROLLERS = (FALLBACKS, "params_file")  # keys of a controller in the manager's list besides its type
LIKE_TYPE = 0.7  # how like `type` a key is that was meant to be it, as `typ` and `tpye`; no parameter of a manager is


@dataclass(frozen=True)
class Named:
    """An interface as the YAML names it, with the places at which its joint and its kind stand."""

    path: str
    joint_place: Place
    kind_place: Place

    def joint(self):
        return self.path.rpartition("/")[0]


@dataclass(eq=False)
class Controller:
    """A controller of ours, with what it claims and reads as the YAML names it. Several may be of one that it gives."""

    place: Place
    given: str
    name: str
    kind: str = "mock"
    rate: int = 0
    claims: list = field(default_factory=list)
    reads: list = field(default_factory=list)  # nothing in place of a list for all states
    numbers: dict = field(default_factory=dict)
    exports: list = field(default_factory=list)  # the references that others may claim, by their paths in the YAML
    fallbacks: list = field(default_factory=list)  # who stands in for it, by the names in the YAML, with their places
    stand_ins: list = field(default_factory=list)  # the names of ours that these are
    also: list = field(default_factory=list)  # what it names besides and has to be there, each as a command or a state
    fault: Refused = None  # that counts if all of these are there


@dataclass
class Manager:
    place: Place
    rate: int
    controllers: list
    initial: dict  # lifecycle states of components at start, by the names in the URDF, each with its place
    left_out: set  # references that are there and have no counterpart


def manager_of(path, listing):
    """Returns what the file says of its manager and of the controllers that this one lists."""
    nodes, found = nodes_of(yaml_file(path)), {}
    for node in nodes:
        name = node.node.rpartition("/")[2]
        if name in found:
            raise Refused(node.place, f"there are parameters of {quoted(name)} twice")
        found[name] = node
    if MANAGER not in found:
        raise Refused(Place(path, 1), f"there is no {MANAGER}")
    manager = found.pop(MANAGER)
    reading = Reading(listing, manager.values, found)
    rate = value_of(manager.values, "update_rate")
    rate = rate.whole("update_rate", 1, HIGHEST_RATE) if rate else USUAL_RATE
    controllers = [it for name, kind in listed(manager, found, listing) for it in reading.controllers(name, kind)]
    find_stand_ins(controllers)
    for name, node in found.items():
        if name not in reading.listed:
            listing.left_out(node.place, f"{quoted(name)}, which {MANAGER} does not list")
    if not controllers:
        raise Refused(manager.place, f"{MANAGER} lists no controller")
    return Manager(manager.place, rate, controllers, initial_states(manager), reading.left_out)


def listed(manager, nodes, listing):
    """Returns the names of the controllers in the manager's list, each with the node of its type."""
    found = []
    for key, node in manager.values.items():
        name, dot, word = key.partition(".")
        if dot and word == "type":
            found.append((name, node))
        elif name == INITIAL and word in ("unconfigured", "inactive"):
            continue
        elif key != "update_rate":
            is_of_one = word in OF_CONTROLLERS or difflib.get_close_matches(word.lower(), ["type"], cutoff=LIKE_TYPE)
            is_controller = name in nodes or is_of_one or TYPE.fullmatch(node.shown())
            if is_controller and f"{name}.type" not in manager.values:
                raise Refused(node.place, f"controller {quoted(name)} has no type")
            if word != FALLBACKS:
                listing.left_out(node.place, f"the parameter {quoted(key)} of {MANAGER}")
    return found


def initial_states(manager):
    found = {}
    for state in ("unconfigured", "inactive"):
        node = manager.values.get(f"{INITIAL}.{state}")
        for place, name in node.texts(f"{INITIAL}.{state}") if node else ():
            if name in found:
                raise Refused(place, f"component {quoted(name)} stands twice")
            found[name] = (place, state)
    return found


def find_stand_ins(controllers):
    """Looks up who stands in for whom. If a fallback became several of ours, all of them stand in."""
    ours = {}
    for it in controllers:
        ours.setdefault(it.given, []).append(it.name)
    for it in controllers:
        for place, given in it.fallbacks:
            if given == it.given:
                raise Refused(place, f"{quoted(given)} is a fallback of its own")
            if given not in ours:
                raise Refused(place, f"fallback {quoted(given)} of {quoted(it.given)} is no controller of {MANAGER}")
            it.stand_ins += ours[given]
            if len(it.stand_ins) > MOST_FALLBACKS:
                raise Refused(place, f"more than {MOST_FALLBACKS} controllers stand in for {quoted(it.given)}")


class Reading:
    """Reads controllers, one after the other. `parameters` are those of the manager."""

    def __init__(self, listing, parameters, nodes):
        self.listing, self.parameters, self.nodes = listing, parameters, nodes
        self.names = Names("controller", listing)
        self.listed, self.left_out = set(), set()

    def controllers(self, given, type_node):
        """Returns what the controller of this name becomes: one of ours, or several."""
        made, fallbacks = self.made(given, type_node), self.fallbacks(given)
        for it in made:
            it.fallbacks = fallbacks
        return made

    def fallbacks(self, given):
        """Returns the names of those that stand in for it.

        The manager's parameter counts before that of its own node.
        """
        own = value_of(self.nodes[given].values, FALLBACKS) if given in self.nodes else None
        node = self.parameters.get(f"{given}.{FALLBACKS}") or own
        what = f"{FALLBACKS} of {quoted(given)}"
        return each_once(node.texts(what), what) if node else []

    def made(self, given, type_node):
        kind = type_node.text(f"the type of {quoted(given)}")
        self.listed.add(given)
        name = self.names.add(given, type_node.place)
        whole = Controller(type_node.place, given, name)
        if kind not in TYPES:
            what = f"controller {quoted(given)} of the type {plain(kind)}"
            self.listing.changed(type_node.place, f"{what} is a mock that claims nothing")
            return [whole]
        make, *more = TYPES[kind]
        if given not in self.nodes:
            if make is not Reading.broadcaster:
                what = f"controller {quoted(given)} has no parameters"
                raise Refused(type_node.place, f"{what}: there is no node of this name")
            return self.broadcaster(whole, Used(given, type_node.place, {}))
        node = self.nodes[given]
        used = Used(given, node.place, node.values)
        rate = used.value("update_rate")
        whole.rate = rate.whole(f"update_rate of {quoted(given)}", 0, HIGHEST_RATE) if rate else 0
        made = make(self, whole, used, *more)
        used.value(FALLBACKS)
        for name, value in used.unused().items():
            self.listing.left_out(value.place, f"the parameter {quoted(name)} of {quoted(given)}")
        return made

    def broadcaster(self, it, used):
        joints, kinds = used.value("joints"), used.value("interfaces")
        joints = joints.texts(f"joints of {quoted(it.given)}") if joints else []
        kinds = kinds.texts(f"interfaces of {quoted(it.given)}") if kinds else []
        it.kind, it.reads = "broadcaster", None
        if joints and kinds:
            it.reads = named(joints, kinds)
        elif joints or kinds:
            why = "because joints and interfaces count together alone"
            self.listing.changed((joints or kinds)[0][0], f"{quoted(it.given)} reads all, {why}")
        return [it]

    def forward(self, it, used, kind=None):
        it.kind = "forward"
        kinds = [(it.place, kind)] if kind else [used.one("interface_name")]
        it.claims = named(used.list("joints"), kinds)
        return [it]

    def several(self, it, used):
        """A forward of several interfaces of one joint keeps the first, because a joint has one command at a time."""
        it.kind = "forward"
        joint, (kind, *others) = used.one("joint"), used.list("interface_names")
        self.leave_out_kinds(it, [joint], others)
        it.claims = named([joint], [kind])
        return [it]

    def passthrough(self, it, used):
        it.kind, it.claims = "passthrough", [Named(path, place, place) for place, path in used.list("interfaces")]
        it.exports = [f"{it.given}/{claim.path}" for claim in it.claims]
        return [it]

    def trajectory(self, it, used):
        joints, kinds = used.list("joints"), used.list("command_interfaces")
        commanded = used.list("command_joints") if used.value("command_joints") else joints
        if len(commanded) != len(joints):
            raise Refused(commanded[0][0], f"command_joints of {quoted(it.given)} are not as many as its joints")
        states = used.list("state_interfaces")
        position = next((pair for pair in states if pair[1] == "position"), None)
        if position is None:
            what = f"state_interfaces of {quoted(it.given)} are {quoted(', '.join(kind for _, kind in states))}"
            raise Refused(states[0][0], f"{what}, and position is not among them")
        it.kind, it.reads = "trajectory", named(joints, [position])
        chosen = next((pair for pair in kinds if pair[1] == "position"), kinds[0])
        self.leave_out_kinds(it, commanded, [pair for pair in kinds if pair is not chosen])
        it.also += [("state", name) for name in named(joints, states)]
        it.claims = named(commanded, [chosen])
        return [*self.inner_pids(it, used, chosen), it] if chosen[1] in ("velocity", "effort") else [it]

    def inner_pids(self, it, used, chosen):
        """Returns a pid for each claim of a trajectory that closes its loop itself; it then claims their references."""
        pids = []
        for claim, read in zip(it.claims, it.reads):
            joint = read.joint()
            name = self.names.make(f"{it.name}_{joint}")
            pid = Controller(it.place, it.given, name, "pid", it.rate, [claim], [read])
            pid.numbers = tuning(f"joint {quoted(joint)} of {quoted(it.given)}", used.gains(joint), self.listing)
            pid.exports = [f"{it.given}//{joint}/position"]  # a path that no YAML has
            pids.append(pid)
        it.claims = [Named(pid.exports[0], claim.joint_place, claim.kind_place) for pid, claim in zip(pids, it.claims)]
        self.check_gains(it, used, [read.joint() for read in it.reads])
        self.listing.changed(
            chosen[0],
            f"{quoted(it.given)} commands {chosen[1]}, so it leads a pid for each joint: "
            f"{', '.join(pid.name for pid in pids)}",
        )
        return pids

    def pid(self, it, used):
        dofs, states = used.list("dof_names"), used.list("reference_and_state_interfaces")
        is_elsewhere = used.value("reference_and_state_dof_names")
        measured = used.list("reference_and_state_dof_names") if is_elsewhere else dofs
        if len(measured) != len(dofs):
            what = f"reference_and_state_dof_names of {quoted(it.given)}"
            raise Refused(measured[0][0], f"{what} are not as many as its dof_names")
        kind = used.one("command_interface")
        for place, other in states[1:]:
            what = f"state interface {quoted(other)} of {quoted(it.given)}"
            self.listing.left_out(place, f"{what}, because a pid reads one")
        made = []
        for dof, read in zip(dofs, measured):
            one, joint = it, read[1]
            if len(dofs) > 1:
                one = Controller(it.place, it.given, self.names.make(f"{it.name}_{joint}"), rate=it.rate)
            one.kind, one.claims, one.reads = "pid", named([dof], [kind]), named([read], states[:1])
            one.numbers = tuning(f"{quoted(dof[1])} of {quoted(it.given)}", used.gains(dof[1]), self.listing)
            one.exports = [f"{it.given}/{one.reads[0].path}"]
            one.also = [("state", name) for name in named([read], states[1:])]
            self.left_out |= {("command", f"{it.given}/{joint}/{other}") for _, other in states[1:]}
            made.append(one)
        self.check_gains(made[0], used, [dof for _, dof in dofs])
        if len(made) > 1:
            names = ", ".join(one.name for one in made)
            self.listing.changed(it.place, f"controller {quoted(it.given)} is a pid for each joint: {names}")
        return made

    def check_gains(self, it, used, known):
        for name, node in used.unused().items():
            if name.startswith("gains."):
                why = f"{quoted(name)} of {quoted(used.given)} is of none of {quoted(', '.join(known))}"
                it.fault = it.fault or Refused(node.place, why)

    def leave_out_kinds(self, it, joints, others):
        it.also += [("command", name) for name in named(joints, others)]
        for place, kind in others:
            self.listing.left_out(
                place,
                f"command interface {quoted(kind)} of {quoted(it.given)}, because a joint has one command at a time",
            )


def named(joints, kinds):
    """Returns the interfaces of these joints and kinds, of which each has its place."""
    return [Named(f"{joint}/{kind}", at_joint, at_kind) for at_joint, joint in joints for at_kind, kind in kinds]


def each_once(texts, what):
    """Returns these texts with their places, and refuses a second one of a kind."""
    for index, (place, text) in enumerate(texts):
        if text in (it for _, it in texts[:index]):
            raise Refused(place, f"{what} has {quoted(text)} twice")
    return texts


class Used:
    """The parameters of a controller, which notes those that are looked at."""

    def __init__(self, given, place, values):
        self.given, self.place, self.values, self.looked_at = given, place, values, set()

    def value(self, name):
        self.looked_at.add(name)
        return value_of(self.values, name)

    def required(self, name):
        node = self.value(name)
        if node is None:
            raise Refused(self.place, f"{quoted(self.given)} lacks the parameter {name}")
        return node

    def one(self, name):
        """Returns a text with its place."""
        node = self.required(name)
        return node.place, node.text(f"{name} of {quoted(self.given)}")

    def list(self, name):
        """Returns the texts of a list that has at least one, each once, with their places."""
        node, what = self.required(name), f"{name} of {quoted(self.given)}"
        texts = node.texts(what)
        if not texts:
            raise Refused(node.place, f"{what} has no item")
        return each_once(texts, what)

    def gains(self, joint):
        """Returns the gains of one joint: all that stands below `gains.JOINT`."""
        prefix = f"gains.{joint}."
        names = [name for name in self.values if name.startswith(prefix)]
        return {name[len(prefix) :]: self.value(name) for name in names}

    def unused(self):
        return {name: node for name, node in self.values.items() if name not in self.looked_at}


# The types that become one of our kinds, each with what reads it.
TYPES = {
    "joint_state_broadcaster/JointStateBroadcaster": (Reading.broadcaster,),
    "joint_trajectory_controller/JointTrajectoryController": (Reading.trajectory,),
    "forward_command_controller/ForwardCommandController": (Reading.forward,),
    "forward_command_controller/MultiInterfaceForwardCommandController": (Reading.several,),
    "position_controllers/JointGroupPositionController": (Reading.forward, "position"),
    "velocity_controllers/JointGroupVelocityController": (Reading.forward, "velocity"),
    "effort_controllers/JointGroupEffortController": (Reading.forward, "effort"),
    "pid_controller/PidController": (Reading.pid,),
    "passthrough_controller/PassthroughController": (Reading.passthrough,),
}
