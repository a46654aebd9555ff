"""What a URDF says of its hardware: components with joints, and which interfaces these have."""

from dataclasses import dataclass, field
from decimal import Decimal

from .gears import gear_of
from .listing import Place, Refused, plain, quoted
from .names import Names
from .quantities import MOST_UNITS, hint, number, rounded
from .xml_files import Element, xml_file

KINDS = ("position", "velocity", "effort")
COMPONENT_KINDS = ("system", "actuator", "sensor")
JOINT_TYPES = ("revolute", "continuous", "prismatic", "fixed", "floating", "planar")
WITH_LIMITS = ("revolute", "prismatic")
MOST_COMPONENTS = 16
MOST_JOINTS = 32
INTERFACES = {"command_interface": "command", "state_interface": "state"}
# Tags in a component, a joint or an interface that have no counterpart. To build one takes it out of here.
WITH_INTERFACES = ("gpio", "sensor")
WITHOUT_COUNTERPART = (*WITH_INTERFACES, "transmission", "properties", "limits")


@dataclass
class Limits:
    """What a joint of the URDF may do: its greatest velocity, and where and with which effort, if that is said."""

    place: Place
    velocity: Decimal
    lower: Decimal = None
    upper: Decimal = None
    effort: Decimal = None
    mimic: Place = None  # where it says that it follows another joint


@dataclass
class Joint:
    place: Place
    given: str
    name: str
    limits: Limits
    command: dict = field(default_factory=dict)  # each kind with its place
    state: dict = field(default_factory=dict)
    seen: set = field(default_factory=set)  # the interfaces so far, those that were left out too
    position: Decimal = Decimal(0)
    velocity: Decimal = Decimal(0)
    turns: Decimal = Decimal(1)  # of what is described in its place, an actuator, for one of its own
    offset: Decimal = Decimal(0)  # its position where the actuator's is 0


@dataclass
class Component:
    place: Place
    given: str
    name: str
    kind: str
    joints: list = field(default_factory=list)
    initial: str = "active"


@dataclass
class Robot:
    file: str
    components: list
    left_out: set  # interfaces that are there and have no counterpart, as `command` or `state` with "io/output"
    without_joints: set  # the components that were left out
    gears: list  # the simple transmissions

    def joints(self):
        return [joint for component in self.components for joint in component.joints]

    def joint(self, given):
        return next((joint for joint in self.joints() if joint.given == given), None)


def robot_of(path, listing):
    """Returns the robot that the file describes."""
    root = xml_file(path)
    if root.tag != "robot":
        raise Refused(root.place, f"<robot> is wanted, and not <{plain(root.tag)}>")
    for element in root.children:
        if element.tag.startswith("xacro:"):
            listing.left_out(element.place, f"<{plain(element.tag)}>: xacro is not expanded")
        elif element.tag == "transmission":
            listing.left_out(element.place, f"transmission {quoted(element.attributes.get('name', ''))}")
    reading = Reading(path, listing, limits_of(root))
    components = [it for tag in root.all("ros2_control") if (it := reading.component(tag))]
    if not root.all("ros2_control"):
        raise Refused(root.place, "there is no ros2_control tag directly in <robot>")
    return Robot(path, components, reading.left_out, reading.without_joints, reading.gears)


def limits_of(root):
    """Returns, of each joint of the URDF by its name, what it may do."""
    found = {}
    for element in root.all("joint"):
        name, kind = element.get("name"), element.get("type")
        if name in found:
            raise Refused(element.place, f"there are two joints named {quoted(name)}")
        if kind not in JOINT_TYPES:
            raise Refused(element.place, f"joint {quoted(name)} is of the type {quoted(kind)}{hint(kind)}")
        found[name] = (element, kind)
    return {name: limits(name, element, kind) for name, (element, kind) in found.items()}


def limits(name, joint, kind):
    found = limits_alone(name, joint, kind)
    mimic = joint.first("mimic")
    found.mimic = mimic.place if mimic else None
    return found


def limits_alone(name, joint, kind):
    """Returns what this joint may do. One that turns without end may have no limit, and a fixed one does not move."""
    limit = joint.first("limit")
    if kind == "fixed":
        return Limits(joint.place, Decimal(0))
    if limit is None:
        if kind in WITH_LIMITS:
            raise Refused(joint.place, f"joint {quoted(name)} is {kind} and lacks its <limit>")
        return Limits(joint.place, None if kind == "continuous" else Decimal(0))
    found = {
        key: number(limit.attributes[key], limit.place, f"{key} of joint {quoted(name)}")
        for key in ("velocity", "lower", "upper", "effort")
        if key in limit.attributes
    }
    if "velocity" not in found:
        limit.get("velocity")
    if found["velocity"] < 0:
        raise Refused(limit.place, f"the velocity of joint {quoted(name)} is negative")
    if kind in WITH_LIMITS:
        lower, upper = found.get("lower", Decimal(0)), found.get("upper", Decimal(0))
        if lower > upper:
            raise Refused(limit.place, f"joint {quoted(name)} has its lower limit above its upper one")
        return Limits(limit.place, found["velocity"], lower, upper, found.get("effort"))
    return Limits(limit.place, found["velocity"], effort=found.get("effort"))


class Reading:
    """Reads ros2_control tags, one after the other."""

    def __init__(self, file, listing, limits):
        self.file, self.listing, self.limits = file, listing, limits
        self.component_names, self.joint_names = Names("component", listing), Names("joint", listing)
        self.left_out, self.without_joints, self.joints, self.gears = set(), set(), {}, []

    def component(self, tag: Element):
        """Returns the component, or nothing if it has no joint."""
        given, kind = tag.get("name"), tag.get("type")
        if kind not in COMPONENT_KINDS:
            raise Refused(
                tag.place,
                f"component {quoted(given)} is of the type {quoted(kind)}, "
                f"and not system, actuator or sensor{hint(kind)}",
            )
        component = Component(tag.place, given, self.component_names.add(given, tag.place), kind)
        self.list_attributes(tag, f"component {quoted(given)}", ("name", "type"))
        for child in tag.children:
            self.child(component, child)
        if kind == "actuator" and len(component.joints) > 1:
            self.listing.changed(tag.place, f"component {quoted(given)} is a system, because an actuator has one joint")
            component.kind = "system"
        if not component.joints:
            self.listing.left_out(tag.place, f"component {quoted(given)}, which has no joint of its own")
            self.without_joints.add(given)
            return None
        return component

    def child(self, component, child):
        of_it = f"of component {quoted(component.given)}"
        if child.tag == "joint":
            self.joint(component, child)
        elif child.tag == "hardware":
            for inner in child.children:
                word = inner.attributes.get("name", inner.text)
                self.listing.left_out(inner.place, f"{plain(inner.tag)} {quoted(word)} {of_it}, which is simulated")
        elif child.tag == "transmission" and (gear := gear_of(child)):
            self.gears.append(gear)
        elif child.tag in WITHOUT_COUNTERPART:
            self.leave_out(child, of_it)
            if child.tag in WITH_INTERFACES:
                self.leave_out_interfaces(child)
        else:
            self.leave_out_or_refuse(child, f"component {quoted(component.given)}")

    def leave_out(self, tag, of_it):
        name = tag.attributes.get("name")
        self.listing.left_out(tag.place, f"{tag.tag} {quoted(name) + ' ' if name else ''}{of_it}")

    def leave_out_or_refuse(self, tag, holder):
        """Lists a tag that has no counterpart, and refuses one that is not known, because it may be misspelled."""
        if tag.tag.startswith("xacro:"):
            self.listing.left_out(tag.place, f"<{plain(tag.tag)}>: xacro is not expanded")
        elif tag.tag in WITHOUT_COUNTERPART:
            self.leave_out(tag, f"of {holder}")
        else:
            raise Refused(tag.place, f"<{plain(tag.tag)}> in {holder} is not known")

    def leave_out_interfaces(self, tag):
        for child in tag.children:
            if child.tag in INTERFACES:
                self.left_out.add((INTERFACES[child.tag], f"{tag.get('name')}/{child.get('name')}"))
            elif child.tag != "param":
                self.leave_out_or_refuse(child, f"{tag.tag} {quoted(tag.get('name'))}")

    def joint(self, component, tag):
        given = tag.get("name")
        if given not in self.limits:
            raise Refused(
                tag.place,
                f"joint {quoted(given)} of component {quoted(component.given)} "
                f"is no <joint> of this URDF{hint(given)}",
            )
        self.list_attributes(tag, f"joint {quoted(given)}", ("name",))
        holder, joint = self.joints.get(given, (None, None))
        if holder is component:
            raise Refused(tag.place, f"joint {quoted(given)} stands twice in component {quoted(component.given)}")
        if joint:
            what = f"what component {quoted(component.given)} has of joint {quoted(given)}"
            why = "because a joint has one component"
            self.listing.changed(tag.place, f"{what} is of component {quoted(holder.given)}, {why}")
        else:
            joint = self.new_joint(given, tag)
            component.joints.append(joint)
            self.joints[given] = (component, joint)
        self.contents(component, joint, tag)

    def new_joint(self, given, tag):
        name = self.joint_names.add(given, tag.place)
        if mimic := self.limits[given].mimic:
            self.listing.left_out(mimic, f"mimic of joint {quoted(given)}, which stands still if nobody commands it")
        return Joint(tag.place, given, name, self.rounded_limits(given, self.limits[given]))

    def contents(self, component, joint, tag):
        for child in tag.children:
            if child.tag in INTERFACES:
                self.interface(component, joint, child)
            elif child.tag == "param":
                what = f"param {quoted(child.get('name'))} = {quoted(child.text)}"
                self.listing.left_out(child.place, f"{what} of joint {quoted(joint.given)}")
            else:
                self.leave_out_or_refuse(child, f"joint {quoted(joint.given)}")

    def rounded_limits(self, given, limits):
        """Returns what the joint may do, with a velocity that has no more than six decimals."""
        what = f"the velocity limit of joint {quoted(given)}"
        if limits.velocity is None:
            self.listing.made_up(limits.place, f"{what} is {MOST_UNITS}, because the URDF has none")
            return Limits(limits.place, None, effort=limits.effort)
        if limits.velocity == 0:
            why = "it is fixed, or its velocity limit is 0"
            self.listing.changed(limits.place, f"joint {quoted(given)} never moves: {why}")
        velocity = rounded(limits.velocity, limits.place, what, self.listing)
        return Limits(limits.place, velocity, limits.lower, limits.upper, limits.effort)

    def interface(self, component, joint, tag):
        is_command, kind = tag.tag == "command_interface", tag.get("name")
        what = f"{tag.tag} {quoted(kind)} of joint {quoted(joint.given)}"
        self.list_attributes(tag, what, ("name",))
        if (tag.tag, kind) in joint.seen:
            raise Refused(tag.place, f"{what} stands twice")
        joint.seen.add((tag.tag, kind))
        if kind not in KINDS or is_command and component.kind == "sensor":
            why = ", because a sensor takes no commands" if kind in KINDS else ""
            self.listing.left_out(tag.place, f"{what}{why}")
            self.left_out.add((INTERFACES[tag.tag], f"{joint.given}/{kind}"))
            return
        (joint.command if is_command else joint.state)[kind] = tag.place
        for child in tag.children:
            if child.tag == "param":
                self.param(joint, kind, is_command, child, what)
            else:
                self.leave_out_or_refuse(child, what)

    def param(self, joint, kind, is_command, tag, what):
        name, text = tag.get("name"), tag.content(f"a param of {what}")
        if is_command or name != "initial_value" or kind == "effort":
            self.listing.left_out(tag.place, f"param {quoted(name)} = {quoted(text)} of {what}")
            return
        what = f"initial_value of {what}"
        setattr(joint, kind, rounded(number(text, tag.place, what), tag.place, what, self.listing))

    def list_attributes(self, tag, what, known):
        for name in tag.attributes:
            if name not in known:
                self.listing.left_out(tag.place, f"attribute {quoted(name)} of {what}")
