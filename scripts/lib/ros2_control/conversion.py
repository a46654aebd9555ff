"""From the two files to the document."""

import os

from .controllers import manager_of
from .document import document
from .links import Linked, together
from .listing import Listing, Refused, plain, quoted
from .robots import MOST_COMPONENTS, MOST_JOINTS, robot_of


def converted(urdf, yaml, cycles, rate=None):
    """Returns the document and what was listed meanwhile. What is wrong with a file is raised as `Refused`."""
    listing = Listing()
    robot = robot_of(urdf, listing)
    manager = manager_of(yaml, listing)
    refuse_too_many(robot)
    begin_as_told(robot, manager)
    robot.left_out |= manager.left_out
    linked = Linked(robot, listing, manager.controllers)
    linked.link()
    found = together(linked)
    for it in linked.controllers:
        if it.name in found.resting:
            joint_name, user = found.resting[it.name]
            listing.changed(it.place, f"{it.name} stays inactive, because {user} has {joint_name}")
    names = (os.path.basename(urdf), os.path.basename(yaml))
    return document(robot, linked, found, rate or manager.rate, cycles, names), listing


def refuse_too_many(robot):
    counted = ((robot.components, MOST_COMPONENTS, "components"), (robot.joints(), MOST_JOINTS, "joints"))
    for found, most, what in counted:
        if len(found) > most:
            raise Refused(found[most].place, f"there are more than {most} {what}")


def begin_as_told(robot, manager):
    """Gives the components the lifecycle states that the manager starts them in."""
    for name, (place, state) in manager.initial.items():
        component = next((it for it in robot.components if it.given == name), None)
        if component:
            component.initial = state
        elif name not in robot.without_joints:
            raise Refused(place, f"there is no component {quoted(name)} in {plain(robot.file)}")
