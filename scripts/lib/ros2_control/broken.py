"""Broken variants of the files of a robot, always the same ones."""

import random
import re

CUTS = 12  # of a URDF, at characters that are drawn with a fixed seed
SOMEWHERE = None  # the fault shows at a line that is not said
# What is replaced in a URDF: the title, a pattern, of which the first group is replaced wherever it stands, by what,
# the word that is to be named, and at how many lines from there it is refused.
OF_URDF = (
    ("a joint is not closed", r"(</joint>)\n\s*<joint", "", "", SOMEWHERE),
    ("an interface is not closed", r'_interface name="velocity"(/)>', "", "", SOMEWHERE),
    ("a joint of ros2_control is misspelled", r'<joint name="(\w+)">\n\s*<command', "jiont", "jiont", 0),
    ("a joint of the robot is renamed", r'<joint name="(\w+_wheel|wrist_\d|joint)\w+" type', "x", "", SOMEWHERE),
    ("the type of a component is not known", r'<ros2_control.*type="(\w+)"', "sistem", "sistem", 0),
    ("the type of a joint is not known", r'<joint .*type="(\w+)"', "turning", "turning", 0),
    ("a component has no type", r'<ros2_control.*( type="\w+")', "", "type", 0),
    ("a component has no name", r'<ros2_control( name="\w+")', "", "name", 0),
    ("an interface has no name", r'<command_interface( name="\w+")', "", "name", 0),
    ("a limit has no velocity", r'<limit.*( velocity="[\d.]+")', "", "velocity", 0),
    ("a tag is misspelled", r"<(command_interface) name=\"\w+\"/>", "comand_interface", "comand_interface", 0),
    ("xacro is not expanded", r'<ros2_control name="(\w+)"', "${prefix}arm", "run xacro", 0),
    *(
        ("a velocity limit is no number", r'velocity="([\d.]+)"', text, "velocity", 0)
        for text in ("fast", "1,5", "nan", "1e400", "0x10", "")
    ),
    ("a velocity limit is negative", r'velocity="([\d.]+)"', "-1", "negative", 0),
    ("limits are the wrong way round", r'lower="([-\d.]+)"', "7", "lower", 0),
    ("an initial value is no number", r'initial_value">([-\d.]+)<', "half", "half", 0),
)
# Which line is put before which in a URDF, and the word that is to be named.
BEFORE_IN_URDF = (
    ("an include", r"  <ros2_control", '<xi:include href="/etc/passwd"/>', "include"),
    ("an entity that nobody declared", r"  <ros2_control", "&robot;", ""),
    ("what is no tag of ros2_control", r"    <hardware>", "<hardwear/>", "hardwear"),
    ("entities", "<robot", '<!DOCTYPE robot [<!ENTITY a "b"><!ENTITY c "&a;&a;">]>', "entities"),
    ("an entity that is a file", "<robot", '<!DOCTYPE robot [<!ENTITY a SYSTEM "file:///etc/passwd">]>', "entities"),
    ("a document type elsewhere", "<robot", '<!DOCTYPE robot SYSTEM "http://localhost/robot.dtd">', "entities"),
)
# The same of a YAML.
OF_YAML = (
    ("a tab", r"\n(    )\w+:", "\t", "", SOMEWHERE),
    ("a joint is misspelled", r"(?<=joints: \[)(\w+)", "jiont", "jiont", 0),
    ("a joint is misspelled", r"joints:\n(?:      - \w+\n)*?      - (\w+)\n", "jiont", "jiont", 0),
    ("a pid's joint is misspelled", r"dof_names: \[(\w+)", "jiont", "jiont", 0),
    ("the joint of gains is misspelled", r"gains:\n      (\w+)", "jiont", "jiont", 0),
    ("a reference is misspelled", r"command_joints: \[(\w+)", "joint_pid", "joint_pid", 0),
    *(
        ("an interface is misspelled", rf"{before}(\w+)", "positon", "positon", 0)
        for before in (r"interfaces: \[", "interface_name: ", "command_interface: ")
    ),
    ("an interface is misspelled", r"interfaces:\n      - (\w+)", "positon", "positon", 0),
    (
        "a node is misspelled",
        r"\n(joint_trajectory_\w+|joint_pids|wheel_cont|gripper_controller|scanner_cont):",
        "typo",
        "no parameters",
        SOMEWHERE,
    ),
    ("the parameters' key is misspelled", r"  (ros__parameters):", "ros_parameters", "ros__parameters", SOMEWHERE),
    ("the manager is misspelled", r"(controller_manager):\n", "manager", "controller_manager", SOMEWHERE),
    *(
        (f"the rate is {text}", r"\n    update_rate: (\d+)", text, "update_rate", 0)
        for text in ("fast", "-5", "1.5", "20000", "'50'", "[50]", "{hertz: 50}")
    ),
    ("a type is no text", r"type: (\w+/\w+)", "7", "type", 0),
    ("a type is a list", r"type: (\w+/\w+)", "[a, b]", "type", 0),
    ("a type lacks", r"\n      (type): \w+/\w+", "tipe", "no type", 0),
    *(
        ("a type is misspelled, and names no class", r"\n      (type: \w+/\w+)", text, "no type", 0)
        for text in ("typ: x", "tpye: x", "Type: x", "types: [x]")
    ),
    ("joints are no list", r"joints: (\[.*\])", "joint1", "joints", 0),
    ("a joint is a number", r"joints: \[(\w+)", "1.5", "1.5", 0),
    ("a list is empty", r"(?:joints|dof_names): (\[.*\])\n(?!    interfaces)", "[]", "no item", 0),
    ("joints lack", r"\n    (joints): \[.*\]\n(?!    interfaces)", "links", "joints", SOMEWHERE),
    ("a joint stands in a list as before", r"joints: \[\w+, (\w+)", "joint1, joint1", "joint1", 0),
    *(
        ("a gain is no number", r"\bp: ([\d.]+)", text, "gain p", 0)
        for text in ("fast", "nan", "1e400", "0x10", "'1'", "true", "[1]")
    ),
    ("a word is no boolean", r"antiwindup: (true)", "maybe", "antiwindup", 0),
    ("an alias", r"update_rate: (\d+)", "*rate", "aliases", 0),
    ("an anchor", r"update_rate: (\d+)", "&rate 50", "aliases", 0),
    ("code", r"update_rate: (\d+)", "!!python/object/apply:os.system [ls]", "tag", 0),
    ("an include", r"type: (\w+/\w+)", "!include other.yaml", "tag", 0),
    ("a quote that is not closed", r"type: (\w)", '"', "", SOMEWHERE),
    ("a colon too many", r"type: (\w+/\w+)", "a: b", "", SOMEWHERE),
    ("a key that stands again", r"    update_rate: \d+(\n| .*\n)", "\n    update_rate: 60\n", "update_rate", 1),
)
BEFORE_IN_YAML = (
    ("a second document", r"(?<=\n\n)\w+:\n", "---", "document"),
    ("a control character", r"    update_rate", "    # \x07", ""),
)


class Variants:
    """The variants of one file: each has a title, its bytes, the line of the fault or nothing, and a word to name."""

    def __init__(self, path):
        self.text, self.last = path.read_text(), path.read_text().count("\n")
        self.found = []

    def add(self, title, text, line=SOMEWHERE, word=""):
        self.found.append((title, text if isinstance(text, bytes) else text.encode(), line, word))

    def line_of(self, at):
        return self.text[:at].count("\n") + 1

    def replaced(self, rows):
        for title, pattern, becomes, word, later in rows:
            for it in re.finditer(pattern, self.text):
                text = self.text[: it.start(1)] + becomes + self.text[it.end(1) :]
                line = SOMEWHERE if later is SOMEWHERE else self.line_of(it.start(1)) + later
                self.add(f"{title}, {it[0].strip()!r}", text, line, word)

    def put_before(self, rows):
        for title, pattern, line, word in rows:
            for it in re.finditer(pattern, self.text):
                text = self.text[: it.start()] + line + "\n" + self.text[it.start() :]
                self.add(f"{title}, before {it[0].strip()!r}", text, self.line_of(it.start()), word)

    def instead(self, title, was, becomes, line=SOMEWHERE, word=""):
        self.add(title, self.text.replace(was, becomes), line, word)


def broken_urdf(path):
    it = Variants(path)
    drawn = random.Random(path.name).sample(range(1, it.text.rindex("</robot>")), CUTS)
    for at in sorted(drawn):
        it.add(f"ends behind {at} characters", it.text[:at])
    it.replaced(OF_URDF)
    it.put_before(BEFORE_IN_URDF)
    it.add("nothing", "", 1)
    it.add(
        "another root",
        it.text.replace("<robot", "<model").replace("</robot", "</model"),
        it.line_of(it.text.index("<robot")),
        "model",
    )
    it.add("a byte that is no UTF-8", it.text.encode().replace(b"<link", b"<l\xffnk", 1))
    it.instead("a component stands again", "</robot>", it.text[it.text.index("  <ros2_control") :])
    it.instead("elements in one another", "</robot>", "<a>" * 5000 + "</a>" * 5000 + "</robot>", it.last)
    hinges = "".join(f'<joint name="hinge{index}" type="continuous"/>\n' for index in range(33))
    inner = hinges.replace(' type="continuous"', "")
    tag = f'<ros2_control name="hinges" type="system">\n{inner}</ros2_control>'
    it.instead("too many joints", "</robot>", f"{hinges}{tag}</robot>", word="32 joints")
    tag = '<ros2_control name="hinge{}" type="system"><joint name="hinge{}"/></ros2_control>'
    tags = "".join(tag.format(index, index) for index in range(17))
    it.instead("too many components", "</robot>", f"{hinges}{tags}</robot>", it.last + 33, "16 components")
    return it


def broken_yaml(path):
    it = Variants(path)
    for at in sorted(found.end() for found in re.finditer(r"[\[{]", it.text)):
        it.add(f"ends behind {at} characters", it.text[: at + 3])
    it.replaced(OF_YAML)
    it.put_before(BEFORE_IN_YAML)
    it.add("nothing", "", 1)
    it.add("a list", "- controller_manager\n", 1)
    not_utf8 = it.text.encode().replace(b"# ", b"# \xff", 1)
    it.add("a byte that is no UTF-8", not_utf8, it.line_of(it.text.index("# ")), "UTF-8")
    it.add("lists in one another", it.text + "deep: " + "[" * 3000 + "]" * 3000 + "\n", it.last + 1)
    it.add("a value before the parameters", it.text + "use_sim_time: true\n", it.last + 1, "use_sim_time")
    rate = re.search(r"    update_rate: .*\n", it.text)[0]
    more = "".join(f"    more{index}: {{type: some_package/SomeController}}\n" for index in range(34))
    line = it.line_of(it.text.index(rate)) + 33
    it.add("too many mocks", it.text.replace(rate, rate + more, 1), line, "32 of the kind mock")
    return it
