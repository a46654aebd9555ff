"""The two Debian packages that the scripts for ros2_control need, and the interpreter that has them."""

import importlib.util
import os
import subprocess
import sys

MODULES = {"yaml": "python3-yaml", "defusedxml": "python3-defusedxml"}
DEBIAN = "/usr/bin/python3"  # the interpreter that Debian's packages are for
COMMAND = f"apt-get install {' '.join(MODULES.values())}"


def missing():
    return [package for module, package in MODULES.items() if importlib.util.find_spec(module) is None]


def go_on_with_packages():
    """Returns the packages that this interpreter lacks. If Debian's has both and this one has not, that one runs the
    script."""
    lacking = missing()
    if lacking and os.path.realpath(sys.executable) != os.path.realpath(DEBIAN) and os.path.exists(DEBIAN):
        has_both = subprocess.run([DEBIAN, "-c", f"import {', '.join(MODULES)}"], stderr=subprocess.DEVNULL)
        if has_both.returncode == 0:
            os.execv(DEBIAN, [DEBIAN, *sys.argv])
    return lacking


def advice(lacking):
    """Returns what to do, as lines: which packages lack, what installs them, and what runs the script then."""
    is_other = os.path.realpath(sys.executable) != os.path.realpath(DEBIAN)
    return [
        f"{sys.executable} lacks {' and '.join(lacking)}{f', and {DEBIAN} does not have both' if is_other else ''}",
        f"    {COMMAND}",
        f"installs them for {DEBIAN}; the script finds that one by itself, or run {DEBIAN} {sys.argv[0]} ..",
    ]
