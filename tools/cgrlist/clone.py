"""Where the program is: in the clone in which the package stands, or where both were installed.

In a clone, the proved program answers, or where that isn't built a trial of it.
"""

import os
import subprocess

from .errors import START_STATUS, Refused
from .tool import Tool

PACKAGE = os.path.dirname(os.path.realpath(__file__))
TOP = os.path.dirname(os.path.dirname(PACKAGE))
SCRIPT = os.path.join(TOP, "cgrlist")
OUT = os.path.join(TOP, "crates/cgrlist/out")
BUILT = os.path.join(OUT, "cgrlist")  # what the script runs if it is current
TRIAL = os.path.join(OUT, "trial")  # what it runs else, and compiles if it isn't there
# From the folder of the package: of what `install` or a package of Debian put there, of what pip did, and of pip's --target.
INSTALLED = ("../../bin/cgrlist", "../../../bin/cgrlist", "bin/cgrlist")
GET_ONE = "a release has one, and cgrlist.html answers in a browser"


def places():
    """Where the program may be, before the path."""
    return [SCRIPT, *(os.path.normpath(os.path.join(PACKAGE, "..", place)) for place in INSTALLED)]


def program(with_trial):
    """The program that the clone's script runs: the built one, or a trial if that is wanted and CGRLIST_TRIAL isn't no.

    The script says on standard error that a trial answers, and takes a minute or two to compile one.
    """
    ran = subprocess.run([SCRIPT, "--version"], env={**os.environ, "CGRLIST_TRIAL": "no"}, **_apart(stderr=subprocess.PIPE))
    if ran.returncode != START_STATUS:
        return BUILT if os.access(BUILT, os.X_OK) else SCRIPT
    if not with_trial or os.environ.get("CGRLIST_TRIAL") == "no":
        raise Refused(ran.stderr.decode(errors="replace"), START_STATUS, is_told=True)
    kept = {"env": {**os.environ, "CGRLIST_TRIAL": "kept"}}
    if _ended(subprocess.Popen([SCRIPT, "check", "--plan", os.devnull], **_apart(**kept))):
        raise Refused(None, START_STATUS)  # the script said why
    if not os.access(TRIAL, os.X_OK):
        raise Refused(f"the trial could not be kept as {TRIAL}; {GET_ONE}", START_STATUS)
    return TRIAL


def _apart(**further):
    return {"stdin": subprocess.DEVNULL, "stdout": subprocess.DEVNULL, **further}


def _ended(process):
    """The status of the script, which is told to end if the tool is ended first: it then ends what it runs."""
    if Tool.line:
        Tool.line.hold()  # the script says itself how far it is
    try:
        return process.wait()
    except BaseException:
        process.terminate()
        process.wait()
        raise
    finally:
        if Tool.line:
            Tool.line.hold(False)
