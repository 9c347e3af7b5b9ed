"""Where the programs of this repository are: proved ones, and optimised ones that are built without a proof."""
import os
import shutil
import subprocess

TOP = os.path.dirname(os.path.dirname(os.path.realpath(__file__)))

# What proves and builds each program, in its crate's folder.
PROVING = {
    "isle": "rt run -- lower fall.isle",
    "isle_tree": "rt run -- fall",
    "check_refusals": "rt run",
}


class Missing(Exception):
    """What is missing, or failed, so that nothing can be measured."""


def proved(crate):
    """Returns where the proved program of a crate is. It has to be newer than the crate's sources."""
    words = [f"{TOP}/tools/run-program", "--where", crate, PROVING[crate]]
    ran = subprocess.run(words, stdout=subprocess.PIPE, stderr=subprocess.PIPE, text=True, check=False)
    if ran.returncode:
        raise Missing(ran.stderr.strip())
    return ran.stdout.strip()


def optimised(crate):
    """Returns where the optimised program of a crate is that isn't proved. It is built if need be."""
    words = [f"{TOP}/tools/run-program", "--unproved", crate, PROVING[crate]]
    ran = subprocess.run(words, stdout=subprocess.PIPE, text=True, check=False)
    if ran.returncode:
        raise Missing(f"the program {crate} isn't built")
    return ran.stdout.strip()


def add_options(parser):
    """Adds the options that say which program `isle` is taken."""
    parser.add_argument("--program", metavar="FILE", default=os.environ.get("ISLE_PROGRAM"),
                        help="takes this program isle in place of the proved one; so does the variable ISLE_PROGRAM")  # fmt: skip
    parser.add_argument("--unproved", action="store_true", help="builds an optimised program without a proof in its place")
    parser.add_argument("--keep", metavar="FILE", help="keeps that program, to be taken later by --program")


def asked_for(options):
    """Returns where the program is that these options ask for."""
    if options.unproved:
        program = optimised("isle")
        if options.keep:
            shutil.copy(program, options.keep)
    else:
        program = options.program or proved("isle")
    if not os.access(program, os.X_OK):
        raise Missing(f"there is no program {program}")
    return os.path.realpath(program)
