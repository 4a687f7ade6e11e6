"""What several scripts of this folder need: the top of the repository, and its programs as programs.txt lists them."""
import os
import re
import subprocess
import sys

TOP = os.path.dirname(os.path.dirname(os.path.realpath(__file__)))

with open(os.path.join(TOP, "programs.txt"), encoding="utf-8") as listed:
    # The crate of each program, by the program's name, in the order of the list.
    CRATES = dict(re.findall(r"^(\w+): (\w+)", listed.read(), re.M))


def program_of(name):
    """The path of the program that ./NAME runs, which builds it first where there is none."""
    asked = subprocess.run([os.path.join(TOP, name)], env={**os.environ, "M88_WHICH": "1"}, stdout=subprocess.PIPE, text=True)
    return asked.stdout.rstrip("\n") if asked.returncode == 0 else sys.exit(f"{name} has no program")
