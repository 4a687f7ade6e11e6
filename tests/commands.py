"""How each command of m88 is called, as the table of the program has it, in crates/m88_commands/src/commands.rt."""
import os
import re
from typing import NamedTuple

TOP = os.path.dirname(os.path.dirname(os.path.realpath(__file__)))


class Form(NamedTuple):
    """The words after a command's name, as they are shown, and what it reads, as the table calls it."""

    places: list
    input: str


def forms():
    """The form of each command, in the order of the table."""
    with open(os.path.join(TOP, "crates", "m88_commands", "src", "commands.rt"), encoding="utf-8") as file:
        text = file.read()
    rows = re.findall(r'^    Form\("(\w+)", "([^"]*)", Reads::(\w+)\),$', text, re.M)
    if not rows or len(rows) != int(re.search(r"const FORMS: \[Form; (\d+)\]", text).group(1)):
        raise ValueError("not every row of the table is understood")
    return {name: Form(words.split(), given) for name, words, given in rows}
