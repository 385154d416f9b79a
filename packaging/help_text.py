"""What the program's help says, as the man page and the completions take it."""
import re
import subprocess
from typing import NamedTuple


class Option(NamedTuple):
    """An option: `-v`, `--verbose`, or neither; the word for its value, or an empty text; what it does."""

    short: str
    long: str
    value: str
    text: str


class Help(NamedTuple):
    """The help of a command, or of the program: its sections by their titles, in order."""

    about: str
    usage: str
    sections: dict

    def options(self):
        return [option_of(line) for line in self.sections.get("Options", "").splitlines()]

    def commands(self):
        """The name of each command and what it does."""
        lines = self.sections.get("Commands", "").splitlines()
        return dict(line.split(None, 1) for line in lines)


def option_of(line):
    form = r"\s+(?:(-\w)(?:, )?|\s+)(--[\w-]+)(?: <(\w+)>)?\s+(.*)"
    return Option(*(part or "" for part in re.fullmatch(form, line).groups()))


def help_of(program, *words):
    told = subprocess.run([program, *words, "--help"], capture_output=True, text=True, check=True).stdout
    about, _, rest = told.partition("\n\nUsage: ")
    usage, _, rest = rest.partition("\n")
    parts = re.split(r"^(\w[\w ]*):\n", rest, flags=re.M)
    sections = {title: body.rstrip() for title, body in zip(parts[1::2], parts[2::2])}
    # What comes after the options, before the next title, is what else there is to say.
    options, _, notes = sections.get("Options", "").partition("\n\n")
    return Help(about, usage, {**sections, "Options": options, "Notes": notes})


def all_help(program):
    """The program's help, and the help of each command by its name."""
    whole = help_of(program)
    return whole, {name: help_of(program, name) for name in whole.commands()}
