"""What include/x3d.h declares: its functions, structs, statuses and numbers."""
import re
from pathlib import Path

TOP = Path(__file__).resolve().parent.parent
HEADER = (TOP / "include/x3d.h").read_text()
FUNCTION = r"^((?:const )?\w+ \*?)(\w+)\(([^)]*)\)"


def functions_in(text, end):
    """What each function of a C text answers and is passed. After its parameters comes `end`."""
    found = {}
    for answer, name, parameters in re.findall(FUNCTION + end, text, re.M):
        parts = [part.strip() for part in parameters.split(",") if part.strip() != "void"]
        kinds = [re.fullmatch(r"(.*?[ *])\w+", part)[1].strip() for part in parts]
        found[name] = (answer.strip(), kinds)
    return found


def declared():
    """The functions of the header."""
    return functions_in(HEADER, ";")


def structs():
    """The fields of each struct, in order: their types and names."""
    found = {}
    for name, body in re.findall(r"^struct (\w+) \{(.*?)\};", HEADER, re.M | re.S):
        fields = re.findall(r"((?:struct )?\w+ \*?)(\w+);", body)
        found[name] = [(kind.strip(), field) for kind, field in fields]
    return found


def enums():
    """The names of each enum, with their numbers and the comment after each."""
    found = {}
    for name, body in re.findall(r"^enum (\w+) \{(.*?)\};", HEADER, re.M | re.S):
        lines = re.findall(r"^  (\w+) = (\d+),?(?: +/\* (.*?) \*/)?$", body, re.M)
        found[name] = {constant: (int(number), text) for constant, number, text in lines}
    return found


def defines():
    """The numbers that are defined, by their names."""
    return {name: int(number) for name, number in re.findall(r"^#define (\w+) (\d+)$", HEADER, re.M)}
