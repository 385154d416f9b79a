"""The module of the library, which the kit compiles without a proof, with the exports under their own names.

What `rt try` calls compiles programs alone, with checks at run time (an index out of bounds, an overflow, an unreachable
arm). So it is given embed_c as a program, whose main names each export once and never runs."""
import re
import shutil
import subprocess

from case_files import TOP, stop
from module import CLANG, write_module

CRATE = "embed_c"
EXPORT = re.compile(r'#\[unsafe\(no_mangle\)\]\s*pub extern "C" fn (\w+)\(([^)]*)\)')


def write_program(folder):
    """Writes the crate as a program into a folder, and answers the names of its exports."""
    shutil.copytree(TOP / "crates" / CRATE / "src", folder)
    names, calls = [], []
    for file in sorted(folder.glob("*.rt")):
        for name, parameters in EXPORT.findall(file.read_text()):
            many = len([part for part in parameters.split(",") if part.strip()])
            names.append(name)
            calls.append(f"    let _ = crate::{file.stem}::{name}({', '.join(['any()'] * many)});\n")
    root = (folder / "lib.rt").read_text()
    (folder / "lib.rt").unlink()
    any_value = "fn any<T>() -> T {\n    unreachable!()\n}\n"
    (folder / "main.rt").write_text(f"{root}\n{any_value}\nfn main() {{\n{''.join(calls)}}}\n")
    return names


def write_library(work):
    """Writes work/module.ll, the module as text, and returns the exports and the words by which the module was to be compiled."""
    names = write_program(work / "src")
    words = write_module(work, CRATE)
    told = [CLANG, "-x", "ir", "module.bc", "-S", "-emit-llvm", "-o", "module.ll"]
    subprocess.run(told, cwd=work, check=True)
    text = (work / "module.ll").read_bytes()
    place = rb'@"%s::\w+::(%s)"' % (CRATE.encode(), "|".join(names).encode())
    text, found = re.subn(rb"(?m)^define internal (.*)" + place + rb"\(", rb"define \1@\2(", text)
    if found != len(names):
        stop(f"of {len(names)} exports the module has {found}")
    text = re.sub(place, rb"@\1", text).replace(b"define i32 @main(", b"define internal i32 @main(")
    (work / "module.ll").write_bytes(text.replace(b"sanitize_address ", b""))
    return names, words
