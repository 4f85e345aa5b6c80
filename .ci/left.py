"""The libraries that `rt ci` has just proved and left in crates/*/out, as words for the compiler itself: with them the stages behind `rt ci` check
a crate in the time of that crate alone. rt's own commands do not take these libraries, and would prove each of them once more."""

import os
import re
import subprocess
import sys

ROOT = os.path.dirname(os.path.dirname(os.path.realpath(__file__)))
KIT = os.path.dirname(subprocess.run(["rt", "doc"], stdout=subprocess.PIPE, text=True, check=True).stdout.strip())
COMPILER = f"{KIT}/bin/rattle"


def listed():
    """Returns what crates.txt says: of each crate whether it is a static library, and the libraries that it uses."""
    with open(f"{ROOT}/crates.txt", encoding="utf-8") as lines:
        rows = [re.match(r"(\w+)( +staticlib)?[^:#]*(?::([^#]*))?", line) for line in lines]
    return {row[1]: (bool(row[2]), (row[3] or "").split()) for row in rows if row}


def words(crate, since):
    """Returns the words, or None where a library below the crate was not made since the file `since` was: rt ci puts back what stood in out/ before it, and
    that can be of other sources."""
    is_static, uses = listed()[crate]
    kind = "main" if os.path.isfile(f"{ROOT}/crates/{crate}/src/main.rt") else "lib"
    found = ["--crate-name", crate, f"src/{kind}.rt", "--extern", f"std={KIT}/rlibs/std.rlib", "-L", f"dependency={KIT}/rlibs"]
    for name in uses:
        made = f"{ROOT}/crates/{name}/out/rlib"
        if name not in listed():
            found += ["--extern", f"{name}={KIT}/rlibs/{name}.rlib"]
        elif os.path.isdir(f"{made}/{name}.rlib") and os.stat(f"{made}/{name}.rlib").st_mtime > os.stat(since).st_mtime:
            found += ["--extern", f"{name}={made}/{name}.rlib", "-L", f"dependency={made}"]
        else:
            print(f"{made}/{name}.rlib is not of this run of rt ci", file=sys.stderr)
            return None
    logic = ["--antt-project", f"{KIT}/rattle/logic/antt-project.json", "--logic-built", f"{KIT}/logic_built"]
    return [*found, *logic, "--links", f"{crate}=", *["--crate-type", "staticlib"] * is_static]
