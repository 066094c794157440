"""How tools call the prover on one crate, over the crates below it as `rt check` or `rt ci` has proved them."""
import shutil
import sys
from pathlib import Path

TOP = Path(__file__).resolve().parent.parent


def kit():
    """The folder of the kit that the command rt stands in."""
    found = shutil.which("rt")
    if not found:
        sys.exit("rt is not on this machine")
    return Path(found).resolve().parent.parent


KIT = kit()
RATTLE = KIT / "bin" / "rattle"


def listed():
    """Each crate of crates.txt: whether it is a static library, and the libraries that it stands on."""
    found = {}
    for line in (TOP / "crates.txt").read_text(encoding="utf-8").splitlines():
        head, _, rest = line.split("#")[0].partition(":")
        if head.strip():
            name, *kind = head.split()
            found[name] = "staticlib" in kind, rest.split()
    return found


def own_below(crate, crates):
    """The crates of the repository below a crate, lowest first."""
    found = {}
    for dependency in crates[crate][1]:
        if dependency in crates:
            found.update(dict.fromkeys([*own_below(dependency, crates), dependency]))
    return list(found)


def rlib(crate):
    return TOP / "crates" / crate / "out" / "rlib" / f"{crate}.rlib"


def arguments(crate, where):
    """What the prover is to be told of a crate whose src, specs and proofs are below `where`."""
    crates = listed()
    if crate not in crates:
        sys.exit(f"{crate} is not listed in crates.txt")
    is_static, direct = crates[crate]
    root = next(p for p in (where / "src" / "main.rt", where / "src" / "lib.rt") if p.exists())
    words = ["--crate-name", crate, root]
    for name in ["std", *direct]:
        words += ["--extern", f"{name}={rlib(name) if name in crates else KIT / 'rlibs' / f'{name}.rlib'}"]
    words += ["-L", f"dependency={KIT / 'rlibs'}"]
    for name in own_below(crate, crates):
        if not rlib(name).exists():
            sys.exit(f"{name}, below {crate}, is not built: rt check in crates/{crate} builds it")
        words += ["-L", f"dependency={rlib(name).parent}"]
    words += ["--antt-project", KIT / "rattle" / "logic" / "antt-project.json", "--logic-built", KIT / "logic_built"]
    return words + (["--crate-type", "staticlib"] if is_static else [])


def check_command(crate, where):
    """The check of a crate whose src, specs and proofs are below `where`."""
    return [RATTLE, "check", *arguments(crate, where)]
