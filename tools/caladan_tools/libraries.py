"""The libraries below a crate, for the scripts that ask the kit's prover themselves.

`rt ci` leaves each proved library in crates/NAME/out/rlib, without the mark by which `rt lib` and `rt check` would take
it: those prove all below once more. So .ci/run notes, right after `rt ci` passed (tools/archive --note), what stands
there and what it is made from; where that is still so, the library is taken as it stands. tools/recheck keeps libraries
of its own in out/recheck, which serve for every hour."""
import json
import os
import subprocess

from .crates import TOP, below, crates, kit, sum_of, text_of

NOTED = f"{TOP}/out/libraries.json"
RECHECKED = f"{TOP}/out/recheck"
PARTS = ("src", "specs", "proofs")


def rlib_of(crate, is_rechecked=False):
    return f"{RECHECKED}/{crate}/{crate}.rlib" if is_rechecked else f"{TOP}/crates/{crate}/out/rlib/{crate}.rlib"


def checked_of(crate, is_rechecked):
    """What a check of the crate kept, if one did."""
    return f"{RECHECKED}/{crate}/checked" if is_rechecked else f"{TOP}/crates/{crate}/out/incremental"


def mark_of(crate, uses, at):
    """What tells that a library is the one that `rt ci` left, and that it is made from what its crate has now; None of
    one that another command built."""
    made = f"{rlib_of(crate)}/format"
    if not os.path.isfile(made) or os.path.exists(f"{os.path.dirname(rlib_of(crate))}/stamp"):
        return None
    found = os.stat(made)
    return [found.st_ino, found.st_size, found.st_mtime_ns, sum_of(at, [*below(crate, uses, []), crate], *PARTS)]


def note():
    """Notes the libraries that `rt ci` has just left."""
    uses, at = crates(), kit()
    os.makedirs(os.path.dirname(NOTED), exist_ok=True)
    with open(NOTED, "w", encoding="utf-8") as it:
        json.dump({it: mark_of(it, uses, at) for it in uses}, it)


def are_current(names):
    """Whether these libraries are those that `rt ci` left, of what their crates have now."""
    noted, uses, at = json.loads(text_of(NOTED)) if os.path.isfile(NOTED) else {}, crates(), kit()
    return all(noted.get(it) and noted[it] == mark_of(it, uses, at) for it in names)


def lacking(wanted, uses):
    """Proves the libraries below these crates, as far as they are not; gives the first that is not proved, or ''."""
    names = list(dict.fromkeys(lower for crate in wanted for lower in below(crate, uses, [])))
    if are_current(names):
        return ""
    for it in names:
        ran = subprocess.run(["rt", "lib"], cwd=f"{TOP}/crates/{it}", stdout=subprocess.PIPE, stderr=subprocess.STDOUT)
        if ran.returncode:
            return it
    return ""


def not_rechecked(wanted, uses, at):
    """The first library below these crates that tools/recheck has not proved as it stands, or ''."""
    for it in dict.fromkeys(lower for crate in wanted for lower in below(crate, uses, [])):
        stamp = f"{RECHECKED}/{it}/proved"
        if not os.path.isfile(stamp) or text_of(stamp) != sum_of(at, [*below(it, uses, []), it], *PARTS):
            return it
    return ""


def is_static(crate):
    """Whether crates.txt has the crate as a library for C."""
    heads = (it.partition(":")[0].split() for it in text_of(f"{TOP}/crates.txt").splitlines())
    return next("staticlib" in it for it in heads if it[:1] == [crate])


def words(at, crate, uses, is_rechecked=False):
    """What the kit's prover is told of the crate: its root, and the libraries of the kit and of the repository."""
    root = "src/main.rt" if os.path.isfile(f"{TOP}/crates/{crate}/src/main.rt") else "src/lib.rt"
    said = ["--crate-name", crate, root, "-L", f"dependency={at}/rlibs"]
    for it in ["std", *uses[crate]]:
        said += ["--extern", f"{it}={rlib_of(it, is_rechecked) if it in uses else f'{at}/rlibs/{it}.rlib'}"]
    for it in below(crate, uses, []):
        said += ["-L", f"dependency={os.path.dirname(rlib_of(it, is_rechecked))}"]
    said += ["--antt-project", f"{at}/rattle/logic/antt-project.json", "--logic-built", f"{at}/logic_built"]
    return said + (["--crate-type", "staticlib"] if is_static(crate) else [])
