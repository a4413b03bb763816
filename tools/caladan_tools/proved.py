"""What `rt ci` proved of a tree: kept by the gate below out/proof, which is in no repository, and told by a release's
PROOF.

The log is kept with the sum of the tree, which anybody can take of a clean checkout or of the release's sources, in
their folder, without .git and out/:

    find . -type f -printf '%P\\0' | LC_ALL=C sort -z | xargs -0 sha256sum | sha256sum

and with the sums of the programs that it left. `begin` notes the tree before `rt ci`, and `keep` takes a log only if
that is the tree still; `keep_witnesses` adds how many wrong bodies tools/witnesses saw refused. `read` refuses a log
that did not pass, that does not say of each wrong body of the tree that it was refused, or that is another tree's. All
of that is against mistakes: anyone who makes a release could write other text, and PROOF says how others check it."""
import collections
import fcntl
import hashlib
import json
import os
import re
import subprocess

from .crates import TOP, below, crates, files_of
from .crates import kit as kit_folder

KEPT = os.environ.get("CALADAN_PROOF", f"{TOP}/out/proof")
BEGUN = f"{KEPT}/begun.json"
BUILT = {"caladan_sim": "caladan_sim", "caladan_view": "caladan_view", "caladan_c": "libcaladan_c.a"}
# Of a crate: how many of its functions were proved (None where `rt ci` took it from an earlier run, and says no
# number), how many wrong bodies of it were refused, how many of these only by a limit of the prover, which gave no
# verdict, and how many only because a proof names what the edit took away, so that no contract refused them.
Proved = collections.namedtuple("Proved", "functions refused limited named")

PROOF = """\
What was proved of Doranjei {version}
=================================

`make dist` made this page from what `rt ci` printed over this very tree, and from docs/PROMISES.md: no
number, sum or promise in it was written by hand.

Version    {version}
Commit     {commit}
Tree       {tree}
Kit        {kit}
Logic      {logic}
rt ci      {said}

To check it: in the folder of the sources (doranjei-VERSION-source.tar.xz, or a checkout of the commit without .git)
the sum of the tree is what this prints:

    find . -type f -printf '%P\\0' | LC_ALL=C sort -z | xargs -0 sha256sum | sha256sum

and with that kit `make check` in a checkout of the commit proves everything from nothing; `make dist` then makes such a
page of what was proved there, with the sums of what was built there. A release is worth as much as whoever made it: a
page of your own is the check.


Proved, crate by crate
----------------------

Each function of each crate keeps its contract, is safe, and returns (but for those that run threads, which wait at
their joins). A wrong body is a body with a mistake in it that the prover must refuse, and refused: crates/*/witnesses
and crates/*/must-fail of the sources have them. Of those that did not change, nor what they are judged by, the file
`refused` beside them says so, from an earlier run; `tools/witnesses --anew` tries them all.

{rows}


What is promised, with the clauses that carry it
------------------------------------------------

{promises}

All other promises: docs/PROMISES.md, or `man caladan-promises`.


What is trusted
---------------

{trusted}
- That the files below were made from the proved ones as is said there.


The proved programs and the C library, as they were built
---------------------------------------------------------

{built}

`strip` took names of debugging out of them, and they are the programs and the archive below; libcaladan_c.so is that
archive with libcaladan_rows.a and its heap, linked. The heap, liblibc_c.a, is the kit's. caladand, libcaladan_rows.a,
libcaladan_rt.a and the clients are C, Python and Rust that is not proved.


All files of the release but this one, by the folder of the prefix and by package
---------------------------------------------------------------------------------

{files}
"""


class Refused(Exception):
    """Why there is no PROOF."""


def sum_of(file):
    with open(file, "rb") as it:
        return hashlib.sha256(it.read()).hexdigest()


def said(*command):
    """What a command prints, without the line feed at the end."""
    return subprocess.run(command, cwd=TOP, capture_output=True, text=True, check=True).stdout.rstrip("\n")


def files():
    """The files of the tree: those of the repository, with those that are new and not ignored by its .gitignore."""
    listed = said("git", "ls-files", "-z", "-co", "--exclude-per-directory=.gitignore").split("\0")
    return sorted({it for it in listed if it and os.path.isfile(f"{TOP}/{it}")}, key=str.encode)


def sum_of_files(folder, names):
    """The sum by which a tree is known, of these files below the folder."""
    lines = "".join(f"{sum_of(f'{folder}/{it}')}  {it}\n" for it in names)
    return hashlib.sha256(lines.encode()).hexdigest()


def tree_sum():
    return sum_of_files(TOP, files())


def file_of(name):
    """Where the gate and `make` leave what they build of a crate."""
    return f"{TOP}/crates/{name}/out/{BUILT[name]}"


def facts():
    try:
        with open(f"{KEPT}/facts.json", encoding="utf-8") as it:
            return json.load(it)
    except FileNotFoundError:
        raise Refused(f"there is no {KEPT}: .ci/run keeps there what `rt ci` printed") from None


def write(kept):
    with open(f"{KEPT}/facts.json", "w", encoding="utf-8") as it:
        json.dump(kept, it, indent=1, sort_keys=True)


def verdict(log):
    """The last line of a log, where everything passed; before it `rt ci` says what it did, and nothing else does."""
    before, last = ["", *log.rstrip("\n").split("\n")][-2:]
    if not re.fullmatch(r"[1-9]\d* passed, 0 failed", last):
        raise Refused(f"`rt ci` did not pass the whole tree: its last line is '{last[:120]}'")
    if not before.startswith("rt: ok; "):
        raise Refused("the log is not what `rt ci` prints: its last line but one is no 'rt: ok; ..'")
    return last


def crate_sum(name, kit):
    """A sum of all that a crate's proof is made from."""
    made, uses = hashlib.sha256(kit.encode()), crates()
    for it in [*below(name, uses, []), name]:
        made.update(f"{it}: {' '.join(uses[it])}\n".encode())
    for file in files_of([*below(name, uses, []), name], "src", "specs", "proofs"):
        made.update(f"{os.path.relpath(file, TOP)} {sum_of(file)}\n".encode())
    return made.hexdigest()


def numbers(log, kit):
    """How many functions of each crate were proved, by this log or, where `rt ci` took the crate from an earlier run,
    by the log that was kept here before, if the crate and those below it are the same; with the sum that tells."""
    try:
        earlier = facts()["functions"]
    except Refused:
        earlier = {}
    found = {}
    for name, it in proved_crates(log).items():
        key = crate_sum(name, kit)
        before, number = earlier.get(name, (None, None))
        found[name] = (key, number if it.functions is None and before == key else it.functions)
    return found


def begin():
    """Notes the tree and the kit, before `rt ci`."""
    os.makedirs(KEPT, exist_ok=True)
    with open(BEGUN, "w", encoding="utf-8") as it:
        json.dump({"tree": tree_sum(), "kit": said("rt", "version")}, it)


def begun():
    """The tree and the kit that `rt ci` began with, where they are the same now."""
    try:
        with open(BEGUN, encoding="utf-8") as it:
            noted = json.load(it)
    except FileNotFoundError:
        raise Refused("nothing says of which tree this log is: tools/keep_proof --begin comes before `rt ci`") from None
    if noted["tree"] != tree_sum():
        raise Refused("a file of the tree was changed since `rt ci` began")
    if noted["kit"] != said("rt", "version"):
        raise Refused("the kit is another than `rt ci` began with")
    return noted


def keep(log):
    """Keeps what `rt ci` printed, of the tree as it stands, and the sums of the two programs."""
    verdict(log)
    proved_crates(log)
    noted = begun()
    kept = {**noted, "functions": numbers(log, noted["kit"]), "heap": sum_of(f"{kit_folder()}/c/liblibc_c.a")}
    os.remove(BEGUN)
    with open(f"{KEPT}/rt-ci.log", "w", encoding="utf-8") as it:
        it.write(log)
    kept["log"] = sum_of(f"{KEPT}/rt-ci.log")
    kept["sums"] = {it: sum_of(file_of(it)) for it in BUILT if it != "caladan_c"}
    write(kept)


def add(change):
    """Changes what is kept of this tree; parts of the gate that run side by side do so in turn."""
    tree = tree_sum()
    with open(f"{KEPT}/lock", "w", encoding="utf-8") as lock:
        fcntl.flock(lock, fcntl.LOCK_EX)
        kept = facts()
        if kept["tree"] != tree:
            raise Refused("the tree is another than `rt ci` passed")
        change(kept)
        write(kept)


def keep_archive(line):
    """Keeps the sum of the C library that was built after `rt ci` passed, and the line that says how much of it was
    proved."""
    def change(kept):
        kept["sums"]["caladan_c"], kept["archive"] = sum_of(file_of("caladan_c")), line
    facts()
    add(change)


def keep_witnesses(refused):
    """Keeps of each crate how many wrong bodies of its witnesses/ were refused, after `rt ci` passed."""
    def change(kept):
        kept["witnesses"] = refused
    facts()
    add(change)


def functions_in(line):
    """How many functions a check's last line says that it proved; None where it is no such line."""
    found = re.match(r"logic=proved(?: \S+)*? functions=(\d+)", line)
    return int(found[1]) if found else None


def numbers_in(log):
    """Of each crate that a log calls proved or kept the number that stands under its heading, None where there is
    none."""
    heading, under, found = None, {}, {}
    for line in log.splitlines():
        told = re.fullmatch(r"rt: (\w+) (?:proved|is kept: an earlier run .*)", line)
        if line.startswith("== "):
            heading = line[3:]
        elif told:
            found[told[1]] = under.get(told[1])
        elif functions_in(line) is not None:
            under[heading] = functions_in(line)
    return found


def wrong_bodies(folder):
    """The wrong bodies of the tree in these folders of the crates, as a log names them."""
    edits = (re.fullmatch(rf"crates/(\w+)/{folder}/(.*\.edit)", it) for it in files())
    return {f"{it[1]}/{it[2]}" for it in edits if it}


def proved_crates(log):
    """Of each crate what a log says; a log that names a crate neither proved nor kept is refused, and one whose wrong
    bodies are others than the tree's, or are not all refused."""
    found = numbers_in(log)
    tried = re.findall(r"^(?:rt: )?must-fail ((\w+)/[^:]*): refused, as it must be", log, re.M)
    refused = collections.Counter(crate for _, crate in tried)
    others = sorted(wrong_bodies("must-fail") ^ {it for it, _ in tried})
    only = r"^(?:rt: )?must-fail (\w+)/[^:]*: refused, as it must be \(only "
    limited = collections.Counter(re.findall(rf"{only}by a limit", log, re.M))
    named = collections.Counter(re.findall(rf"{only}because a proof", log, re.M))
    lacking = [it for it in crates() if it not in found]
    if lacking:
        raise Refused(f"the log of `rt ci` does not say of {lacking[0]} that it is proved")
    if others:
        raise Refused(f"of the wrong body {others[0]} either the log or the tree does not say that it is refused")
    return {it: Proved(found[it], refused[it], limited[it], named[it]) for it in crates()}


def read():
    """What is kept, where it is this tree's: the facts, the verdict, and what was proved of each crate."""
    kept = facts()
    if kept["tree"] != tree_sum():
        raise Refused("what `rt ci` printed is of another tree than this: run .ci/run once more")
    if kept["kit"] != said("rt", "version"):
        raise Refused("what `rt ci` printed is of another kit than this: run .ci/run once more")
    if sum_of(f"{KEPT}/rt-ci.log") != kept["log"]:
        raise Refused(f"{KEPT}/rt-ci.log is not what `rt ci` printed")
    with open(f"{KEPT}/rt-ci.log", encoding="utf-8") as it:
        log = it.read()
    refused = kept.get("witnesses", {})
    if collections.Counter(it.partition("/")[0] for it in wrong_bodies("witnesses")) != refused:
        raise Refused("nothing says that each wrong body of witnesses/ was refused: the gate's tools/witnesses does")
    proved = {name: it._replace(functions=kept["functions"][name][1], refused=it.refused + refused.get(name, 0))
              for name, it in proved_crates(log).items()}
    if "archive" in kept and proved["caladan_c"].functions is None:
        proved["caladan_c"] = proved["caladan_c"]._replace(functions=functions_in(kept["archive"]))
    return kept, verdict(log), proved


def check_built(kept, name, file):
    """Refuses a program or an archive that is not the proved one."""
    wanted = kept["sums"].get(name)
    if wanted is None:
        raise Refused(f"no sum of a proved {BUILT[name]} is kept: the gate takes it after it built it")
    if sum_of(file) != wanted:
        raise Refused(f"{file} is not the {BUILT[name]} that was proved: its sum is another")


def marked(page, name):
    """What a page has between the marks <!-- NAME --> and <!-- end -->, without its links and bold letters."""
    with open(f"{TOP}/{page}", encoding="utf-8") as it:
        found = re.search(rf"^<!-- {name} -->\n(.*?)^<!-- end -->$", it.read(), re.M | re.S)
    if not found:
        raise Refused(f"{page} has no part between the lines <!-- {name} --> and <!-- end -->")
    plain = re.sub(r"!?\[(`?)([^\]`]+)\1\](?:\([^)\s]+\)|\[\])?", r"\1\2\1", found[1])
    return plain.replace("**", "").strip("\n")


def rows_of(proved):
    """The table of the crates."""
    wide = max(map(len, proved))
    yield f"{'crate'.ljust(wide)}  functions proved  wrong bodies refused"
    for name, it in proved.items():
        number = "(kept)" if it.functions is None else str(it.functions)
        yield f"{name.ljust(wide)}  {number.rjust(16)}  {str(it.refused).rjust(20)}"
    known = [it.functions for it in proved.values() if it.functions is not None]
    refused = sum(it.refused for it in proved.values())
    yield f"{'together'.ljust(wide)}  {str(sum(known)).rjust(16)}  {str(refused).rjust(20)}"
    limited = sum(it.limited for it in proved.values())
    if limited:
        yield f"\n{limited} of the wrong bodies were refused only by a limit of the prover, which gave no verdict."
    named = sum(it.named for it in proved.values())
    if named:
        yield f"\n{named} of the wrong bodies were refused only because a proof names what they lack, by no contract."
    if len(known) < len(proved):
        yield ("\n(kept): `rt ci` took this crate from an earlier run of it on the same machine, which had proved the\n"
               "same files over the same libraries, and printed no number. The sum is of the others.")


def text(version, commit, kept, said, proved, lines):
    """PROOF: what was proved of a release, and the sums by which its files are known."""
    kit, _, logic = kept["kit"].partition(" logic ")
    built = "\n".join(f"{kept['sums'][name]}  {file}" for name, file in BUILT.items())
    built += f"\n{kept['heap']}  liblibc_c.a"
    told = {"version": version, "commit": commit, "tree": kept["tree"], "kit": kit, "logic": logic, "said": said}
    promises, trusted = marked("docs/PROMISES.md", "proof: promises"), marked("docs/PROMISES.md", "proof: trusted")
    return PROOF.format(**told, rows="\n".join(rows_of(proved)), promises=promises, trusted=trusted, built=built,
                        files="\n".join(lines))
