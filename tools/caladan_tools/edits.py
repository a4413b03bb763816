"""The wrong bodies of the repository: what each edit says of itself, and whether the prover refused it there.

An edit is a file crates/CRATE/witnesses/NAME.edit, which tools/witnesses tries, or, in two small crates,
crates/CRATE/must-fail/NAME.edit, which `rt ci` tries by itself, each by a check of the whole crate:

    # mistake: the mistake that the body makes
    # refused: FUNCTION: CLAUSE, CLAUSE
    file: src/FILE.rt
    old: a text of one line that stands there once
    new: the text in its place

and further `old:` and `new:` pairs. FUNCTION is where the proof fails, as the end of its path (`take`,
`BareThread::turn`); each CLAUSE is one of its clauses, a call whose requirement it owes (`store`), `invariant`, or a
lemma of its own proof; what a loop keeps carries the clauses of its function. A function alone stands for its one
clause without a name, or, where it has no clause at all, for its safety. `NAME-is` alone is an equation of
specs/Limits.antt."""
import collections
import functools
import glob
import os
import re

from .crates import TOP, text_of

FOLDERS = ("must-fail", "witnesses")
# Rises where fault_of, at the end, is to judge otherwise what it has judged before.
JUDGED = 2
# An edit: its file, the crate, its name, the mistake, the function and what of it is refused, and the pairs of texts
# as (file, old, new).
Edit = collections.namedtuple("Edit", "file crate name mistake function clauses pairs")
# What the prover did not take: the file and the line, and the goal's name or the text of the error.
Refusal = collections.namedtuple("Refusal", "file line goal said")
# A function of src/: its path below the crate, as the prover writes it (a trait's method stands below the type's and
# the trait's names joined), its file, its first and last line, the names of its clauses, and the trait, or ''.
Function = collections.namedtuple("Function", "path file first last clauses of_trait")

PLACE = re.compile(r"^(?:note: )?(?:\./)?((?:src|proofs|specs)/\S+?\.(?:rt|antt)):(\d+):\d+: (.*)")
HEAD = re.compile(r'^(\s*)(?:pub(?:\([\w ]+\))? )?(?:const )?(?:unsafe )?(?:extern "C" )?fn (\w+)')
IMPL = re.compile(r"^impl\b(?:<[^{]*?>(?= ))? *(?:[\w:<>', ()&\[\]]+? for )?&?(?:'\w+ )?(\w+)")
EQUATION = re.compile(r"^(?:pub )?([\w-]+) [:=] ")
FOUND_FALSE = r"it is not proved that|is not proved|cannot|could not"


def lines_of(text, word):
    return [it.removeprefix(f"{word} ").strip() for it in text.splitlines() if it.startswith(f"{word} ")]


def pairs_of(text):
    """The pairs of an edit, as (file, old, new), in order; what has no place of its own is left out."""
    file, old, pairs = "", None, []
    for line in text.splitlines():
        if line.startswith("file: "):
            file = line[6:].strip()
        elif line.startswith("old: "):
            old = line[5:]
        elif line.startswith("new:") and old is not None:
            pairs.append((file, old, line[4:].removeprefix(" ")))
            old = None
    return pairs


def read(file):
    """The edit that stands in a file, and what is missing in it, a line each."""
    text = text_of(file)
    crate, name = file.split("/")[-3], os.path.basename(file).removesuffix(".edit")
    mistake, refused = lines_of(text, "# mistake:"), lines_of(text, "# refused:")
    function, _, clauses = (refused or [""])[0].partition(": ")
    named = [it.strip() for it in clauses.split(",") if it.strip()]
    pairs = pairs_of(text)
    lacks = [f"no line '# {word}: ..'" for word, has in (("mistake", mistake), ("refused", refused)) if not any(has)]
    lacks += ["no pair of lines 'old: ..' and 'new: ..' below a line 'file: src/..'"] * (not pairs)
    lacks += [f"{it[0] or 'no file'} is not below src/" for it in pairs if not it[0].startswith("src/")]
    return Edit(file, crate, name, (mistake or [""])[0], function, tuple(named), tuple(pairs)), lacks


def files(*folders):
    """The files of all edits in these folders, in order."""
    return sorted(it for folder in folders or FOLDERS for it in glob.glob(f"{TOP}/crates/*/{folder}/*.edit"))


def applied(edit, texts):
    """Puts the edit into these texts of files, by their names; says why it cannot be, or nothing."""
    for file, old, new in edit.pairs:
        if file not in texts:
            path = f"{TOP}/crates/{edit.crate}/{file}"
            if not os.path.isfile(path):
                return f"there is no {file}"
            texts[file] = text_of(path)
        if texts[file].count(old) != 1:
            return f"an 'old:' text stands in {file} {texts[file].count(old)} times"
        texts[file] = texts[file].replace(old, new)
    return ""


def module_of(file):
    """The path of a source file's module below the crate."""
    parts = file.removeprefix("src/").removesuffix(".rt").split("/")
    return [it for it in parts if it not in ("lib", "main", "mod")]


@functools.cache
def functions(crate):
    """The functions of a crate, each with the clauses that its contract names ('' for one without a name). A method of
    a trait has the trait's, where it states none of its own."""
    found = []
    for path in sorted(glob.glob(f"{TOP}/crates/{crate}/src/**/*.rt", recursive=True)):
        found += functions_in(os.path.relpath(path, f"{TOP}/crates/{crate}"), text_of(path).splitlines())
    of_traits = {tuple(it.path.split("::")[-2:]): it.clauses for it in found if not it.of_trait}
    return [it._replace(clauses=it.clauses or of_traits.get((it.of_trait, it.path.split("::")[-1]), []))
            for it in found]


def functions_in(file, lines):
    """The functions of one file. Each ends where the next one begins."""
    found, owner, trait = [], "", ""
    for number, line in enumerate(lines, 1):
        if re.match(r"^(?:impl|(?:pub )?trait|(?:pub )?mod)\b", line):
            owner = (IMPL.match(line) or re.match(r"^(?:pub )?(?:trait|mod) (\w+)", line) or [None, ""])[1]
            trait = (re.match(r"^impl\b.*?(\w+)(?:<[^{]*>)? for ", line) or [None, ""])[1]
        elif line == "}":
            owner = trait = ""
        head = HEAD.match(line)
        if head:
            path = "::".join([*module_of(file), *([owner + trait] if owner and head[1] else []), head[2]])
            found.append(Function(path, file, number, len(lines), clauses_below(lines, number), trait))
    ends = [it.first - 1 for it in found[1:]] + [len(lines)]
    return [it._replace(last=end) for it, end in zip(found, ends)]


def clauses_below(lines, number):
    """The names of the clauses between a function's head and its body."""
    names, indent = [], HEAD.match(lines[number - 1])[1]
    for line in lines[number - 1:]:
        clause = re.match(rf"^{indent}    ensures\*?(?: (\w+))?(?: \{{|$)", line)
        names += [clause[1] or ""] if clause else []
        if line in (f"{indent}{{", f"{indent}{{}}", f"{indent}}}") or line.endswith("};"):
            break
    return names


def named(crate, function):
    """The functions of the crate whose path ends so."""
    return [it for it in functions(crate) if f"::{it.path}".endswith(f"::{function}")]


def path_of(edit):
    """By what a check names the function of an edit: as the edit does; where a module has that name too, which would
    stand for all functions in it, with what it stands in. A method stands in its type, wherever its file is."""
    modules = {it for one in functions(edit.crate) for it in module_of(one.file)}
    if edit.function not in modules:
        return edit.function
    return "::".join(named(edit.crate, edit.function)[0].path.split("::")[-2:])


def function_at(crate, file, line):
    """The function in whose lines, or in whose folder of proofs/, a place lies; in specs/ the equation there."""
    if file.startswith("proofs/"):
        path = os.path.dirname(file) if file.endswith(("/Answers.antt", "/Invariants.antt", "/Proof.antt")) else file
        return path.removeprefix("proofs/").removesuffix(".antt").replace("/", "::")
    if file.startswith("specs/"):
        above = text_of(f"{TOP}/crates/{crate}/{file}").splitlines()[:line]
        return next((it[1] for it in map(EQUATION.match, reversed(above)) if it), "")
    return function_of_line(crate, file, line)


def function_of_line(crate, file, line):
    """The function of src/ in whose lines a place lies; a place at its attributes or comments is its own too."""
    lines = text_of(f"{TOP}/crates/{crate}/{file}").splitlines()
    while line < len(lines) and re.match(r"\s*(?:#\[|///)", lines[line - 1]):
        line += 1
    here = [it.path for it in functions(crate) if it.file == file and it.first <= line <= it.last]
    return here[-1] if here else ""


def refusals(said):
    """What the prover did not take, in the order of its words."""
    found = []
    for line in said.splitlines():
        place = PLACE.match(line)
        if place and (": error" in line or line.startswith("note: ") and re.search(FOUND_FALSE, line)):
            goal = re.search(r"\(`([\w-]+)`\)", place[3]) or re.search(r"error: `([\w-]+)`", line)
            found.append(Refusal(place[1], int(place[2]), goal[1] if goal else "", place[3]))
    return found


def is_at(edit, path):
    """Whether this path of a function is that which the edit names."""
    return f"::{path}".endswith(f"::{edit.function}")


def clause_of(goal):
    """What of a function a goal stands for: the name of a clause, '' for one without a name, `invariant`, the call
    whose requirement it is, or None for its safety alone (a sum, an index, a cast)."""
    if goal == "returns" or goal.startswith("returns-"):
        return re.sub(r"-\d+$", "", goal.partition("-clause-")[2])
    if re.fullmatch(r"[\w-]+-(?:init|preserved)(?:-[\w-]+)?", goal) or goal.startswith("invariant_of"):
        return "invariant"
    owed = re.fullmatch(r"([\w-]+?)-requires(?:-[\w-]+)?", goal)
    return owed[1].split("-")[-1] if owed else None


def lemmas_of(edit):
    """The lemmas that stand in the proof of the function that an edit names."""
    paths = [it.path.replace("::", "/") for it in named(edit.crate, edit.function)]
    files = [file for it in paths for file in glob.glob(f"{TOP}/crates/{edit.crate}/proofs/{it}/*.antt")]
    return {name for file in files for name in re.findall(r"^([a-z][\w-]*) : ", text_of(file), re.M)}


def is_refused_at(edit, goal):
    """Whether a goal of the function that the edit names stands for what it names."""
    if edit.function.endswith("-is"):
        return True
    if goal in edit.clauses and goal in lemmas_of(edit):
        return True
    of = clause_of(goal)
    clauses = [clause for it in named(edit.crate, edit.function) for clause in it.clauses]
    if edit.clauses:
        # (where each clause has a name, one goal without a name stands for all of them together)
        return of in (*edit.clauses, "invariant") or of == "" and "" not in clauses
    return of in ("", "invariant") if clauses else True


def fault_of(edit, said):
    """What is wrong with how an edit was refused; '' where it was refused at what it names."""
    mine = [it for it in refusals(said) if is_at(edit, function_at(edit.crate, it.file, it.line))]
    if any(is_refused_at(edit, it.goal) for it in mine):
        return ""
    wanted = ": ".join([edit.function, ", ".join(edit.clauses)] if edit.clauses else [edit.function])
    if mine:
        return f"refused at {', '.join(dict.fromkeys(it.goal or it.said[:60] for it in mine))}, and not at {wanted}"
    others = [f"{function_at(edit.crate, it.file, it.line)} ({it.goal or it.said[:60]})" for it in refusals(said)]
    return f"refused elsewhere, and not at {wanted}: {', '.join(dict.fromkeys(others))}" if others else "not refused"
