"""The public functions of the library crates, with what each says of itself and its clauses.

A function is public where its crate's lib.rt hands it out, or the type or trait that has it; a function of caladan_c
where C calls it. tools/clauses prints them; tools/docs sees that each says what it is for, that the list of laws shows
each law with its doc, and that docs/PROMISES.md names no law or clause that is not there."""
import collections
import functools
import os
import re

from . import edits
from .crates import TOP, below, crates, files_of, text_of

# A public function: its crate, its path as a caller writes it (`Book::open`), its file and line, the first sentence and
# the first paragraph of its doc, its head, and its clauses as (requires or ensures, name or '', text), each text on
# lines of its own.
Contract = collections.namedtuple("Contract", "crate path file line doc paragraph head clauses")
CLAUSE = re.compile(r"(requires|ensures)\*?(?: (\w+))?(?: |$)")
TAKEN = re.compile(r"ghost use Rattle\.(\w+)\.specs\.([\w.]+?)(?:\.\{([^}]*)\}| as (\w+));")
USE = re.compile(r"^pub use (?:crate::)?([\w:]+?)(?:::\{([^}]*)\})?(?: as \w+)?;", re.M)


def libraries():
    """The crates that hand out functions."""
    return [it for it in crates()
            if os.path.isfile(f"{TOP}/crates/{it}/src/lib.rt") and not it.startswith(("test_", "check_"))]


def file_of(crate, module):
    """The file of a module of the crate, as lines; none where there is no such file."""
    file = f"{TOP}/crates/{crate}/src/{module or 'lib'}.rt"
    return text_of(file) if os.path.isfile(file) else ""


@functools.cache
def handed_out(crate, module=""):
    """What a module of the crate hands out: pairs of a module and the name of a function, a type or a trait there."""
    text, found = file_of(crate, module), set()
    for path, names in USE.findall(text):
        path = path.split("::")
        for name in re.findall(r"[^,\s]+", names) or [path.pop()]:
            *inner, name = name.split("::")
            found.add(("/".join(path + inner), name))
    for inner in re.findall(r"^pub mod (\w+);", text, re.M):
        found |= handed_out(crate, f"{module}/{inner}".strip("/"))
    if module or crate == "cal_laws":
        found |= {(module, it) for it in re.findall(r"^pub (?:const )?(?:fn|struct|enum|trait) (\w+)", text, re.M)}
    return frozenset(found)


def doc_of(lines, number):
    """The first sentence of the doc above a line, and its first paragraph."""
    words, at = [], number - 2
    while at >= 0 and re.match(r"\s*(?:///|#\[)", lines[at]):
        if lines[at].lstrip().startswith("///"):
            words.insert(0, lines[at].strip()[3:].strip())
        at -= 1
    words = words[:words.index("")] if "" in words else words
    paragraph = " ".join(words)
    sentence = re.match(r"(.+?(?<!\.)\.)(?=\s|$)", paragraph)
    return sentence[1] if sentence else paragraph, paragraph


def contract_below(lines, number):
    """The head of the function at a line, and its clauses, each with the comment above it."""
    indent = re.match(r"\s*", lines[number - 1])[0]
    head, clauses, comment = [], [], []
    for line in lines[number - 1:]:
        inner = line[len(indent):]
        clause = CLAUSE.match(inner.strip()) if re.match(r"    (?:requires|ensures)\b", inner) else None
        if line in (f"{indent}{{", f"{indent}{{}}", f"{indent}}}"):
            break
        if clause:
            clauses.append([clause[1], clause[2] or "", [*comment, inner[4:]]])
            comment = []
        elif inner.startswith("    //"):
            comment.append(inner[4:])
        elif clauses:
            clauses[-1][2].append(inner[4:])
        else:
            head.append(inner)
        if line.endswith("};") or not clauses and line.endswith((" {", ";")):
            break
    clauses = [(word, name, "\n".join(text).rstrip().removesuffix(";")) for word, name, text in clauses]
    return "\n".join(head).removesuffix(" {").removesuffix(";"), clauses


def is_public(crate, it, line):
    """Whether a caller of the crate can call a function, by its path and the line that begins it."""
    module = "/".join(edits.module_of(it.file))
    if crate == "caladan_c":
        return 'extern "C"' in line
    owner = it.path.split("::")[len(module.split("/")) if module else 0:-1]
    if not owner:
        return line.startswith("pub ") and (module, it.path.split("::")[-1]) in handed_out(crate)
    of_trait = line.startswith("    fn") and not it.of_trait and f"pub trait {owner[0]}" in file_of(crate, module)
    return (line.startswith("    pub ") or of_trait) and owner[0] in {name for _, name in handed_out(crate)}


@functools.cache
def contracts(crate):
    """The public functions of a crate, file by file."""
    found = []
    for it in edits.functions(crate):
        lines = text_of(f"{TOP}/crates/{crate}/{it.file}").splitlines()
        if is_public(crate, it, lines[it.first - 1]):
            path = "::".join(it.path.split("::")[len(edits.module_of(it.file)):])
            head, clauses = contract_below(lines, it.first)
            found.append(Contract(crate, path, it.file, it.first, *doc_of(lines, it.first), head, clauses))
    return found


@functools.cache
def names_taken(crate, file):
    """Of each name that a file takes from definitions of this repository, the file of specs/ where it stands."""
    found = {}
    text = text_of(f"{TOP}/crates/{crate}/{file}")
    for of, path, names, alias in TAKEN.findall(text):
        at = f"crates/{of}/specs/{path.replace('.', '/')}.antt"
        if os.path.isfile(f"{TOP}/{at}"):
            for name in [alias] if alias else names.split(","):
                found[name.split()[-1]] = at
    return found


def words_of(it):
    """Of each word of a function's clauses that this repository defines, the file of specs/ where it stands, in
    order."""
    used = set(re.findall(r"\w+", "\n".join(text for _, _, text in it.clauses)))
    return [(name, at) for name, at in sorted(names_taken(it.crate, it.file).items()) if name in used]


def definition(file, name):
    """The lines of a definition, with the comment above it; none where the file has not that name."""
    for block in text_of(f"{TOP}/{file}").split("\n\n"):
        if re.search(rf"^(?:abbrev )?pub (?:record |data )?{name} ", block, re.M):
            return block.strip("\n")
    return ""


ITEM = re.compile(r"^pub (?:struct|enum|trait|union|const|type|static) (\w+).*?(?:;$|^\}$)", re.M | re.S)
GHOST = re.compile(r"^ *ghost (?!use\b)[^;]*;", re.M)


def bare(text):
    """A text without its lines of comment."""
    return "\n".join(it for it in text.splitlines() if not it.lstrip().startswith(("//", "-- ")))


@functools.cache
def stated(crate):
    """What the public functions, types and constants of a crate state, each as its name and its text. Bodies and proofs
    are no part of it."""
    found = []
    for file in files_of([crate], "src"):
        found += [(it[1], bare(it[0])) for it in ITEM.finditer(text_of(file))]
    for it in edits.functions(crate):
        lines = text_of(f"{TOP}/crates/{crate}/{it.file}").splitlines()
        if is_public(crate, it, lines[it.first - 1]):
            head, clauses = contract_below(lines, it.first)
            said = [bare(f"{word} {name} {text}") for word, name, text in clauses]
            found.append((it.path.split("::")[-1], "\n".join([it.path, head, *said])))
    return found


@functools.cache
def outline(file):
    """A source file without the bodies of its functions and without comments: types, impls and traits with what they
    state, heads and clauses."""
    said, end, head, has_clauses = [], None, None, False
    for line in text_of(file).splitlines():
        if end is not None:
            end = None if line == end else end
            continue
        if head is None and (found := edits.HEAD.match(line)):
            head, has_clauses = found[1], False
        said.append(line)
        if head is None:
            continue
        has_clauses |= bool(CLAUSE.match(line.strip()))
        if line == f"{head}{{" or not has_clauses and line.endswith(" {"):
            end, head = f"{head}}}", None
        elif line.endswith(("};", "{}") if has_clauses else (";", "{}")):
            head = None
    return bare("\n".join(said))


def rules_of(crate):
    """What the impls and the traits of a crate say of types, as `ghost view = ..;`."""
    return [it for file in files_of([crate], "src") for it in GHOST.findall(outline(file))]


@functools.cache
def terms_of(crate):
    """All in whose terms the functions of a crate are proved or refused: its definitions and those of the crates below
    it, all of its code but bodies, and what the crates below state of what it names, and of their types."""
    lowers = below(crate, crates(), [])
    named = set(re.findall(r"\w+", "\n".join(text_of(it) for it in files_of([crate], "src"))))
    said = [bare(text_of(it)) for it in files_of([*lowers, crate], "specs")]
    said += [outline(it) for it in files_of([crate], "src")]
    for lower in lowers:
        said += [text for name, text in stated(lower) if name in named] + rules_of(lower)
    return "\n".join(said)


def is_law(it):
    """Whether a function is a law: it takes nothing and answers nothing."""
    return re.fullmatch(r"pub fn \w+\(\)", it.head) is not None


def laws(found):
    """The laws among these functions as rows of a table: the law, and the first paragraph of its doc."""
    return [f"| `{it.path}` | {it.paragraph} |" for it in found if is_law(it)]


def faults_of_functions():
    """Which public functions do not say what they are for, and which clause was not read to its end."""
    for crate in libraries():
        if not contracts(crate):
            yield f"crates/{crate}: no public function was found"
        for it in contracts(crate):
            if not it.doc:
                yield f"crates/{crate}/{it.file}: {it.path} does not say what it is for"
            if is_law(it) and not any(definition(at, name) for name, at in words_of(it)):
                yield f"crates/{crate}/{it.file}: the statement of {it.path} was not found"
            for word, name, text in it.clauses:
                if text.count("{") != text.count("}"):
                    yield f"crates/{crate}/{it.file}: {it.path}: {word} {name} was not read to its end"


def names_in(cell):
    """What a cell names: pairs of a function and of its clauses, none for a law."""
    for part in cell.split(";"):
        before, _, after = part.partition(": ")
        functions = re.findall(r"`([\w:]+)`", before)
        yield functions, re.findall(r"`(\w+)`", after)


def faults_of_table(named, row, cell):
    """What is wrong with what the last cell of a row names, below a heading that names these crates."""
    crate, known = " or ".join(named), {}
    for it in (it for crate in named for it in contracts(crate)):
        for path in (it.path, it.path.split("::")[-1]):
            known.setdefault(path, set()).update(name for word, name, _ in it.clauses if word == "ensures")
    for functions, clauses in names_in(cell):
        for function in functions:
            if not known.get(function):
                yield f"{row}: {crate} has no public function {function} with a clause"
            lacks = [it for it in clauses if it not in known.get(function, clauses)]
            yield from (f"{row}: {function} of {crate} has no clause {it}" for it in lacks)


def faults_of_laws():
    """Which law the list of laws does not show with the `///` lines above it, and which crate with laws has no heading
    in docs/PROMISES.md. A law is here a line `pub fn NAME()` of src/, whoever hands it out."""
    headings = re.findall(r"^## (.*)", text_of(f"{TOP}/docs/PROMISES.md"), re.M)
    for crate in libraries():
        shown, found = laws(contracts(crate)), []
        for file in files_of([crate], "src"):
            found += re.findall(r"^((?:///.*\n)*)(?:#\[.*\n)*pub fn (\w+)\(\)\n", text_of(file), re.M)
        for above, name in found:
            said = " ".join(above.partition("///\n")[0].replace("///", "").split())
            if not said:
                yield f"{name}, a law of {crate}, has no line /// that says what it is"
            elif f"| `{name}` | {said} |" not in shown:
                yield f"tools/clauses --laws {crate} does not show {name} with its lines ///"
        if found and not any(crate in re.findall(r"\w+", it) for it in headings):
            yield f"docs/PROMISES.md: no heading names {crate}, which has laws"


def faults_of_promises():
    """Which laws and clauses docs/PROMISES.md names that are not there. Below a heading that names crates, the last
    column of a table whose head ends with `Law` names public functions of these, a clause after a colon."""
    above, is_read = [], False
    for number, line in enumerate(text_of(f"{TOP}/docs/PROMISES.md").splitlines(), 1):
        if line.startswith("#"):
            above = [it for it in re.findall(r"\w+", line) if it in libraries()]
        cells = [it.strip() for it in line.strip("|").split("|")] if line.startswith("|") else []
        if not cells:
            is_read = False
        elif cells[-1] == "Law":
            is_read = bool(above)
        elif is_read and not set(line) <= set("|- "):
            yield from faults_of_table(above, f"docs/PROMISES.md:{number}", cells[-1])
