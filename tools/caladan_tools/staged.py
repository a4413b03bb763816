"""The files of a release, put below the folder where they are installed: as of Debian, a folder for each package, or as
of a prefix, one folder for all. tools/make_release calls it."""
import collections
import functools
import glob
import gzip
import os
import re
import shutil
import subprocess

from . import proved
from .crates import TOP, below, crates, kit, text_of

# Where things go below a folder: Debian's places, or those of a prefix. `up` leads from lib to include.
Layout = collections.namedtuple("Layout", "root prefix lib python zsh unit up")
# What a release is made from: the version that its files say, the time of all of them, the programs and the archive
# (None where it is not there), the heap, a folder to build in, and how hard it is pressed, 0 to 9.
Made = collections.namedtuple("Made", "version epoch programs archive heap folder pressed")
PAGES = ["README.md", "CHANGELOG.md", "SECURITY.md", "docs/TUTORIAL.md", "docs/FORMATS.md", "docs/VIEWER.md",
         "docs/POLICY.md", "docs/GLOSSARY.md", "docs/MODEL.md", "docs/PROMISES.md", "lab/README.md"]
SCRIPTS = ("caladan_lab", "caladan_draw")
HEADERS = ["caladan.h", "caladan_history.h", "caladan_pages.h"]
SONAME = "libcaladan_c.so"


def debian(root, triplet):
    return Layout(root, "usr", f"usr/lib/{triplet}", "usr/lib/python3/dist-packages",
                  "usr/share/zsh/vendor-completions", "lib/systemd/system", "../../include")


def flat(root):
    return Layout(root, "", "lib", "share/caladan/python", "share/zsh/site-functions", "lib/systemd/system",
                  "../include")


def put(at, where, file, mode=0o644):
    """Copies a file into the folder `where`."""
    write(at, f"{where}/{os.path.basename(file)}", None, mode, file)


def write(at, path, data, mode=0o644, file=None):
    made = os.path.normpath(f"{at.root}/{path}")
    os.makedirs(os.path.dirname(made), exist_ok=True)
    if file:
        shutil.copyfile(file, made)
    else:
        with open(made, "wb") as it:
            it.write(data if isinstance(data, bytes) else data.encode())
    os.chmod(made, mode)
    return made


def share(at, path):
    return f"{at.prefix}/share/{path}"


def tool(*command):
    """Runs a tool of the machine, and says what it said where it failed."""
    ran = subprocess.run(command, capture_output=True, text=True)
    if ran.returncode:
        raise proved.Refused(f"{' '.join(command[:6])} .. failed: {(ran.stderr + ran.stdout).strip()[-600:]}")
    return ran.stdout


def tracked(folder):
    """The files of the repository below a folder."""
    return [it for it in proved.files() if it.startswith(f"{folder}/")]


def compressed(at):
    """The manual pages, each compressed, without a time in it."""
    for page in sorted(glob.glob(os.path.normpath(f"{at.root}/{at.prefix}") + "/share/man/man*/*.[1-9]")):
        with open(page, "rb") as it:
            text = it.read()
        os.remove(page)
        with open(f"{page}.gz", "wb") as it:
            it.write(gzip.compress(text, 9, mtime=0))


def manual(at, names):
    """Manual pages and completions of the programs of these names, which are in place."""
    man = os.path.normpath(f"{at.root}/{at.prefix}/share")
    files = [os.path.normpath(f"{at.root}/{at.prefix}/bin/{it}") for it in names]
    tool("env", f"PYTHONPATH={at.root}/{at.python}", f"{TOP}/tools/manual", man, *files)
    if at.zsh != share(at, "zsh/site-functions"):
        os.renames(f"{man}/zsh/site-functions", f"{at.root}/{at.zsh}")


def programs(at, made):
    """caladan_sim and caladan_view, stripped, with their manual pages and completions, the pages of docs/ and the
    examples."""
    for name in made.programs:
        tool("strip", "--strip-all", write(at, f"{at.prefix}/bin/{name}", None, 0o755, made.programs[name]))
    manual(at, made.programs)
    tool(f"{TOP}/tools/doc_pages", os.path.normpath(f"{at.root}/{at.prefix}/share/man"))
    for page in PAGES:
        write(at, share(at, f"doc/doranjei/{page}"), None, 0o644, f"{TOP}/{page}")
    for file in tracked("examples") + tracked("docs/pictures"):
        if not file.startswith("examples/c/"):
            write(at, share(at, f"doc/doranjei/{file}"), None, 0o644, f"{TOP}/{file}")


def lab(at, _):
    """The Python package `caladan`, with caladan_lab, caladan_draw, their manual pages and completions."""
    for file in tracked("lab/src/caladan"):
        write(at, f"{at.python}/{file.removeprefix('lab/src/')}", None, 0o644, f"{TOP}/{file}")
    for name in SCRIPTS:
        put(at, f"{at.prefix}/bin", f"{TOP}/{name}", 0o755)
    manual(at, SCRIPTS)
    write(at, share(at, "doc/python3-caladan/README.md"), None, 0o644, f"{TOP}/lab/README.md")


def table_rows(at, made):
    """The library of tables of rows, which is C and not proved."""
    made_of = f"{made.folder}/caladan_rows.o"
    tool(os.environ.get("CC", "cc"), "-O2", "-fPIC", f"-I{TOP}/include", "-c", f"{TOP}/include/caladan_rows.c",
         "-o", made_of)
    rows = write(at, f"{at.lib}/libcaladan_rows.a", b"!<arch>\n")
    tool("ar", "rcsD", rows, made_of)
    return rows


def shared_object(at, made, archives, heap):
    """The shared object, with the calls of caladan.h as its only names; its soname has the version."""
    number = made.version.partition("~")[0]
    names = f"{made.folder}/names"
    with open(names, "w", encoding="utf-8") as it:
        it.write("{ global: caladan_*; local: *; };\n")
    so = f"{at.root}/{at.lib}/{SONAME}.{number}"
    tool(os.environ.get("CC", "cc"), "-shared", "-o", so,
         f"-Wl,--version-script={names},-soname,{SONAME}.{number},-z,relro,-z,now",
         "-Wl,--whole-archive", *archives, "-Wl,--no-whole-archive", heap)
    tool("strip", "--strip-unneeded", so)
    os.chmod(so, 0o644)
    os.symlink(f"{SONAME}.{number}", f"{at.root}/{at.lib}/{SONAME}")


def library(at, made):
    """The C library: the archive with its heap, tables of rows, the shared object, headers, pkg-config, CMake, and the
    clients as sources."""
    archive = write(at, f"{at.lib}/libcaladan_c.a", None, 0o644, made.archive)
    heap = write(at, f"{at.lib}/liblibc_c.a", None, 0o644, made.heap)
    shared_object(at, made, [table_rows(at, made), archive], heap)
    for file in (archive, heap):
        tool("strip", "--strip-debug", "--enable-deterministic-archives", file)
    for it in HEADERS:
        put(at, f"{at.prefix}/include", f"{TOP}/include/{it}")
    write(at, f"{at.lib}/pkgconfig/caladan.pc", pkg_config(
        at, "caladan", "The decisions of a core scheduler, proved", made.version,
        "${libdir}/libcaladan_rows.a ${libdir}/libcaladan_c.a ${libdir}/liblibc_c.a"))
    for it in ("caladan-config.cmake", "caladan-config-version.cmake"):
        text = text_of(f"{TOP}/packaging/cmake/{it}").replace("@INCLUDE@", at.up)
        write(at, f"{at.lib}/cmake/caladan/{it}", text.replace("@VERSION@", made.version.partition("~")[0]))
    write(at, share(at, "doc/libcaladan-dev/README.md"), None, 0o644, f"{TOP}/crates/caladan_c/README.md")
    for file in tracked("clients") + tracked("examples/c") + ["include/caladan_rows.c"]:
        under = re.sub("^clients/|^examples/", "", file).replace("include/", "c/")
        mode = os.stat(f"{TOP}/{file}").st_mode & 0o755
        write(at, share(at, f"doc/libcaladan-dev/examples/{under}"), None, mode, f"{TOP}/{file}")


def pkg_config(at, name, about, version, libs):
    """A file for pkg-config that goes by where it lies itself, so that a prefix can be moved."""
    number = version.partition("~")[0]
    return (f"libdir=${{pcfiledir}}/..\nincludedir=${{libdir}}/{at.up}\n"
            f"Name: {name}\nDescription: {about}\nVersion: {number}\n"
            f"Cflags: -I${{includedir}}\nLibs: {libs}\n")


def host_folder(at):
    """Where caladand goes: the folder that its unit names, if it has one."""
    unit = f"{TOP}/host/caladand.service"
    named = re.search(r"^ExecStart=\S*/(s?bin)/caladand\b", text_of(unit), re.M) if os.path.isfile(unit) else None
    return f"{at.prefix}/{named[1] if named else 'sbin'}"


def unit_text(at):
    """The unit, which starts the caladand that is installed with it."""
    text = text_of(f"{TOP}/host/caladand.service")
    there = f"/usr/{os.path.basename(host_folder(at))}/caladand"
    return re.sub(r"^(ExecStart=)\S*/caladand\b", rf"\1{there}", text, flags=re.M)


def runtime_sources(out):
    """The files of the runtime: those that the load is made from, but its own."""
    rule = tool("make", "-n", "-B", "-C", f"{TOP}/host", f"OUT={out}", f"{out}/load")
    return [it for it in dict.fromkeys(re.findall(r"/host/(\w+)\.c\b", rule)) if it != "load"]


def host(at, made):
    """The host: its scheduler, stripped, the library by which processes attach, a manual page and a unit where host/
    has them."""
    out = f"{made.folder}/host"
    given = [f"OUT={out}", "CFLAGS=-O2", f"ARCHIVE={made.archive}", f"CALADAN_HEAP={made.heap}"]
    tool("make", "-s", "-C", f"{TOP}/host", *given, f"{out}/caladand")
    tool("strip", "--strip-all", write(at, f"{host_folder(at)}/caladand", None, 0o755, f"{out}/caladand"))
    objects = []
    for it in runtime_sources(out):
        objects.append(f"{out}/{it}.o")
        flags = ["-std=gnu11", "-O2", "-fPIC", "-pthread", f"-I{TOP}/include"]
        tool(os.environ.get("CC", "cc"), *flags, "-c", f"{TOP}/host/{it}.c", "-o", objects[-1])
    archive = write(at, f"{at.lib}/libcaladan_rt.a", b"!<arch>\n")
    tool("ar", "rcsD", archive, *objects)
    put(at, f"{at.prefix}/include", f"{TOP}/host/caladan_rt.h")
    write(at, f"{at.lib}/pkgconfig/caladan-rt.pc", pkg_config(
        at, "caladan-rt", "The runtime of processes that caladand schedules", made.version,
        "${libdir}/libcaladan_rt.a -pthread"))
    if os.path.isfile(f"{TOP}/host/caladand.8"):
        put(at, share(at, "man/man8"), f"{TOP}/host/caladand.8")
    if os.path.isfile(f"{TOP}/host/caladand.service"):
        write(at, f"{at.unit}/caladand.service", unit_text(at))
    write(at, share(at, "doc/caladand/README.md"), None, 0o644, f"{TOP}/host/README.md")
    for file in [*tracked("host/tables"), "host/load.c"]:
        put(at, share(at, "doc/caladand/examples"), f"{TOP}/{file}")


def notices(crate):
    """What the sources of a crate of the kit say of licences, in the comments at their heads."""
    for file in sorted(glob.glob(f"{kit()}/rattle/{crate}/src/**/*.rt", recursive=True)):
        head = re.match(r"(?://.*\n)+", text_of(file))
        if head and re.search(r"licen[cs]e", head[0], re.I):
            said = re.sub(r"^// ?", "", head[0], flags=re.M).rstrip("\n")
            yield f"{crate}/src/{file.partition('/src/')[2]}", said


@functools.cache
def kit_licences(*names):
    """The licences that the kit gives for those of its crates that are built into these crates: its files of that name,
    and what the sources themselves say."""
    uses, at, wanted = crates(), kit(), ["std"]
    for name in names:
        for it in [*below(name, uses, []), name]:
            wanted += [lib for lib in uses[it] if lib not in uses and lib not in wanted]
    for it in wanted:
        uses = re.findall(r"^dep (\w+)$", text_of(f"{at}/rlibs/{it}.rlib/format"), re.M)
        wanted += [lib for lib in uses if lib not in wanted]
    texts, without = collections.defaultdict(list), []
    for it in sorted(wanted):
        files = sorted(glob.glob(f"{at}/rattle/{it}/LICENSE*"))
        without += [] if files else [it]
        for file in files:
            texts[text_of(file).rstrip("\n")].append(f"{it}/{os.path.basename(file)}")
        for name, text in notices(it):
            texts[text].append(name)
    if any("Unicode License" in it for it in texts):
        texts[text_of(f"{at}/rattle/unicode/LICENSE-UNICODE").rstrip("\n")].append("unicode/LICENSE-UNICODE")
    parts = [f"{', '.join(files)}\n\n{text}\n" for text, files in texts.items()]
    head = f"Licences that the Rattle kit gives for its crates. It has no licence file for: {', '.join(without)}.\n"
    head += "Where a source of these names a licence, what it says is below. liblibc_c.a is in none of these crates.\n"
    return "\n----\n\n".join([head, *parts])
