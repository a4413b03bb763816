"""What the scripts of bench/ share that run clients/c/bench.c over the C library: where it is, how it is compiled, the
shapes of its passes, and the instructions of a pass by valgrind's callgrind."""
import os
import pathlib
import re
import subprocess

TOP = pathlib.Path(__file__).resolve().parent.parent
ARCHIVE = TOP / "crates" / "caladan_c" / "out" / "libcaladan_c.a"
BENCH = TOP / "clients" / "c" / "bench.c"
# one thread in so many turns in a pass; yields; asks; turns that a request takes; a second request
SHAPES = {"quiet": "1000000000 16 16 16 64", "busy": "4 64 16 64 0", "congested": "4 16 4 4 2"}
# a line of callgrind_annotate: instructions, file and function, program or library
TAKEN = re.compile(r"^ *([\d,]+) \([ \d.]+%\)  \S*?:([^/\s][^/]*?)(?: \[.*\])?$", re.MULTILINE)


def kit_heap():
    """The C code of the kit that the archive of this repository is linked with."""
    page = subprocess.run(["rt", "doc"], stdout=subprocess.PIPE, text=True, check=True).stdout.strip()
    return pathlib.Path(page).parent / "c" / "liblibc_c.a"


def compiled(source, archives, made, *words):
    """The benchmark over these archives."""
    command = [os.environ.get("CC", "cc"), "-std=gnu11", "-O2", f"-I{TOP / 'include'}", *words, source, *archives]
    subprocess.run([*command, "-lpthread", "-ldl", "-lm", "-o", made], check=True)
    return made


def collected(command, given, folder, *words):
    """The instructions that callgrind collects in a run of the command."""
    out = folder / "callgrind.out"
    under = ["valgrind", "--tool=callgrind", f"--callgrind-out-file={out}", *words, *command]
    subprocess.run(under, input=given, stdout=subprocess.DEVNULL, stderr=subprocess.DEVNULL, check=True)
    return int(re.search(r"^(?:summary|totals): (\d+)", out.read_text(), re.MULTILINE)[1]), out


def counted(program, name, passes, shape, threads, folder):
    """The instructions of a pass, by callgrind, and what callgrind wrote."""
    inside = {"guard": "caladan_guard_pass", "bare": "bare_read*"}.get(name, "caladan_pass")
    command = [program, str(passes), *SHAPES[shape].split(), str(threads)]
    whole, out = collected(command, None, folder, "--collect-atstart=no", f"--toggle-collect={inside}")
    return whole / passes, out


def greatest(out):
    """The functions that have most of the instructions, with their share."""
    said = subprocess.run(["callgrind_annotate", out], stdout=subprocess.PIPE, text=True, check=True).stdout
    rows = [(int(it.replace(",", "")), of) for it, of in TAKEN.findall(said)]
    whole = sum(it for it, _ in rows) or 1
    return ", ".join("%s %.0f %%" % (of, 100 * it / whole) for it, of in rows if 50 * it >= whole)
