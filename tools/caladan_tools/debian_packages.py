"""Debian packages and archives whose bytes are the same where their inputs are. tools/make_release calls it."""
import datetime
import functools
import glob
import gzip
import hashlib
import os
import re
import subprocess

from . import staged
from .crates import TOP, text_of

UNPROVED = " .\n NOT PROVED: this one was made to try the packages, and has no PROOF.\n"
MAINTAINER = "Doranjei maintainers <maintainers@users.noreply.doranjei.example>"


@functools.cache
def triplet():
    """The folder below lib that Debian has for this machine's libraries."""
    return staged.tool(os.environ.get("CC", "cc"), "-print-multiarch").strip()


def folded(text):
    """A text as a field of several lines: each line moved right, an empty one a dot."""
    return "\n".join(f" {it}" if it.strip() else " ." for it in text.rstrip("\n").split("\n"))


def settle(root, epoch):
    """Gives each file and folder the one time and the modes that a package has."""
    for at, folders, files in os.walk(root, topdown=False):
        for it in [*files, *folders]:
            file = os.path.join(at, it)
            if os.path.isdir(file) and not os.path.islink(file):
                os.chmod(file, 0o755)
            os.utime(file, (epoch, epoch), follow_symlinks=False)
    os.chmod(root, 0o755)
    os.utime(root, (epoch, epoch))


def compress(file, made):
    staged.tool("xz", "-T1", f"-{made.pressed}", "-f", file)
    return f"{os.path.basename(file)}.xz"


def tar(root, made, out):
    """The folder as a .tar.xz."""
    name = os.path.basename(root)
    staged.tool("tar", "--sort=name", f"--mtime=@{made.epoch}", "--owner=0", "--group=0", "--numeric-owner",
                "--format=gnu",
                "-C", os.path.dirname(root), "-cf", f"{out}/{name}.tar", name)
    return compress(f"{out}/{name}.tar", made)


def sources(made, out):
    """The sources of the commit, which PROOF's sum of the tree is of."""
    name = f"doranjei-{made.version}-source"
    staged.tool("git", "-C", TOP, "archive", f"--prefix={name}/", "-o", f"{out}/{name}.tar", "HEAD")
    return compress(f"{out}/{name}.tar", made)


def needs(files):
    """The packages that these programs and libraries depend on, as ldd names their files, with the C library's
    version."""
    found, newest = set(), (0, 0)
    for file in files:
        for path in re.findall(r"(?:=> |^\s+)(/\S+) \(0x", staged.tool("ldd", file), re.M):
            found.add(owner(path))
        versions = re.findall(r"GLIBC_(\d+)\.(\d+)", staged.tool("objdump", "-T", file))
        newest = max([newest, *((int(one), int(two)) for one, two in versions)])
    return [f"{it} (>= {newest[0]}.{newest[1]})" if it == "libc6" else it for it in sorted(found)]


@functools.cache
def owner(path):
    """The package that a library's file is of."""
    for it in (path, os.path.realpath(path), f"/usr{path}"):
        ran = subprocess.run(["dpkg", "-S", it], capture_output=True, text=True)
        if ran.returncode == 0:
            return ran.stdout.partition(":")[0]
    raise staged.proved.Refused(f"no package has {path}, on which a program depends")


def binaries(root):
    """The programs and shared objects below a folder."""
    for at, _, files in os.walk(root):
        for file in (os.path.join(at, it) for it in files):
            with open(file, "rb") as it:
                if it.read(4) == b"\x7fELF" and not os.path.islink(file):
                    yield file


def changelog(made):
    """The changes as Debian has them, compressed: the release alone, which names the page that has the rest."""
    date = datetime.datetime.fromtimestamp(made.epoch, datetime.timezone.utc).strftime("%a, %d %b %Y %H:%M:%S +0000")
    head = f"doranjei ({made.version}) unstable; urgency=medium"
    text = f"{head}\n\n  * CHANGELOG.md of the sources says what changed.\n\n -- {MAINTAINER}  {date}\n"
    return gzip.compress(text.encode(), 9, mtime=0)


def own_fields(name, made):
    """What packaging/control has of a package: its fields, and the text of its description."""
    text = text_of(f"{TOP}/packaging/control/{name}").replace("@VERSION@", made.version)
    fields, _, description = text.partition("Description: ")
    return dict(re.findall(r"^([\w-]+): (.*)$", fields, re.M)), description


def control(name, made, root):
    """The fields of a package."""
    size = sum(os.lstat(os.path.join(at, it)).st_size for at, _, files in os.walk(root) for it in files)
    own, description = own_fields(name, made)
    fields = {"Package": name, "Source": "doranjei", "Version": made.version,
              "Architecture": own.pop("Architecture", None) or staged.tool("dpkg", "--print-architecture").strip(),
              "Maintainer": MAINTAINER, "Installed-Size": -(-size // 1024)}
    depends = sorted({*needs(binaries(root)), *filter(None, own.pop("Depends", "").split(", "))})
    fields |= {"Depends": ", ".join(depends), "Priority": "optional", **own, "Description": description}
    return "\n".join(f"{field}: {it}" for field, it in fields.items()) + (UNPROVED if "~" in made.version else "")


def md5sums(root):
    lines = []
    for at, _, files in os.walk(root):
        for file in (os.path.join(at, it) for it in files if not at.startswith(f"{root}/DEBIAN")):
            if not os.path.islink(file):
                with open(file, "rb") as it:
                    sum_of_it = hashlib.md5(it.read(), usedforsecurity=False).hexdigest()
                    lines.append(f"{sum_of_it}  {os.path.relpath(file, root)}\n")
    return "".join(sorted(lines, key=lambda it: it[34:]))


def package(name, at, made, out):
    """A Debian package of the folder."""
    text, sums = control(name, made, at.root), md5sums(at.root)
    staged.write(at, "DEBIAN/control", text)
    staged.write(at, "DEBIAN/md5sums", sums)
    for script in sorted(glob.glob(f"{TOP}/packaging/scripts/{name}.*")):
        staged.write(at, f"DEBIAN/{script.rpartition('.')[2]}", None, 0o755, script)
    if name == "libcaladan-dev":
        number = made.version.partition("~")[0]
        staged.write(at, "DEBIAN/shlibs", f"libcaladan_c {number} libcaladan-dev (>= {number})\n")
        staged.write(at, "DEBIAN/triggers", "activate-noawait ldconfig\n")
    settle(at.root, made.epoch)
    architecture = re.search(r"^Architecture: (\S+)$", text, re.M)[1]
    file = f"{name}_{made.version}_{architecture}.deb"
    env = {**os.environ, "SOURCE_DATE_EPOCH": str(made.epoch)}
    words = ["dpkg-deb", "--root-owner-group", "--threads-max=1", "-Zxz", f"-z{made.pressed}", "--build", at.root,
             f"{out}/{file}"]
    subprocess.run(words, env=env, stdout=subprocess.DEVNULL, check=True)
    return file
