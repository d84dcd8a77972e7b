#!/usr/bin/env python3
"""What others install, in out/dist: an archive for C, a crate for Rust, a wheel for Python, and their sums.

    tools/dist.py               proves the library and the program first, where that is not done: about an hour from nothing
    tools/dist.py --unproved    builds without proofs where nothing is proved here, in some four minutes from nothing, and
                                says so in each of them
`./dist` calls it so. It makes artmap-VERSION-x86_64-linux.tar.gz, artmap-VERSION.crate, artmap-VERSION-..whl and
SHA256SUMS, and prints them. The same text, commit and toolchain give the same bytes. docs/INSTALL.md tells how each is
used. Status 1, with the reason on standard error: they can't be made here.
"""
import glob
import gzip
import hashlib
import io
import os
import shutil
import subprocess
import sys
import tarfile

sys.path.insert(0, os.path.dirname(os.path.abspath(__file__)))
import install
import quick

TOP = quick.TOP
TARGET = "x86_64-unknown-linux-gnu"
# (a fixed place, since compilers write paths into what they make)
ROOM, MADE = f"{TOP}/out/dist-room", "out/dist"


def when():
    """The time that all files carry: that of the commit."""
    ran = subprocess.run(["git", "-C", TOP, "log", "-1", "--format=%ct"], capture_output=True, text=True, check=False)
    return int(os.environ.get("SOURCE_DATE_EPOCH") or ran.stdout.strip() or 0)


def archive(folder, name, to):
    """Packs a folder under `name`, in order, with no owner and one time."""
    packed = io.BytesIO()
    with tarfile.open(fileobj=packed, mode="w", format=tarfile.GNU_FORMAT) as tar:
        for it in install.files_below(folder):
            entry = tar.gettarinfo(f"{folder}/{it}", f"{name}/{it}")
            entry.uid = entry.gid = 0
            entry.uname = entry.gname = ""
            entry.mtime = when()
            if entry.isfile():
                with open(f"{folder}/{it}", "rb") as file:
                    tar.addfile(entry, file)
            else:
                tar.addfile(entry)
    with open(to, "wb") as file, gzip.GzipFile("", "wb", 9, file, when()) as zipped:
        zipped.write(packed.getvalue())


def tracked(folder):
    """The files of a folder that git keeps, by their paths below it."""
    listed = subprocess.run(["git", "-C", f"{TOP}/{folder}", "ls-files", "-co", "--exclude-standard"], capture_output=True,
                            text=True, check=True)
    return [it for it in listed.stdout.splitlines() if os.path.exists(f"{TOP}/{folder}/{it}")]


def laid_out(folder, name):
    """Copies a binding's sources and the licences into the room."""
    to = f"{ROOM}/{name}"
    for it in tracked(folder):
        install.copy(f"{TOP}/{folder}/{it}", f"{to}/{it}")
    for it in ("LICENSE-MIT", "LICENSE-APACHE"):
        install.copy(f"{TOP}/{it}", f"{to}/{it}")
    return to


def run(words, folder, **more):
    """Runs a command, whose output is shown only where it fails."""
    env = {**os.environ, "SOURCE_DATE_EPOCH": str(max(when(), 315532800)), **more}
    ran = subprocess.run(words, cwd=folder, env=env, stdin=subprocess.DEVNULL, stdout=subprocess.PIPE,
                         stderr=subprocess.STDOUT, text=True, check=False)
    if ran.returncode:
        sys.exit(f"dist: {' '.join(words)} failed:\n{ran.stdout[-4000:]}")
    return ran.stdout


def crate(staged, proved):
    """The crate for Rust, with the library inside; cargo builds it once, as its user will. (`cargo package` would ask a
    registry for what the features need.)"""
    name = f"artmap-{install.version()}"
    at = laid_out("bindings/rust", "rust")
    install.copy(f"{staged}/lib/libartmap.a", f"{at}/lib/{TARGET}/libartmap.a")
    install.write(f"{at}/PROVED", proved)
    run(["cargo", "build", "--offline", "--locked", "--target-dir", f"{ROOM}/cargo"], at, ARTMAP_LIB_DIR="")
    archive(at, name, f"{TOP}/{MADE}/{name}.crate")
    return f"{name}.crate"


def wheel(staged, proved):
    """The wheel for Python, with the library inside."""
    at = laid_out("bindings/python", "python")
    for it in ("lib/libartmap.a", "include/artmap.h"):
        install.copy(f"{staged}/{it}", f"{ROOM}/library/{os.path.basename(it)}")
    install.write(f"{at}/artmap/PROVED", proved)
    words = [sys.executable, "-m", "pip", "wheel", "--no-index", "--no-deps", "--no-cache-dir", "-w",
             f"{ROOM}/wheels", "."]
    run(words, at, ARTMAP_LIBRARY=f"{ROOM}/library")
    made = os.path.basename(glob.glob(f"{ROOM}/wheels/*.whl")[0])
    shutil.copyfile(f"{ROOM}/wheels/{made}", f"{TOP}/{MADE}/{made}")
    return made


def main():
    if sys.argv[1:] not in ([], ["--unproved"]):
        sys.exit(__doc__)
    how, long = ("without proofs", "some four minutes") if sys.argv[1:] else ("proved", "about an hour")
    print(f"dist: making them, {how}; from nothing that takes {long}", file=sys.stderr, flush=True)
    try:
        if not sys.argv[1:]:
            install.prove()
        for folder in (ROOM, f"{TOP}/{MADE}"):
            shutil.rmtree(folder, ignore_errors=True)
            os.makedirs(folder)
        name = f"artmap-{install.version()}-x86_64-linux"
        staged = f"{ROOM}/{name}"
        install.stage(staged)
        with open(f"{staged}/{install.DOCS}/PROVED", encoding="utf-8") as file:
            proved = file.read()
        archive(staged, name, f"{TOP}/{MADE}/{name}.tar.gz")
        made = [f"{name}.tar.gz", crate(staged, proved), wheel(staged, proved)]
        with open(f"{TOP}/{MADE}/SHA256SUMS", "w", encoding="utf-8") as sums:
            for it in made:
                with open(f"{TOP}/{MADE}/{it}", "rb") as file:
                    sums.write(f"{hashlib.sha256(file.read()).hexdigest()}  {it}\n")
    except (quick.NotToBeHad, OSError, subprocess.CalledProcessError) as why:
        sys.exit(f"dist: they can't be made here: {why}")
    print("\n".join(f"{MADE}/{it}" for it in [*made, "SHA256SUMS"]))


if __name__ == "__main__":
    main()
