#!/usr/bin/env python3
"""Builds the package artmap: a wheel for pip, or the package in a folder.

    pip install ./bindings/python        calls this by pyproject.toml
    bindings/python/backend.py FOLDER    puts the package artmap into FOLDER

It takes libartmap.a and artmap.h as ./lib made them, in out/ or in the folder that ARTMAP_LIBRARY names, and links the
library into the module: the wheel needs nothing else. CC, CFLAGS and LDFLAGS are heeded. The module is built for the
limited API of Python 3.9, so that one wheel serves all later versions; on a build of Python without its lock, for that.
"""
import base64
import glob
import hashlib
import os
import re
import shlex
import shutil
import subprocess
import sys
import sysconfig
import tempfile
import time
import zipfile

HERE = os.path.dirname(os.path.abspath(__file__))
TOP = os.path.dirname(os.path.dirname(HERE))
NAME, LEAST = "artmap", (3, 9)
METADATA = f"""Metadata-Version: 2.1
Name: {NAME}
Version: {{version}}
Summary: A sorted map and a sorted set of bytes, texts or numbers, in a proved adaptive radix tree
License: MIT OR Apache-2.0
Requires-Python: >={LEAST[0]}.{LEAST[1]}
"""


class NotToBeHad(SystemExit):
    """What the module is built of is not there."""


def library():
    """The folder with the library and its header."""
    folder = os.environ.get("ARTMAP_LIBRARY") or f"{TOP}/out"
    for name in ("libartmap.a", "artmap.h"):
        if not os.path.exists(f"{folder}/{name}"):
            raise NotToBeHad(f"there is no {folder}/{name}: run ./lib in {TOP}, which makes it")
    return folder


def headers():
    """The folders with Python's headers."""
    paths = sysconfig.get_paths()
    if not os.path.exists(f"{paths['include']}/Python.h"):
        raise NotToBeHad(f"there is no {paths['include']}/Python.h: apt-get install python3-dev has it on Debian")
    return sorted({paths["include"], paths["platinclude"]})


def version():
    """The version of the library, from its header."""
    with open(f"{library()}/artmap.h", encoding="utf-8") as file:
        return re.search(r'(?m)^#define ARTMAP_VERSION "(.*)"', file.read())[1]


def is_proved(folder):
    """Whether the library is what was proved, as 1 or 0, or -1 where that can't be told."""
    if os.path.exists(f"{HERE}/{NAME}/PROVED"):
        with open(f"{HERE}/{NAME}/PROVED", encoding="utf-8") as file:
            return int("\nproved: yes" in file.read())
    if os.path.realpath(folder) != os.path.realpath(f"{TOP}/out"):
        return -1
    sys.path.insert(0, f"{TOP}/tools")
    try:
        import library as tool

        proved = f"{TOP}/{tool.PROVED}"
        return int(tool.is_proved() and os.path.getmtime(proved) <= os.path.getmtime(f"{folder}/libartmap.a"))
    except (Exception, SystemExit):
        return -1
    finally:
        sys.path.remove(f"{TOP}/tools")


def is_without_lock():
    return bool(sysconfig.get_config_var("Py_GIL_DISABLED"))


def build_into(folder):
    """Puts the package into a folder."""
    made, to = library(), f"{folder}/{NAME}"
    os.makedirs(to, exist_ok=True)
    for path in glob.glob(f"{HERE}/{NAME}/*"):
        if path.endswith((".py", ".pyi", ".typed", "PROVED")):
            shutil.copyfile(path, f"{to}/{os.path.basename(path)}")
    suffix = sysconfig.get_config_var("EXT_SUFFIX") if is_without_lock() else ".abi3.so"
    limited = [] if is_without_lock() else [f"-DPy_LIMITED_API=0x{LEAST[0]:02x}{LEAST[1]:02x}0000"]
    compiler = shlex.split(os.environ.get("CC") or "cc")
    words = [*compiler, "-std=c11", "-O2", "-fPIC", "-fvisibility=hidden", "-shared", *limited,
             f"-DARTMAP_PROVED={is_proved(made)}", *shlex.split(os.environ.get("CFLAGS", "")),
             *(f"-I{it}" for it in [*headers(), made]), *sorted(glob.glob(f"{HERE}/{NAME}/*.c")), f"{made}/libartmap.a",
             "-Wl,--exclude-libs,ALL", *(f"-Wl,--wrap={it}" for it in ("malloc", "realloc", "free")),
             *shlex.split(os.environ.get("LDFLAGS", "")), "-o", f"{to}/_artmap{suffix}"]
    if subprocess.run(words, check=False).returncode != 0:
        raise NotToBeHad(f"the module can't be built: {shlex.join(words)}")


def tag():
    platform = sysconfig.get_platform().replace("-", "_").replace(".", "_")
    if is_without_lock():
        python = f"cp{sys.version_info[0]}{sys.version_info[1]}"
        return f"{python}-{python}t-{platform}"
    return f"cp{LEAST[0]}{LEAST[1]}-abi3-{platform}"


def written():
    """When the wheel's files were written, as SOURCE_DATE_EPOCH has it: the same sources give the same bytes."""
    return time.gmtime(int(os.environ.get("SOURCE_DATE_EPOCH") or 315532800))[:6]


def write_wheel(folder, path):
    """Writes what stands in a folder as a wheel."""
    info = f"{NAME}-{version()}.dist-info"
    files = {f"{NAME}/{it}": open(f"{folder}/{NAME}/{it}", "rb").read()
             for it in sorted(os.listdir(f"{folder}/{NAME}"))}
    files[f"{info}/METADATA"] = METADATA.format(version=version()).encode()
    files[f"{info}/WHEEL"] = f"Wheel-Version: 1.0\nGenerator: {NAME}\nRoot-Is-Purelib: false\nTag: {tag()}\n".encode()
    for name in ("LICENSE-MIT", "LICENSE-APACHE"):
        for top in (HERE, TOP):
            if os.path.exists(f"{top}/{name}"):
                files[f"{info}/{name}"] = open(f"{top}/{name}", "rb").read()
                break
    rows = []
    for name, held in files.items():
        told = base64.urlsafe_b64encode(hashlib.sha256(held).digest()).rstrip(b"=").decode()
        rows.append(f"{name},sha256={told},{len(held)}\n")
    files[f"{info}/RECORD"] = "".join([*rows, f"{info}/RECORD,,\n"]).encode()
    with zipfile.ZipFile(path, "w", zipfile.ZIP_DEFLATED) as wheel:
        for name, held in files.items():
            entry = zipfile.ZipInfo(name, written())
            entry.compress_type, entry.external_attr = zipfile.ZIP_DEFLATED, 0o644 << 16
            wheel.writestr(entry, held)


def build_wheel(wheel_directory, config_settings=None, metadata_directory=None):
    """What pip calls. Returns the name of the wheel."""
    name = f"{NAME}-{version()}-{tag()}.whl"
    with tempfile.TemporaryDirectory() as folder:
        build_into(folder)
        write_wheel(folder, f"{wheel_directory}/{name}")
    return name


def build_sdist(sdist_directory, config_settings=None):
    """The sources alone build nothing: the library is made in its repository."""
    raise NotToBeHad("artmap is built in its repository: pip install ./bindings/python, or pip wheel")


if __name__ == "__main__":
    if len(sys.argv) != 2:
        sys.exit(__doc__)
    build_into(sys.argv[1])
