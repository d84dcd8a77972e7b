#!/usr/bin/env python3
"""The library for C and the program, laid out as they are installed: for a folder of the user's, and for an archive.

    tools/install.py --install PREFIX      puts them below PREFIX (lib, include, bin, share), and lists what it put there
    tools/install.py --uninstall PREFIX    takes away the files that --install listed, and the folders that are empty then
`./lib --install` and `./lib --uninstall` call it so. What is proved here is installed, where no source is newer; else
what is built without proofs, and then the file PROVED says so. tools/dist.py makes an archive of the same files.
"""
import os
import re
import shutil
import subprocess
import sys
import tempfile

sys.path.insert(0, os.path.dirname(os.path.abspath(__file__)))
import library
import quick

TOP = quick.TOP
PROGRAM = "crates/art_index/out/art_index"
DOCS = "share/doc/artmap"
PAGE = "docs/art_index.1"
EXAMPLES = ("films.c", "films.cpp", "CMakeLists.txt")
LIST = f"{DOCS}/installed"
PKG_CONFIG = """prefix=${{pcfiledir}}/../..
libdir=${{prefix}}/lib
includedir=${{prefix}}/include

Name: artmap
Description: Ordered maps of byte strings, in proved adaptive radix trees
Version: {version}
Libs: -L${{libdir}} -lartmap
Cflags: -I${{includedir}}
"""
CMAKE = """# find_package(artmap) makes the targets artmap::artmap (shared) and artmap::static.
get_filename_component(ARTMAP_PREFIX "${CMAKE_CURRENT_LIST_DIR}/../../.." ABSOLUTE)
if(NOT TARGET artmap::artmap)
  add_library(artmap::artmap SHARED IMPORTED)
  set_target_properties(artmap::artmap PROPERTIES
    IMPORTED_LOCATION "${ARTMAP_PREFIX}/lib/SHARED"
    IMPORTED_SONAME "SONAME"
    INTERFACE_INCLUDE_DIRECTORIES "${ARTMAP_PREFIX}/include")
  add_library(artmap::static STATIC IMPORTED)
  set_target_properties(artmap::static PROPERTIES
    IMPORTED_LOCATION "${ARTMAP_PREFIX}/lib/libartmap.a"
    INTERFACE_INCLUDE_DIRECTORIES "${ARTMAP_PREFIX}/include")
endif()
"""
CMAKE_VERSION = """set(PACKAGE_VERSION "{version}")
if(PACKAGE_FIND_VERSION VERSION_GREATER PACKAGE_VERSION)
  set(PACKAGE_VERSION_COMPATIBLE FALSE)
else()
  set(PACKAGE_VERSION_COMPATIBLE TRUE)
  if(PACKAGE_FIND_VERSION STREQUAL PACKAGE_VERSION)
    set(PACKAGE_VERSION_EXACT TRUE)
  endif()
endif()
"""


def version():
    """The one version of the library, from its header."""
    with open(f"{TOP}/{library.HEADER}", encoding="utf-8") as file:
        return re.search(r'(?m)^#define ARTMAP_VERSION "(.*)"', file.read())[1]


def file_of_shared():
    """The name of the shared library's file, which carries the version; its SONAME and the plain name are links to it."""
    return f"libartmap.so.{'.'.join(version().split('.')[:2])}"


def is_program_proved():
    """Whether the proved program is here, and no source is newer than it."""
    made = f"{TOP}/{PROGRAM}"
    if not os.path.exists(made):
        return False
    read = [f"{TOP}/{it}" for it in quick.sources(TOP, quick.PROVED_OF)] + [f"{quick.kit()}/KIT-ID"]
    return all(os.path.getmtime(it) <= os.path.getmtime(made) for it in read)


def prove():
    """Proves and builds what is not proved here: the library and the program."""
    if not library.is_proved():
        library.prove()
    if not is_program_proved():
        subprocess.run([f"{TOP}/run", "--prove"], stdin=subprocess.DEVNULL, stdout=subprocess.DEVNULL, check=True)


def about(is_proved):
    """The text of PROVED: what these files are, and whether they are proved."""
    ran = subprocess.run(["git", "-C", TOP, "rev-parse", "HEAD"], capture_output=True, text=True, check=False)
    changes = subprocess.run(["git", "-C", TOP, "status", "--porcelain"], capture_output=True, text=True, check=False)
    commit = ran.stdout.strip() or "none"
    yes = "yes: each function of the library and the program was checked against its contract before it was built"
    no = "NO: built without proofs, with run-time checks"
    rows = {
        "artmap": version(),
        "proved": yes if is_proved else no,
        "commit": commit + (" with changes" if changes.stdout else ""),
        "toolchain": quick.identity(),
        "text": f"sha256 {quick.digest(TOP, quick.PROVED_OF)} (of its sources, specs and proofs)",
        "gate": quick.told(TOP),
    }
    return "".join(f"{name}: {text}\n" for name, text in rows.items())


def write(path, text):
    os.makedirs(os.path.dirname(path), exist_ok=True)
    with open(path, "w", encoding="utf-8") as file:
        file.write(text)


def copy(source, to, mode=0o644):
    os.makedirs(os.path.dirname(to), exist_ok=True)
    shutil.copyfile(source, to)
    os.chmod(to, mode)


def stage(root):
    """Lays all files out below `root`. Returns whether they are proved."""
    subprocess.run([sys.executable, "-B", f"{TOP}/tools/library.py"], stdout=subprocess.DEVNULL, check=True)
    is_proved = library.is_proved() and is_program_proved()
    program = f"{TOP}/{PROGRAM}" if is_program_proved() else f"{TOP}/{quick.kept(TOP)}"
    shared, soname = file_of_shared(), library.SHARED
    copy(f"{TOP}/out/libartmap.a", f"{root}/lib/libartmap.a")
    copy(f"{TOP}/out/{soname}", f"{root}/lib/{shared}", 0o755)
    os.symlink(shared, f"{root}/lib/{soname}")
    os.symlink(soname, f"{root}/lib/libartmap.so")
    copy(f"{TOP}/{library.HEADER}", f"{root}/include/artmap.h")
    write(f"{root}/lib/pkgconfig/artmap.pc", PKG_CONFIG.format(version=version()))
    config = CMAKE.replace("lib/SHARED", f"lib/{shared}").replace('"SONAME"', f'"{soname}"')
    write(f"{root}/lib/cmake/artmap/artmapConfig.cmake", config)
    write(f"{root}/lib/cmake/artmap/artmapConfigVersion.cmake", CMAKE_VERSION.format(version=version()))
    copy(program, f"{root}/bin/art_index", 0o755)
    copy(f"{TOP}/{PAGE}", f"{root}/share/man/man1/art_index.1")
    for it in ("LICENSE-MIT", "LICENSE-APACHE"):
        copy(f"{TOP}/{it}", f"{root}/{DOCS}/{it}")
    for it in EXAMPLES:
        copy(f"{TOP}/bindings/c/{it}", f"{root}/{DOCS}/examples/{it}")
    copy(f"{TOP}/bindings/c/tsan.supp", f"{root}/share/artmap/tsan.supp")
    write(f"{root}/{DOCS}/PROVED", about(is_proved))
    return is_proved


def files_below(root):
    """The files and links below a folder, in order."""
    found = []
    for folder, below, files in os.walk(root):
        below.sort()
        found += [os.path.relpath(f"{folder}/{it}", root) for it in files]
    return sorted(found)


def install(prefix):
    """Puts all files below `prefix`, and a list of them, which --uninstall reads."""
    with tempfile.TemporaryDirectory() as room:
        is_proved = stage(room)
        found = files_below(room)
        for it in found:
            to = f"{prefix}/{it}"
            os.makedirs(os.path.dirname(to), exist_ok=True)
            if os.path.lexists(to):
                os.remove(to)
            shutil.copy(f"{room}/{it}", to, follow_symlinks=False)
    write(f"{prefix}/{LIST}", "".join(f"{it}\n" for it in [*found, LIST]))
    print(f"{len(found)} files below {prefix}, {'proved' if is_proved else 'NOT PROVED'}; {prefix}/{DOCS}/PROVED tells more")


def uninstall(prefix):
    """Takes away what the list of --install names, and the folders that are empty then."""
    try:
        with open(f"{prefix}/{LIST}", encoding="utf-8") as file:
            names = file.read().split("\n")[:-1]
    except FileNotFoundError:
        sys.exit(f"lib: nothing of artmap is installed below {prefix}: there is no {LIST}")
    for it in names:
        if os.path.lexists(f"{prefix}/{it}"):
            os.remove(f"{prefix}/{it}")
    for folder in sorted({os.path.dirname(it) for it in names}, key=len, reverse=True):
        while folder:
            try:
                os.rmdir(f"{prefix}/{folder}")
            except OSError:
                break
            folder = os.path.dirname(folder)
    print(f"{len(names)} files are gone from {prefix}")


def main():
    words = sys.argv[1:]
    if len(words) != 2 or words[0] not in ("--install", "--uninstall"):
        sys.exit(__doc__)
    try:
        {"--install": install, "--uninstall": uninstall}[words[0]](os.path.abspath(words[1]))
    except (quick.NotToBeHad, OSError, subprocess.CalledProcessError) as why:
        sys.exit(f"lib: it can't be installed: {why}")


if __name__ == "__main__":
    main()
