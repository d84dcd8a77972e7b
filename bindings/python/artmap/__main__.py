"""python -m artmap: the version, the library, and whether that was proved."""
import sys

from . import __version__, _artmap, is_proved, library_version


def main():
    told = {True: "proved where it was made", False: "made without proofs, with run-time checks",
            None: "not known to be proved"}
    print(f"artmap {__version__}, {_artmap.__file__}")
    print(f"libartmap {library_version}, {told[is_proved]}")
    print(f"Python {sys.version.split()[0]}, keys: bytes, str, int")


if __name__ == "__main__":
    main()
