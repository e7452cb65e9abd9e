"""Checksums of files, and of the sources that the program is proved and built from."""
import hashlib
import os

PARTS = ("src", "specs", "proofs")


def file_checksum(path):
    with open(path, "rb") as file:
        return hashlib.file_digest(file, "sha256").hexdigest()


def files_below(top, path):
    """The files below a folder, by their paths from the top."""
    try:
        entries = list(os.scandir(os.path.join(top, path)))
    except (FileNotFoundError, NotADirectoryError):
        return
    for entry in entries:
        if entry.is_dir(follow_symlinks=False):
            yield from files_below(top, f"{path}/{entry.name}")
        else:
            yield f"{path}/{entry.name}"


def source_files(top):
    """The sources, by their paths from the top of the checkout, in the order of the paths' bytes."""
    found = ["crates.txt", "HANDLES"]
    for crate in os.listdir(os.path.join(top, "crates")):
        for part in PARTS:
            found += files_below(top, f"crates/{crate}/{part}")
    return sorted(found, key=os.fsencode)


def sources_checksum(top):
    """The same on each machine. A shell gives it too, where it runs at the top of the checkout:

    find crates.txt HANDLES crates/*/src crates/*/specs crates/*/proofs -type f | LC_ALL=C sort | xargs sha256sum | sha256sum"""
    whole = hashlib.sha256()
    for path in source_files(top):
        # Thousands of small files, at each start of the program: a buffer for each would take twice the time.
        with open(os.path.join(top, path), "rb", buffering=0) as file:
            found = hashlib.sha256(file.read()).hexdigest()
        whole.update(f"{found}  ".encode() + os.fsencode(path) + b"\n")
    return whole.hexdigest()
