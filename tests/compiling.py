"""Compiles C into objects that are kept in build/objects, by their content: many tests, and every
planted fault, build programs of which most files are the same.

tests/run empties build/ first, so that no object of an earlier run is used there.
"""

import glob
import hashlib
import os
import subprocess
import threading

ROOT = os.path.dirname(os.path.dirname(os.path.abspath(__file__)))
FOLDER = os.path.join(ROOT, "build", "objects")


def content(path):
    with open(path, "rb") as file:
        return file.read()


def headers(folders):
    """All that a file may include from these folders."""
    return b"".join(content(path) for folder in folders
                    for path in sorted(glob.glob(os.path.join(folder, "*.h"))))


def object_of(path, flags, folders):
    """The object of a file: kept under what decides it, and renamed when it is whole, since
    another test or thread may want the same one."""
    words = ["cc", *flags, *(word for folder in folders for word in ("-I", folder))]
    decides = hashlib.sha256(repr((flags, os.path.basename(path))).encode())
    decides.update(content(path) + headers((os.path.dirname(path), *folders)))
    kept = os.path.join(FOLDER, decides.hexdigest()[:32] + ".o")
    if not os.path.exists(kept):
        os.makedirs(FOLDER, exist_ok=True)
        made = own_name(kept)
        subprocess.run([*words, "-c", path, "-o", made], check=True)
        os.replace(made, kept)
    return kept


def own_name(path):
    """A name beside a path that no other process or thread uses."""
    return "%s.%d.%d" % (path, os.getpid(), threading.get_ident())


def link(program, files, flags, folders, libraries=()):
    """A program of C files and archives, compiled with these flags and linked with them."""
    objects = [object_of(file, flags, folders) if file.endswith(".c") else file for file in files]
    os.makedirs(os.path.dirname(program), exist_ok=True)
    made = own_name(program)
    subprocess.run(["cc", *flags, *objects, *libraries, "-o", made], check=True)
    os.replace(made, program)
    return program
