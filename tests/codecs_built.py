"""The coders that programs with sanitizers are linked with: Debian's own or, where SPIREROOK_CODECS
names a folder of tools/sanitized-codecs, those built with sanitizers too (`make codecs`)."""

import os
import subprocess

FOLDER = os.environ.get("SPIREROOK_CODECS")
KEEP = os.environ.get("KEEP")        # a folder for what a sanitizer reports, with its input


def archive(name):
    return os.path.join(FOLDER or "", "lib", "lib%s.a" % name)


def flags():
    """Their headers before the system's."""
    return ("-I", os.path.join(FOLDER, "include")) if FOLDER else ()


def libraries(words):
    """-lNAME is the path of its archive, where the folder has one."""
    return tuple(archive(word[2:]) if FOLDER and os.path.exists(archive(word[2:])) else word
                 for word in words)


def check(tally, names):
    """The archives call the address sanitizer: else its silence would tell nothing of them."""
    for name in names if FOLDER else ():
        told = subprocess.run(["nm", archive(name)], check=False, stdout=subprocess.PIPE,
                              stderr=subprocess.PIPE).stdout
        tally.check(b"__asan_report_load" in told and b"__ubsan_handle_" in told,
                    "%s is not built with sanitizers" % archive(name))


def keep(name, files, report):
    """What was found, for those who look into it."""
    if KEEP:
        os.makedirs(KEEP, exist_ok=True)
        for end, octets in {**files, "report": report.encode()}.items():
            with open(os.path.join(KEEP, "%s.%s" % (name, end)), "wb") as file:
                file.write(octets)
