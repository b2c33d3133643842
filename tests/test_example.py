"""examples/example.sheet, is the paper's example: its layer 2 record octet for
octet, and the three lines that the paper prints, read by the table of docs/FIELDS.md, section 7."""
import pathlib
import struct
import sys

LAYER_2 = "00 00 02 04 00 00 00 00 00 04 00 02 00 C8 00 00 00 00 00 00 00 3C 00 00 00 05 00 00"
LISTING = ["0 1 0 0 0 0 0 200 255 128 96 0 0", "0 2 4 0 0 4 2 200 0 0 0 60 5", "0 3 0 0 0 0 0 200 0 128 96 0 0"]

sheet = pathlib.Path(__file__).resolve().parent.parent.joinpath("examples/example.sheet").read_bytes()
tests = {"84 octets": len(sheet) == 84, "layer 2": sheet[28:56] == bytes.fromhex(LAYER_2)}
for at, line in enumerate(LISTING):
    *shown, zero, start, length, zeros = struct.unpack(">HBBHHHHHBBBBIIH", sheet[28 * at : 28 * at + 28].ljust(28, b"\xff"))
    tests[line] = " ".join(map(str, [*shown, start, length])) == line and zero == zeros == 0
for what, ok in tests.items():
    if not ok:
        print(f"FAIL {what}")
failed = list(tests.values()).count(False)
print(f"{len(tests) - failed} passed, {failed} failed")
sys.exit(failed != 0)
