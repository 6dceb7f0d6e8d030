"""Texts for the program scenarios (docs/SCENARIOS.md), and what it prints of them."""
import os
import re
import subprocess

TOP = os.path.join(os.path.dirname(os.path.abspath(__file__)), "..")
PROGRAM = os.path.join(TOP, "crates", "scenarios", "out", "scenarios")
ESCAPES = {b"n": b"\n", b"t": b"\t", b"\\": b"\\"}


def build_scenarios():
    """Proves and builds the program where it isn't there."""
    built = os.path.join(TOP, "tools", "built")
    subprocess.run([built, "scenarios"], stdout=subprocess.DEVNULL, check=True)


def last_field(bytes_):
    """Bytes as the last field of a line."""
    return "".join(chr(b) if 0x20 <= b <= 0x7E and b != 0x5C else f"\\x{b:02x}" for b in bytes_)


def field(bytes_):
    """Bytes as a field before the last."""
    return last_field(bytes_).replace(" ", "\\x20") or "\\e"


def shown(line):
    """The bytes that a printed line shows."""
    return re.sub(
        rb"\\(?:x([0-9a-f]{2})|([nt\\]))",
        lambda found: bytes.fromhex(found[1].decode()) if found[1] else ESCAPES[found[2]],
        line,
    )


def play(lines):
    """The lines that the program prints for these. Each of them must be one that it knows."""
    text = "".join(line + "\n" for line in lines).encode()
    return subprocess.run([PROGRAM], input=text, stdout=subprocess.PIPE, check=True).stdout.splitlines()
