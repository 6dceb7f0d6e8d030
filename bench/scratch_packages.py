"""Scratch roots with the sources of many packages, for the scripts that compare the program with the command dkms."""
import os
import signal
import statistics
import subprocess
import sys
import time

CRATE = os.path.join(os.path.dirname(os.path.abspath(__file__)), "..", "crates", "kmodboot")
PROGRAM = os.path.join(CRATE, "out", "kmodboot")
BUILT = os.path.join(CRATE, "..", "..", "tools", "built")


def make_source(root, number):
    directory = os.path.join(root, "usr/src", f"p{number}-1.0")
    os.makedirs(directory)
    with open(os.path.join(directory, "dkms.conf"), "w") as conf:
        conf.write(
            f'PACKAGE_NAME="p{number}"\nPACKAGE_VERSION="1.0"\n'
            f'BUILT_MODULE_NAME[0]="p{number}"\nDEST_MODULE_LOCATION[0]="/updates/dkms"\nAUTOINSTALL="yes"\n'
        )


def make_root(scratch, count):
    """A root with the sources of packages p0/1.0 and on."""
    root = os.path.realpath(scratch)
    os.makedirs(os.path.join(root, "var/lib/dkms"))
    for number in range(count):
        make_source(root, number)
    os.sync()
    return root


def build_program():
    """Proves and builds the program where it isn't there. Scratch roots go where the script is ended from outside too."""
    signal.signal(signal.SIGTERM, lambda *_: sys.exit(1))
    subprocess.run([BUILT, "kmodboot"], stdout=subprocess.DEVNULL, check=True)


def timed(command, environment):
    """How many milliseconds the command takes, and what it printed. It must end with 0."""
    start = time.perf_counter()
    done = subprocess.run(command, env=environment, capture_output=True, text=True)
    taken = (time.perf_counter() - start) * 1000
    if done.returncode != 0:
        sys.exit(f"{' '.join(command)} ended with {done.returncode}: {done.stdout}{done.stderr}")
    return taken, done.stdout


def our_call(root, words):
    return [PROGRAM, "dkms", *words], {"KMODBOOT_ROOT": root}


def dkms_call(root, words):
    options = ["--dkmstree", f"{root}/var/lib/dkms", "--sourcetree", f"{root}/usr/src"]
    return ["dkms", *words, *options], dict(os.environ)


def show(name, times):
    print(f"{name}: the middle one took {statistics.median(times):.1f} ms, the longest {max(times):.1f} ms")
