"""Scratch roots in which a package can be added, for the scripts that cut `dkms add` off."""
import os
import subprocess
import tempfile

TOP = os.path.join(os.path.dirname(os.path.abspath(__file__)), "..")
CONF = 'PACKAGE_NAME="hello"\nPACKAGE_VERSION="1.0"\nPOST_ADD="post.sh"\n'
SCRIPT = "#!/bin/sh\nexit 0\n"
SOURCE = "usr/src/hello-1.0"
TREE = "home/hello"
DIRECTORIES = ["var/lib/dkms", "usr/src", "usr/lib", "lib/modules", "boot", "etc", "proc"]
ALREADY_ADDED = 4


def built_program():
    """The path of the built program, which is proved and built where it isn't up to date."""
    tool = os.path.join(TOP, "tools", "built")
    return subprocess.run([tool, "kmodboot"], stdout=subprocess.PIPE, text=True, check=True).stdout.strip()


def put(path, text, mode=0o644):
    os.makedirs(os.path.dirname(path), exist_ok=True)
    with open(path, "w") as file:
        file.write(text)
    os.chmod(path, mode)


def put_source(directory):
    """The conf of the package and a script that changes nothing."""
    put(os.path.join(directory, "dkms.conf"), CONF)
    put(os.path.join(directory, "post.sh"), SCRIPT, 0o755)


def put_ten_files(directory):
    """Ten files, two of them with the execute bit, a link, and directories, one of them empty."""
    put_source(directory)
    put(os.path.join(directory, "tools/sign"), SCRIPT, 0o755)
    for number in range(7):
        put(os.path.join(directory, f"src/{number}.c"), f"int x{number};\n" * number)
    os.symlink("src", os.path.join(directory, "include"))
    os.mkdir(os.path.join(directory, "empty"))


class Scene:
    """A root, and the words by which the package is added in it."""

    def __init__(self, name, source, put_all, last_word):
        self.name, self.source, self.put_all, self.last_word = name, source, put_all, last_word

    def words(self, root):
        return ["dkms", "add", self.last_word.replace("ROOT", root)]

    def make_root(self, root=None):
        """The root, at this path if one is given."""
        root = root or os.path.realpath(tempfile.mkdtemp())
        for directory in DIRECTORIES:
            os.makedirs(os.path.join(root, directory))
        self.put_all(os.path.join(root, self.source))
        return root


SCENES = [
    Scene("a package by its name", SOURCE, put_source, "hello/1.0"),
    Scene("a directory of ten files", TREE, put_ten_files, f"ROOT/{TREE}"),
]


def tree_of(root):
    """What stands below the root: a link's text, a file's bytes and execute bit, or that it is a directory."""
    tree = {}
    for above, directories, files in os.walk(root):
        for name in directories + files:
            path = os.path.join(above, name)
            key = os.path.relpath(path, root)
            if os.path.islink(path):
                tree[key] = os.readlink(path).replace(root, "ROOT")
            elif os.path.isdir(path):
                tree[key] = None
            else:
                with open(path, "rb") as file:
                    tree[key] = (file.read(), os.access(path, os.X_OK))
    return tree


def public(tree):
    """The tree but for what is staged and a journal that wasn't moved to its place yet."""
    return {key: at for key, at in tree.items() if ".kb-staged" not in key and not key.endswith(".intent.new")}


def call(program, root, words):
    environment = dict(os.environ, KMODBOOT_ROOT=root)
    return subprocess.run([program, *words], env=environment, capture_output=True, text=True, check=False)


def why_repeat_is_wrong(program, scene, root, whole):
    """None where `dkms add`, repeated, ends in the tree of a whole run; else what it said."""
    again = call(program, root, scene.words(root))
    behind = call(program, root, ["recover"])
    ended = again.returncode in (0, ALREADY_ADDED)
    if ended and behind.stdout == "nothing to recover\n" and tree_of(root) == whole:
        return None
    return f"repeated, it ended with {again.returncode}: {again.stdout}{again.stderr}{behind.stdout}{behind.stderr}"


def why_tree_is_wrong(program, root, old, whole):
    """None where `recover` leaves the old tree or that of a whole run; else what it said."""
    behind = call(program, root, ["recover"])
    if behind.returncode == 0 and public(tree_of(root)) in (public(old), public(whole)):
        return None
    return f"recovered, it ended with {behind.returncode}: {behind.stdout}{behind.stderr}"
