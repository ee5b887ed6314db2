"""What the files of the repository are, for the gate's seal: python3 release/state.py

Prints the commit, how many tracked files differ from it, and a digest of all of them. Every file is read and compared
with the commit by its bytes: what git was told to take for unchanged (git update-index --assume-unchanged or
--skip-worktree) is read too.
"""

import hashlib
import os
import stat
import subprocess
import sys

EXECUTABLE = b"100755"


def git(*words: str) -> bytes:
    return subprocess.run(["git", *words], check=True, capture_output=True).stdout


def committed() -> dict[bytes, tuple[bytes, bytes]]:
    """The files of the commit: mode and object by path."""
    lines = git("ls-tree", "-r", "-z", "HEAD").split(b"\0")[:-1]
    parts = (line.partition(b"\t") for line in lines)
    return {path: (head.split()[0], head.split()[2]) for head, _, path in parts}


def present(path: bytes, size: int) -> tuple[bytes, bytes]:
    """A file as it is on the disk, likewise; `size` is that of the name of an object."""
    try:
        mode = os.lstat(path).st_mode
        if stat.S_ISLNK(mode):
            data, kind = os.readlink(path), b"120000"
        else:
            with open(path, "rb") as file:
                data, kind = file.read(), EXECUTABLE if mode & stat.S_IXUSR else b"100644"
    except OSError:
        return b"", b""
    digest = hashlib.sha1 if size == 40 else hashlib.sha256
    return kind, digest(b"blob %d\0" % len(data) + data).hexdigest().encode()


def main() -> int:
    os.chdir(os.path.join(os.path.dirname(os.path.abspath(__file__)), ".."))
    try:
        head, wanted = git("rev-parse", "--verify", "HEAD").strip(), committed()
        tracked = set(git("ls-files", "-z").split(b"\0")[:-1])
    except (OSError, subprocess.CalledProcessError):
        print("commit unknown\nchanges unknown\nfiles unknown")
        return 0
    found = {path: present(path, len(head)) for path in sorted(tracked | wanted.keys())}
    digest = hashlib.sha256(repr(sorted(found.items())).encode()).hexdigest()
    changes = sum(wanted.get(path) != there for path, there in found.items()) + len(wanted.keys() - tracked)
    print("commit %s\nchanges %d\nfiles %s" % (head.decode(), changes, digest))
    return 0


if __name__ == "__main__":
    sys.exit(main())
