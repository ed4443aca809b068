"""What the command line tool leaves when something goes wrong around it: a full disk, a folder or a file that may not be
written, a reader that goes away, links, a second process, a kill between two files.

    python3 tests/edges.py PROGRAM

Each is made on a real file system. What cannot be made on a machine is skipped, in words. Exits non-zero at the first failure.
"""

import fcntl
import os
import resource
import shutil
import signal
import stat
import subprocess
import sys
import tempfile
import threading
import time
from pathlib import Path

from edges_kills import between_two_renames, killed_at_any_moment
from edges_tool import CACHES, Edges
from tool import npy, read

NOBODY = 65534


def full_disk(tool):
    """No file longer than so many bytes, and /dev/full."""
    def limit(most):
        # an error, and not the signal that ends the process
        signal.signal(signal.SIGXFSZ, signal.SIG_IGN)
        resource.setrlimit(resource.RLIMIT_FSIZE, (most, most))

    tool.fresh(positions=60)
    for most, file in ((0, "--output y.npy"), (100, "--output y.npy"), (300, "--present-key k.cache")):
        tool.nothing(f"files of {most} bytes", f"{file}: File too large", "--output", "y.npy", *CACHES,
                     preexec_fn=lambda: limit(most))
    if not Path("/dev/full").exists():
        return tool.skipped("there is no /dev/full")
    tool.nothing("a full device", "--output /dev/full: No space left", "--output", "/dev/full", *CACHES)
    tool.nothing("a full device for the scores", "--scores /dev/full: No space left", "--output", "y.npy", *CACHES,
                 "--mode", "3", "--scores", "/dev/full")


def bad_places(tool):
    tool.fresh()
    (tool.folder / "folder").mkdir()
    for words, fault in ((("--output", "folder"), "--output folder: is a folder"),
                         (("--output", "no/y"), "--output no/y: No such file"),
                         (("--output", "new/"), "--output new/: there is no such folder"),
                         (("--output", "y.npy/z"), "--output y.npy/z: Not a directory"),
                         (("--output", "y.npy", "--mode", "3", "--scores", "no/s"), "--scores no/s: No such file")):
        tool.nothing(f"{words}", fault, *words, *CACHES)
    os.symlink("loop", tool.folder / "loop")
    found, err, _ = tool.call("--output", "loop", *CACHES)
    tool.expect(f"a loop of links: {err}", (found, err.startswith("klaverdomp: --output loop: ")), (2, True))


def no_right_to_write(tool):
    """A folder, and a file, that may not be written, as a user who is not root."""
    before = tool.fresh()
    shut = tool.folder / "shut"
    shut.mkdir()
    (shut / "y.npy").write_bytes(b"old")
    (shut / "old.session").write_bytes(b"old")
    kept = tool.folder / "kept.npy"
    kept.write_bytes(b"kept")
    how = {}
    if os.geteuid() == 0:
        how = {"user": NOBODY, "group": NOBODY, "extra_groups": []}
        for path in (tool.folder, *tool.folder.iterdir()):
            os.chown(path, NOBODY, NOBODY)
        os.chown(shut / "y.npy", NOBODY, NOBODY)
    (shut / "old.session").chmod(0o444)
    shut.chmod(0o555)
    kept.chmod(0o444)
    try:
        status, err, _ = tool.call("--output", "y.npy", *CACHES, **how)
    except PermissionError:
        shut.chmod(0o755)
        return tool.skipped("root may not become another user here, and root may write everywhere")
    tool.expect(f"without rights, a call: {err}", status, 0)
    tool.expect("its owner", (tool.folder / "k.cache").stat().st_uid, NOBODY if how else os.geteuid())
    before = tool.files()
    for name in ("shut/y.npy", "shut/new.npy"):
        fault = f"{name}: its folder cannot be written: Permission denied"
        tool.nothing(f"a folder that may not be written, {name}", f"--output {fault}", "--output", name, *CACHES, **how)
        tool.nothing("the same for a cache", f"--present-value {fault}", "--output", "y.npy", *CACHES[:-1], name, **how)
    tool.nothing("a file that may not be written", "--output kept.npy: Permission denied", "--output", "kept.npy", *CACHES, **how)
    tool.expect("what is there", sorted(path.name for path in shut.iterdir()), ["old.session", "y.npy"])
    for words, fault in ((("--session", "shut/new"), "--session shut/new: Permission denied"),
                         (("--session", "shut/old.session", "--force"), "--session shut/old.session: Permission denied"),
                         (("--output", "shut/y.npy"), "the saved session beside --output shut/y.npy: Permission denied"),
                         (("--output", "shut/y.npy", "--session", "z"), "--output shut/y.npy: its folder cannot be written")):
        status, err, _ = tool.started("demo", *words, **how)
        tool.expect(f"demo {words}: {err}", (status, err.startswith(f"klaverdomp: {fault}")), (2, True))
    shut.chmod(0o755)
    tool.expect("what is there", ((shut / "y.npy").read_bytes(), (shut / "old.session").read_bytes()), (b"old", b"old"))


def one_file_for_two_outputs(tool):
    tool.fresh()
    (tool.folder / "sub").mkdir()
    os.symlink("sub", tool.folder / "way")
    for link, target in (("soft", "k.cache"), ("dangling", "new.npy"), ("far", "sub/../dangling")):
        os.symlink(target, tool.folder / link)
    os.link(tool.folder / "k.cache", tool.folder / "hard")
    same = (("k.cache", "./k.cache"), ("k.cache", "sub/../k.cache"), ("k.cache", str(tool.folder / "k.cache")),
            ("k.cache", "soft"), ("soft", "hard"), ("new.npy", "./new.npy"), ("new.npy", "dangling"), ("dangling", "far"),
            ("sub/n.npy", "way/n.npy"))
    before = tool.files()
    for key, value in same:
        tool.nothing(f"{key} and {value}", f"--present-key {key} and --present-value {value} are one file\n",
                     "--output", "y.npy", "--present-key", key, "--present-value", value, before=before)
    # an output may be an input, which is read before
    status, err, _ = tool.call("--output", "q.npy", "--present-key", "k.npy", "--present-value", "other.npy")
    tool.expect(f"an input as an output: {err}", (status, read(tool.folder / "k.npy")), (0, ((1, 1, 1, 1), [1.0])))


def links_and_permissions(tool):
    tool.fresh()
    (tool.folder / "sub").mkdir()
    os.symlink("sub/y.npy", tool.folder / "soft")
    os.symlink("sub/new.npy", tool.folder / "dangling")
    os.link(tool.folder / "v.cache", tool.folder / "hard")
    target = tool.folder / "sub/y.npy"
    target.write_bytes(b"old")
    target.chmod(0o640)
    (tool.folder / "k.cache").chmod(0o606)
    owner = NOBODY if os.geteuid() == 0 else os.geteuid()
    os.chown(tool.folder / "k.cache", owner, -1)
    old = (tool.folder / "hard").read_bytes()
    status, err, _ = tool.call("--output", "soft", *CACHES, "--mode", "3", "--scores", "dangling", umask=0o027)
    links = [(tool.folder / name).is_symlink() for name in ("soft", "dangling")]
    tool.expect(f"links: {err}", (status, links), (0, [True, True]))
    tool.expect("what a link leads to", read(target), ((1, 1, 1, 1), [1.5]))
    tool.expect("what one to nothing leads to", read(tool.folder / "sub/new.npy")[0], (1, 1, 1, 4))
    modes = [oct((tool.folder / name).stat().st_mode & 0o777) for name in ("sub/y.npy", "k.cache", "sub/new.npy")]
    tool.expect("permissions", modes, ["0o640", "0o606", "0o640"])
    tool.expect("the owner", (tool.folder / "k.cache").stat().st_uid, owner)
    tool.expect("a hard link", (tool.folder / "hard").read_bytes() == old, True)
    tool.expect("the file beside it", read(tool.folder / "v.cache")[0], (1, 1, 4, 1))
    tool.expect("nothing else", sorted(path.name for path in (tool.folder / "sub").iterdir()), ["new.npy", "y.npy"])


def pipes_and_devices(tool):
    """What is no regular file is written directly, and stays what it is."""
    tool.fresh()
    pipe = tool.folder / "pipe"
    os.mkfifo(pipe)
    got = []
    reader = threading.Thread(target=lambda: got.append(pipe.read_bytes()))
    reader.start()
    status, err, _ = tool.call("--output", "pipe", *CACHES)
    reader.join(timeout=20)
    tool.expect(f"a pipe: {err}", (status, got[0][-4:], pipe.is_fifo()), (0, npy((1,), [1.5])[-4:], True))
    tool.expect("the caches behind it", read(tool.folder / "k.cache")[0], (1, 1, 4, 1))

    # a reader that goes away: the caches stay, and the call can be made again
    tool.fresh(positions=1, width=256)
    shape = (1, 1, 600, 256)
    for name in ("q.npy", "k.npy", "v.npy"):
        tool.file(name, shape, [1] * 600 * 256)
    os.mkfifo(pipe)
    reader = threading.Thread(target=lambda: open(pipe, "rb").close())
    reader.start()
    tool.nothing("a reader that goes away", "--output pipe: Broken pipe", "--output", "pipe", *CACHES)
    reader.join(timeout=20)

    tool.fresh()
    status, err, out = tool.call("--output", "/dev/stdout", *CACHES)
    tool.expect(f"standard output: {err}", (status, "done: total length 4" in err), (0, True))
    tool.expect("the tensor there", (out[:6], out[-4:]), (b"\x93NUMPY", npy((1,), [1.5])[-4:]))
    with open(tool.folder / "out", "wb") as out:
        words = ("attend", "--query", "q.npy", "--key", "k.npy", "--value", "v.npy", "--output", "/dev/stdout")
        run = subprocess.run([tool.program, *words], cwd=tool.folder, stdout=out, stderr=subprocess.PIPE, timeout=60)
    tool.expect("standard output in a file", (run.returncode, read(tool.folder / "out")), (0, ((1, 1, 1, 1), [3.0])))
    status, err, _ = tool.call("--output", "/dev/null", *CACHES)
    tool.expect(f"/dev/null: {err}", (status, stat.S_ISCHR(os.stat("/dev/null").st_mode)), (0, True))


def what_is_no_session(tool):
    """`session info` of a pipe or a device ends at once."""
    tool.fresh()
    os.mkfifo(tool.folder / "pipe")
    for path, kind in (("pipe", "a pipe"), ("/dev/zero", "a device"), ("/dev/null", "a device"), (".", "a folder")):
        start = time.monotonic()
        status, err, _ = tool.started("session", "info", path)
        words = f"klaverdomp: {path}: is {kind}, and a saved session is a regular file\n"
        tool.expect(f"info of {path}", (status, err), (2, words))
        tool.expect(f"info of {path}, in seconds", time.monotonic() - start < 10, True)


def demonstrations(tool):
    """The saved session of a demonstration: not over a file, and not while another process has it."""
    tool.fresh()
    kept = tool.folder / "kept.session"
    kept.write_bytes(b"2,048 positions")
    os.symlink("kept.session", tool.folder / "soft")
    os.symlink("nowhere", tool.folder / "dangling")
    there = "a file is there already; --force writes it anew, and --session names another one\n"
    before = tool.files()
    for words, name in ((("--session", "kept.session"), "--session kept.session"), (("--session", "soft"), "--session soft"),
                        (("--session", "dangling"), "--session dangling"),
                        (("--output", "kept.svg"), "the saved session beside --output kept.svg")):
        status, err, out = tool.started("demo", *words)
        tool.expect(f"demo {words}", (status, err, out), (2, f"klaverdomp: {name}: {there}", b""))
        tool.expect(f"demo {words}: the files", tool.files(), before)
    with open(kept, "r+b") as held:
        fcntl.flock(held, fcntl.LOCK_EX)
        for name in ("kept.session", "soft"):
            status, err, _ = tool.started("demo", "--session", name, "--force")
            words = f"klaverdomp: --session {name}: another session has this file open to save in it\n"
            tool.expect("a locked file", (status, err), (2, words))
            tool.expect("a locked file: the files", tool.files(), before)
    status, err, _ = tool.started("demo", "--session", "soft", "--force")
    tool.expect(f"demo --force: {err}", (status, (tool.folder / "soft").is_symlink()), (0, True))
    tool.expect("what it wrote", "positions        48 of" in tool.run("session", "info", "kept.session")[1], True)
    # a path that was not named is not in an error
    (tool.folder / "klaverdomp-demo.session").mkdir()
    status, err, _ = tool.started("demo", "--force")
    words = "klaverdomp: the saved session beside the default of --output: is a folder"
    tool.expect(f"the default: {err}", (status, err.startswith(words)), (2, True))
    (tool.folder / "klaverdomp-demo.svg").unlink()
    (tool.folder / "klaverdomp-demo.svg").mkdir()
    tool.expect("the default picture", tool.started("demo")[:2], (2, "klaverdomp: the default of --output: is a folder\n"))
    status, err, _ = tool.started("demo", "--output", "one", "--session", "./one")
    words = "klaverdomp: --output one and --session ./one are one file\n"
    tool.expect(f"one file for both: {err}", (status, err.startswith(words)), (2, True))


def main():
    if len(sys.argv) != 2:
        sys.exit(__doc__)
    with tempfile.TemporaryDirectory() as place:
        # nobody may read it, and run the tool
        Path(place).chmod(0o755)
        (Path(place) / "bin").mkdir()
        program = Path(shutil.copy(Path(sys.argv[1]).resolve(), Path(place) / "bin"))
        (Path(place) / "work").mkdir()
        tool = Edges(program, Path(place) / "work")
        for test in (full_disk, bad_places, no_right_to_write, one_file_for_two_outputs, links_and_permissions, pipes_and_devices,
                     what_is_no_session, demonstrations, between_two_renames, killed_at_any_moment):
            test(tool)
        print(f"edges: {tool.checks} checks passed")


if __name__ == "__main__":
    main()
