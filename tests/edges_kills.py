"""The tool killed between two renames, or at any moment, or with a rename that fails, for tests/edges.py."""

import os
import random
import shutil
import signal
import subprocess
import time
from pathlib import Path

from edges_tool import CACHES, SCORES
from tool import size


def shim(tool):
    """A library that stops the tool at a rename."""
    made = tool.program.parent / "shim.so"
    source = Path(__file__).with_name("rename_shim.c")
    compiler = shutil.which(os.environ.get("CC", "gcc"))
    if compiler is None:
        return None
    subprocess.run([compiler, "-shared", "-fPIC", "-O1", "-o", made, source, "-ldl"], check=True)
    return made


def between_two_renames(tool):
    """Killed before each rename: every file is whole, the old or the new one, and the caches come last."""
    made = shim(tool)
    if made is None:
        return tool.skipped("no C compiler, so no kill between two renames")
    words = ("--output", "y.npy", *SCORES, *CACHES)
    old = tool.fresh()
    tool.expect("the call", tool.call(*words)[0], 0)
    new = tool.files()
    order = ("y.npy", "s.npy", "k.cache", "v.cache")
    for at in range(1, 6):
        tool.fresh()
        stop = {"LD_PRELOAD": str(made), "RENAME_AT": str(at), "RENAME_HOW": "kill"}
        status, err, _ = tool.call(*words, env={**os.environ, **stop})
        tool.expect(f"a kill at rename {at}: {err}", status, -signal.SIGKILL if at < 5 else 0)
        found = {name: data for name, data in tool.files().items() if not name.endswith(".tmp")}
        expected = {**old, **{name: new[name] for name in order[:at - 1]}}
        tool.expect(f"a kill at rename {at}: the files", found == expected, True)
        status, err, _ = tool.call("--output", "next.npy", *CACHES)
        if at == 4:
            told = err.startswith("klaverdomp: refusal 5: ") and "they are of two calls" in err
            tool.expect(f"a pair of two calls: {err}", (status, told), (1, True))
        else:
            tool.expect(f"the call after a kill at rename {at}: {err}", status, 0)
    for at in range(1, 5):
        tool.fresh()
        stop = {"LD_PRELOAD": str(made), "RENAME_AT": str(at), "RENAME_HOW": "once"}
        option = ("--output", "--scores", "--present-key", "--present-value")[at - 1]
        fault = f"{option} {order[at - 1]}: Device or resource busy"
        tool.nothing(f"rename {at} fails", fault, *words, env={**os.environ, **stop})
        tool.nothing(f"rename {at} fails, and there are no links", fault, *words, env={**os.environ, **stop, "NO_LINKS": "1"})
        for name in order[:at]:
            (tool.folder / name).unlink()
        without_past = ("--output", "y.npy", *SCORES, *CACHES[4:])
        tool.nothing(f"rename {at} fails where no file was", fault, *without_past, env={**os.environ, **stop})
    not_put_back(tool, made, words)


def not_put_back(tool, made, words):
    """A rename that fails, and the one that would put back the file before it: what was there is kept under another name."""
    old = tool.fresh()
    stop = {"LD_PRELOAD": str(made), "RENAME_AT": "2", "RENAME_HOW": "from"}
    status, err, _ = tool.call(*words, env={**os.environ, **stop})
    told = "--output y.npy is written, and what was there could not be put back: Device or" in err and "it is kept beside it" in err
    tool.expect(f"not put back: {err}", (status, told), (2, True))
    found = tool.files()
    kept = [found.pop(name) for name in list(found) if name.endswith(".tmp")]
    tool.expect("what is kept", (kept, found.pop("y.npy") != old["y.npy"]), ([old.pop("y.npy")], True))
    tool.expect("the other files", found == old, True)


def positions(path):
    """The positions of a cache, which is whole."""
    data = path.read_bytes()
    header = eval(data[10:10 + data[8] + 256 * data[9]], {})
    assert len(data) == 10 + data[8] + 256 * data[9] + 4 * size(header["shape"]), path
    return header["shape"][2]


def killed_at_any_moment(tool):
    """Killed after some time, again and again: every file is whole, and keys and values are of one call or of two that follow."""
    width, rng, kills = 64, random.Random(5), 0
    tool.fresh(positions=1, width=width)
    words = ("attend", "--query", "q.npy", "--key", "k.npy", "--value", "v.npy", "--output", "y.npy", *CACHES)
    for _ in range(300):
        if kills == 25:
            break
        run = subprocess.Popen([tool.program, *words], cwd=tool.folder, stdout=subprocess.PIPE, stderr=subprocess.PIPE)
        time.sleep(rng.uniform(0, 0.012))
        run.kill()
        _, err = run.communicate(timeout=60)
        tool.expect(f"a kill: {err}", run.returncode in (0, -signal.SIGKILL), True)
        kills += run.returncode != 0
        keys, values = (positions(tool.folder / name) for name in ("k.cache", "v.cache"))
        tool.expect(f"{keys} keys and {values} values", keys - values in (0, 1), True)
        if keys != values:
            tool.file("k.cache", (1, 1, values, width), [1] * values * width)
    tool.expect("kills", kills > 0, True)
    leftover = [path for path in tool.folder.iterdir() if path.name.startswith(".klaverdomp-")]
    tool.expect("what a kill may leave", all(path.name.endswith(".tmp") for path in leftover), True)
