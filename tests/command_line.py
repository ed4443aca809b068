"""Smoke test of the command line tool: known calls, chunks against a whole call, bad files, refused calls, saved sessions.

    python3 tests/command_line.py PROGRAM

Writes and reads .npy files by itself, from their format, and writes saved sessions. Exits non-zero at the first failure.
"""

import random
import subprocess
import sys
import tempfile
from pathlib import Path

from command_line_sessions import demonstration, saved_sessions
from tool import Tool, npy, qkv, read


def known_calls(tool):
    """Examples of the scope document, by their letters."""
    qkv(tool, [1], [3, 3], [2, 4])
    out = tool.done("B", "--scale", "1", "--mode", "3", "--scores", "s.npy")
    tool.expect("B: answer", out, "done: total length 2, fully masked rows 0\n")
    tool.output("B: output", "y.npy", (1, 1, 1, 1), [3.0])
    tool.output("B: scores", "s.npy", (1, 1, 1, 2), [0.5, 0.5])

    for descr in ("|b1", "|u1"):
        tool.file("m.npy", (1, 1, 1, 2), [0, 0], descr=descr)
        out = tool.done("C", "--scale=1", "--mask=m.npy")
        tool.expect("C: answer", out, "done: total length 2, fully masked rows 1\n")
        tool.output("C: output", "y.npy", (1, 1, 1, 1), [0.0])
    tool.file("m.npy", (2,), [1, 0], descr="|b1", version=2)
    tool.done("C with one dimension", "--scale", "1", "--mask", "m.npy")
    tool.output("C with one dimension", "y.npy", (1, 1, 1, 1), [2.0])
    tool.file("m.npy", (1, 2), [float("-inf"), 0.5])
    tool.done("a float mask", "--scale", "1", "--mask", "m.npy", "--mode", "1", "--scores", "s.npy")
    tool.output("a float mask", "s.npy", (1, 1, 1, 2), [float("-inf"), 3.5])

    qkv(tool, [1, 1], [1, 1], [6, 12])
    tool.done("D", "--scale", "1", "--causal")
    tool.output("D", "y.npy", (1, 1, 2, 1), [6.0, 9.0])

    qkv(tool, [1], [1], [12])
    tool.file("pk.npy", (1, 1, 1, 1), [1])
    tool.file("pv.npy", (1, 1, 1, 1), [6])
    tool.done("E", "--scale", "1", "--causal", "--past-key", "pk.npy", "--past-value", "pv.npy",
              "--present-key", "nk.npy", "--present-value", "nv.npy")
    tool.output("E: output", "y.npy", (1, 1, 1, 1), [9.0])
    tool.output("E: present key", "nk.npy", (1, 1, 2, 1), [1.0, 1.0])
    tool.output("E: present value", "nv.npy", (1, 1, 2, 1), [6.0, 12.0])

    qkv(tool, [1] * 4, [1] * 2, [3, 7], (1, 1, 4), (1, 1, 2), (1, 1, 2))
    tool.done("I in 3 dimensions", "--q-heads", "4", "--kv-heads", "2")
    tool.output("I in 3 dimensions", "y.npy", (1, 1, 4), [3.0, 3.0, 7.0, 7.0])

    qkv(tool, [1], [3, float("nan")], [2, 4])
    tool.file("live.npy", (1,), [1], descr="<i8")
    tool.done("K", "--scale", "1", "--live", "live.npy")
    tool.output("K", "y.npy", (1, 1, 1, 1), [2.0])


def dot_products(tool):
    """Products whose order shows: 65536 + 1/256 is 65536."""
    unit = 1 / 256
    for key, dot in (([65536, unit, -65536], 0.0), ([unit, 65536, unit, -65536], unit), ([65536, unit, 0, 0, -65536], unit),
                     ([unit, 65536, 0, 0, unit, -65536], 2 * unit)):
        shape = (1, 1, 1, len(key))
        qkv(tool, [1] * len(key), key, [1], shape, shape)
        tool.done("a dot product", "--scale", "1", "--mode", "0", "--scores", "s.npy")
        tool.output(f"the dot product of {key}", "s.npy", (1, 1, 1, 1), [dot])


def capped_calls(tool):
    """Scores of 20 and -3 under a cap of 2, no cap, and the least and the largest one."""
    qkv(tool, [1], [20, -3], [2, 4])
    for mode, scores in ((0, [20.0, -3.0]), (1, [20.0, -3.0]), (2, [2.0, -1.8102965354919434]),
                         (3, [0.9783380627632141, 0.021661978214979172])):
        tool.done("a cap", "--scale", "1", "--softcap", "2", "--mode", mode, "--scores", "s.npy")
        tool.output(f"a cap: scores of mode {mode}", "s.npy", (1, 1, 1, 2), scores)
        tool.output("a cap: output", "y.npy", (1, 1, 1, 1), [2.0433239936828613])
    for words in ((), ("--softcap", "0"), ("--softcap=-0",)):
        tool.done("no cap", "--scale", "1", "--mode", "2", "--scores", "s.npy", *words)
        tool.output("no cap: scores", "s.npy", (1, 1, 1, 2), [20.0, -3.0])
        tool.output("no cap: output", "y.npy", (1, 1, 1, 1), [2.0])
    tool.file("m.npy", (2,), [-17, float("-inf")])
    for words, scores in ((("--softcap", "65536"), [3.0001373291015625]), (("--softcap", "1e-45"), [1.401298464324817e-45]),
                          (("--softcap", "2"), [1.8102965354919434])):
        tool.done("a cap after a mask", "--scale", "1", "--mask", "m.npy", "--mode", "2", "--scores", "s.npy", *words)
        tool.output(f"a cap after a mask: {words}", "s.npy", (1, 1, 1, 2), scores + [float("-inf")])


def chunks(tool, *cap):
    """A recording in three chunks has the bytes of the whole."""
    rng = random.Random(7)
    heads, kv_heads, positions, width = 4, 2, 9, 5
    tensor = {name: [rng.uniform(-2, 2) for _ in range(positions * h * width)]
              for name, h in (("q", heads), ("k", kv_heads), ("v", kv_heads))}

    def write(start, end):
        for name, h in (("q", heads), ("k", kv_heads), ("v", kv_heads)):
            part = tensor[name][start * h * width:end * h * width]
            tool.file(f"{name}.npy", (1, end - start, h * width), part)

    settings = ("--causal", "--q-heads", heads, "--kv-heads", kv_heads, *cap)
    write(0, positions)
    tool.done("the whole", *settings)
    _, whole = read(tool.folder / "y.npy")
    together, past = [], ()
    for start, end in ((0, 4), (4, 5), (5, 9)):
        write(start, end)
        tool.done(f"chunk {start} to {end}", *settings, *past, "--present-key", "ck.npy", "--present-value", "cv.npy")
        together += read(tool.folder / "y.npy")[1]
        past = ("--past-key", "ck.npy", "--past-value", "cv.npy")
    tool.expect("chunks and the whole", together, whole)
    return whole


def capped_chunks(tool):
    """So it is with a cap, which gives other bytes."""
    tool.expect("chunks with a cap", chunks(tool, "--softcap", "0.5") != chunks(tool), True)


def bad_files(tool):
    qkv(tool, [1], [3, 3], [2, 4])
    good = (tool.folder / "k.npy").read_bytes()
    damaged = {
        "nothing": (b"", "ends inside its first 8 bytes"),
        "another format": (b"RIFF" + good, "--key k.npy: is not a .npy file"),
        "an archive": (b"PK\x03\x04" + good, "--key k.npy: is an archive (.npz), and a .npy file of one tensor is needed; in NumPy "
                       "numpy.save("),
        "a cut header": (good[:40], "ends inside its header"),
        "cut elements": (good[:-1], "is cut short: shape (1, 1, 2, 1) needs 8 bytes"),
        "more elements": (good + b"\x00", "is too long"),
        "doubles": (npy((1, 1, 2, 1), [3, 3], descr="<f8"),
                    "--key k.npy: holds elements of type '<f8', and '<f4' is needed; in NumPy x.astype('<f4')"),
        "another byte order": (good.replace(b"<f4", b">f4"),
                               "--key k.npy: holds elements of type '>f4' (big-endian), and '<f4' is needed; in NumPy x.astype("),
        "Fortran order": (npy((1, 1, 2, 1), [3, 3], order="True"), "Fortran order"),
        "bytes": (npy((1, 1, 2, 1), [3, 3], descr="|u1"), "--key k.npy: holds elements of type '|u1', and '<f4' is needed; "),
        "3 dimensions": (npy((1, 2, 1), [3, 3]), "--key k.npy has shape (1, 2, 1); (1, key heads, positions, 1) fits"),
        "a huge shape": (good.replace(b"(1, 1, 2, 1), }", b"(1,9**99,2,1)}  "), "k.npy: has a header"),
        "a shape past all memory": (good.replace(b"(1, 1, 2, 1), }", b"(9999999999999)}"), "k.npy: "),
    }
    for what, (data, words) in damaged.items():
        (tool.folder / "k.npy").write_bytes(data)
        tool.fails(what, 2, words)
    (tool.folder / "k.npy").unlink()
    tool.fails("no file", 2, "--key k.npy: No such file")
    (tool.folder / "k.npy").mkdir()
    tool.fails("a folder", 2, "--key k.npy: is a folder")
    (tool.folder / "k.npy").rmdir()
    (tool.folder / "k.npy").write_bytes(good)
    tool.file("m.npy", (2,), [1, 1], descr="<i8")
    tool.fails("a mask of counts", 2, "--mask m.npy: holds elements of type '<i8', and '|b1' or '|u1' or '<f4' is needed; in NumPy "
               "x.astype(bool) or x.astype('<f4')", "--mask", "m.npy")
    tool.fails("live counts of floats", 2, "--live q.npy: holds elements of type '<f4', and '<i8' is needed", "--live", "q.npy")
    # no damage of one byte makes it crash
    rng = random.Random(3)
    for _ in range(60):
        data = bytearray(good)
        data[rng.randrange(len(data))] = rng.randrange(256)
        (tool.folder / "k.npy").write_bytes(data)
        status, _, err = tool.attend()
        tool.expect(f"a damaged byte: {err}", status in (0, 1, 2) and "panicked" not in err, True)


def refused_calls(tool):
    nan = float("nan")
    qkv(tool, [1], [3, 3], [2, nan])
    tool.fails("a NaN", 1, "klaverdomp: refusal 9: element 1 of the value is not a number of magnitude at most 65,536\n"
               "  it is NaN\n  at [0, 0, 1, 0] of --value v.npy, shape (1, 1, 2, 1)\n")
    qkv(tool, [1], [3, 3], [2, 4])
    tool.fails("a scale of 0", 1, "refusal 3", "--scale", "0")
    tool.fails("a scale that is no number", 1, "the scale is NaN", "--scale", "nan")
    for words, number in (("-1", "-1.0"), ("-1e-45", "-1e-45"), ("65536.0078125", "65536.01"), ("inf", "inf"), ("-inf", "-inf"),
                          ("nan", "NaN")):
        tool.fails(f"a cap of {words}", 1, f"or the softcap not from 0 to 65,536\n  the softcap is {number}\n", "--softcap", words)
    tool.fails("a scale and a cap", 1, "  the scale is 0\n  the softcap is 70000.0\n", "--softcap", "70000", "--scale", "0")
    tool.fails("mode 4", 1, "the score mode is 4", "--mode", "4", "--scores", "s.npy")
    tool.file("m.npy", (1, 1, 1, 3), [1, 1, 1], descr="|b1")
    tool.fails("a mask too long", 1, "--mask m.npy has shape (1, 1, 1, 3)", "--mask", "m.npy")
    tool.file("m.npy", (1, 1, 1, 2), [1, 2], descr="|u1")
    tool.fails("a mask byte 2", 1, "refusal 8: element 1 of the mask", "--mask", "m.npy")
    tool.file("live.npy", (1,), [3], descr="<i8")
    tool.fails("a live count above the total", 1, "refusal 7: live count 0", "--live", "live.npy")
    qkv(tool, [1] * 257, [1] * 257, [1], (1, 1, 1, 257), (1, 1, 1, 257), (1, 1, 1, 1))
    tool.fails("head size 257", 1, "the head size is 257, and 1 to 256 is allowed")
    qkv(tool, [], [1], [1], (1, 1, 0, 1))
    tool.fails("no queries", 1, "the query length is 0")
    qkv(tool, [1] * 4, [1] * 3, [1] * 3, (1, 4, 1, 1), (1, 3, 1, 1), (1, 3, 1, 1))
    tool.fails("4 heads over 3", 1, "4 query heads, 3 key heads\n  --query q.npy has shape (1, 4, 1, 1)\n  --key k.npy has shape")
    qkv(tool, [1], [1], [1])
    tool.file("pk.npy", (1, 1, 3, 1), [1] * 3)
    tool.file("pv.npy", (1, 1, 2, 1), [1] * 2)
    tool.fails("keys and values of two calls", 1, "klaverdomp: refusal 5: ", "--past-key", "pk.npy", "--past-value", "pv.npy")
    tool.fails("the same in words", 1, "--past-key pk.npy has shape (1, 1, 3, 1)\n  --past-value pv.npy has shape (1, 1, 2, 1)\n"
               "  the past has 3 keys and 2 values: they are of two calls\n", "--past-key", "pk.npy", "--past-value", "pv.npy")
    tool.file("pv.npy", (1, 2, 3, 1), [1] * 6)
    tool.fails("a past of other heads", 2, "--past-value pv.npy has shape (1, 2, 3, 1); (1, 1, past, 1)", "--past-key", "pk.npy",
               "--past-value", "pv.npy")


def bad_usage(tool):
    qkv(tool, [1], [3, 3], [2, 4])
    tool.fails("an unknown option", 2, "--window is not an option here", "--window", "3")
    tool.fails("a scale in words", 2, "--scale half is not a number", "--scale", "half")
    tool.fails("a cap in words", 2, "--softcap thirty is not a number", "--softcap", "thirty")
    tool.fails("a cap without a number", 2, "--softcap needs a value", "--softcap")
    tool.fails("two caps", 2, "--softcap is given twice", "--softcap", "30", "--softcap=30")
    tool.fails("a mode without scores", 2, "--mode and --scores go together", "--mode", "3")
    tool.fails("heads with 4 dimensions", 2, "with 4 the shapes give them", "--q-heads", "1")
    tool.fails("a past key alone", 2, "--past-key and --past-value go together", "--past-key", "q.npy")
    tool.fails("live counts beside a cache", 2, "--live stands for an outside cache", "--live", "live.npy", "--past-key", "q.npy")
    tool.fails("two outputs in one file", 2, "--output y.npy and --scores y.npy are one file", "--mode", "3", "--scores", "y.npy")
    tool.fails("an output that cannot be written", 2, "--scores no/s.npy: No such file", "--mode", "3", "--scores", "no/s.npy")
    for words in (("--mask=",), ("--mask", ""), ("--mask",), ("--mask", "--causal")):
        tool.fails(f"no value: {words}", 2, "--mask needs a value", *words)
    for words, fault in ((("session", "foo"), "there is no 'session foo': 'session info FILE' is what there is\n"
                                              "'klaverdomp session --help' shows the options"),
                         (("session", "info", "--json", "q.npy"), "--json is not an option here"),
                         (("session", "-x"), "-x is not an option"),
                         (("session", "info"), "the file is missing"), (("help", "foo"), "there is no command 'foo'"),
                         (("help", "demo", "bench"), "help is for one command"), (("foo",), "there is no command 'foo'")):
        status, out, err = tool.run(*words)
        tool.expect(f"{words}: {err}", (status, out, err.startswith(f"klaverdomp: {fault}")), (2, "", True))
    for words in ((), ("no-such-command",), ("attend",), ("demo", "--head", "9"), ("demo", "--softcap", "x"),
                  ("bench", "--shape", "6"), ("session",), ("session", "q.npy"), ("session", "info"),
                  ("session", "info", "q.npy", "k.npy")):
        tool.expect(f"status of {words}", tool.run(*words)[0], 2)
    for words in (("--help",), ("attend", "--help"), ("session", "--help"), ("demo", "--help"), ("bench", "--help")):
        status, out, _ = tool.run(*words)
        tool.expect(f"help of {words}", (status, "klaverdomp" in out), (0, True))
        tool.expect(f"help, then {words}", tool.run("help", *words[:-1]), (0, out, ""))


def measurements(tool):
    status, out, err = tool.run("bench", "--shape", "1", "--seconds", "0")
    tool.expect(f"bench: status, {err}", (status, out.count("decode step B1 Hq8 Hkv8 P511 D64")), (0, 4))
    tool.expect("bench: the step entry and the cap", ("step / general" in out, "With a score cap of 30" in out), (True, True))
    status, out, err = tool.run("bench", "--shape", "3", "--seconds", "0", "--no-shares")
    tool.expect(f"bench: status, {err}", (status, out.count("decode step B8 Hq8")), (0, 1))
    tool.expect("bench: no step and no cap", ("step / general" in out, "With a score cap" in out), (False, False))
    status, out, err = tool.run("bench", "--sessions", "--seconds", "0")
    tool.expect(f"bench: status, {err}", (status, out.count("load 2048"), out.count("append ")), (0, 1, 2))
    tool.expect("bench: no shape", "decode step" in out, False)
    tool.expect("bench: a shape of sessions", tool.run("bench", "--sessions", "--shape", "1")[0], 2)


def closed_output(tool):
    """A reader that goes away early makes no crash."""
    run = subprocess.Popen([tool.program, "demo"], cwd=tool.folder, stdout=subprocess.PIPE, stderr=subprocess.PIPE)
    run.stdout.close()
    err = run.stderr.read().decode()
    tool.expect("closed output", (run.wait(timeout=60), err), (2, ""))


def main():
    if len(sys.argv) != 2:
        sys.exit(__doc__)
    with tempfile.TemporaryDirectory() as folder:
        tool = Tool(Path(sys.argv[1]).resolve(), Path(folder))
        for test in (known_calls, dot_products, capped_calls, chunks, capped_chunks, bad_files, refused_calls, bad_usage,
                     saved_sessions, demonstration, measurements, closed_output):
            test(tool)
        print(f"command line: {tool.checks} checks passed")


if __name__ == "__main__":
    main()
