"""Saved sessions and the demonstration, for tests/command_line.py."""

import struct
import xml.etree.ElementTree

from tool import npy

AGREE = "3072 of 3072 outputs have the same bits, the caches too"


def session_record(kind, payload):
    return struct.pack("<IH", len(payload), kind) + payload


def saved_sessions(tool):
    """What 'session info' says of a sound file, of every cut of it, and of damaged ones."""
    sizes = (2, 1, 3, 1)
    first = session_record(1, struct.pack("<4H", *sizes))
    positions = [session_record(2, struct.pack("<8f", *[p + n / 8 for n in range(8)])) for p in range(3)]
    good = first + b"".join(positions)

    def info(data):
        (tool.folder / "s").write_bytes(data)
        return tool.run("session", "info", "s")

    for cut in range(len(first), len(good) + 1):
        whole, behind = divmod(cut - len(first), len(positions[0]))
        status, out, err = info(good[:cut])
        tool.expect(f"info of {cut} bytes, {err}", (status, out), (0, f"""\
batch            2
key heads        1
head size        3
value head size  1
positions        {whole} of at most 2048
bytes used       {cut - behind}
cut bytes behind {behind}
"""))
    nan = struct.pack("<f", float("nan"))
    damaged = {
        "nothing": (b"", "refusal 11: the file is empty"),
        "a cut first record": (good[:13], "refusal 11: the first record is cut after 13 of 14 bytes"),
        "no saved session": (npy((1,), [1]), "refusal 11: not a saved session: "),
        "nine batches": (good[:6] + b"\x09" + good[7:], "refusal 1: the first record has sizes outside their limits: batch 9 ("),
        "2,049 positions": (session_record(1, struct.pack("<4H", 1, 1, 1, 1)) + session_record(2, bytes(8)) * 2049,
                            "refusal 1: a 2,049th position begins at byte 28686"),
        "another kind": (good[:56] + b"\x03" + good[57:],
                         "refusal 11: byte 52: the record that begins there is of the wrong kind or length\n"
                         "  sound before that: batch 2, key heads 1, head size 3, value head size 1, positions 1; up to byte 52\n"
                         "  the first 52 bytes are a whole file: in a copy that is cut there the session can be taken up\n"),
        "another length": (good[:15] + b"\x01" + good[16:], "refusal 11: byte 14: "),
        "a NaN": (good[:100] + nan + good[104:], "refusal 9: position 2 has an element"),
    }
    for what, (data, words) in damaged.items():
        status, out, err = info(data)
        said = err.startswith(f"klaverdomp: s: {words}") and err.count("refus") == 1
        tool.expect(f"{what}: {err}", (status, out, said), (1, "", True))
    status, _, err = tool.run("session", "info", "no-such-file")
    tool.expect(f"no file: {err}", (status, "no-such-file: No such file" in err), (2, True))
    (tool.folder / "--json").write_bytes(good)
    for words in (("--", "--json"), ("./--json",)):
        tool.expect(f"a file named --json, {words}", tool.run("session", "info", *words)[0], 0)


def demonstration(tool):
    status, out, err = tool.run("demo", "--output", "demo.svg", "--head", "2")
    tool.expect(f"demo: status, {err}", status, 0)
    tool.expect("demo: cuts that agree", (out.count(AGREE), out.count("saved and taken up")), (12, 2))
    tool.expect("demo: the saved session", "positions        48 of" in tool.run("session", "info", "demo.session")[1], True)
    texts = picture_texts(tool)
    for text in ("key position j", "query position i", "weight", "no score cap", "a score cap of 2"):
        tool.expect(f"demo: {text}", text in texts, True)
    for words, agree, panels in ((("--softcap", "0.5"), 12, ["no score cap", "a score cap of 0.5"]),
                                 (("--softcap=0",), 6, ["no score cap"])):
        status, out, err = tool.run("demo", "--output", "demo.svg", "--force", *words)
        tool.expect(f"demo {words}: status, {err}", (status, out.count(AGREE)), (0, agree))
        tool.expect(f"demo {words}: panels", [text for text in picture_texts(tool) if "score cap" in text], panels)
    status, _, err = tool.run("demo", "--softcap", "nan")
    tool.expect(f"demo: a bad cap, {err}", (status, "the softcap is NaN" in err), (1, True))
    for words, fault in ((("--session", "no/session"), "--session no/session: No such file"),
                         (("--output", "one", "--session", "one"), "--output one and --session one are one file"),
                         (("--output", "one.session"), "--output one.session and the saved session beside --output one.session")):
        status, _, err = tool.run("demo", *words)
        tool.expect(f"demo {words}: {err}", (status, fault in err), (2, True))


def picture_texts(tool):
    root = xml.etree.ElementTree.parse(tool.folder / "demo.svg").getroot()
    return ["".join(text.itertext()) for text in root.iter("{http://www.w3.org/2000/svg}text")]
