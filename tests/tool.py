"""The command line tool in a folder, and the .npy files that it reads and writes, for its tests."""

import struct
import subprocess
import sys

FORMATS = {"<f4": "f", "<i8": "q", "|b1": "B", "|u1": "B", "<f8": "d"}


def size(shape):
    product = 1
    for dim in shape:
        product *= dim
    return product


def npy(shape, elements, descr="<f4", version=1, order="False"):
    """The bytes of a .npy file."""
    assert len(elements) == size(shape)
    header = f"{{'descr': '{descr}', 'fortran_order': {order}, 'shape': {tuple(shape)!r}, }}\n".encode()
    length = struct.pack("<H" if version == 1 else "<I", len(header))
    return b"\x93NUMPY" + bytes([version, 0]) + length + header + struct.pack(f"<{len(elements)}{FORMATS[descr]}", *elements)


def read(path):
    """Shape and elements of a .npy file of f4, version 1."""
    data = path.read_bytes()
    assert data[:8] == b"\x93NUMPY\x01\x00"
    (length,) = struct.unpack("<H", data[8:10])
    assert (10 + length) % 64 == 0
    header = eval(data[10:10 + length], {})
    assert header["descr"] == "<f4" and header["fortran_order"] is False
    count = size(header["shape"])
    return header["shape"], list(struct.unpack(f"<{count}f", data[10 + length:]))


class Tool:
    def __init__(self, program, folder):
        self.program, self.folder, self.checks = program, folder, 0

    def file(self, name, shape, elements, **settings):
        (self.folder / name).write_bytes(npy(shape, elements, **settings))

    def run(self, *words):
        answer = subprocess.run([self.program, *map(str, words)], cwd=self.folder, capture_output=True, timeout=120)
        return answer.returncode, answer.stdout.decode(), answer.stderr.decode()

    def attend(self, *words):
        return self.run("attend", "--query", "q.npy", "--key", "k.npy", "--value", "v.npy", "--output", "y.npy", *words)

    def expect(self, what, found, wanted):
        self.checks += 1
        if found != wanted:
            sys.exit(f"{what}: {found!r} instead of {wanted!r}")

    def done(self, what, *words):
        status, out, err = self.attend(*words)
        self.expect(f"{what}: status, {err}", status, 0)
        return out

    def output(self, what, name, shape, elements):
        self.expect(what, read(self.folder / name), (tuple(shape), elements))

    def fails(self, what, status, words, *given):
        """The command fails with this status and these words, writes no output and does not crash."""
        (self.folder / "y.npy").unlink(missing_ok=True)
        found, _, err = self.attend(*given)
        self.expect(f"{what}: status, {err}", found, status)
        self.checks += 1
        if words not in err or "panicked" in err or not err.startswith("klaverdomp: "):
            sys.exit(f"{what}: {err!r} has not {words!r}")
        self.expect(f"{what}: an output", (self.folder / "y.npy").exists(), False)


def qkv(tool, q, k, v, q_shape=None, k_shape=None, v_shape=None):
    """Writes q.npy, k.npy and v.npy; without shapes, one batch and one head of size 1."""
    tool.file("q.npy", q_shape or (1, 1, len(q), 1), q)
    tool.file("k.npy", k_shape or (1, 1, len(k), 1), k)
    tool.file("v.npy", v_shape or (1, 1, len(v), 1), v)
