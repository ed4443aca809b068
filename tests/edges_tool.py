"""The tool in a folder of its own, with a call that goes on from its own caches, for the tests of what goes wrong around it."""

import shutil
import stat
import subprocess

from tool import Tool, qkv

# a call that writes over its own past, and one that shows scores
CACHES = ("--past-key", "k.cache", "--past-value", "v.cache", "--present-key", "k.cache", "--present-value", "v.cache")
SCORES = ("--mode", "3", "--scores", "s.npy")


class Edges(Tool):
    """A tool in a folder with a call that goes on from its own caches."""

    def fresh(self, positions=3, width=1):
        """An empty folder but for the inputs: a past of some positions, one more, and outputs of a former call."""
        for path in list(self.folder.iterdir()):
            shutil.rmtree(path) if path.is_dir() and not path.is_symlink() else path.unlink()
        shape = (1, 1, 1, width)
        qkv(self, [1] * width, [1] * width, [3] * width, shape, shape, shape)
        for name in ("k.cache", "v.cache"):
            self.file(name, (1, 1, positions, width), [1] * positions * width)
        for name in ("y.npy", "s.npy"):
            (self.folder / name).write_bytes(b"of a former call")
        return self.files()

    def files(self):
        """Every file with its bytes; what is no regular file, with its kind."""
        def content(path):
            return path.read_bytes() if path.is_file() else stat.S_IFMT(path.lstat().st_mode)
        return {path.name: content(path) for path in self.folder.iterdir()}

    def started(self, *words, **how):
        """The status, the words on standard error and those on standard output of the tool, started in some way."""
        answer = subprocess.run([self.program, *words], cwd=self.folder, capture_output=True, timeout=60, **how)
        return answer.returncode, answer.stderr.decode(), answer.stdout

    def call(self, *words, **how):
        return self.started("attend", "--query", "q.npy", "--key", "k.npy", "--value", "v.npy", *words, **how)

    def nothing(self, what, fault, *words, before=None, status=2, **how):
        """The call fails in these words, and every file is as it was."""
        before = before or self.files()
        found, err, _ = self.call(*words, **how)
        said = err.startswith(f"klaverdomp: {fault}") and ".tmp" not in err
        self.expect(f"{what}: {err}", (found, said), (status, True))
        self.expect(f"{what}: the files", self.files() == before, True)

    def skipped(self, what):
        print(f"edges: skipped: {what}")
