"""Calls a tool as its script would be called, within this process."""
import contextlib
import importlib.machinery
import importlib.util
import io
import pathlib
import subprocess
import sys
import tempfile
import unittest
from unittest import mock

TOOLS = pathlib.Path(__file__).resolve().parent.parent
EXAMPLES = TOOLS.parent / "examples"
sys.path.insert(0, str(TOOLS))
sys.dont_write_bytecode = True


def loaded(name):
    """The script of this name as a module."""
    loader = importlib.machinery.SourceFileLoader(name.replace("-", "_"), str(TOOLS / name))
    module = importlib.util.module_from_spec(importlib.util.spec_from_loader(loader.name, loader))
    loader.exec_module(module)
    return module


class ToolTest(unittest.TestCase):
    """Tests of one tool, each in a folder of its own."""

    tool = ""

    @classmethod
    def setUpClass(cls):
        cls.module = loaded(cls.tool) if cls.tool else None

    def setUp(self):
        folder = tempfile.TemporaryDirectory()
        self.addCleanup(folder.cleanup)
        self.folder = pathlib.Path(folder.name)
        self.enterContext(contextlib.chdir(folder.name))

    def write(self, name, text):
        (self.folder / name).write_bytes(text if isinstance(text, bytes) else text.encode("utf-8"))

    def called(self, *words, given=b"", module=None):
        """The status of a call, the octets that it wrote, and what it said on standard error."""
        module = module or self.module
        out, said = io.TextIOWrapper(io.BytesIO(), encoding="utf-8"), io.StringIO()
        with (
            mock.patch.object(sys, "argv", [self.tool, *words]),
            mock.patch.object(sys, "stdin", io.TextIOWrapper(io.BytesIO(given), encoding="utf-8")),
            contextlib.redirect_stdout(out),
            contextlib.redirect_stderr(said),
            self.assertRaises(SystemExit) as end,
        ):
            module.run(module.main, module.USAGE)
        out.flush()
        return end.exception.code, out.buffer.getvalue(), said.getvalue()

    def writes(self, wanted, *words, said="", status=0, given=b""):
        found, octets, told = self.called(*words, given=given)
        self.assertEqual((told, octets.decode("utf-8"), found), (said, wanted, status))

    def refuses(self, said, *words, given=b""):
        """The call says just this, writes nothing, and ends with status 2."""
        self.assertEqual(self.called(*words, given=given), (2, b"", f"{said}\n"))

    def refuses_words(self, *words):
        self.refuses(f"usage: {self.module.USAGE}", *words)

    def ran(self, command, given=b""):
        """The status of a shell's command in the repository's folder, its output and what it said."""
        ran = subprocess.run(["bash", "-c", command], input=given, capture_output=True, cwd=TOOLS.parent, check=False)
        return ran.returncode, ran.stdout.decode("utf-8"), ran.stderr.decode("utf-8")
