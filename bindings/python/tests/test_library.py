import ctypes.util
import os
import subprocess
import sys
import unittest
from pathlib import Path

import x3d

VERSION = Path(__file__).resolve().parents[3] / "packaging/version"


class Library(unittest.TestCase):
    def test_its_version(self):
        self.assertEqual(x3d.version().removesuffix("-unproved"), VERSION.read_text().strip())

    def test_a_fault_has_a_text(self):
        fault = x3d.Fault(10)
        self.assertEqual((fault.name, fault.text), ("Closed", "the handle holds nothing"))

    def test_an_unknown_status_is_kept(self):
        fault = x3d.Fault(200)
        self.assertEqual((fault.status, fault.name, fault.text), (200, "Status200", "unknown status"))

    def refused(self, path):
        """What `import x3d` says of a library."""
        ran = subprocess.run([sys.executable, "-c", "import x3d"], env={**os.environ, "X3D_SO": path}, capture_output=True, text=True)
        self.assertNotEqual(ran.returncode, 0)
        return ran.stderr

    def test_another_library_is_refused(self):
        self.assertIn("has the binary interface unknown, and this module is for", self.refused(ctypes.util.find_library("m")))

    def test_a_missing_library_is_refused(self):
        self.assertIn("ImportError: no libx3d: /nowhere.so", self.refused("/nowhere.so"))
