"""The versions of the toolchain with which the gate was seen to pass: toolchain.txt, one a line."""
import re
import shutil
import subprocess
import unittest

from .helpers import TOOLS

TOP = TOOLS.parent
VERSIONS = (TOP / "toolchain.txt").read_text().splitlines()


class ToolchainTest(unittest.TestCase):
    def test_versions_are_named_in_one_place(self) -> None:
        self.assertTrue(VERSIONS)
        for version in VERSIONS:
            self.assertRegex(version, r"^rattle-kit-[0-9a-z]+$")
        for name in ("README.md", "CONTRIBUTING.md"):
            named = set(re.findall(r"rattle-kit-[0-9a-z]+", (TOP / name).read_text()))
            self.assertEqual(named - set(VERSIONS), set(), name)

    def test_the_toolchain_that_is_here_is_one_of_them(self) -> None:
        if not shutil.which("rt"):
            self.skipTest("the toolchain isn't there")
        said = subprocess.run(["rt", "version"], stdin=subprocess.DEVNULL, stdout=subprocess.PIPE, universal_newlines=True, check=True).stdout
        if said.split()[0] not in VERSIONS:
            self.skipTest(f"the toolchain is {said.split()[0]}, with which toolchain.txt doesn't say that the gate passes")


if __name__ == "__main__":
    unittest.main()
