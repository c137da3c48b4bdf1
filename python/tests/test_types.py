"""Types, as mypy checks them in users' code."""

import pathlib
import re
import shutil
import subprocess
import unittest

HERE = pathlib.Path(__file__).resolve().parent / "typing"


@unittest.skipUnless(shutil.which("mypy"), "mypy isn't there")
class Types(unittest.TestCase):
    def checked(self, name):
        words = ["mypy", "--strict", "--show-error-codes", "--no-error-summary", "--cache-dir=/dev/null", HERE / name]
        ran = subprocess.run(words, cwd=HERE.parents[1], env={"MYPYPATH": str(HERE.parents[1]), "PATH": "/usr/bin:/bin"}, stdout=subprocess.PIPE, text=True)
        return ran.returncode, ran.stdout

    def test_what_users_write(self):
        self.assertEqual(self.checked("accepted.py"), (0, ""))

    def test_mistakes(self):
        lines = (HERE / "refused.py").read_text(encoding="utf-8").splitlines()
        wanted = {number: line.partition("# error: ")[2] for number, line in enumerate(lines, 1) if "# error: " in line}
        _, printed = self.checked("refused.py")
        found: dict[int, list[str]] = {}
        for number, kind in re.findall(r"refused\.py:(\d+): error: .*\[([\w-]+)\]", printed):
            found.setdefault(int(number), []).append(kind)
        self.assertEqual(sorted(found), sorted(wanted), printed)
        for number, kinds in found.items():
            self.assertLessEqual(set(kinds), set(wanted[number].split(", ")), lines[number - 1])


if __name__ == "__main__":
    unittest.main()
