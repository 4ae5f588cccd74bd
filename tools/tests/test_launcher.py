"""The launcher: which program it runs, when it builds, and what it says of itself. What builds here is a script that stands for `rt`."""

from __future__ import annotations

import os
import shutil
import subprocess
import unittest

from support import TOP, WithFolder

RT = """#!/bin/sh
case $1 in
version) echo 'some toolchain' ;;
run) echo built >>"$BUILDS"; printf '#!/bin/sh\\necho "%s" "$@"\\n' "$(cat src/main)" >out/rte; chmod +x out/rte; echo 'words refused' ;;
esac
"""
RUN = ("run", "d", "s")


@unittest.skipUnless(shutil.which("bash") and shutil.which("sha256sum"), "there is no bash or no sha256sum")
class Launcher(WithFolder):
    def setUp(self) -> None:
        super().setUp()
        for name in ("crates/rte/src", "crates/below/src", "bin"):
            (self.folder / name).mkdir(parents=True)
        shutil.copy(TOP / "rte", self.folder / "rte")
        self.write("crates.txt", "below:\nrte: below\n")
        self.write("crates/rte/src/main", "first")
        self.write("crates/below/src/part", "part")
        for name in ("d", "s"):
            self.write(name, "")
        self.script("bin/rt", RT)

    def script(self, name: str, text: str) -> str:
        path = self.write(name, text)
        os.chmod(path, 0o755)
        return path

    def launched(self, *words: str, rte: str = "", has_rt: bool = True, given: str = "") -> tuple[int, str, str]:
        paths = [str(self.folder / "bin")] if has_rt else []
        places = [path for path in os.environ["PATH"].split(os.pathsep) if not os.path.exists(os.path.join(path, "rt"))]
        environment = {**os.environ, "PATH": os.pathsep.join(paths + places), "BUILDS": str(self.folder / "builds")}
        environment.pop("RTE", None)
        if rte:
            environment["RTE"] = rte
        ended = subprocess.run(
            [str(self.folder / "rte"), *words], env=environment, cwd=self.folder, input=given, capture_output=True, text=True, check=False
        )
        return ended.returncode, ended.stdout, ended.stderr

    def builds(self) -> int:
        path = self.folder / "builds"
        return path.read_text().count("built") if path.exists() else 0

    def test_it_builds_once_and_again_after_a_change(self) -> None:
        self.assertEqual(self.launched(*RUN)[:2], (0, "first run d s\n"))
        os.utime(self.folder / "crates/below/src/part")  # a newer time alone
        self.assertEqual(self.launched(*RUN)[:2], (0, "first run d s\n"))
        self.assertEqual(self.builds(), 1)
        self.write("crates/rte/src/main", "second")
        self.assertEqual(self.launched(*RUN)[:2], (0, "second run d s\n"))
        self.assertEqual(self.builds(), 2)
        os.rename(self.folder / "crates/below/src/part", self.folder / "crates/below/src/other")
        self.launched(*RUN)
        self.assertEqual(self.builds(), 3)

    def test_a_program_from_elsewhere_is_taken_with_what_it_was_built_from(self) -> None:
        self.launched(*RUN)
        held = self.folder / "held"
        shutil.move(self.folder / "crates/rte/out", held)
        (self.folder / "crates/rte/out").mkdir()
        for name in ("rte", "built_from"):
            shutil.copy(held / name, self.folder / "crates/rte/out" / name)
        self.assertEqual(self.launched(*RUN, has_rt=False)[:2], (0, "first run d s\n"))
        self.script("crates/rte/out/rte", "#!/bin/sh\necho another\n")
        status, _, said = self.launched(*RUN, has_rt=False)
        self.assertEqual(status, 127)
        self.assertIn("tools/dry_run.py", said)

    def test_the_variable_names_the_program(self) -> None:
        named = self.script("bin/named", "#!/bin/sh\necho named \"$@\"; exit 5\n")
        for rte in (named, "bin/named", "named"):
            self.assertEqual(self.launched(*RUN, rte=rte)[:2], (5, "named run d s\n"))
        self.assertEqual(self.builds(), 0)
        for rte in ("bin", "none", str(self.folder / "d")):
            status, shown, said = self.launched(*RUN, rte=rte)
            self.assertEqual((status, shown), (126, ""))
            self.assertIn("which is no program", said)

    def test_stimuli_go_through(self) -> None:
        named = self.script("bin/named", "#!/bin/sh\necho \"$@\"; cat\n")
        self.assertEqual(self.launched("live", "d", rte=named, given="0 tick 1\nstop\n")[:2], (0, "live d\n0 tick 1\nstop\n"))
        # Also behind a build: what builds reads nothing of them.
        self.script("bin/rt", RT.replace("echo built", "cat >taken; echo built"))
        self.assertEqual(self.launched("live", "d", given="stop\n")[0], 0)
        self.assertEqual((self.folder / "crates" / "rte" / "taken").read_text(), "")

    def test_it_does_not_call_itself(self) -> None:
        self.assertEqual(self.launched(*RUN, rte=str(self.folder / "rte"))[:2], (0, "first run d s\n"))

    def test_what_it_says_of_itself(self) -> None:
        status, shown, _ = self.launched("--help")
        self.assertEqual(status, 0)
        self.assertTrue(shown.startswith("usage: ./rte run DESCRIPTION SCRIPT"))
        self.assertEqual(self.launched("--version")[:2], (0, "The program is not built.\n"))
        self.launched(*RUN)
        status, shown, _ = self.launched("--version")
        self.assertEqual(status, 0)
        self.assertEqual([line.split(" ")[0] for line in shown.splitlines()], ["commit", "toolchain", "sources", "program"])
        status, shown, said = self.launched("walk")
        self.assertIn("usage: ", said)


if __name__ == "__main__":
    unittest.main()
