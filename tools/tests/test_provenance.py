"""A citation states the program that answered, and the commit and the toolchain only where the record beside it holds them."""

import hashlib
import os
import shutil
import subprocess
import tempfile
import time
import unittest
from pathlib import Path
from unittest import mock

from support import DATA, FAKE_PROGRAM, TOOLS, TOP, needs, run

from code_tables.provenance import Provenance, provenance

# Stands for rt: its program says nothing, whatever it was made of.
FALSE_RT = """#!/bin/sh
case $1 in
version) echo "false-kit logic 0" ;;
run) mkdir -p out && printf '#!/bin/sh\n' >out/ct_program && chmod +x out/ct_program ;;
esac
"""


def sum_of(path):
    return hashlib.sha256(Path(path).read_bytes()).hexdigest()


class Origin(unittest.TestCase):
    def setUp(self):
        folder = tempfile.TemporaryDirectory()
        self.addCleanup(folder.cleanup)
        self.folder = Path(folder.name)
        self.program = self.folder / "a program"
        shutil.copy(FAKE_PROGRAM, self.program)
        self.set(CODE_TABLES=str(self.program))

    def set(self, **variables):
        patch = mock.patch.dict(os.environ, variables)
        patch.start()
        self.addCleanup(patch.stop)

    def test_without_a_record_only_the_checksum_is_known(self):
        self.assertEqual(provenance(), Provenance(sum_of(self.program), "unknown", "unknown"))

    def test_the_record_beside_the_program_tells_the_commit_and_the_toolchain(self):
        record = self.program.with_name("a program.origin")
        record.write_text(f"program {sum_of(self.program)}\ncommit 0123abcd\ntoolchain kit-1 logic 2\n")
        self.assertEqual(provenance(), Provenance(sum_of(self.program), "0123abcd", "kit-1 logic 2"))
        record.write_text(f"program {sum_of(self.program)}\ntoolchain kit-1 logic 2\n")
        self.assertEqual(provenance().commit, "unknown")

    def test_a_record_of_another_program_counts_for_nothing(self):
        self.program.with_name("a program.origin").write_text(f"program {'0' * 64}\ncommit 0123abcd\ntoolchain kit-1 logic 2\n")
        self.assertEqual(provenance(), Provenance(sum_of(self.program), "unknown", "unknown"))

    def test_a_program_that_is_not_there_is_unknown(self):
        self.set(CODE_TABLES="/no/such/program")
        self.assertEqual(provenance(), Provenance("unknown", "unknown", "unknown"))

    def test_a_citation_states_it(self):
        self.program.write_text(FAKE_PROGRAM.read_text().replace("Path(__file__).resolve().parent.parent", repr(str(TOOLS))))
        self.program.with_name("a program.origin").write_text(f"program {sum_of(self.program)}\ncommit 0123abcd\ntoolchain kit-1 logic 2\n")
        out, _, status = run("cite.py", 10, 6, DATA / "page/small.session")
        self.assertEqual(status, 0)
        self.assertIn(f"program    code_tables, SHA-256 {sum_of(self.program)}\ncommit     0123abcd\ntoolchain  kit-1 logic 2\n", out)
        self.assertIn(f"Program SHA-256 {sum_of(self.program)}, commit 0123abcd, toolchain kit-1 logic 2. Sessions", out)

    def checkout(self):
        """A repository with the launcher, one crate and a false rt; nothing in it is proved."""
        top = self.folder / "checkout"
        for part in ("src", "specs", "proofs"):
            (top / "crates/ct_program" / part).mkdir(parents=True)
            (top / "crates/ct_program" / part / "text").write_text(part)
        (top / "crates.txt").write_text("ct_program:\n")
        (top / ".gitignore").write_text("out/\n")
        shutil.copy(TOP / "code_tables", top)
        (self.folder / "bin").mkdir()
        (self.folder / "bin/rt").write_text(FALSE_RT)
        (self.folder / "bin/rt").chmod(0o755)
        self.set(PATH=f"{self.folder}/bin:{os.environ['PATH']}", XDG_CACHE_HOME=str(self.folder / "cache"), CODE_TABLES=str(top / "code_tables"))
        self.git(top, "init", "-q")
        self.git(top, "add", ".")
        self.git(top, "commit", "-q", "-m", "sources")
        return top

    def git(self, top, *words):
        names = ["-c", "user.name=a", "-c", "user.email=a", "-c", "commit.gpgsign=false"]
        return subprocess.run(["git", "-C", top, *names, *words], check=True, capture_output=True, text=True).stdout.strip()

    @needs("git")
    @needs("setsid")
    @needs("flock")
    def test_the_launcher_records_what_it_built(self):
        top = self.checkout()
        self.assertEqual(provenance(), Provenance("unknown", "unknown", "unknown"))
        subprocess.run([top / "code_tables"], check=True, capture_output=True)
        built = top / "crates/ct_program/out/ct_program"
        self.assertEqual(provenance(), Provenance(sum_of(built), self.git(top, "rev-parse", "HEAD"), "false-kit logic 0"))
        (top / "crates/ct_program/src/text").write_text("changed")
        subprocess.run([top / "code_tables"], check=True, capture_output=True)
        self.assertEqual(provenance(), Provenance(sum_of(built), "unknown", "false-kit logic 0"))


    @needs("git")
    def test_of_what_the_gate_built_the_commit_is_known_alone(self):
        top = self.checkout()
        # The gate makes each out/ anew before it reads the sources.
        time.sleep(1.1)
        out = top / "crates/ct_program/out"
        out.mkdir()
        for name in ("ct_program", "ct_program.by-rattle"):
            (out / name).write_text("#!/bin/sh\n")
            (out / name).chmod(0o755)
        ended = subprocess.run([top / "code_tables"], capture_output=True)
        if ended.stderr:
            self.skipTest("this file system keeps no times of birth")
        self.assertEqual(provenance(), Provenance(sum_of(out / "ct_program"), self.git(top, "rev-parse", "HEAD"), "unknown"))


if __name__ == "__main__":
    unittest.main()
