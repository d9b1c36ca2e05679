"""The rank that a launcher of MPI tells, in the words of each launcher's documents."""

from __future__ import annotations

import os
import unittest
from unittest import mock

from parts.ranks import of_rank, rank
from tests.support import InFolder, needs_command, run_tool

# Open MPI's FAQ, MPICH's hydra, MVAPICH2's user guide, PMIx's standard, Slurm's srun(1).
LAUNCHERS = (
    "OMPI_COMM_WORLD_RANK",
    "PMI_RANK",
    "MV2_COMM_WORLD_RANK",
    "PMIX_RANK",
    "SLURM_PROCID",
)


def without_launcher() -> dict[str, str]:
    return {name: text for name, text in os.environ.items() if name not in LAUNCHERS}


class Ranks(unittest.TestCase):
    def test_each_launcher(self) -> None:
        for name in LAUNCHERS:
            with mock.patch.dict(os.environ, {**without_launcher(), name: "12"}, clear=True):
                self.assertEqual((rank(), of_rank("%r.of.%r")), (12, "12.of.12"), name)

    def test_none(self) -> None:
        for text in ("", "-1", "x", "1.0"):
            more = {"PMI_RANK": text}
            with mock.patch.dict(os.environ, {**without_launcher(), **more}, clear=True):
                self.assertEqual((rank(), of_rank("a.%r")), (None, "a.0"), text)


@needs_command("valgrind", "valgrind")
@needs_command("cc", "a C compiler")
class Recorded(InFolder):
    def test_a_rank_records_its_first_thread(self) -> None:
        """As Open MPI starts threads of its own, others would end the recording."""
        source = self.write(
            "two.c",
            "#include <pthread.h>\nstatic void *nothing(void *x) { return x; }\n"
            "int main(void) { pthread_t t; pthread_create(&t, 0, nothing, 0); return "
            "pthread_join(t, 0); }\n",
        )
        program = str(self.folder / "two")
        self.assertEqual(os.system(f"cc -O1 -o '{program}' '{source}' -lpthread"), 0)
        words = ("-o", str(self.folder / "%r.stream"), program)
        with mock.patch.dict(os.environ, without_launcher(), clear=True):
            self.assertIn("second thread", run_tool("record", *words).stderr)
            with mock.patch.dict(os.environ, {"PMIX_RANK": "3"}):
                self.assertEqual(run_tool("record", *words).returncode, 0)
        self.assertIn("3.stream", os.listdir(self.folder))

    def test_a_stream_that_can_not_be_written(self) -> None:
        done = run_tool("record", "-o", "/dev/full", "/bin/true")
        told = (done.returncode, done.stderr.splitlines()[-1])
        self.assertEqual(told, (1, "record: the stream can't be written"))
