"""The rank of this process among those that a launcher of MPI has started."""

from __future__ import annotations

import os

# Open MPI, MPICH and Intel MPI, MVAPICH, what PMIx gives to others, and Slurm.
VARIABLES = ("OMPI_COMM_WORLD_RANK", "PMI_RANK", "MV2_COMM_WORLD_RANK", "PMIX_RANK", "SLURM_PROCID")
SIGN = "%r"


def rank() -> int | None:
    """The rank, or None without a launcher."""
    for variable in VARIABLES:
        text = os.environ.get(variable, "")
        if text.isdecimal():
            return int(text)
    return None


def of_rank(name: str) -> str:
    """A file's name with the rank in place of each %r: 0 without a launcher."""
    return name.replace(SIGN, str(rank() or 0))
