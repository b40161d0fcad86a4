"""What is said to the engine where it would do work again that stands there, or where one scenario would end the others. Each step puts its
output into its place when all is written, so an output is complete or absent, whatever became of its job."""

import base64
import contextlib
import os
from typing import Any, Callable


def keep_outputs() -> None:
    """Has the engine, of version 7, take nothing away when it hands jobs to a cluster: a further try of a job goes on from what stands there.
    Where a step is done anew its own process takes the old output away before."""
    from snakemake.executors import ClusterExecutor, RealExecutor

    ClusterExecutor._run = RealExecutor._run


def forgive() -> None:
    """Has the engine, of version 7, go on where it can't take away an old output, or a folder that is empty: the step will fail alone."""
    from snakemake.dag import DAG
    from snakemake.jobs import Job

    Job.remove_existing_output = forgiving(Job.remove_existing_output)
    DAG.cleanup_workdir = forgiving(DAG.cleanup_workdir)


def forgiving(call: Callable[[Any], None]) -> Callable[[Any], None]:
    """Returns a call that does the same, but for a fault of the outside."""

    def forgiven(own: Any) -> None:
        with contextlib.suppress(OSError):
            call(own)

    return forgiven


def settle(engine: str) -> int:
    """Takes away, of what the engine's folder calls incomplete, the outputs that stand: each step puts its own into its place when all is
    written. Returns how many these were. What was called so would be done again."""
    place, number = os.path.join(engine, "incomplete"), 0
    for it in os.listdir(place) if os.path.isdir(place) else []:
        with contextlib.suppress(ValueError, OSError):
            output = base64.urlsafe_b64decode(it.encode("ascii")).decode("utf-8")
            if os.path.exists(os.path.join(os.path.dirname(engine), output)):
                os.remove(os.path.join(place, it))
                number += 1
    return number
