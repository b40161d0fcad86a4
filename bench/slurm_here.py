#!/usr/bin/env python3
"""Runs a command beside a Slurm of this one machine: munged, slurmctld and a slurmd for each of two nodes, on the loopback alone.

usage: slurm_here.py COMMAND [WORD ..]

Its configuration, its key and all that it writes lie in a folder that goes with it; a Slurm that is set up on the machine isn't
touched. The command finds it by the environment's SLURM_CONF. At the end jobs are cancelled, and each daemon is ended by its id. The
status is that of the command. Wants root, and Debian's slurm-wlm and munge."""

from __future__ import annotations

import contextlib
import os
import secrets
import shutil
import signal
import socket
import subprocess
import sys
import tempfile
import time
from pathlib import Path
from typing import Callable, Dict, List, Optional, Sequence


NEEDS = ("munged", "slurmctld", "slurmd", "sbatch", "scontrol", "scancel")
NODES = ("here1", "here2")
SECONDS = 30
CONFIGURATION = """\
ClusterName=here
SlurmctldHost={host}(127.0.0.1)
SlurmctldPort={ports[0]}
CommunicationParameters=NoInAddrAny,NoCtldInAddrAny
AuthType=auth/munge
AuthInfo=socket={folder}/munge.socket
CredType=cred/munge
SlurmUser=root
SlurmdUser=root
StateSaveLocation={folder}/state
SlurmdSpoolDir={folder}/%n
SlurmctldPidFile={folder}/slurmctld.pid
SlurmdPidFile={folder}/%n.pid
SlurmctldLogFile={folder}/slurmctld.log
SlurmdLogFile={folder}/%n.log
SlurmdTimeout=5
MinJobAge=86400
ReturnToService=2
ProctrackType=proctrack/linuxproc
TaskPlugin=task/none
JobAcctGatherType=jobacct_gather/none
AccountingStorageType=accounting_storage/none
MpiDefault=none
SelectType=select/cons_tres
SelectTypeParameters=CR_CPU_Memory
SchedulerParameters=batch_sched_delay=0,sched_interval=2
NodeName={nodes[0]} NodeHostname={host} NodeAddr=127.0.0.1 Port={ports[1]} CPUs={cpus} RealMemory={memory}
NodeName={nodes[1]} NodeHostname={host} NodeAddr=127.0.0.1 Port={ports[2]} CPUs={cpus} RealMemory={memory}
PartitionName=here Nodes=ALL Default=YES MaxTime=INFINITE State=UP
"""


def lacks() -> Optional[str]:
    """Returns what is wanted and isn't there, or None."""
    path = f"{os.environ['PATH']}:/usr/sbin:/sbin"
    missing = [it for it in NEEDS if not shutil.which(it, path=path)]
    if missing:
        return f"{', '.join(missing)}: apt install slurm-wlm munge"
    return None if os.geteuid() == 0 else "root, whom the daemons want"


def free_ports(number: int) -> List[int]:
    """Returns ports of the loopback that nobody listens to."""
    taken = [socket.socket() for _ in range(number)]
    for it in taken:
        it.bind(("127.0.0.1", 0))
    ports = [it.getsockname()[1] for it in taken]
    for it in taken:
        it.close()
    return ports


class Slurm:
    """A Slurm of this machine, from its beginning to its end. `environment` is that of its commands."""

    def __init__(self, cpus: int = 2, memory: int = 4000) -> None:
        self.cpus, self.memory = cpus, memory
        self.daemons: Dict[str, "subprocess.Popen[bytes]"] = {}

    def __enter__(self) -> Slurm:
        self.folder = Path(tempfile.mkdtemp(prefix="fleetplan-slurm-"))
        self.folder.chmod(0o755)
        configuration = self.folder / "slurm.conf"
        path = f"{os.environ['PATH']}:/usr/sbin:/sbin"
        self.environment = {**os.environ, "PATH": path, "SLURM_CONF": str(configuration)}
        host = socket.gethostname().split(".")[0]
        how = {"host": host, "folder": self.folder, "nodes": NODES, "ports": free_ports(3), "cpus": self.cpus, "memory": self.memory}
        configuration.write_text(CONFIGURATION.format(**how), encoding="utf-8")
        try:
            self.start_all()
        except BaseException:
            self.__exit__()
            raise
        return self

    def start_all(self) -> None:
        """Starts all daemons, and waits until they are there."""
        key = self.folder / "munge.key"
        key.write_bytes(secrets.token_bytes(128))
        key.chmod(0o400)
        own = {"socket": "munge.socket", "key-file": key.name}
        own.update({"pid-file": "munged.pid", "log-file": "munged.log", "seed-file": "munged.seed"})
        self.start("munged", "munged", "--foreground", *(f"--{name}={self.folder / file}" for name, file in own.items()))
        self.wait_for(lambda: (self.folder / "munge.socket").exists())
        self.start("slurmctld", "slurmctld", "-D")
        for node in NODES:
            self.start_node(node)
        self.wait_for(lambda: self.said("sinfo", "-h", "-N", "-o", "%T").split() == ["idle"] * len(NODES))

    def start_node(self, node: str) -> None:
        """Starts the daemon of a node."""
        self.start(node, "slurmd", "-D", "-N", node)

    def start(self, name: str, *words: str) -> None:
        """Starts a daemon."""
        with open(self.folder / f"{name}.out", "wb") as out:
            self.daemons[name] = subprocess.Popen(
                words, stdin=subprocess.DEVNULL, stdout=out, stderr=out, env=self.environment, cwd=self.folder, start_new_session=True
            )

    def said(self, *words: str) -> str:
        """Returns what a command of this Slurm prints."""
        ran = subprocess.run(words, env=self.environment, stdout=subprocess.PIPE, stderr=subprocess.STDOUT, check=False)
        return ran.stdout.decode(errors="replace")

    def wait_for(self, is_so: Callable[[], bool]) -> None:
        """Waits until something is so, or raises RuntimeError."""
        until = time.monotonic() + SECONDS
        while not is_so():
            if time.monotonic() > until:
                raise RuntimeError(f"Slurm didn't come up in {SECONDS} seconds: {self.told()}")
            time.sleep(0.2)

    def told(self) -> str:
        """Returns the last lines of each daemon."""
        return "\n".join(f"{it.name}: {it.read_text(errors='replace')[-600:]}" for it in sorted(self.folder.glob("*.out")))

    def end(self, name: str, *, at_once: bool = False) -> None:
        """Ends a daemon by its id, at once by a signal that it can't hear."""
        daemon = self.daemons.pop(name)
        daemon.kill() if at_once else daemon.terminate()
        try:
            daemon.wait(SECONDS)
        except subprocess.TimeoutExpired:
            daemon.kill()
            daemon.wait()

    def kill_work(self, jobs: Sequence[str]) -> int:
        """Kills all that jobs have at work, as when their machine is lost, by the ids of the processes, and returns how many there were."""
        number, killed = 1, 0
        while number:
            found = [it for job in jobs for it in self.work_of(job)]
            number = len(found)
            killed += number
            for it in found:
                with contextlib.suppress(ProcessLookupError):
                    os.kill(it, signal.SIGKILL)
            time.sleep(0.05)
        return killed

    def work_of(self, job: str) -> List[int]:
        """Returns the ids of the processes of a job of this Slurm, that which waits for its end first."""
        own = {f"SLURM_JOB_ID={job}".encode(), f"SLURM_CONF={self.environment['SLURM_CONF']}".encode()}
        found: List[int] = []
        for it in Path("/proc").glob("[0-9]*"):
            with contextlib.suppress(OSError):
                is_gone = (it / "stat").read_text(encoding="ascii", errors="replace").rpartition(")")[2].split()[0] == "Z"
                if own <= set((it / "environ").read_bytes().split(b"\0")) and not is_gone:
                    found.append(int(it.name))
                elif (it / "cmdline").read_bytes().startswith(f"slurmstepd: [{job}.".encode()) and self.is_own(it):
                    found.insert(0, int(it.name))
        return found

    def is_own(self, process: Path) -> bool:
        """Returns whether a process of Slurm is of this one: it writes into a file of this folder."""
        return any(os.readlink(it).startswith(str(self.folder)) for it in (process / "fd").iterdir())

    def __exit__(self, *_: object) -> None:
        if "slurmctld" in self.daemons:
            self.said("scancel", "--partition=here")
            until = time.monotonic() + SECONDS
            while self.said("squeue", "-h").strip() and time.monotonic() < until:
                time.sleep(0.2)
        for name in reversed(list(self.daemons)):
            self.end(name)
        shutil.rmtree(self.folder, ignore_errors=True)


def end_by_signals() -> None:
    """Has signals end this process by an exception, so that no daemon stays."""
    for it in (signal.SIGHUP, signal.SIGTERM):
        signal.signal(it, lambda number, _: sys.exit(128 + number))


def main(words: Sequence[str]) -> int:
    """Runs the command, and returns its status."""
    end_by_signals()
    if not words:
        sys.exit(__doc__)
    if lacks():
        sys.exit(f"slurm_here.py wants {lacks()}")
    with Slurm() as slurm:
        return subprocess.run(words, env=slurm.environment, check=False).returncode


if __name__ == "__main__":
    sys.exit(main(sys.argv[1:]))
