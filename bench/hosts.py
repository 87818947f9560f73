"""What plays two machines on one: two sshd, or a slurmctld with two slurmd, on ports of the loopback, ended with their script."""

import contextlib
import os
import signal
import socket
import subprocess
import sys
import time

NAMES = ("one", "two")
LOOPBACK = "127.0.0.1"
# what the environment of a machine's processes has, with the name of its log
MARK = "Y4MSERVE_MACHINE"
SSHD = """Port {port}
ListenAddress 127.0.0.1
HostKey {folder}/host_key
AuthorizedKeysFile {folder}/key.pub
PidFile none
UsePAM no
StrictModes no
PasswordAuthentication no
KbdInteractiveAuthentication no
SetEnv HOME={folder}/{name}
ForceCommand {folder}/{name}/shell
"""
SSH = """Host {name}
    HostName 127.0.0.1
    Port {port}
    IdentityFile {folder}/key
    IdentitiesOnly yes
    UserKnownHostsFile {folder}/known
    StrictHostKeyChecking no
    LogLevel ERROR
    BatchMode yes
"""
SHELL = """#!/bin/bash
export PATH={folder}/bin:$PATH
cd
exec bash -c "$SSH_ORIGINAL_COMMAND"
"""
SLURM = """ClusterName=bench
SlurmctldHost={host}(127.0.0.1)
SlurmctldPort={ports[0]}
SlurmUser={user}
SlurmdUser={user}
AuthType=auth/munge
AuthInfo=socket={folder}/munge.socket,cred_expire=5
StateSaveLocation={folder}/state
SlurmdSpoolDir={folder}/spool-%n
SlurmctldPidFile={folder}/slurmctld.pid
SlurmdPidFile={folder}/slurmd-%n.pid
SlurmctldLogFile={folder}/slurmctld.log
SlurmdLogFile={folder}/slurmd-%n.log
ProctrackType=proctrack/linuxproc
TaskPlugin=task/none
MpiDefault=none
ReturnToService=2
SlurmdTimeout=10
SelectType=select/cons_tres
SelectTypeParameters=CR_CPU
AccountingStorageType=accounting_storage/none
JobAcctGatherType=jobacct_gather/none
NodeName=one NodeHostname={host} NodeAddr=127.0.0.1 Port={ports[1]} CPUs=2
NodeName=two NodeHostname={host} NodeAddr=127.0.0.1 Port={ports[2]} CPUs=2
PartitionName=all Nodes=one,two Default=YES MaxTime=10
"""


def write(path, data, mode=0o644):
    os.makedirs(os.path.dirname(path), exist_ok=True)
    with open(path, "wb") as file:
        file.write(data)
    os.chmod(path, mode)


def contents(folder):
    """What each file of a folder has."""
    return {entry.name: open(entry.path, "rb").read() for entry in os.scandir(folder) if entry.is_file()}


def has_part(folder, ending=".part"):
    """Whether a film that isn't whole yet stands somewhere in a folder."""
    return any(name.endswith(ending) for _, _, names in os.walk(folder) for name in names)


def free_ports(count):
    with contextlib.ExitStack() as stack:
        sockets = [stack.enter_context(socket.socket()) for _ in range(count)]
        for one in sockets:
            one.bind((LOOPBACK, 0))
        return [one.getsockname()[1] for one in sockets]


def is_open(port):
    with socket.socket() as one:
        return one.connect_ex((LOOPBACK, port)) == 0


def ended(run, status, patience):
    """Waits for the end of a run, whose status is this one or, for 1, any but 0; what it said on its error stream."""
    try:
        said = run.communicate(timeout=patience)[1]
    except subprocess.TimeoutExpired:
        kill_tree(run.pid)
        sys.exit(f"WRONG: a recipe didn't end in {patience} s")
    if (run.returncode == 0) != (status == 0):
        sys.exit(f"WRONG: a recipe ended with status {run.returncode}:\n{said}")
    return said


def children(process):
    found = []
    for name in filter(str.isdigit, os.listdir("/proc")):
        with contextlib.suppress(OSError), open(f"/proc/{name}/stat", errors="replace") as stat:
            if int(stat.read().rsplit(")", 1)[1].split()[1]) == process:
                found.append(int(name))
    return found


def kill_tree(process):
    """Kills a process that was started here, and all that it started: first it is stopped, so that it starts nothing more."""
    with contextlib.suppress(ProcessLookupError):
        os.kill(process, signal.SIGSTOP)
    for child in children(process):
        kill_tree(child)
    with contextlib.suppress(ProcessLookupError):
        os.kill(process, signal.SIGKILL)


class Machine:
    """A daemon with all that it starts, also what goes its own way: this has its mark."""

    def __init__(self, words, log):
        self.mark = f"{MARK}={log}"
        with open(log, "ab") as file:
            self.child = subprocess.Popen(words, stdin=subprocess.DEVNULL, stdout=file, stderr=file, env={**os.environ, MARK: log})

    def has_mark(self, process):
        with contextlib.suppress(OSError), open(f"/proc/{process}/environ", errors="replace") as environment:
            return self.mark in environment.read().split("\0")
        return False

    def kill(self):
        kill_tree(self.child.pid)
        for process in filter(self.has_mark, filter(str.isdigit, os.listdir("/proc"))):
            kill_tree(int(process))
        self.child.wait()

    def end(self):
        """Asks it to end, and kills what is left then."""
        self.child.terminate()
        with contextlib.suppress(subprocess.TimeoutExpired):
            self.child.wait(5)
        self.kill()


class Daemons:
    """Some daemons by their names, which are ended with the script, also where it fails or is told to end."""

    def __init__(self, folder):
        self.folder, self.machines, self.runs = folder, {}, []
        signal.signal(signal.SIGTERM, lambda *_: sys.exit("told to end"))

    def __enter__(self):
        try:
            self.begin()
        except BaseException:
            self.__exit__()
            raise
        return self

    def __exit__(self, *_):
        for run in self.runs:
            if run.poll() is None:
                kill_tree(run.pid)
        for machine in reversed(self.machines.values()):
            machine.end()

    def wait_until(self, what, is_so, seconds=60):
        until = time.monotonic() + seconds
        while not is_so():
            if time.monotonic() > until:
                sys.exit(f"{what} didn't come in {seconds} s")
            time.sleep(0.2)


class Ssh(Daemons):
    """Two sshd with a key for both, and an ssh that knows them by name."""

    def begin(self):
        folder = self.folder
        if os.geteuid() == 0:
            os.makedirs("/run/sshd", exist_ok=True)
        for key in ("key", "host_key"):
            subprocess.run(["ssh-keygen", "-q", "-t", "ed25519", "-N", "", "-f", os.path.join(folder, key)], check=True)
        ports, known = free_ports(len(NAMES)), ""
        for name, port in zip(NAMES, ports):
            write(f"{folder}/{name}/shell", SHELL.format(folder=folder, name=name).encode(), 0o755)
            write(f"{folder}/{name}.conf", SSHD.format(folder=folder, name=name, port=port).encode())
            known += SSH.format(folder=folder, name=name, port=port)
            self.machines[name] = Machine(["/usr/sbin/sshd", "-D", "-e", "-f", f"{folder}/{name}.conf"], f"{folder}/{name}.log")
        write(f"{folder}/ssh.conf", known.encode())
        write(f"{folder}/parallel/will-cite", b"")
        for port in ports:
            self.wait_until("sshd", lambda port=port: is_open(port))

    def start(self, code, work):
        """A recipe that is run."""
        known = {"PARALLEL_SSH": f"ssh -F {self.folder}/ssh.conf", "PARALLEL_HOME": f"{self.folder}/parallel"}
        run = subprocess.Popen(["bash", "-c", code], cwd=work, env={**os.environ, **known}, stdin=subprocess.DEVNULL,
                               stdout=subprocess.PIPE, stderr=subprocess.PIPE, text=True)
        self.runs.append(run)
        return run


class Slurm(Daemons):
    """A munged, a slurmctld and two slurmd."""

    def begin(self):
        folder, user = self.folder, subprocess.run(["id", "-un"], stdout=subprocess.PIPE, text=True).stdout.strip()
        config = SLURM.format(folder=folder, user=user, host=socket.gethostname().split(".")[0], ports=free_ports(3))
        write(f"{folder}/slurm.conf", config.encode())
        write(f"{folder}/munge.key", os.urandom(128), 0o400)
        for name in ("state", *(f"spool-{name}" for name in NAMES)):
            os.makedirs(f"{folder}/{name}")
        os.environ.update({"SLURM_CONF": f"{folder}/slurm.conf", "PATH": f"{folder}/bin:{os.environ['PATH']}"})
        self.machines["munged"] = Machine(
            ["munged", "--foreground", "--force", f"--socket={folder}/munge.socket", f"--key-file={folder}/munge.key",
             f"--pid-file={folder}/munge.pid", f"--seed-file={folder}/munge.seed"], f"{folder}/munged.log")
        self.wait_until("munged", lambda: os.path.exists(f"{folder}/munge.socket"))
        self.machines["slurmctld"] = Machine(["slurmctld", "-D", "-i"], f"{folder}/slurmctld.out")
        for name in NAMES:
            self.machines[name] = Machine(["slurmd", "-D", "-N", name], f"{folder}/{name}.out")
        idle = ["one", "idle", "two", "idle"]
        self.wait_until("a cluster of two", lambda: self.said("sinfo", "-h", "-N", "-o", "%N %t").split() == idle)

    def said(self, *words):
        return subprocess.run(words, stdout=subprocess.PIPE, stderr=subprocess.DEVNULL, text=True).stdout

    def submit(self, work):
        subprocess.run(["sbatch", "-Q", "films.sh"], cwd=work, check=True)

    def is_done(self):
        return not self.said("squeue", "-h")
