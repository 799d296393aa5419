"""A Slurm of one node on the loopback, all of it below one folder, for the time of a block.

It needs Debian's `slurm-wlm` and `munge`. It works as root and as a plain user, without systemd and
without control groups, and neither reads nor writes /etc/slurm and /etc/munge.
"""
import ctypes
import os
import random
import shutil
import signal
import socket
import subprocess
import tempfile
import time

CONFIG = """ClusterName=here
SlurmctldHost={host}(127.0.0.1)
SlurmUser={user}
SlurmdUser={user}
SlurmctldPort={port}
SlurmdPort={other}
{loopback}AuthType=auth/munge
CredType=cred/munge
AuthInfo=socket={folder}/munge.sock,cred_expire=5
SlurmctldPidFile={folder}/slurmctld.pid
SlurmdPidFile={folder}/slurmd.pid
SlurmctldLogFile={folder}/slurmctld.log
SlurmdLogFile={folder}/slurmd.log
StateSaveLocation={folder}/state
SlurmdSpoolDir={folder}/spool
ProctrackType=proctrack/linuxproc
TaskPlugin=task/none
JobAcctGatherType=jobacct_gather/none
AccountingStorageType=accounting_storage/none
JobCompType=jobcomp/none
SwitchType=switch/none
MpiDefault=none
MailProg=/bin/true
PropagateResourceLimits=NONE
SchedulerType=sched/backfill
SchedulerParameters=batch_sched_delay=0,sched_min_interval=0,sched_interval=2,bf_interval=2
KillWait=5
CompleteWait=0
MinJobAge=3600
ReturnToService=2
JobRequeue=1
SelectType=select/cons_tres
SelectTypeParameters=CR_CPU
SlurmdParameters=config_overrides
NodeName=n1 NodeHostname={host} NodeAddr=127.0.0.1 CPUs={cpus} RealMemory=2000 State=UNKNOWN
PartitionName=here Nodes=n1 Default=YES MaxTime=INFINITE State=UP
"""


def die_with_parent():
    """What is started does not outlive this process, even where that is killed."""
    ctypes.CDLL(None).prctl(1, signal.SIGKILL)


def end_by_exception(*_):
    raise SystemExit(1)


def free_ports():
    """Two ports that nothing listens on, below those that the system gives out itself."""
    while True:
        first = random.randrange(20000, 29999)
        try:
            for port in (first, first + 1):
                with socket.socket() as tried:
                    tried.bind(("127.0.0.1", port))
            return first, first + 1
        except OSError:
            continue


def addresses(host):
    try:
        return {found[4][0] for found in socket.getaddrinfo(host, None, socket.AF_INET)}
    except OSError:
        return set()


class Slurm:
    """munged, slurmctld and slurmd as children of this process; they end with the block."""

    def __init__(self, cpus=4, more=""):
        # Paths of sockets are short.
        self.folder = tempfile.mkdtemp(prefix="ocfl-slurm-", dir="/tmp")
        self.daemons = {}
        path = os.environ["PATH"] + ":/usr/sbin:/sbin"
        kept = {name: value for name, value in os.environ.items()
                if not name.startswith(("SLURM_", "SBATCH_", "SQUEUE_", "SINFO_"))}
        self.how = {**kept, "PATH": path, "SLURM_CONF": self.folder + "/slurm.conf"}
        self.configure(cpus, more)

    def configure(self, cpus, more):
        os.chmod(self.folder, 0o755)
        for name in ["state", "spool"]:
            os.mkdir(os.path.join(self.folder, name))
        with open(self.folder + "/key", "wb") as file:
            os.fchmod(file.fileno(), 0o600)
            file.write(os.urandom(128))
        host = os.uname().nodename.split(".")[0]
        # The daemons listen on the loopback alone where the host's name leads there.
        found = addresses(os.uname().nodename)
        alone = bool(found) and all(address.startswith("127.") for address in found)
        port, other = free_ports()
        user = subprocess.run(["id", "-un"], capture_output=True, text=True).stdout.strip()
        with open(self.folder + "/slurm.conf", "w") as file:
            file.write(CONFIG.format(
                host=host, user=user, port=port, other=other, folder=self.folder, cpus=cpus,
                loopback="CommunicationParameters=NoInAddrAny,NoCtldInAddrAny\n" if alone else "")
                + more)
        version = self.output_of(["slurmd", "-V"]).split()[-1:]
        is_older = not version or tuple(map(int, version[0].split(".")[:2])) < (23, 11)
        with open(self.folder + "/cgroup.conf", "w") as file:
            file.write("CgroupPlugin=%s\n" % ("cgroup/v1" if is_older else "disabled"))

    def __enter__(self):
        signal.signal(signal.SIGTERM, end_by_exception)
        try:
            self.start("munged", ["--foreground", "--force", "--socket=%s/munge.sock" % self.folder,
                                  "--key-file=%s/key" % self.folder,
                                  "--log-file=%s/munged.log" % self.folder,
                                  "--pid-file=%s/munged.pid" % self.folder,
                                  "--seed-file=%s/seed" % self.folder])
            self.wait(lambda: os.path.exists(self.folder + "/munge.sock"), "munged")
            self.start_controller()
            self.start("slurmd", ["-D", "-f", self.folder + "/slurm.conf", "-N", "n1"])
            state = ["sinfo", "-h", "-o", "%t"]
            self.wait(lambda: self.output_of(state).strip() == "idle", "the node")
        except BaseException:
            self.__exit__()
            raise
        return self

    def start(self, name, words):
        out = open("%s/%s.out" % (self.folder, name), "ab")
        self.daemons[name] = subprocess.Popen(
            [shutil.which(name, path=self.how["PATH"]), *words], stdin=subprocess.DEVNULL,
            stdout=out, stderr=out, env=self.how, cwd=self.folder, preexec_fn=die_with_parent)
        out.close()

    def start_controller(self):
        self.start("slurmctld", ["-D", "-f", self.folder + "/slurm.conf"])
        self.wait(lambda: "is UP" in self.output_of(["scontrol", "ping"]), "slurmctld")

    def wait_for_save(self, job):
        """Waits until the controller has saved what it knows of a job by now. What it has not saved
        when it is killed it forgets, and then it may start a job that runs once more, which takes
        the node out of service."""
        mark = "saved-%d" % time.monotonic_ns()
        self.output_of(["scontrol", "update", "JobId=" + job, "Comment=" + mark])
        self.wait(lambda: mark in self.saved(), "the saved state of job " + job)

    def saved(self):
        """The state of jobs that the controller saved last, or nothing while it exchanges it."""
        try:
            with open(self.folder + "/state/job_state", "rb") as file:
                return file.read().decode(errors="replace")
        except FileNotFoundError:
            return ""

    def kill_controller(self):
        self.daemons["slurmctld"].kill()
        self.daemons["slurmctld"].wait()

    def wait(self, holds, what, limit=60):
        until = time.monotonic() + limit
        while not holds():
            if time.monotonic() > until:
                raise TimeoutError("%s is not ready:\n%s" % (what, self.logs()))
            time.sleep(0.1)

    def logs(self):
        text = ""
        for name in ["munged", "slurmctld", "slurmd"]:
            for end in ["out", "log"]:
                path = "%s/%s.%s" % (self.folder, name, end)
                if os.path.exists(path):
                    with open(path, errors="replace") as file:
                        text += "%s:\n%s" % (path, "".join(file.readlines()[-8:]))
        return text

    def output_of(self, words, **more):
        """What a command of Slurm prints, with the environment that leads it here."""
        done = subprocess.run(words, capture_output=True, text=True, stdin=subprocess.DEVNULL,
                              env={**self.how, **more}, timeout=60)
        return done.stdout

    def states(self, job):
        """The states of a job, or of the tasks of an array, by number or by task."""
        rows = self.output_of(["squeue", "-h", "-a", "-t", "all", "-r", "-j", str(job),
                               "-o", "%i %T %r"]).splitlines()
        return {row.split()[0]: row.split()[1:] for row in rows}

    def left(self):
        """The jobs that have not ended."""
        return self.output_of(["squeue", "-h", "-r", "-o", "%i %T"]).splitlines()

    def __exit__(self, *_):
        if {"slurmctld", "slurmd"} <= set(self.daemons):
            try:
                jobs = self.output_of(["squeue", "-h", "-o", "%A"]).split()
                if jobs:
                    self.output_of(["scancel", *jobs])
                    self.wait(lambda: not self.left(), "the queue", 30)
            except (subprocess.TimeoutExpired, TimeoutError):
                pass
        for name in ["slurmd", "slurmctld", "munged"]:
            daemon = self.daemons.get(name)
            if daemon is None or daemon.poll() is not None:
                continue
            daemon.send_signal(signal.SIGTERM)
            try:
                daemon.wait(timeout=15)
            except subprocess.TimeoutExpired:
                daemon.kill()
                daemon.wait()
        for pid in self.stragglers():
            try:
                os.kill(pid, signal.SIGKILL)
            except ProcessLookupError:
                continue
        shutil.rmtree(self.folder, ignore_errors=True)

    def stragglers(self):
        """What still runs from this folder, such as the steps of jobs: none but ours name it."""
        for name in filter(str.isdigit, os.listdir("/proc")):
            try:
                with open("/proc/%s/environ" % name, "rb") as file:
                    is_ours = os.fsencode(self.folder + "/slurm.conf") in file.read()
            except OSError:
                continue
            if is_ours and int(name) != os.getpid():
                yield int(name)
