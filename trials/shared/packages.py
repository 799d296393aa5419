"""The tools that some trials need and a system may lack: installed where that can be done."""
import os
import shutil
import subprocess

# Debian's packages, by the tool that is looked for.
PACKAGES = {"strace": ["strace"], "parallel": ["parallel"], "slurmctld": ["slurm-wlm", "munge"]}
WAIT = ["-o", "DPkg::Lock::Timeout=300"]


def has(tool):
    """Whether a tool is there; of the two commands `parallel` it is that of GNU."""
    where = shutil.which(tool, path=os.environ["PATH"] + ":/usr/sbin:/sbin")
    if where is None or tool != "parallel":
        return where is not None
    shown = subprocess.run([where, "--version"], capture_output=True, stdin=subprocess.DEVNULL)
    return shown.stdout.startswith(b"GNU parallel")


def missing(tools):
    """Those of the tools that are not there, after an attempt to install their packages."""
    lacking = [tool for tool in tools if not has(tool)]
    if lacking and os.geteuid() == 0:
        install([name for tool in lacking for name in PACKAGES[tool]])
    return [tool for tool in lacking if not has(tool)]


def install(packages):
    how = {"stdin": subprocess.DEVNULL, "stdout": subprocess.DEVNULL, "timeout": 300}
    how["env"] = {**os.environ, "DEBIAN_FRONTEND": "noninteractive"}
    for words in [["update"], ["install", "-y", "--no-install-recommends", *packages]]:
        try:
            subprocess.run(["apt-get", *WAIT, *words], **how)
        except (OSError, subprocess.TimeoutExpired) as error:
            print("%s could not be installed: %s" % (" ".join(packages), error), flush=True)
            return


def why_not(tools):
    """What is missing, each with its package, or nothing."""
    return ", ".join("%s is not there (Debian: %s)" % (tool, " ".join(PACKAGES[tool]))
                     for tool in missing(tools))
