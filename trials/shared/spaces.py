"""Nights in a name space of their own, in which a trial mounts and unmounts what it likes."""
import contextlib
import ctypes
import os
import subprocess

NEW_MOUNTS, NEW_USER = 0x00020000, 0x10000000


def can_mount(parts):
    """Takes the trial into a name space of mounts of its own. Where this machine lets it mount
    nothing there, it says that these parts are not tried."""
    if enter_space() and mount("-t", "tmpfs", "none", "/mnt"):
        unmount("/mnt")
        return True
    print("not tried, since nothing can be mounted here: %s" % ", ".join(
        part.__name__ for part in parts))
    return False


def enter_space():
    user, group = os.getuid(), os.getgid()
    flags = NEW_MOUNTS if user == 0 else NEW_MOUNTS | NEW_USER
    if ctypes.CDLL(None).unshare(flags) != 0:
        return False
    if user != 0:
        for name, text in [("setgroups", "deny"), ("uid_map", "0 %d 1" % user),
                           ("gid_map", "0 %d 1" % group)]:
            with open("/proc/self/" + name, "w") as file:
                file.write(text)
    return mount("--make-rprivate", "/")


def mount(*words):
    return subprocess.run(["mount", *words], stderr=subprocess.DEVNULL).returncode == 0


def unmount(path):
    """Unmounts what is mounted at a path, also while it is in use."""
    return subprocess.run(["umount", "-l", path], stderr=subprocess.DEVNULL).returncode == 0


@contextlib.contextmanager
def memory_at(path, size):
    """A file system in memory at a path."""
    assert mount("-t", "tmpfs", "-o", "size=%s,nr_inodes=1000" % size, "none", path)
    try:
        yield
    finally:
        unmount(path)


@contextlib.contextmanager
def folder_at(path, folder, *options):
    """A folder at another path, with these options: `ro`."""
    assert mount("--bind", folder, path)
    try:
        assert not options or mount("-o", ",".join(["remount", "bind", *options]), path)
        yield
    finally:
        unmount(path)
