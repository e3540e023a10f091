"""Roots in which packages are tried: this machine's below layers that take what is written, and a bare Debian."""

import os
import re
import shutil
import subprocess
from pathlib import Path

# What dpkg and ldconfig note of any package, and leave.
NOTES = re.compile(r"var/(log/.*|cache/(ldconfig|man|apt|debconf)/.*|lib/(apt/.*|dpkg/(status-old|lock.*|triggers/.*|available.*)))")
# The folders of a root in which packages write.
PARTS = ("usr", "etc", "var")


def succeeds(*words):
    """Whether a command succeeds."""
    return subprocess.run(words, stdout=subprocess.DEVNULL, stderr=subprocess.DEVNULL, check=False).returncode == 0


class Root:
    """A root for commands, at a folder. What is written there is in a layer of its own, over another root, if there is one."""

    def __init__(self, folder, layer=None):
        self.folder, self.layer = folder, layer

    def run(self, words, where="/tmp"):
        """What a command, or a line of a shell, does there."""
        words = ("sh", "-c", words) if isinstance(words, str) else words
        environment = {"PATH": "/usr/bin:/bin:/usr/sbin:/sbin", "HOME": "/root", "LC_ALL": "C.UTF-8", "MANWIDTH": "80",
                       "PYTHONDONTWRITEBYTECODE": "1", "DEBIAN_FRONTEND": "noninteractive"}
        return subprocess.run(("chroot", self.folder, "sh", "-c", 'cd "$0" && exec "$@"', where, *words), env=environment,
                              stdin=subprocess.DEVNULL, stdout=subprocess.PIPE, stderr=subprocess.PIPE, check=False)

    def has(self, *tools):
        """Whether all of some tools are there."""
        return all(self.run(f"command -v {tool}").returncode == 0 for tool in tools)

    def put(self, file, place):
        """Copies a file or a folder to a place."""
        target = self.folder / place.lstrip("/")
        target.parent.mkdir(parents=True, exist_ok=True)
        if file.is_dir():
            shutil.copytree(file, target, ignore=shutil.ignore_patterns("__pycache__"))
        else:
            shutil.copyfile(file, target)

    def files(self):
        """All that is there, and not in the root below, but for what is noted of any package."""
        top, found = self.layer or self.folder, set()
        for part in PARTS:
            for folder, folders, files in os.walk(top / part):
                found.update(os.path.relpath(os.path.join(folder, name), top) for name in (*folders, *files))
        return {name for name in found if not NOTES.fullmatch(name) and not (self.layer and os.path.lexists(f"/{name}"))}


def layered(stage):
    """This machine's root below layers that take what is written. Or nothing, where that can't be had."""
    root = stage / "root"
    (root / "tmp").mkdir(parents=True)
    for part in PARTS:
        upper, work = stage / "upper" / part, stage / "work" / part
        for folder in (upper, work, root / part):
            folder.mkdir(parents=True)
        options = f"lowerdir=/{part},upperdir={upper},workdir={work}"
        if not succeeds("mount", "-t", "overlay", "overlay", "-o", options, root / part):
            return None
    for link in Path("/").iterdir():
        if link.is_symlink() and link.name.startswith(("bin", "lib", "sbin")):
            (root / link.name).symlink_to(os.readlink(link))
    for part in ("dev", "proc"):
        (root / part).mkdir()
        subprocess.run(("mount", "--rbind", f"/{part}", root / part), check=True)
    subprocess.run(("mount", "-t", "tmpfs", "tmpfs", root / "usr" / "local"), check=True)
    shutil.rmtree(root / "etc" / "dpkg" / "dpkg.cfg.d", ignore_errors=True)  # which may leave out pages
    (root / "var" / "lib" / "man-db" / "auto-update").unlink(missing_ok=True)  # an index of this machine's manuals takes long
    return Root(root, stage / "upper")


def bare(stage, machine):
    """A bare Debian of this machine's release, for a machine by Debian's name for it."""
    release = re.search(r"^VERSION_CODENAME=(\w+)", Path("/etc/os-release").read_text(), flags=re.MULTILINE)[1]
    root = stage / "root"
    words = ("debootstrap", f"--arch={machine}", "--variant=minbase", release, root)
    subprocess.run(words, stdout=subprocess.DEVNULL, check=True)
    for part in ("dev", "proc"):
        subprocess.run(("mount", "--rbind", f"/{part}", root / part), check=True)
    shutil.copytree("/etc/apt", root / "etc" / "apt", dirs_exist_ok=True, symlinks=True)
    shutil.copyfile("/etc/resolv.conf", root / "etc" / "resolv.conf")
    return Root(root)


def with_own_mounts(has_network):
    """The words before a command that is to have mounts of its own, and no network unless it has one. Nothing without leave."""
    words = ("unshare", "--mount", *(() if has_network else ("--net",)))
    return words if succeeds(*words, "mount", "-t", "tmpfs", "tmpfs", "/mnt") else None
