"""A new machine, for trying a package: this machine's files below a writable layer, with a separate systemd as the
first process.

It consists of namespaces (unshare, nsenter), an overlay of the file system in memory and a group of processes, so it
needs root. It has a separate network with nothing in it but the machine itself. Nothing of it remains afterwards.
"""
import os
import pathlib
import shutil
import subprocess
import tempfile
import time
from typing import Any

NEEDED = ("apt-get", "ip", "nsenter", "setpriv", "systemd-analyze", "unshare")
GROUPS = pathlib.Path("/sys/fs/cgroup")
SYSTEMD = "/lib/systemd/systemd"
TIME = 120
# What makes the machine out of namespaces that are there: $1 is the folder for its layers, $2 a folder that it sees as
# /packages. The first process has no units to start: what is asked of it comes later.
BOOT = r"""
set -eu
mount --make-rprivate /
mount -t tmpfs tmpfs "$1"
mkdir "$1/upper" "$1/work" "$1/root"
mount -t overlay overlay -o "lowerdir=/,upperdir=$1/upper,workdir=$1/work" "$1/root"
mkdir -p "$1/root/packages"
mount --bind "$2" "$1/root/packages"
cd "$1/root"
mount -t proc proc proc
mount --bind proc/sys proc/sys
mount -o remount,ro,bind proc/sys
mount -t sysfs -o ro sysfs sys
if [ "$(stat -f -c %T /sys/fs/cgroup)" = cgroup2fs ]; then
    mount -t cgroup2 cgroup2 sys/fs/cgroup
else
    mount -t tmpfs tmpfs sys/fs/cgroup
    mkdir sys/fs/cgroup/systemd sys/fs/cgroup/unified
    mount -t cgroup -o none,name=systemd cgroup sys/fs/cgroup/systemd
    mount -t cgroup2 cgroup2 sys/fs/cgroup/unified
    # It has the groups above for its own, and no other ones.
    mount --bind /dev/null proc/cgroups
fi
mount -t tmpfs tmpfs dev
for device in null zero full random urandom tty; do
    touch "dev/$device"
    mount --bind "/dev/$device" "dev/$device"
done
mkdir dev/shm dev/pts
mount -t devpts -o newinstance,ptmxmode=666 devpts dev/pts
ln -s pts/ptmx dev/ptmx
ln -s /proc/self/fd dev/fd
mount -t tmpfs tmpfs run
mount -t tmpfs tmpfs tmp
ip link set lo up
# It starts what its packages start, whatever this machine is told of that.
rm -f usr/sbin/policy-rc.d
# Nothing of this machine is started there, or mounted.
: >etc/fstab
rm -rf var/log/journal etc/systemd/system/*.wants
# The index of all manual pages is none of a package's business, and takes its time.
rm -f var/lib/man-db/auto-update
# What apt-get would ask is answered by yes. It has no network to fetch what a package recommends.
printf 'APT::Get::Assume-Yes "true";\nAPT::Install-Recommends "false";\n' >etc/apt/apt.conf.d/new-machine
printf '[Unit]\nDefaultDependencies=no\n' >etc/systemd/system/new-machine.target
# The kernel is this machine's too: it isn't asked for modules or for another time.
exec chroot . setpriv --bounding-set=-sys_module,-sys_time,-sys_boot,-syslog,-sys_rawio \
    env -i container=new-machine PATH="$PATH" /lib/systemd/systemd --unit=new-machine.target --log-target=null
"""


class NotHere(Exception):
    """This machine can't have one. The text says why."""


def lacking() -> str | None:
    """Why this machine can't have one, or nothing."""
    if os.geteuid():
        return "a new machine is made by root"
    missing = [name for name in NEEDED if not shutil.which(name)]
    if missing or not pathlib.Path(SYSTEMD).exists():
        return f"a new machine needs {', '.join(missing or ['systemd'])}"
    if subprocess.run(["dpkg", "--audit"], capture_output=True, text=True).stdout:
        return "a new machine needs this one's packages to be installed whole (dpkg --audit)"
    return None


class Machine:
    """A new machine with a folder of packages."""

    def __init__(self, packages: pathlib.Path) -> None:
        self.room = pathlib.Path(tempfile.mkdtemp(prefix="new-machine-"))
        self.groups = [folder / self.room.name for folder in self.hierarchies()]
        for group in self.groups:
            group.mkdir()
        joins = "".join(f'echo $$ >"{group}/cgroup.procs"\n' for group in self.groups)
        words: list[str | pathlib.Path] = ["unshare", "--mount", "--pid", "--fork", "--uts", "--ipc", "--cgroup", "--net",
                                           "--kill-child",
                                           "bash", "-c", BOOT, "boot", self.room, packages]
        # It ends with whoever made it, however that one ends.
        words = ["setpriv", "--pdeathsig", "KILL", "bash", "-c", f'{joins}exec "$@"', "join", *words]
        self.process = subprocess.Popen(words, stdin=subprocess.DEVNULL, stdout=subprocess.DEVNULL, text=True,
                                        stderr=subprocess.PIPE)
        try:
            self.wait_for_systemd()
        except BaseException:
            self.end()
            raise

    @staticmethod
    def hierarchies() -> list[pathlib.Path]:
        """Where groups of processes are that the machine has for its own."""
        if (GROUPS / "cgroup.procs").exists():
            return [GROUPS]
        return [folder for folder in (GROUPS / "systemd", GROUPS / "unified") if folder.is_dir()]

    def wait_for_systemd(self) -> None:
        begun = time.monotonic()
        while self.process.poll() is None and time.monotonic() < begun + TIME:
            self.first = self.first_process() or ""
            if self.first and self.run("systemctl", "is-active", "new-machine.target").stdout == "active\n":
                return
            time.sleep(0.05)
        self.process.kill()
        assert self.process.stderr, "a pipe"
        raise NotHere(f"no systemd begins in namespaces here: {self.process.stderr.read().strip()[-200:]}")

    def first_process(self) -> str | None:
        """The number of the machine's first process here, once that is systemd."""
        parent = self.process.pid
        try:
            for child in pathlib.Path(f"/proc/{parent}/task/{parent}/children").read_text().split():
                if pathlib.Path(f"/proc/{child}/comm").read_text() == "systemd\n":
                    return child
        except OSError:
            pass  # it has ended meanwhile
        return None

    def run(self, *words: object, **options: Any) -> subprocess.CompletedProcess[str]:
        """Runs a command of the machine, as root: what has ended, with its outputs."""
        enter = ["nsenter", "--target", self.first, "--mount", "--pid", "--uts", "--ipc", "--cgroup", "--net", "--root",
                 "--wd"]
        env = {"PATH": "/usr/local/bin:/usr/sbin:/usr/bin:/sbin:/bin", "HOME": "/root", "LC_ALL": "C.UTF-8",
               "DEBIAN_FRONTEND": "noninteractive"}
        return subprocess.run([*enter, *map(str, words)], env=env, stdin=subprocess.DEVNULL, capture_output=True,
                              text=True, timeout=TIME, **options)

    def path(self, name: str) -> pathlib.Path:
        """A file of the machine, as it is seen from here."""
        return pathlib.Path(f"/proc/{self.first}/root") / name.lstrip("/")

    def changed(self) -> list[str]:
        """The files that aren't those of this machine: what was made, changed or taken away there."""
        words: list[str | pathlib.Path] = ["nsenter", "--target", str(self.process.pid), "--mount", "find",
                                           self.room / "upper", "!", "-type",
                                           "d", "-printf", "/%P\n"]
        return subprocess.run(words, check=True, capture_output=True, text=True).stdout.splitlines()

    def end(self) -> None:
        """Ends all that runs there, and takes away what the machine was made of."""
        self.process.kill()
        self.process.wait()
        if self.process.stderr:
            self.process.stderr.close()
        for group in self.groups:
            for folder in [*sorted(group.rglob("*/"), reverse=True), group]:
                remove(folder)
        self.room.rmdir()


def remove(group: pathlib.Path) -> None:
    """Removes a group of processes, once the last of them has ended."""
    begun = time.monotonic()
    while True:
        try:
            return group.rmdir()
        except OSError:
            if time.monotonic() > begun + TIME:
                raise
            time.sleep(0.02)
