"""Runs a program in containers of runc, crun and podman, each with the seccomp profile in a text."""
import os
import shutil
import subprocess
import threading

# Each container, and the runtimes themselves, run where /sys/fs/cgroup is a tree of cgroups v2 of their own: crun takes
# no other, and on some machines there are both kinds.
APART = ["unshare", "--mount", "sh", "-c", 'mount -t cgroup2 none /sys/fs/cgroup && exec "$@"', "sh"]
MOST_SECONDS = 60
IMAGE = "localhost/probe:1"
# The only capability that a container of podman has, and what it doesn't need.
CAPABILITY = "CAP_CHOWN"
ALONE = ["--network=none", "--cgroups=disabled", "--ulimit=nofile=1024:1024", "--ulimit=nproc=1024:1024"]
ALONE += ["--cap-drop=all", f"--cap-add={CAPABILITY}"]

# What a config.json has at its top so that a container of it runs, but for `linux`. `noNewPrivileges` makes runtimes
# install the filter last.
HEAD = (
    b'"ociVersion":"1.0.2","process":{"user":{"uid":0,"gid":0},"args":[%b],"env":[],"cwd":"/","noNewPrivileges":true},'
    b'"root":{"path":"%b"},"mounts":[{"destination":"/proc","type":"proc","source":"proc"}]'
)
# What `linux` has beside `seccomp`.
SPACES = b'"namespaces":[{"type":"mount"},{"type":"pid"}]'


class Room:
    """A folder with a root for containers, in which is the program, and with an image of it for podman."""

    def __init__(self, folder, program, words):
        self.folder, self.words = folder, words
        self.root = os.path.join(folder, "root")
        for name in ("proc", "dev"):
            os.makedirs(os.path.join(self.root, name))
        shutil.copy(program, os.path.join(self.root, "probe"))
        self.count, self.lock = 0, threading.Lock()

    def place(self):
        """A new folder, and its name."""
        with self.lock:
            self.count += 1
            name = f"probe-{os.getpid()}-{self.count}"
        path = os.path.join(self.folder, name)
        os.mkdir(path)
        return path, name

    def head(self):
        """The head of a config.json that runs the program."""
        words = ",".join(f'"{word}"' for word in ["/probe", *self.words])
        return HEAD % (words.encode(), self.root.encode())

    def ran(self, words):
        """What a command says, and how it ends."""
        try:
            ran = subprocess.run([*APART, *words], stdin=subprocess.DEVNULL, capture_output=True, timeout=MOST_SECONDS)
        except subprocess.TimeoutExpired:
            return "", f"no end within {MOST_SECONDS} s"
        return ran.stdout.decode(errors="replace"), ran.stderr.decode(errors="replace").strip()


class Low:
    """A runtime that takes a config.json: runc or crun. `options` make `profile` answer as it does."""

    takes_profiles = False

    def __init__(self, room, name, options):
        self.room, self.name, self.options = room, name, options

    def ready(self):
        """Why no container runs here; None where one does."""
        return None if shutil.which(self.name) else "isn't installed"

    def run(self, text):
        path, name = self.room.place()
        with open(os.path.join(path, "config.json"), "wb") as file:
            file.write(text)
        state = os.path.join(self.room.folder, "state")
        return self.room.ran([self.name, "--root", state, "run", "--bundle", path, name])


class Podman:
    """podman, which reads a profile, and hands it to crun or runc."""

    takes_profiles = True
    name, options = "podman", ["--cap", CAPABILITY]

    def __init__(self, room):
        self.room = room
        folders = {"root": "images", "runroot": "running", "tmpdir": "podman"}
        self.words = ["podman", "--runtime", "crun", "--storage-driver", "vfs", "--cgroup-manager", "cgroupfs"]
        self.words += [f"--{option}={room.folder}/{folder}" for option, folder in folders.items()]

    def ready(self):
        if not shutil.which(self.name) or not shutil.which("crun"):
            return "isn't installed, or crun isn't"
        archive = os.path.join(self.room.folder, "image.tar")
        subprocess.run(["tar", "-C", self.room.root, "-cf", archive, "probe"], check=True)
        out, err = self.room.ran([*self.words, "import", archive, IMAGE])
        return None if out else err

    def run(self, text):
        path, name = self.room.place()
        profile = os.path.join(path, "profile.json")
        with open(profile, "wb") as file:
            file.write(text)
        words = [*self.words, "run", "--rm", "--name", name, *ALONE, "--security-opt", f"seccomp={profile}", IMAGE]
        return self.room.ran([*words, "/probe", *self.room.words])
