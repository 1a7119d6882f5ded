"""Installs the Debian packages in a new system and takes them away again, for tests/archive.py."""

import os
import re
import shutil
import tempfile
from pathlib import Path

from texts import TOP, run

# seconds until a new system is there
LONG = 900
# what the system itself writes: lists and caches of packages, logs, and the folder that the
# packages are in
ITS_OWN = re.compile(
    r"(?:var/(?:lib/(?:dpkg|apt)|cache|log)|etc/ld\.so\.cache|tmp|proc|sys|dev)(?:/|$)"
)
EXAMPLE = "/usr/share/doc/vipr/examples/plan.vipr"
USES = [
    f"vipr check {EXAMPLE}",
    f"vipr-stats --needed {EXAMPLE}",
    f"vipr-html {EXAMPLE}",
    f"vipr-audit {EXAMPLE.replace('.vipr', '.mps')} {EXAMPLE}",
]
VERSION_OF = "import importlib.metadata; print(importlib.metadata.version('vipr'))"


def codename():
    """The name of the Debian release that runs here, or that of an old one."""
    path = Path("/etc/os-release")
    found = (
        re.search(r"^VERSION_CODENAME=(\w+)$", path.read_text(), re.M) if path.is_file() else None
    )
    return found[1] if found else "bookworm"


def new_system(root):
    """Whether a new Debian system with Python could be made in a folder: for root alone, and by a
    network."""
    if os.geteuid() or not shutil.which("debootstrap"):
        return False
    words = ["debootstrap", "--variant=minbase", "--include=python3", codename(), root]
    return run(words, timeout=LONG).returncode == 0


def files_in(root):
    """The files of a system with their sizes, and its folders and links."""
    found = {}
    for path in root.rglob("*"):
        name = str(path.relative_to(root))
        if not ITS_OWN.match(name):
            found[name] = path.stat().st_size if path.is_file() and not path.is_symlink() else None
    return found


def installed_and_purged(checks, folder):
    """The packages in a folder are installed in a new system, root runs their commands, and after a
    purge all is as before."""
    with tempfile.TemporaryDirectory(prefix="vipr-debian-") as name:
        root = Path(name)
        if not new_system(root):
            checks.skip("Debian system", "the packages were installed in none")
            return

        def inside(words):
            front = ["chroot", root, "/usr/bin/env", "-i", "PATH=/usr/sbin:/usr/bin:/sbin:/bin"]
            settings = ["LC_ALL=C.UTF-8", "DEBIAN_FRONTEND=noninteractive"]
            done = run([*front, *settings, "/bin/sh", "-c", words])
            said = f"{words}: {done.stdout.decode()}{done.stderr.decode()}"
            checks.check(done.returncode == 0, f"in a new system, {said}")
            return done.stdout.decode()

        before = files_in(root)
        for path in folder.glob("*.deb"):
            shutil.copy(path, root / "tmp")
        packages = {path.name.split("_")[0] for path in folder.glob("*.deb")}
        inside("dpkg --install /tmp/*.deb")
        for words in USES:
            inside(words)
        project = (TOP / "python/pyproject.toml").read_text()
        version = re.search(r'^version = "(.*)"$', project, re.M)[1]
        said = inside(f'python3 -c "{VERSION_OF}"')
        checks.check(said == f"{version}\n", f"the version of python3-vipr is {said}")
        inside("apt-get purge --yes python3-vipr")
        rest = [name for name in files_in(root) if "dist-packages/vipr" in name]
        checks.check(not rest, f"after the purge of python3-vipr there is {rest}")
        inside(f"apt-get purge --yes {' '.join(packages - {'python3-vipr'})}")
        after = files_in(root)
        differ = sorted(
            name
            for name in before.keys() | after.keys()
            if before.get(name, -1) != after.get(name, -1)
        )
        checks.check(not differ, f"after the purge these are not as before: {differ[:20]}")
