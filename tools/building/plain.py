"""The plain program of bench/plain, and audits that it and seccomp_audit take."""
import os
import subprocess

from building.kit import ROOT

# The greatest budget that an audit takes.
MOST_BUDGET = 1000000


def plain():
    """The path of the plain program, which cargo builds first where it isn't built."""
    folder = os.path.join(ROOT, "bench/plain")
    words = ["--manifest-path", f"{folder}/Cargo.toml", "--target-dir", f"{folder}/target"]
    subprocess.run(["cargo", "build", "--release", "--quiet", *words], check=True)
    return f"{folder}/target/release/plain"


def audit_of(folder, policy, filters, budget=MOST_BUDGET, workers=1):
    """The words after a program's path that make it audit these filters; the files for it are written into the folder."""
    paths = [os.path.join(folder, f"{number:02}.bpf") for number in range(1, len(filters) + 1)]
    for path, data in zip([*paths, os.path.join(folder, "policy.toml")], [*filters, policy.encode()]):
        with open(path, "wb") as file:
            file.write(data)
    return ["audit", "--budget", str(budget), "--workers", str(workers), "--policy", f"{folder}/policy.toml", *paths]
