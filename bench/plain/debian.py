"""Builds the plain programs that stand on Debian's crates, for the benches."""
import os
import subprocess

REGISTRY = "/usr/share/cargo/registry"


def built(folder, crates, build):
    """The program of the package in a folder, built below `build`; None, and a word, where one of its crates isn't there."""
    there = os.listdir(REGISTRY) if os.path.isdir(REGISTRY) else []
    lacking = [crate for crate in crates if not any(name.startswith(f"{crate}-") for name in there)]
    name = os.path.basename(folder)
    if lacking:
        print(f"{name} is left out: it wants {' '.join(f'librust-{crate}-dev' for crate in lacking)}")
        return None
    config = ["--config", "source.crates-io.replace-with='debian'", "--config", f"source.debian.directory='{REGISTRY}'"]
    target = os.path.join(build, name)
    subprocess.run(["cargo", "build", "--release", "--offline", "--quiet", "--target-dir", target, *config], cwd=folder, check=True)
    return os.path.join(target, "release", name)
