"""The oracle's binary, which asks the Rust (src/main.rs)."""
import os
import subprocess
import sys

from probe import run

HERE = os.path.dirname(os.path.abspath(__file__))
ORACLE = os.path.join(os.path.dirname(HERE), "target-oracle", "oracle")


def build(name):
    """Builds it where that is due; ends the script of that name where it cannot be built."""
    if subprocess.run([os.path.join(HERE, "build")]).returncode != 0:
        sys.exit(f"{name}: no oracle")


def answers(mode, frames):
    """Its text for each frame: packets for `answer`, job lists for `write`."""
    text = run([ORACLE, mode], b"".join(len(f).to_bytes(4, "little") + f for f in frames))
    found = (text or "").split(".\n")
    if found.pop() != "" or len(found) != len(frames):
        raise RuntimeError(f"oracle {mode} failed")
    return found
