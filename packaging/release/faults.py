"""What ends a release: a sentence for people."""

import subprocess


class Fault(Exception):
    """Why there is no release."""


def run(command, **more):
    """What a command writes, in bytes; one that fails is a fault."""
    try:
        done = subprocess.run(command, capture_output=True, check=False, **more)
    except FileNotFoundError:
        raise Fault(f"no command {command[0]}") from None
    if done.returncode != 0:
        said = (done.stderr or done.stdout).decode("utf-8", "replace").strip()
        raise Fault(f"{' '.join(map(str, command))}: {said or f'status {done.returncode}'}")
    return done.stdout
