"""Containers on a table in simulated time: described as for an OCI runtime, started, forked in, ended, and started again."""

from pidtab.sim.oci import BadConfig, Description, read_config
from pidtab.sim.simulation import DOCKER, KUBERNETES, Container, Moment, NoContainer, Restart, Sample, Simulation, World

__all__ = [
    "DOCKER", "KUBERNETES", "BadConfig", "Container", "Description", "Moment", "NoContainer", "Restart", "Sample", "Simulation", "World", "read_config",
]  # fmt: skip
