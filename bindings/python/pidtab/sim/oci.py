"""What a table takes of an OCI runtime's `config.json`, and the names of what it leaves out."""

import json
import os
from collections.abc import Iterator, Mapping
from dataclasses import dataclass
from typing import Any

from pidtab.bounds import GREATEST_PID_MAX

# What says nothing of a container.
METADATA = ("ociVersion", "annotations")


class BadConfig(ValueError):
    """A configuration that is not of the form. It says which field is wrong."""


@dataclass(frozen=True)
class Description:
    """A container, as a table can have it.

    `limit` is that of its control group, None for none. Its init has a PID namespace of its own, or is in that of the runtime. `word` is the program.
    `left_out` names the fields that a table has nothing for.
    """

    limit: int | None = None
    own_namespace: bool = True
    word: str = ""
    left_out: tuple[str, ...] = ()


def field(config: Mapping[str, Any], path: str, kind: type, default: Any) -> Any:
    """What a configuration has at a path, as `linux.namespaces`, if it is of the kind."""
    found: Any = config
    for name in path.split("."):
        if not isinstance(found, Mapping):
            raise BadConfig(f"{path}: what is around it is no object")
        found = found.get(name)
        if found is None:
            return default
    if not isinstance(found, kind) or isinstance(found, bool):
        raise BadConfig(f"{path} is no {kind.__name__}")
    return found


def read_limit(config: Mapping[str, Any]) -> int | None:
    """The limit of the pids controller; 0 or less is none, and so is one that no table can reach."""
    limit = field(config, "linux.resources.pids.limit", int, 0)
    return limit if 0 < limit <= GREATEST_PID_MAX else None


def read_namespace(config: Mapping[str, Any]) -> tuple[bool, list[str]]:
    """Whether there is a PID namespace of the container's own, and the other namespaces."""
    own, others = False, []
    for place, namespace in enumerate(field(config, "linux.namespaces", list, [])):
        path = f"linux.namespaces.{place}"
        if not isinstance(namespace, Mapping) or not isinstance(namespace.get("type"), str):
            raise BadConfig(f"{path} has no type")
        if namespace["type"] == "pid" and not namespace.get("path"):
            own = True
        else:
            others.append(f"linux.namespaces.{namespace['type']}" + (".path" if namespace["type"] == "pid" else ""))
    return own, others


# What is looked into, and what is taken of it.
TAKEN = {"": ("process", "linux"), "process": ("args",), "linux": ("namespaces", "resources"), "linux.resources": ("pids",)}


def name_left_out(config: Mapping[str, Any], path: str = "") -> Iterator[str]:
    """The fields below a path that are not taken."""
    for name, value in config.items():
        whole = f"{path}.{name}".removeprefix(".")
        if name in TAKEN[path] and whole in TAKEN and isinstance(value, Mapping):
            yield from name_left_out(value, whole)
        elif name not in TAKEN[path] and whole not in METADATA:
            yield whole


def read_config(config: Mapping[str, Any] | str | os.PathLike[str]) -> Description:
    """What a `config.json` says, or the object that was read of one. `BadConfig` says which field is not of the form."""
    if isinstance(config, (str, os.PathLike)):
        with open(config, encoding="utf-8") as file:
            try:
                config = json.load(file)
            except ValueError as fault:
                raise BadConfig(f"{os.fspath(file.name)}: {fault}") from None
    if not isinstance(config, Mapping):
        raise BadConfig("a configuration is an object")
    words = field(config, "process.args", list, [])
    own, others = read_namespace(config)
    word = os.path.basename(str(words[0])) if words else ""
    return Description(read_limit(config), own, word, (*name_left_out(config), *others))
