"""The parameters of a machine, and machines as files: TOML or JSON with a value for some of the parameters.

A parameter's name is `section.key` or `key`; on a line of wsc-sim it is the option --section-key. Times are in
cycles, widths in operands a cycle, sizes of the cache in words of 64 bits.
"""

from __future__ import annotations

import json
import pathlib
from collections.abc import Iterable, Iterator, Mapping
from typing import Any, Union

from wavescalar.faults import Fault
from wavescalar.isa import KINDS

try:
    import tomllib
except ImportError:  # before Python 3.11, as in PyPy
    tomllib = None  # type: ignore[assignment]

Value = Union[int, bool, str]
Values = dict[str, Any]

MACHINES = pathlib.Path(__file__).resolve().parent / "machines"
POLICIES = ("turn", "block", "block-pod", "block-domain", "chain", "random", "file")
HOMES = ("first", "turn", "table")
THREADS = ("apart", "together")
OPERATIONS = list(KINDS)

# name: (value where nothing is said, least value or all values or None for true and false, unit, what it is)
PARAMETERS: dict[str, tuple[Value, Any, str, str]] = {
    "clusters": (1, 1, "", "clusters, on a mesh"),
    "columns": (0, 0, "", "columns of the mesh; 0: as near to a square as can be"),
    "domains": (4, 1, "", "domains in a cluster"),
    "pods": (4, 1, "", "pods in a domain"),
    "elements": (2, 1, "", "processing elements in a pod"),
    "waves": (4, 1, "", "waves in flight: an instance fires only below its thread's current wave plus this"),
    "network.element": (1, 1, "cycles", "from an element to itself"),
    "network.pod": (1, 1, "cycles", "to another element of the pod"),
    "network.domain": (5, 1, "cycles", "to another pod of the domain"),
    "network.cluster": (9, 1, "cycles", "to another domain of the cluster"),
    "network.between": (9, 1, "cycles", "to another cluster, and network.hop for each hop of the mesh"),
    "network.hop": (1, 0, "cycles", "a hop of the mesh"),
    "network.buffer": (5, 1, "cycles", "between an element and its cluster's store buffer"),
    "width.pod": (0, 0, "operands", "an element to the others of its pod, in a cycle; 0: any number, here and below"),
    "width.domain": (0, 0, "operands", "a pod to the other pods of its domain, in a cycle"),
    "width.cluster": (0, 0, "operands", "a domain to the other domains of its cluster, in a cycle"),
    "width.between": (0, 0, "operands", "a cluster to the next one on the mesh, in a cycle"),
    "width.buffer": (0, 0, "operands", "a domain to its cluster's store buffer, and as many back, in a cycle"),
    "operations.pipelined": (True, None, "", "an element begins an operation in each cycle, however long they take"),
    "operations.usual": (1, 1, "cycles", "an operation that has no time of its own"),
    **{f"operations.{name}": (0, 0, "cycles", f"{name}; 0: as usual") for name in OPERATIONS},
    "element.inputs": (0, 0, "", "operands that an element takes in a cycle; 0: any number"),
    "element.entries": (0, 0, "", "entries of an element's matching table; 0: any number"),
    "element.ways": (2, 1, "", "entries of a set of that table"),
    "element.miss": (16, 0, "cycles", "a token whose instance has no entry"),
    "element.instructions": (0, 0, "", "instructions that an element holds; 0: any number"),
    "element.swap": (32, 0, "cycles", "an instruction that the element doesn't hold"),
    "buffer.latency": (1, 0, "cycles", "a request in the store buffer before it may be issued"),
    "buffer.issues": (1, 0, "", "issues of a store buffer in a cycle; 0: any number"),
    "buffer.homes": ("first", HOMES, "", "wave W is ordered in its thread's first cluster (first), in cluster W modulo"
                     " the clusters on from it (turn), or where it asks first (table)"),
    "buffer.lookup": (2, 0, "cycles", "table: a lookup in the table of waves"),
    "buffer.handover": (1, 0, "cycles", "from the end of a wave to the next; to another cluster, the network adds its cycles"),
    "buffer.ripples": (True, None, "", "a load may be issued early, by its ripple number"),
    "buffer.queues": (0, 0, "", "partial store queues, for stores without their data; 0: stores wait for it"),
    "cache.sets": (64, 0, "", "sets of the data cache; 0: no cache, each access takes cache.hit"),
    "cache.ways": (4, 1, "", "lines of a set"),
    "cache.line": (16, 1, "words", "a line"),
    "cache.hit": (2, 0, "cycles", "a load of a line that is in the cache"),
    "cache.miss": (50, 0, "cycles", "a load of a line that isn't"),
    "cache.shared": (True, None, "", "one cache; else one in each cluster: a store takes the line from the others"),
    "placement.policy": ("chain", POLICIES, "", "which instruction lies on which element"),
    "placement.fill": (16, 1, "", "chain: instructions on an element before the next is taken"),
    "placement.threads": ("apart", THREADS, "", "threads begin at clusters as far apart as can be, or at the first"),
    "placement.seed": (0, 0, "", "random: its seed"),
    "placement.file": ("", "", "", "file: lines `INSTRUCTION ELEMENT`, by number or name"),
}


def checked(name: str, value: Any) -> Value:
    """A value of the parameter, as it is or read from a word."""
    if name not in PARAMETERS:
        raise Fault(f"there is no parameter {name}")
    usual, least, _, _ = PARAMETERS[name]
    if least is None:
        words = {"true": True, "false": False, True: True, False: False}
        if value not in words or value in (0, 1) and not isinstance(value, bool):
            raise Fault(f"{name} is true or false, and not {value}")
        return words[value]
    if isinstance(least, tuple):
        if value not in least:
            raise Fault(f"{name} is one of {', '.join(least)}, and not {value}")
        return str(value)
    if isinstance(usual, str):
        return str(value)
    if isinstance(value, bool) or not str(value).isdecimal() or int(value) < least:
        raise Fault(f"{name} is a whole number from {least} on, and not {value}")
    return int(value)


def flat(told: Mapping[str, Any], before: str = "") -> Iterator[tuple[str, Any]]:
    """Names and values of a nested table."""
    for key, value in told.items():
        if isinstance(value, dict):
            yield from flat(value, f"{before}{key}.")
        else:
            yield before + key, value


def ready() -> str:
    """The names of the machines that are there, for a line of text."""
    return ", ".join(sorted(file.stem for file in MACHINES.glob("*.toml")))


def file_of(name: str) -> pathlib.Path:
    """The file of a machine: a path, or the name of one in machines/."""
    path = pathlib.Path(name)
    if path.suffix in (".toml", ".json"):
        return path
    found = MACHINES / f"{name}.toml"
    if not found.exists():
        raise Fault(f"there is no machine {name}; ready are {ready()}")
    return found


def read(path: pathlib.Path) -> Mapping[str, Any]:
    """What a file of a machine says."""
    text = path.read_text()
    if path.suffix == ".json":
        told = json.loads(text)
    elif tomllib is None:
        told = lines_of(text)
    else:
        told = tomllib.loads(text)
    if not isinstance(told, dict):
        raise Fault(f"{path} is no table of parameters")
    return told


def lines_of(text: str) -> dict[str, Any]:
    """What machines/ have of TOML, where the library has no reader: sections, and keys with numbers, truth values
    and texts, a line each."""
    made: dict[str, Any] = {}
    here = made
    for line in text.splitlines():
        line = line.split("#")[0].strip()
        if line.startswith("["):
            here = made.setdefault(line.strip("[]"), {})
        elif line:
            key, _, value = line.partition("=")
            here[key.strip()] = json.loads(value)
    return made


def machine_of(name: str, more: Mapping[str, Any] | Iterable[tuple[str, Any]] = ()) -> Values:
    """All parameters of a machine by their names, with other values for some of them."""
    made: Values = {key: it[0] for key, it in PARAMETERS.items()}
    if name:
        path = file_of(name)
        try:
            told = read(path)
        except ValueError as fault:
            raise Fault(f"{path}: {fault}") from fault
        for key, value in flat(told):
            made[key] = checked(key, value)
        if made["placement.file"]:
            made["placement.file"] = str(path.parent / made["placement.file"])
    for key, value in dict(more).items():
        made[key] = checked(key, value)
    if made["element.entries"] % made["element.ways"]:
        raise Fault("element.entries is a multiple of element.ways")
    return made


def rows() -> Iterator[tuple[str, str, str]]:
    """The parameters as rows of a table: name, usual value, what it is. Single operations are one row."""
    for name, (value, _, unit, what) in PARAMETERS.items():
        if name == f"operations.{OPERATIONS[0]}":
            yield "operations.NAME", "0 cycles", f"operation NAME, such as {OPERATIONS[2]} or load; 0: as usual"
        elif name.partition(".")[2] not in OPERATIONS:
            many = unit[:-1] if value == 1 and unit else unit
            yield name, f"{str(value).lower() or 'none'} {many}".strip(), what


def table() -> str:
    """The rows as a table of a page."""
    made = ["| Parameter | Usual | What it is |", "|---|---|---|"]
    return "\n".join([*made, *(f"| `{name}` | {value} | {what} |" for name, value, what in rows())]) + "\n"


def option_of(name: str) -> str:
    """The option of wsc-sim for a parameter."""
    return "--" + name.replace(".", "-")
