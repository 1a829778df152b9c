"""What a node has: from counts, or from what `lstopo --of xml` prints of a machine (hwloc 1 and 2)."""
import os
import xml.etree.ElementTree as xml
from collections import Counter, namedtuple

from fluxtools.command import Fault, read_bytes

# A node: its name, or None; the cores and the gpus of each socket, and of no socket; bytes of memory.
Machine = namedtuple("Machine", "name cores gpus sockets memory")

SOCKETS = ("Package", "Socket")
COMPUTES = ("CUDA", "LevelZero", "NVML", "OpenCL", "RSMI")
COMPUTE_CLASSES = ("0302", "0380")  # PCI: a 3D controller, a display controller that is no VGA adapter
NO_SOCKET = None


def read_machine(path):
    """The machine of an XML file of lstopo."""
    try:
        top = xml.fromstring(read_bytes(path))
    except xml.ParseError as error:
        line, column = error.position
        raise Fault(f"{path}:{line}:{column + 1}", "is no XML") from None
    machine = top.find("object") if top.tag == "topology" else None
    if machine is None or machine.get("type") not in ("Machine", "System"):
        raise Fault(path, "has no machine; it should be what `lstopo --of xml` prints")
    sockets, cores = under_sockets(machine, lambda own: own.get("type") == "Core")
    if not cores:
        sockets, cores = under_sockets(machine, lambda own: own.get("type") == "PU")
    if not cores:
        raise Fault(path, "has no core")
    _, gpus = under_sockets(machine, is_gpu)
    return Machine(host_name(machine, path), Counter(cores), gpus_of(machine, gpus), sockets, memory_of(machine, path))


def objects_below(own):
    """An object and all in it, in the order of the file, which is hwloc's logical order."""
    yield own
    for inner in own.findall("object"):
        yield from objects_below(inner)


def under_sockets(machine, wanted):
    """How many sockets there are, and for each object that is wanted its socket; nothing in such a one is looked at."""
    sockets, found = 0, []

    def walk(own, socket):
        """Looks at an object that stands in this socket."""
        nonlocal sockets
        if wanted(own):
            found.append(socket)
            return
        if own.get("type") in SOCKETS and socket is NO_SOCKET:
            socket = sockets
            sockets += 1
        for inner in own.findall("object"):
            walk(inner, socket)

    walk(machine, NO_SOCKET)
    return sockets, found


def told(own, name):
    """What an object says of itself under this name."""
    return next((info.get("value") for info in own.findall("info") if info.get("name") == name), None)


def computes(own):
    """By which of the ways to compute the operating system's device is known; None where by none."""
    if own.get("type") != "OSDev" or told(own, "OpenCLDeviceType") == "CPU":
        return None
    names = (own.get("subtype"), told(own, "Backend"), told(own, "CoProcType"))
    return next((name for name in names if name in COMPUTES), None)


def is_gpu(own):
    """Whether this is a PCI device that computes; one with several of the system's devices counts once."""
    if own.get("type") != "PCIDev":
        return False
    return own.get("pci_type", "")[:4] in COMPUTE_CLASSES or any(computes(inner) for inner in objects_below(own))


def gpus_of(machine, on_pci):
    """The gpus of each socket. Without PCI devices the way to compute that knows most of them counts."""
    if on_pci:
        return Counter(on_pci)
    ways = Counter(filter(None, map(computes, objects_below(machine))))
    return Counter({NO_SOCKET: max(ways.values())} if ways else {})


def host_name(machine, path):
    """The machine's own name, else that of its file, else node0."""
    of_file = "node0" if path == "-" else os.path.splitext(os.path.basename(path))[0]
    return told(machine, "HostName") or of_file


def memory_of(machine, path):
    """Bytes of memory, but for that of gpus."""
    sizes = [own.get("local_memory", "0") for own in objects_below(machine) if own.get("subtype") != "GPUMemory"]
    if not all(size.isdecimal() for size in sizes):
        raise Fault(path, "has a local_memory that is no number of bytes")
    return sum(map(int, sizes))


def counted_machine(sockets, cores, gpus):
    """A machine of counts: cores and gpus are dealt to the sockets evenly, and the first ones get what is left over."""
    return Machine(None, dealt(cores, sockets), dealt(gpus, sockets), sockets, 0)


def dealt(count, sockets):
    """How many of a count each socket gets; all belong to none where there are no sockets."""
    if not sockets:
        return Counter({NO_SOCKET: count})
    return Counter({socket: count // sockets + (socket < count % sockets) for socket in range(sockets)})
