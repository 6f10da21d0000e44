"""AF_XDP sockets, rings, XDP programs and veth ports of Linux, through system calls alone: no library stands in between."""

import ctypes
import errno
import mmap
import os
import socket
import struct
import subprocess
import time

AF_XDP, SOL_XDP = 44, 283
MMAP_OFFSETS, RX_RING, TX_RING, UMEM_REG, FILL_RING, COMPLETION_RING, STATISTICS, OPTIONS, MAX_TX_BUDGET = range(1, 10)
SHARED_UMEM, COPY, ZEROCOPY, USE_NEED_WAKEUP, USE_SG = 1, 2, 4, 8, 16
CONTD, TX_METADATA = 1, 2
PAGE_OFFSETS = {RX_RING: 0, TX_RING: 0x80000000, FILL_RING: 0x100000000, COMPLETION_RING: 0x180000000}
XDP_ABORTED, XDP_DROP, XDP_PASS, XDP_TX, XDP_REDIRECT = range(5)
ETHERTYPE = 0x88B5  # for local experiments
CLONE_NEWNET = 0x40000000
SYS_BPF = {"x86_64": 321, "aarch64": 280}.get(os.uname().machine)

libc = ctypes.CDLL(None, use_errno=True)


def checked(result):
    """The result of a call of libc, or its errno as an OSError."""
    if result < 0:
        number = ctypes.get_errno()
        raise OSError(number, os.strerror(number))
    return result


def errno_of(call, *arguments):
    """The name of the errno with which a call fails, or "ok"."""
    try:
        call(*arguments)
    except OSError as error:
        return "EOPNOTSUPP" if error.errno == errno.EOPNOTSUPP else errno.errorcode.get(error.errno, str(error.errno))
    return "ok"


def own_namespace():
    """Moves this process into a network namespace of its own, which goes with it; IPv6 is off there, so nothing sends by itself."""
    checked(libc.unshare(CLONE_NEWNET))
    for which in ("all", "default"):
        path = f"/proc/sys/net/ipv6/conf/{which}/disable_ipv6"
        if os.path.exists(path):
            with open(path, "w", encoding="ascii") as setting:
                setting.write("1")


def ip(*words):
    """Runs the command `ip`."""
    subprocess.run(["ip", *words], check=True, stdout=subprocess.DEVNULL)


def veth(near="v0", far="t0", mtu=1500, queues=1, up=True):
    """Makes two ports that are joined by a wire, anew where there are such."""
    if any(name == near for _, name in socket.if_nameindex()):
        ip("link", "delete", near)
    counts = ["numrxqueues", str(queues), "numtxqueues", str(queues)]
    ip("link", "add", near, "mtu", str(mtu), *counts, "type", "veth", "peer", "name", far, "mtu", str(mtu), *counts)
    for port in (near, far) if up else ():
        ip("link", "set", port, "up")


def eventually(read, wanted, seconds=1.0):
    """Reads again until what is wanted is there, and gives what was read last."""
    end = time.monotonic() + seconds
    while True:
        got = read()
        if got == wanted or time.monotonic() > end:
            return got
        time.sleep(0.005)


class Wire:
    """The far end of a wire: packets are sent into the port, and those that come out of it are seen."""

    def __init__(self, port="t0"):
        self.socket = socket.socket(socket.AF_PACKET, socket.SOCK_RAW, socket.htons(ETHERTYPE))
        self.socket.bind((port, ETHERTYPE))
        self.socket.setblocking(False)
        self.came = []

    def send(self, *packets):
        """Sends packets, one behind the other, and waits until they are through."""
        for packet in packets:
            self.socket.send(packet)
            time.sleep(0.002)

    def seen(self):
        """The packets that came so far."""
        while True:
            try:
                packet, address = self.socket.recvfrom(1 << 17)
            except BlockingIOError:
                return self.came
            if address[2] != socket.PACKET_OUTGOING:
                self.came.append(packet)

    def count(self, wanted, seconds=1.0):
        """How many came, once these are there or the time is over."""
        return eventually(lambda: len(self.seen()), wanted, seconds)

    def quiet(self, seconds=0.1):
        """How many came in this time and before."""
        time.sleep(seconds)
        return len(self.seen())


def packet(length, mark=0):
    """An Ethernet packet of this length, marked by a byte behind its header."""
    header = bytes([2, 0, 0, 0, 0, 2, 2, 0, 0, 0, 0, 1]) + struct.pack(">H", ETHERTYPE)
    return (header + bytes([mark]) * max(0, length - 14))[:length]


# ------------------------------------------------------------------------------------------------------------------------ programs


def bpf(command, attributes):
    """The system call bpf()."""
    block = ctypes.create_string_buffer(attributes, max(len(attributes), 128))
    return checked(libc.syscall(SYS_BPF, command, ctypes.byref(block), len(block)))


class Map:
    """An XSKMAP: cells by number, each empty or a socket's."""

    def __init__(self, cells=4):
        self.descriptor = bpf(0, struct.pack("<IIII", 17, 4, 4, cells))

    def put(self, cell, xsk):
        """Puts a socket into a cell."""
        key, value = ctypes.c_uint32(cell), ctypes.c_uint32(xsk.fileno())
        bpf(2, struct.pack("<IIQQQ", self.descriptor, 0, ctypes.addressof(key), ctypes.addressof(value), 0))

    def clear(self, cell):
        """Empties a cell."""
        key = ctypes.c_uint32(cell)
        bpf(3, struct.pack("<IIQ", self.descriptor, 0, ctypes.addressof(key)))


def program(instructions, frags=False):
    """Loads an XDP program, and gives its descriptor."""
    code = ctypes.create_string_buffer(b"".join(struct.pack("<BBhi", op, regs, off, imm) for op, regs, off, imm in instructions))
    license_text = ctypes.create_string_buffer(b"GPL")
    flags = 1 << 5 if frags else 0
    return bpf(5, struct.pack("<IIQQIIQII16sII", 6, len(instructions), ctypes.addressof(code), ctypes.addressof(license_text),
                              0, 0, 0, 0, flags, b"xsk_real", 0, 37))


def answers(action, frags=False):
    """A program that answers each packet so."""
    return program([(0xB7, 0, 0, action), (0x95, 0, 0, 0)], frags)


def redirects(xsks, cell=None, otherwise=XDP_DROP, frags=False):
    """A program that redirects to a cell, or to that of the packet's queue; `otherwise` where there is no socket."""
    load = (0x61, 0x12, 16, 0) if cell is None else (0xB7, 2, 0, cell)  # r2 = ctx->rx_queue_index, or the cell
    return program([load, (0x18, 0x11, 0, xsks.descriptor), (0, 0, 0, 0), (0xB7, 3, 0, otherwise), (0x85, 0, 0, 51), (0x95, 0, 0, 0)],
                   frags)


def attach(descriptor, port="v0"):
    """Attaches a program to a port in its driver, until the descriptor that is given back is closed."""
    return bpf(28, struct.pack("<IIII", descriptor, socket.if_nametoindex(port), 37, 1 << 2))


# ------------------------------------------------------------------------------------------------------------------------- sockets


class Ring:
    """A ring of a socket, mapped. Entries are (address, length, options); on FILL and COMPLETION the address alone."""

    def __init__(self, xsk, kind, size):
        offsets = struct.unpack("<16Q", xsk.getsockopt(SOL_XDP, MMAP_OFFSETS, 128))
        place = {RX_RING: 0, TX_RING: 4, FILL_RING: 8, COMPLETION_RING: 12}[kind]
        self.producer_at, self.consumer_at, self.entries_at, self.flags_at = offsets[place:place + 4]
        self.form = "<QII" if kind in (RX_RING, TX_RING) else "<Q"
        self.entry, self.size = struct.calcsize(self.form), size
        self.memory = mmap.mmap(xsk.fileno(), self.entries_at + size * self.entry, mmap.MAP_SHARED | mmap.MAP_POPULATE,
                                mmap.PROT_READ | mmap.PROT_WRITE, offset=PAGE_OFFSETS[kind])

    def _get(self, at):
        return struct.unpack_from("<I", self.memory, at)[0]

    def _place(self, number):
        return self.entries_at + number % self.size * self.entry

    producer = property(lambda self: self._get(self.producer_at))
    consumer = property(lambda self: self._get(self.consumer_at))
    flag = property(lambda self: self._get(self.flags_at) & 1)
    waiting = property(lambda self: (self.producer - self.consumer) & 0xFFFFFFFF)

    def put(self, *entries):
        """Puts entries into the ring, and shows them to the kernel at once."""
        producer = self.producer
        assert self.waiting + len(entries) <= self.size, "the ring has no room"
        for number, entry in enumerate(entries):
            struct.pack_into(self.form, self.memory, self._place(producer + number), *(entry if isinstance(entry, tuple) else (entry,)))
        struct.pack_into("<I", self.memory, self.producer_at, (producer + len(entries)) & 0xFFFFFFFF)

    def take(self, wanted=0, seconds=0.5):
        """All entries that stand in the ring, once so many are there or the time is over."""
        eventually(lambda: self.waiting >= wanted, True, seconds)
        producer, consumer = self.producer, self.consumer
        numbers = range(consumer, consumer + ((producer - consumer) & 0xFFFFFFFF))
        found = [struct.unpack_from(self.form, self.memory, self._place(number)) for number in numbers]
        struct.pack_into("<I", self.memory, self.consumer_at, producer)
        return [entry if len(entry) > 1 else entry[0] for entry in found]

    def close(self):
        """Unmaps the ring."""
        self.memory.close()


class Umem:
    """Memory for frames. It is registered by a socket."""

    def __init__(self, frames=16, chunk=2048, headroom=0):
        self.chunk, self.headroom, self.length = chunk, headroom, frames * chunk
        self.memory = mmap.mmap(-1, max(self.length, mmap.PAGESIZE))
        self.address = ctypes.addressof(ctypes.c_char.from_buffer(self.memory))

    def register(self, xsk, **other):
        """Registers it with a socket, with some values changed: address, length, chunk, headroom, flags."""
        value = {"address": self.address, "length": self.length, "chunk": self.chunk, "headroom": self.headroom, "flags": 0, **other}
        xsk.setsockopt(SOL_XDP, UMEM_REG, struct.pack("<QQIIII", *value.values(), 0))

    def write(self, address, content):
        """Writes into it."""
        self.memory[address:address + len(content)] = content

    def read(self, address, length):
        """Reads from it."""
        return self.memory[address:address + length]


class SockaddrXdp(ctypes.Structure):
    """struct sockaddr_xdp."""
    _fields_ = [("family", ctypes.c_uint16), ("flags", ctypes.c_uint16), ("ifindex", ctypes.c_uint32), ("queue", ctypes.c_uint32),
                ("shared", ctypes.c_uint32)]


def bare():
    """An AF_XDP socket without anything."""
    return socket.socket(AF_XDP, socket.SOCK_RAW, 0)


def ring_of(xsk, kind, size):
    """Gives a socket a ring."""
    xsk.setsockopt(SOL_XDP, kind, struct.pack("<I", size))


def bind(xsk, flags=COPY, port="v0", queue=0, shared=0):
    """Binds a socket to a port's queue."""
    ifindex = port if isinstance(port, int) else socket.if_nametoindex(port)
    address = SockaddrXdp(AF_XDP, flags, ifindex, queue, shared)
    checked(libc.bind(xsk.fileno(), ctypes.byref(address), ctypes.sizeof(address)))


class Xsk:
    """A socket over a UMEM, with its rings mapped and bound. A ring of size 0 isn't there; `shared` shares another's UMEM."""

    def __init__(self, umem, flags=COPY, port="v0", queue=0, rx=16, tx=16, fill=16, completion=16, shared=None):
        self.umem, self.socket, self.rings = umem, bare(), {}
        if shared is None:
            umem.register(self.socket)
        for kind, size in ((FILL_RING, fill), (COMPLETION_RING, completion), (RX_RING, rx), (TX_RING, tx)):
            if size:
                ring_of(self.socket, kind, size)
                self.rings[kind] = Ring(self.socket, kind, size)
        bind(self.socket, flags if shared is None else SHARED_UMEM, port, queue, shared.socket.fileno() if shared else 0)

    rx = property(lambda self: self.rings[RX_RING])
    tx = property(lambda self: self.rings[TX_RING])
    fill = property(lambda self: self.rings[FILL_RING])
    completion = property(lambda self: self.rings[COMPLETION_RING])

    def fileno(self):
        """Its descriptor."""
        return self.socket.fileno()

    def sendto(self, flags=socket.MSG_DONTWAIT):
        """sendto() without data: "ok" or the name of its errno."""
        return errno_of(lambda: checked(libc.sendto(self.fileno(), None, 0, flags, None, 0)))

    def recvfrom(self, flags=socket.MSG_DONTWAIT):
        """recvfrom() without data: "ok" or the name of its errno."""
        return errno_of(lambda: checked(libc.recvfrom(self.fileno(), None, 0, flags, None, None)))

    def statistics(self):
        """The statistics, by their names in if_xdp.h."""
        names = ("rx_dropped", "rx_invalid_descs", "tx_invalid_descs", "rx_ring_full", "rx_fill_ring_empty_descs", "tx_ring_empty_descs")
        return dict(zip(names, struct.unpack("<6Q", self.socket.getsockopt(SOL_XDP, STATISTICS, 48))))

    def raised(self):
        """The statistics that aren't 0; how often TX was found empty is left out."""
        return {name: count for name, count in self.statistics().items() if count and name != "tx_ring_empty_descs"}

    def send_all(self, most=100):
        """Calls sendto() until TX is empty or a call changes nothing: the number of calls."""
        for calls in range(1, most + 1):
            before = self.tx.consumer
            self.sendto()
            if not self.tx.waiting or self.tx.consumer == before:
                return calls
        return most


def receiver(frames=16, chunk=2048, headroom=0, mtu=1500, otherwise=XDP_DROP, frags=False, fill=None, **socket_options):
    """A socket on v0 to which all packets of the wire go, some addresses on FILL, and the wire."""
    veth(mtu=mtu)
    xsk = Xsk(Umem(frames, chunk, headroom), **socket_options)
    xsks = Map()
    xsks.put(0, xsk)
    xsk.map, xsk.link = xsks, attach(redirects(xsks, 0, otherwise, frags))
    xsk.fill.put(*(range(0, 8 * chunk, chunk) if fill is None else fill))
    return xsk, Wire()


def sender(frames=64, chunk=2048, mtu=1500, **socket_options):
    """A socket on v0 from which packets are sent, and the wire."""
    veth(mtu=mtu)
    return Xsk(Umem(frames, chunk), **{"rx": 0, **socket_options}), Wire()
