"""What libxdp makes and takes away (libxdp.so.1), and what the program does that it loads."""

import ctypes
import errno
import mmap
import os
import subprocess

from cases import case
from linux import AF_XDP, COPY, Umem, Wire, Xsk, errno_of, eventually, libc, packet, veth

INHIBIT_PROGRAM = 1
CLONE_NEWNS = 0x20000


class Ring(ctypes.Structure):
    """struct xsk_ring_prod, struct xsk_ring_cons."""
    _fields_ = [(name, ctypes.c_uint32) for name in ("cached_prod", "cached_cons", "mask", "size")] + [
        (name, ctypes.POINTER(ctypes.c_uint32)) for name in ("producer", "consumer")] + [
            ("ring", ctypes.POINTER(ctypes.c_uint64)), ("flags", ctypes.POINTER(ctypes.c_uint32))]


class UmemConfig(ctypes.Structure):
    """struct xsk_umem_config."""
    _fields_ = [(name, ctypes.c_uint32) for name in ("fill_size", "comp_size", "frame_size", "frame_headroom", "flags")]


class SocketConfig(ctypes.Structure):
    """struct xsk_socket_config."""
    _fields_ = [(name, ctypes.c_uint32) for name in ("rx_size", "tx_size", "libxdp_flags", "xdp_flags")] + [("bind_flags", ctypes.c_uint16)]


class Library:
    """A UMEM of 16 frames and sockets, made by libxdp."""

    def __init__(self):
        self.calls = ctypes.CDLL("libxdp.so.1", use_errno=True)
        self.memory = mmap.mmap(-1, 16 * 2048)
        self.rings = {name: Ring() for name in ("fill", "completion", "rx", "tx")}
        self.umem, self.socket = ctypes.c_void_p(), ctypes.c_void_p()

    def by_reference(self, *names):
        """These rings, as arguments."""
        return [ctypes.byref(self.rings[name]) for name in names]

    def make_umem(self):
        """xsk_umem__create: 0, or less."""
        area = ctypes.c_void_p(ctypes.addressof(ctypes.c_char.from_buffer(self.memory)))
        config = UmemConfig(16, 16, 2048, 0, 0)
        rings = self.by_reference("fill", "completion")
        return self.calls.xsk_umem__create(ctypes.byref(self.umem), area, ctypes.c_uint64(16 * 2048), *rings, ctypes.byref(config))

    def make_socket(self, flags=INHIBIT_PROGRAM):
        """xsk_socket__create on queue 0 of v0: 0, or less."""
        config = SocketConfig(16, 16, flags, 0, COPY)
        return self.calls.xsk_socket__create(ctypes.byref(self.socket), b"v0", 0, self.umem, *self.by_reference("rx", "tx"),
                                             ctypes.byref(config))


def xdp_sockets():
    """The descriptors of this process that are AF_XDP sockets."""
    family, size, found = ctypes.c_int(), ctypes.c_uint32(4), []
    for name in os.listdir("/proc/self/fd"):
        if libc.getsockopt(int(name), 1, 39, ctypes.byref(family), ctypes.byref(size)) == 0 and family.value == AF_XDP:
            found.append(int(name))
    return found


def missing():
    """Whether there is no libxdp here."""
    try:
        ctypes.CDLL("libxdp.so.1")
    except OSError:
        return True
    return False


@case("SOCKETS.md", "xsk_umem__create makes the socket, FILL and COMPLETION, and the first xsk_socket__create no further socket")
def made_by_libxdp():
    """What each call makes."""
    if missing():
        return
    veth()
    library = Library()
    yield "xsk_umem__create", library.make_umem(), 0
    sockets = xdp_sockets()
    sizes = [library.rings[name].size for name in ("fill", "completion", "rx", "tx")]
    yield "sockets, sizes of rings", (len(sockets), sizes), (1, [16, 16, 0, 0])
    yield "xsk_socket__create", library.make_socket(), 0
    sizes = [library.rings[name].size for name in ("fill", "completion", "rx", "tx")]
    yield "the same socket, sizes of rings", (xdp_sockets() == sockets, sizes), (True, [16, 16, 16, 16])


@case("CLOSING.md", "deleting the first socket of a UMEM leaves its descriptor and its queue in use until the UMEM is deleted")
def deleted_by_libxdp():
    """xsk_socket__delete and xsk_umem__delete."""
    if missing():
        return
    veth()
    library = Library()
    library.make_umem()
    library.make_socket()
    library.calls.xsk_socket__delete(library.socket)
    yield "sockets behind xsk_socket__delete", len(xdp_sockets()), 1
    yield "another one on the queue", errno_of(Xsk, Umem()), "EBUSY"
    yield "xsk_umem__delete", library.calls.xsk_umem__delete(library.umem), 0
    yield "sockets", len(xdp_sockets()), 0
    yield "another one on the queue then", eventually(lambda: errno_of(Xsk, Umem()), "ok"), "ok"


@case("SOCKETS.md", "libxdp shares with the UMEM's first socket: a second socket of another queue is refused")
def shared_by_libxdp():
    """xsk_socket__create_shared twice on the queue of the first socket, and twice on another."""
    if missing():
        return
    veth(queues=2)
    library = Library()
    library.make_umem()
    library.make_socket()
    config = SocketConfig(16, 16, INHIBIT_PROGRAM, 0, COPY)
    fill, completion = Ring(), Ring()
    for what, queue, wanted in (("the first one's queue, again", 0, 0), ("another queue", 1, 0), ("that queue again", 1, -errno.EINVAL)):
        rings = (ctypes.byref(Ring()), ctypes.byref(Ring()), ctypes.byref(fill), ctypes.byref(completion))
        yield what, library.calls.xsk_socket__create_shared(ctypes.byref(ctypes.c_void_p()), b"v0", queue, library.umem, *rings,
                                                            ctypes.byref(config)), wanted


@case("KERNEL.md", "libxdp's own program passes what finds no socket to the stack")
def program_of_libxdp():
    """The program that xsk_socket__create loads."""
    if missing():
        return
    os.dup2(os.open(os.devnull, os.O_WRONLY), 2)  # libbpf tells there what it tries
    libc.unshare(CLONE_NEWNS)
    subprocess.run(["mount", "--make-rprivate", "/"], check=True)
    subprocess.run(["mount", "-t", "bpf", "bpf", "/sys/fs/bpf"], check=True)
    veth(queues=2)
    library = Library()
    library.make_umem()
    yield "xsk_socket__create", library.make_socket(0), 0
    stack, wire = Wire("v0"), Wire()
    library.rings["fill"].ring[0] = 0
    library.rings["fill"].producer[0] = 1
    wire.send(packet(60))
    yield "on RX, to the stack", (eventually(lambda: library.rings["rx"].producer[0], 1), stack.quiet()), (1, 0)
    library.calls.xsk_socket__delete(library.socket)
    wire.send(packet(60))
    yield "to the stack behind xsk_socket__delete", stack.count(1), 1
