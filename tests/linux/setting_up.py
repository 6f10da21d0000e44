"""What Linux accepts and refuses when a socket is set up, and with which errno."""

import os
import socket
import struct

from cases import case
from linux import (COMPLETION_RING, COPY, FILL_RING, MMAP_OFFSETS, OPTIONS, RX_RING, SHARED_UMEM, SOL_XDP, TX_RING, USE_NEED_WAKEUP, USE_SG,
                   ZEROCOPY, Ring, Umem, Xsk, answers, attach, bare, bind, errno_of, ring_of, veth)

PAGE = "SOCKETS.md"


def registered(umem, *rings):
    """A socket with a UMEM and rings of 16 entries, not bound."""
    xsk = bare()
    umem.register(xsk)
    for kind in rings:
        ring_of(xsk, kind, 16)
    return xsk


def with_rings(*rings):
    """A socket without a UMEM, with rings of 16 entries."""
    xsk = bare()
    for kind in rings:
        ring_of(xsk, kind, 16)
    return xsk


@case(PAGE, "chunks are powers of two from 2,048 to the page size")
def chunks():
    """Chunks."""
    umem = Umem(16, 4096)
    for chunk, wanted in ((1024, "EINVAL"), (2048, "ok"), (3000, "EINVAL"), (4096, "ok"), (os.sysconf("SC_PAGESIZE") * 2, "EINVAL")):
        yield f"a chunk of {chunk}", errno_of(lambda chunk=chunk: umem.register(bare(), chunk=chunk)), wanted


@case(PAGE, "the size of a UMEM is a multiple of the chunk and not 0, and it begins on a page")
def sizes():
    """Sizes."""
    umem = Umem(16, 2048)
    for length, wanted in ((0, "EINVAL"), (2048, "ok"), (6144, "ok"), (6145, "EINVAL")):
        yield f"{length} bytes", errno_of(lambda length=length: umem.register(bare(), length=length)), wanted
    yield "8,192 chunks", errno_of(Umem(8192, 2048).register, bare()), "ok"
    yield "an address within a page", errno_of(lambda: umem.register(bare(), address=umem.address + 2048, length=2048)), "EINVAL"


@case(PAGE, "the largest headroom is the chunk less 704 bytes")
def headroom():
    """Headroom."""
    umem = Umem(16, 2048)
    for room, wanted in ((2048 - 704, "ok"), (2048 - 703, "EINVAL"), (2048 - 257, "EINVAL"), (2048, "EINVAL")):
        yield f"a headroom of {room}", errno_of(lambda room=room: umem.register(bare(), headroom=room)), wanted


@case(PAGE, "a second UMEM is refused")
def second_umem():
    """UMEM twice."""
    umem = Umem()
    yield "registering again", errno_of(umem.register, registered(umem)), "EBUSY"


@case(PAGE, "rings have a power of two of entries, from 1 on, and come once of a kind, before bind()")
def rings():
    """Rings."""
    for size, wanted in ((0, "EINVAL"), (1, "ok"), (2, "ok"), (3, "EINVAL"), (4096, "ok"), (65536, "ok")):
        yield f"{size} entries", errno_of(ring_of, bare(), RX_RING, size), wanted
    for kind in (RX_RING, TX_RING, FILL_RING, COMPLETION_RING):
        yield f"ring {kind} again", errno_of(ring_of, with_rings(kind), kind, 16), "EINVAL"
    veth()
    xsk = registered(Umem(), FILL_RING, COMPLETION_RING, RX_RING)
    bind(xsk)
    yield "a ring after bind()", errno_of(ring_of, xsk, TX_RING, 16), "EBUSY"


@case(PAGE, "a ring is mapped at the offsets of XDP_MMAP_OFFSETS, once it is there")
def mapping():
    """mmap."""
    xsk = bare()
    yield "the size of the offsets", len(xsk.getsockopt(SOL_XDP, MMAP_OFFSETS, 256)), 128
    yield "mapping no ring", errno_of(Ring, xsk, RX_RING, 16), "EINVAL"
    ring_of(xsk, RX_RING, 16)
    yield "mapping a ring", errno_of(Ring, xsk, RX_RING, 16), "ok"


@case(PAGE, "a first bind and its refusals")
def binds():
    """bind() without XDP_SHARED_UMEM."""
    veth()
    umem, full = Umem(), (FILL_RING, COMPLETION_RING, RX_RING, TX_RING)
    first = registered(umem, *full)
    yield "FILL, COMPLETION, RX and TX", errno_of(bind, first), "ok"
    yield "again", errno_of(bind, first), "EBUSY"
    yield "another UMEM on the same queue", errno_of(bind, registered(Umem(), *full)), "EBUSY"
    veth()
    for what, xsk, options, wanted in (
            ("RX alone", registered(umem, *full[:3]), {}, "ok"),
            ("neither RX nor TX", registered(umem, *full[:2]), {}, "EINVAL"),
            ("no FILL", registered(umem, *full[1:]), {}, "EINVAL"),
            ("no COMPLETION", registered(umem, FILL_RING, *full[2:]), {}, "EINVAL"),
            ("no UMEM", with_rings(*full), {}, "EINVAL"),
            ("no such port", registered(umem, *full), {"port": 4711}, "ENODEV"),
            ("no such queue", registered(umem, *full), {"queue": 1}, "EINVAL"),
            ("an unknown flag", registered(umem, *full), {"flags": 32}, "EINVAL"),
            ("both modes", registered(umem, *full), {"flags": COPY | ZEROCOPY}, "EINVAL"),
            ("zero copy on veth", registered(umem, *full), {"flags": ZEROCOPY}, "EOPNOTSUPP")):
        yield what, errno_of(lambda xsk=xsk, options=options: bind(xsk, **options)), wanted
        xsk.close()
        if wanted == "ok":
            veth()


@case(PAGE, "all flags of bind() are accepted in copy mode, and a port may be down")
def flags():
    """Flags, and a port that is down."""
    for value in (0, COPY, USE_NEED_WAKEUP, COPY | USE_NEED_WAKEUP, COPY | USE_SG, COPY | USE_NEED_WAKEUP | USE_SG):
        veth(up=False)
        xsk = Xsk(Umem(), value)
        yield f"flags {value}", struct.unpack("<I", xsk.socket.getsockopt(SOL_XDP, OPTIONS, 4))[0] & 1, 0
        yield "sending on a port that is down", xsk.sendto(), "ENETDOWN"


@case(PAGE, "XDP_SHARED_UMEM wants a bound socket and no other flag")
def shared_flags():
    """bind() with XDP_SHARED_UMEM: flags and the other socket."""
    veth(queues=2)
    first = Xsk(Umem())
    other = {"shared": first.fileno()}
    for what, options, wanted in (
            ("no other flag", {"flags": SHARED_UMEM, **other}, "ok"),
            ("XDP_COPY", {"flags": SHARED_UMEM | COPY, **other}, "EINVAL"),
            ("XDP_ZEROCOPY", {"flags": SHARED_UMEM | ZEROCOPY, **other}, "EINVAL"),
            ("XDP_USE_NEED_WAKEUP", {"flags": SHARED_UMEM | USE_NEED_WAKEUP, **other}, "EINVAL"),
            ("XDP_USE_SG", {"flags": SHARED_UMEM | USE_SG, **other}, "EINVAL"),
            ("a descriptor that isn't open", {"flags": SHARED_UMEM, "shared": 999}, "ENOTSOCK"),
            ("a file", {"flags": SHARED_UMEM, "shared": os.open("/", os.O_RDONLY)}, "ENOTSOCK"),
            ("another kind of socket", {"flags": SHARED_UMEM, "shared": socket.socket().detach()}, "ENOPROTOOPT"),
            ("a socket that isn't bound", {"flags": SHARED_UMEM, "shared": bare().detach()}, "EBADF"),
            ("one that has a UMEM and isn't bound", {"flags": SHARED_UMEM, "shared": registered(Umem(), RX_RING).detach()}, "EBADF"),
            ("the other's descriptor without the flag", {"flags": COPY, **other}, "EINVAL")):
        xsk = with_rings(RX_RING, TX_RING)
        yield what, errno_of(lambda xsk=xsk, options=options: bind(xsk, **options)), wanted
        xsk.close()
    own = registered(Umem(), RX_RING, TX_RING)
    yield "with a UMEM of its own", errno_of(bind, own, SHARED_UMEM, "v0", 0, first.fileno()), "EINVAL"


@case(PAGE, "sockets of a queue share FILL and COMPLETION, and the socket to share with is one of that queue")
def shared_pairs():
    """bind() with XDP_SHARED_UMEM: whose pair."""
    veth(queues=2)
    first = Xsk(Umem())
    full, few = (FILL_RING, COMPLETION_RING, RX_RING, TX_RING), (RX_RING, TX_RING)
    second = with_rings(*full)
    for what, xsk, queue, other, wanted in (
            ("the same queue, with a pair", with_rings(*full), 0, first, "EINVAL"),
            ("the same queue, with FILL", with_rings(FILL_RING, *few), 0, first, "EINVAL"),
            ("the same queue, without", with_rings(*few), 0, first, "ok"),
            ("another queue, without", with_rings(*few), 1, first, "EINVAL"),
            ("another queue, with FILL alone", with_rings(FILL_RING, *few), 1, first, "EINVAL"),
            ("another queue, with a pair", second, 1, first, "ok"),
            ("that queue again, sharing with the first", with_rings(*few), 1, first, "EINVAL"),
            ("with a pair, sharing with the first", with_rings(*full), 1, first, "EBUSY"),
            ("without, sharing with the socket there", with_rings(*few), 1, second, "ok")):
        yield what, errno_of(bind, xsk, SHARED_UMEM, "v0", queue, other.fileno()), wanted
        setattr(first, f"kept_{what}", xsk)


@case("KERNEL.md", "without `xdp.frags` a program can't be attached where packets may be longer than a page")
def frags():
    """XDP_USE_SG and the program."""
    veth(mtu=9000)
    yield "without xdp.frags", errno_of(attach, answers(2)), "ERANGE"
    yield "with xdp.frags", errno_of(attach, answers(2, frags=True)), "ok"
