"""How a socket goes: its cell, its descriptor, its rings, its queue."""

from cases import case
from linux import COMPLETION_RING, FILL_RING, TX_RING, XDP_PASS, Umem, Wire, Xsk, errno_of, eventually, packet, receiver

PAGE = "CLOSING.md"


@case(PAGE, "a cell that is cleared brings no further packet; what stands on RX stays")
def cleared_cell():
    """bpf_map_delete_elem."""
    xsk, wire = receiver(otherwise=XDP_PASS)
    stack = Wire("v0")
    wire.send(packet(60))
    xsk.map.clear(0)
    wire.send(packet(60))
    yield "on RX, to the stack", (xsk.rx.waiting, stack.count(1)), (1, 1)
    yield "clearing it again", errno_of(xsk.map.clear, 0), "ok"


@case(PAGE, "close() alone takes nothing away while a ring is mapped: packets come, and the queue is in use")
def close_with_rings():
    """close() with rings mapped, and then without."""
    xsk, wire = receiver(otherwise=XDP_PASS)
    stack = Wire("v0")
    wire.send(packet(60))
    xsk.socket.close()
    wire.send(packet(60))
    yield "on RX", eventually(lambda: xsk.rx.waiting, 2), 2
    yield "another socket on the queue", errno_of(Xsk, Umem()), "EBUSY"
    for kind in (FILL_RING, COMPLETION_RING, TX_RING):
        xsk.rings[kind].close()
    wire.send(packet(60))
    yield "on RX, with RX alone mapped; to the stack", (eventually(lambda: xsk.rx.waiting, 3), stack.quiet()), (3, 0)
    xsk.rx.close()
    wire.send(packet(60))
    yield "to the stack, once the last ring is unmapped", stack.count(1), 1
    yield "another socket on the queue then", eventually(lambda: errno_of(Xsk, Umem()), "ok"), "ok"


@case(PAGE, "a socket that shares the UMEM and the queue goes on when the first is gone")
def first_of_two():
    """The first socket of a queue goes."""
    xsk, wire = receiver()
    other = Xsk(xsk.umem, fill=0, completion=0, shared=xsk)
    fill = xsk.fill
    xsk.map.put(0, other)
    xsk.rx.close()
    xsk.tx.close()
    xsk.socket.close()
    wire.send(packet(60))
    yield "on RX of the second, entries of FILL given back", (other.rx.take(1), fill.consumer), ([(256, 60, 0)], 1)
