"""What Linux does with a packet that comes: the program, the XSKMAP, FILL, RX and the statistics."""

import os
import select

from cases import case
from linux import (COPY, USE_NEED_WAKEUP, USE_SG, XDP_DROP, XDP_PASS, XDP_TX, Map, Umem, Wire, Xsk, answers, attach, packet,
                   receiver, redirects, veth)

PAGE = "KERNEL.md"


def to_the_stack(descriptor, far=None):
    """How many of three packets go on to the stack under a program, and how many come back."""
    veth()
    stack, wire = Wire("v0"), Wire()
    links = [attach(descriptor)] + ([attach(far, "t0")] if far else [])
    wire.send(packet(60), packet(60), packet(60))
    counts = stack.quiet(), wire.quiet(0)
    for link in links:
        os.close(link)
    return list(counts)


@case(PAGE, "XDP_PASS goes to the stack, XDP_DROP nowhere, XDP_TX back by its port")
def actions():
    """Programs without a map. The far end takes what XDP_TX sends only where it has a program too."""
    yield "XDP_PASS: to the stack, back", to_the_stack(answers(XDP_PASS)), (3, 0)
    yield "XDP_DROP: to the stack, back", to_the_stack(answers(XDP_DROP)), (0, 0)
    yield "XDP_TX: to the stack, back", to_the_stack(answers(XDP_TX), far=answers(XDP_PASS)), (0, 3)


@case(PAGE, "a redirect to an empty cell, or to one that the map hasn't got, is answered by the flags of the redirect")
def empty_cells():
    """Empty cells and missing ones."""
    for what, cell in (("an empty cell", 1), ("a missing one", 9)):
        yield f"{what}, XDP_DROP: to the stack, back", to_the_stack(redirects(Map(4), cell, XDP_DROP)), (0, 0)
        yield f"{what}, XDP_PASS: to the stack, back", to_the_stack(redirects(Map(4), cell, XDP_PASS)), (3, 0)


@case(PAGE, "a socket of another queue in the cell: the packet is dropped, whatever the flags")
def other_queue():
    """A cell with a socket of another queue."""
    veth(queues=2)
    xsk, xsks = Xsk(Umem(), queue=1), Map()
    xsks.put(0, xsk)
    link = attach(redirects(xsks, 0, XDP_PASS))
    xsk.fill.put(0, 2048)
    stack, wire = Wire("v0"), Wire()
    wire.send(packet(60), packet(60))
    yield "to the stack, to the socket, on RX", (stack.quiet(), xsk.rx.waiting, xsk.raised()), (0, 0, {})
    del link


@case(PAGE, "a packet lies behind the headroom and 256 bytes more, in the chunk that the address on FILL lies in")
def places():
    """Where data stands."""
    for headroom in (0, 100):
        xsk, wire = receiver(headroom=headroom, fill=(2048, 4096 + 2, 6144 + 952))
        wire.send(packet(60, 1), packet(61, 2), packet(62, 3))
        at = 256 + headroom
        yield f"headroom {headroom}", xsk.rx.take(3), [(2048 + at, 60, 0), (4096 + at, 61, 0), (6144 + at, 62, 0)]
        yield "its bytes", xsk.umem.read(2048 + at, 60) == packet(60, 1), True
        yield "statistics", xsk.raised(), {}


@case(PAGE, "an address on FILL behind the UMEM is passed over in the same look, and counted nowhere")
def bad_address_on_fill():
    """Bad addresses on FILL."""
    xsk, wire = receiver(fill=(262144, 1 << 40, 2048))
    wire.send(packet(60))
    yield "the next address is taken", xsk.rx.take(1), [(2048 + 256, 60, 0)]
    yield "entries taken", xsk.fill.consumer, 3
    yield "statistics", xsk.raised(), {}


@case(PAGE, "bad addresses alone on FILL: the packet finds no frame")
def only_bad_addresses_on_fill():
    """Bad addresses alone."""
    xsk, wire = receiver(fill=(262144,))
    wire.send(packet(60))
    yield "on RX", xsk.rx.take(), []
    yield "statistics", xsk.raised(), {"rx_dropped": 1, "rx_fill_ring_empty_descs": 1}


@case(PAGE, "a packet that finds FILL empty raises rx_dropped and rx_fill_ring_empty_descs, once each")
def empty_fill():
    """FILL empty."""
    xsk, wire = receiver(fill=(0,))
    wire.send(packet(60), packet(60), packet(60))
    yield "on RX", len(xsk.rx.take(1)), 1
    yield "statistics", xsk.raised(), {"rx_dropped": 2, "rx_fill_ring_empty_descs": 2}


@case(PAGE, "a packet that finds RX full raises rx_ring_full alone, and its frame serves a later one")
def full_rx():
    """RX full."""
    xsk, wire = receiver(rx=2, fill=(0, 2048, 4096))
    wire.send(*(packet(60) for _ in range(5)))
    yield "on RX", len(xsk.rx.take(2)), 2
    yield "statistics", xsk.raised(), {"rx_ring_full": 3}
    yield "entries of FILL given back", xsk.fill.consumer, 2
    wire.send(packet(60))
    yield "the next packet, entries given back", (xsk.rx.take(1), xsk.fill.consumer), ([(4096 + 256, 60, 0)], 3)


@case(PAGE, "a packet of several frames that finds RX full takes none from FILL")
def long_packet_and_full_rx():
    """A packet of three frames, and an RX of two entries."""
    xsk, wire = receiver(frames=16, chunk=4096, mtu=9000, rx=2, flags=COPY | USE_SG, frags=True)
    wire.send(packet(9000))
    yield "on RX, statistics", (xsk.rx.waiting, xsk.raised()), (0, {"rx_ring_full": 1})
    wire.send(packet(70))
    yield "the next packet, entries of FILL given back", (xsk.rx.take(1), xsk.fill.consumer), ([(256, 70, 0)], 1)


@case(PAGE, "a packet longer than a frame is dropped and raises rx_dropped without XDP_USE_SG")
def long_packets():
    """Long packets without XDP_USE_SG."""
    xsk, wire = receiver(headroom=892)
    wire.send(packet(900), packet(901))
    yield "on RX", xsk.rx.take(1), [(2048 - 900, 900, 0)]
    yield "statistics", xsk.raised(), {"rx_dropped": 1}


@case(PAGE, "with XDP_USE_SG a long packet fills one frame after the other")
def packets_of_frames():
    """Long packets with XDP_USE_SG; no xdp.frags is needed where the program sees one page."""
    xsk, wire = receiver(headroom=892, flags=COPY | USE_SG)
    wire.send(packet(900), packet(1000), packet(1500))
    at = 2048 - 900
    yield "on RX", xsk.rx.take(5), [(at, 900, 0), (at + 2048, 900, 1), (at + 4096, 100, 0), (at + 6144, 900, 1), (at + 8192, 600, 0)]


@case(PAGE, "a packet of several frames that finds too few on FILL is dropped whole, and raises rx_dropped alone")
def whole_packets():
    """Packets of two frames with one on FILL."""
    xsk, wire = receiver(headroom=892, flags=COPY | USE_SG, fill=(0,))
    wire.send(packet(1500))
    yield "on RX, statistics", (xsk.rx.take(), xsk.raised()), ([], {"rx_dropped": 1})
    wire.send(packet(60))
    yield "the frame is there for the next", len(xsk.rx.take(1)), 1


@case(PAGE, "the same address three times on FILL: three packets go into it, one over the other")
def one_frame_three_times():
    """One frame three times."""
    xsk, wire = receiver(fill=(2048, 2048, 2048))
    wire.send(packet(60, 1), packet(70, 2), packet(80, 3))
    yield "on RX", xsk.rx.take(3), [(2304, 60, 0), (2304, 70, 0), (2304, 80, 0)]
    yield "the bytes of the first", xsk.umem.read(2304, 60) == packet(80, 3)[:60], True


@case(PAGE, "rx_fill_ring_empty_descs is the FILL ring's, which sockets of a queue share; the others are the socket's own")
def whose_statistics():
    """Two sockets on one queue."""
    xsk, wire = receiver(fill=(0,), rx=2)
    other = Xsk(xsk.umem, fill=0, completion=0, shared=xsk)
    wire.send(packet(60), packet(60))
    yield "of the socket", xsk.raised(), {"rx_dropped": 1, "rx_fill_ring_empty_descs": 1}
    yield "of the other", other.raised(), {"rx_fill_ring_empty_descs": 1}


@case("SOCKETS.md", "the flags of the first bind hold for all that share its UMEM")
def shared_sg():
    """XDP_USE_SG of the first socket, and a packet for the second."""
    xsk, wire = receiver(headroom=892, flags=COPY | USE_SG)
    other = Xsk(xsk.umem, fill=0, completion=0, shared=xsk)
    xsk.map.put(0, other)
    wire.send(packet(1000))
    yield "on RX of the second", other.rx.take(2), [(2048 - 900, 900, 1), (4096 - 900, 100, 0)]


@case("WAKEUP.md", "poll() says POLLIN once something stands on RX, and FILL needs no call in copy mode")
def readable():
    """poll() on a socket with RX alone."""
    xsk, wire = receiver(tx=0)
    poll = select.poll()
    poll.register(xsk.fileno(), select.POLLIN)
    yield "nothing there", poll.poll(0), []
    wire.send(packet(60))
    yield "a packet", (poll.poll(500), xsk.rx.waiting), ([(xsk.fileno(), select.POLLIN)], 1)


@case("WAKEUP.md", "in copy mode FILL's flag stays 0, and TX's is 1 from the making of the ring on, whatever the option")
def need_wakeup_flags():
    """The flags of FILL and TX."""
    for flags in (0, COPY, USE_NEED_WAKEUP):
        xsk, wire = receiver(flags=flags, fill=())
        yield f"flags {flags}: FILL, TX", (xsk.fill.flag, xsk.tx.flag), (0, 1)
        wire.send(packet(60))
        yield "once FILL was found empty", (xsk.raised(), xsk.fill.flag), ({"rx_dropped": 1, "rx_fill_ring_empty_descs": 1}, 0)
        xsk.sendto()
        yield "behind sendto()", (xsk.fill.flag, xsk.tx.flag), (0, 1)


@case("WAKEUP.md", "sendto() is refused on a socket with RX alone, and recvfrom() on one with TX alone")
def which_call():
    """The calls on sockets with one ring."""
    veth(queues=2)
    receiving, sending = Xsk(Umem(), tx=0), Xsk(Umem(), queue=1, rx=0)
    yield "RX alone: sendto(), recvfrom()", (receiving.sendto(), receiving.recvfrom()), ("ENOBUFS", "ok")
    yield "TX alone: sendto(), recvfrom()", (sending.sendto(), sending.recvfrom()), ("ok", "ENOBUFS")
