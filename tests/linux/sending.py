"""What Linux does with what stands on TX: when it looks, how much it sends, what it says of wrong descriptors, and COMPLETION."""

import select
import time

from cases import case
from linux import CONTD, COPY, MAX_TX_BUDGET, SOL_XDP, TX_METADATA, USE_NEED_WAKEUP, USE_SG, Umem, Xsk, bare, packet, sender

PAGE = "KERNEL.md"
CHUNK = 2048
SG = COPY | USE_SG


def frames(xsk, count, length=60, first=0):
    """Writes packets into the first frames, and gives their descriptors."""
    for number in range(first, first + count):
        xsk.umem.write(number * CHUNK, packet(length, number))
    return [(number * CHUNK, length, 0) for number in range(first, first + count)]


def outcome(xsk, wire, sent):
    """What came of what was put on TX, once no further call changes anything: what was sent, completed and counted, and what stands."""
    xsk.send_all()
    wire.count(sent)
    return {"sent": wire.quiet(0.02), "completed": xsk.completion.take(), "invalid": xsk.statistics()["tx_invalid_descs"],
            "standing": xsk.tx.waiting}


@case("WAKEUP.md", "nothing is sent before a call, with XDP_USE_NEED_WAKEUP and without; sendto() and poll() send")
def calls():
    """When TX is looked at."""
    for flags in (COPY, COPY | USE_NEED_WAKEUP):
        for what in ("sendto()", "poll()", "recvfrom()"):
            xsk, wire = sender(flags=flags, rx=16)
            xsk.tx.put(*frames(xsk, 1))
            time.sleep(0.05)
            yield f"flags {flags}, before a call", (wire.quiet(0), xsk.tx.consumer), (0, 0)
            if what == "poll()":
                poll = select.poll()
                poll.register(xsk.fileno(), select.POLLIN)
                poll.poll(0)
            else:
                getattr(xsk, what[:-2])()
            sent = 0 if what == "recvfrom()" else 1
            yield f"flags {flags}, behind {what}", (wire.count(sent, 0.1), xsk.tx.consumer), (sent, sent)
            yield "TX's flag", xsk.tx.flag, 1


@case("WAKEUP.md", "a call before bind() is ENXIO, a blocking one EOPNOTSUPP, one on a port that is down ENETDOWN")
def refused_calls():
    """Calls that are refused."""
    xsk, _ = sender()
    other = bare()
    unbound = type("Unbound", (), {"fileno": other.fileno, "sendto": Xsk.sendto, "recvfrom": Xsk.recvfrom})()
    yield "before bind(): sendto(), recvfrom()", (unbound.sendto(), unbound.recvfrom()), ("ENXIO", "ENXIO")
    yield "blocking sendto()", xsk.sendto(0), "EOPNOTSUPP"
    both = Xsk(Umem(), rx=16, port="t0")
    yield "blocking recvfrom()", both.recvfrom(0), "EOPNOTSUPP"


@case(PAGE, "a call sends at most 32 packets, and says EAGAIN where it left some")
def batches():
    """How much a call sends."""
    for count, seen in ((31, ["ok"]), (32, ["ok"]), (33, ["EAGAIN", "ok"]), (80, ["EAGAIN", "EAGAIN", "ok"])):
        xsk, wire = sender(frames=128, tx=128, completion=128)
        xsk.tx.put(*frames(xsk, count))
        said, taken = [], []
        for _ in seen:
            said.append(xsk.sendto())
            taken.append(xsk.tx.consumer)
        yield f"{count} packets", (said, taken, wire.count(count)), (seen, [min(count, 32 * (n + 1)) for n in range(len(seen))], count)


@case(PAGE, "XDP_MAX_TX_SKB_BUDGET (from 6.17) sets how many a call sends")
def budget():
    """How much a call sends, where the program says it."""
    xsk, wire = sender(tx=64, completion=64)
    xsk.socket.setsockopt(SOL_XDP, MAX_TX_BUDGET, 48)
    xsk.tx.put(*frames(xsk, 60))
    yield "a call", (xsk.sendto(), xsk.tx.consumer, wire.count(48)), ("EAGAIN", 48, 48)


@case(PAGE, "a call ends at an invalid descriptor, and says success; the rest waits for a further call")
def a_call_and_an_invalid_descriptor():
    """An invalid descriptor between valid ones."""
    xsk, wire = sender()
    good = frames(xsk, 2)
    xsk.tx.put(good[0], (0, 0, 0), good[1])
    yield "first call", (xsk.sendto(), wire.count(1), xsk.tx.consumer), ("ok", 1, 2)
    yield "second call", (xsk.sendto(), wire.count(2), xsk.tx.consumer), ("ok", 2, 3)


@case(PAGE, "with a COMPLETION of 4 and 10 packets on TX 4 are taken, until the program releases some")
def full_completion():
    """COMPLETION is full."""
    xsk, wire = sender(completion=4)
    xsk.tx.put(*frames(xsk, 10))
    yield "a call", (xsk.sendto(), wire.count(4), xsk.tx.consumer), ("EAGAIN", 4, 4)
    yield "a further call", (xsk.sendto(), wire.quiet(0.02), xsk.tx.consumer), ("EAGAIN", 4, 4)
    yield "completed", xsk.completion.take(4), [0, 2048, 4096, 6144]
    yield "a call behind it", (xsk.sendto(), wire.count(8), xsk.tx.consumer), ("EAGAIN", 8, 8)


@case(PAGE, "an invalid descriptor is counted, and its address comes on COMPLETION")
def invalid_descriptors():
    """Invalid descriptors, each alone before a valid one."""
    size = 64 * CHUNK
    for what, bad in (("length 0", (4096, 0, 0)), ("the chunk's length, behind the headroom", (4096 + 256, CHUNK, 0)),
                      ("across the end of the chunk", (4096 + 2000, 60, 0)), ("at the end of the UMEM", (size, 60, 0)),
                      ("far behind the UMEM", (1 << 40, 60, 0)), ("an unknown option", (4096, 60, 4))):
        xsk, wire = sender()
        xsk.tx.put(bad, *frames(xsk, 1))
        yield what, outcome(xsk, wire, 1), {"sent": 1, "completed": [bad[0], 0], "invalid": 1, "standing": 0}


@case(PAGE, "XDP_TX_METADATA (2) without room for it: EINVAL at each call, not counted; TX stands, and each call completes its address")
def metadata():
    """The option 2."""
    xsk, wire = sender()
    good = frames(xsk, 1, first=3)
    xsk.tx.put((4096, 60, TX_METADATA), *good)
    yield "three calls", [xsk.sendto() for _ in range(3)], ["EINVAL"] * 3
    yield "sent, invalid, standing", (wire.quiet(0.02), xsk.statistics()["tx_invalid_descs"], xsk.tx.waiting), (0, 0, 2)
    yield "completed", xsk.completion.take(3), [4096, 4096, 4096]
    yield "20 calls, a COMPLETION of 16", ([xsk.sendto() for _ in range(20)][-1], xsk.completion.waiting), ("EINVAL", 20)


@case(PAGE, "XDP_PKT_CONTD on a socket without XDP_USE_SG is taken: the packet goes on")
def contd_without_sg():
    """The bit without XDP_USE_SG."""
    xsk, wire = sender()
    a, b = frames(xsk, 2)
    xsk.tx.put((a[0], 60, CONTD), b)
    yield "two descriptors", outcome(xsk, wire, 1), {"sent": 1, "completed": [0, 2048], "invalid": 0, "standing": 0}
    yield "length of what was sent", [len(one) for one in wire.came], [120]


@case(PAGE, "a packet that isn't at its end stays on TX's count, and isn't completed before its end came")
def unfinished():
    """A packet whose end comes with a later submit."""
    xsk, wire = sender(flags=SG)
    a, b = frames(xsk, 2)
    xsk.tx.put((a[0], 60, CONTD))
    yield "without its end", outcome(xsk, wire, 0), {"sent": 0, "completed": [], "invalid": 0, "standing": 0}
    xsk.tx.put(b)
    yield "with it", outcome(xsk, wire, 1), {"sent": 1, "completed": [0, 2048], "invalid": 0, "standing": 0}


@case(PAGE, "an invalid descriptor makes its whole packet invalid, up to the descriptor without XDP_PKT_CONTD")
def invalid_in_a_packet():
    """An invalid descriptor at the begin, within and at the end of a packet of three."""
    for place in range(3):
        xsk, wire = sender(flags=SG)
        four = frames(xsk, 4)
        packet_of_three = [(address, 60, CONTD if number < 2 else 0) for number, (address, _, _) in enumerate(four[:3])]
        packet_of_three[place] = (packet_of_three[place][0], 0, packet_of_three[place][2])
        xsk.tx.put(*packet_of_three, four[3])
        wanted = {"sent": 1, "completed": [0, 2048, 4096, 6144], "invalid": 3, "standing": 0}
        yield f"descriptor {place} of 3", outcome(xsk, wire, 1), wanted


@case(PAGE, "a packet has 18 frames at most; one with more is invalid as a whole")
def most_frames():
    """Packets of many frames, with one behind them."""
    for count, sent, invalid in ((17, 2, 0), (18, 2, 0), (19, 1, 19), (20, 1, 20)):
        xsk, wire = sender(flags=SG, tx=64, completion=64)
        all_of_it = frames(xsk, count + 1)
        xsk.tx.put(*((address, 60, CONTD if number < count - 1 else 0) for number, (address, _, _) in enumerate(all_of_it)))
        yield f"{count} frames", outcome(xsk, wire, sent), {"sent": sent, "completed": [n * CHUNK for n in range(count + 1)],
                                                             "invalid": invalid, "standing": 0}


@case(PAGE, "completed says that the frame is free again, and no more: what veth refuses is completed too")
def refused_by_the_port():
    """Packets that veth refuses."""
    xsk, wire = sender()
    xsk.tx.put(*((number * CHUNK, number, 0) for number in range(1, 14)))
    yield "1 to 13 bytes", outcome(xsk, wire, 0), {"sent": 0, "completed": [n * CHUNK for n in range(1, 14)], "invalid": 0, "standing": 0}
    xsk, wire = sender()
    xsk.tx.put(*frames(xsk, 1, 1518), *frames(xsk, 1, 1519, 1))
    yield "1,518 and 1,519 bytes with an MTU of 1,500", outcome(xsk, wire, 1), {"sent": 1, "completed": [0, CHUNK], "invalid": 0,
                                                                                "standing": 0}


@case(PAGE, "an odd address on TX comes on COMPLETION with its lowest bit 0")
def odd_addresses():
    """Odd addresses."""
    xsk, wire = sender()
    for address in (2049, 4098, 6147):
        xsk.umem.write(address, packet(60))
    xsk.tx.put((2049, 60, 0), (4098, 60, 0), (6147, 60, 0))
    yield "completed", outcome(xsk, wire, 3), {"sent": 3, "completed": [2048, 4098, 6146], "invalid": 0, "standing": 0}


@case(PAGE, "a frame twice on TX is sent twice and completed twice")
def twice_on_tx():
    """A frame that was submitted twice."""
    xsk, wire = sender()
    one = frames(xsk, 1)
    xsk.tx.put(*one, *one)
    yield "completed", outcome(xsk, wire, 2), {"sent": 2, "completed": [0, 0], "invalid": 0, "standing": 0}


@case(PAGE, "tx_ring_empty_descs rises each time that a call finds TX empty")
def empty_tx():
    """TX is empty."""
    xsk, _ = sender()
    before = xsk.statistics()["tx_ring_empty_descs"]
    for _ in range(3):
        xsk.sendto()
    yield "three calls", xsk.statistics()["tx_ring_empty_descs"] - before, 3
