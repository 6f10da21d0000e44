/* What the static library libxsk_c.a exports (crate xsk_c): the model of AF_XDP sockets with its drivers, for a program in C.
 *
 * Slices cross as a pointer and a length, and no pointer is null, even where the length is 0. What a call fills is written where it
 * says so, and nowhere else. A handle is used by one call at a time, and by one thread, or under a lock; never in a signal's handler.
 * The program gives malloc, realloc and free from one allocator, and links libc's part of the kit (docs/C.md).
 *
 * Numbers. A pair is a port's queue, with its FILL and COMPLETION ring and its driver: pair = port * queues + queue. A socket has RX
 * and TX: socket = pair * sockets + class. An application has one queue of two paired ports (0 and 1, 2 and 3), with all rings there:
 * app = port / 2 * queues + queue. Each ring has one producer and one consumer, the application or the driver.
 *
 * Frames. Frame f has the addresses from f * chunk on. At the start all frames stand on FILL: those of pair p are the pool frames from
 * p * pool on, where pool = frames / (ports * queues). An application that is to have them at the start gets them so: each pair's
 * packets begin with pool short ones for a socket of it, and before the application's first call of its own somebody lets the drivers
 * have rounds, peeks these packets from RX and releases them. Then FILL is empty and the application has all frames of the pair; it
 * may put any frame that it has on any FILL or TX that is its own. The calls of this handover stand in the journal; each of these
 * packets is delivered and none is dropped, so that no statistic counts them. It needs an RX ring, and a FILL ring of at least pool
 * entries. A packet goes to the queue of its port that is the sum of its first 12 bytes modulo queues, and to the class that is the
 * sum of its first 14 bytes modulo sockets. */
#ifndef XSK_C_H
#define XSK_C_H
#include <stdbool.h>
#include <stddef.h>
#include <stdint.h>

#ifdef __cplusplus
extern "C" {
#endif

/* The most entries of one call. */
#define XSK_C_MOST 32

/* A bench: the rings, the drivers and all calls so far. The program makes it all zero before the first call, and never writes it. */
struct xsk_c {
	void *at;
	bool live;
};

struct xsk_c_layout {
	uint32_t ports;			   /* 2 or 4; each needs a capture, perhaps without packets */
	uint32_t queues;		   /* of each port: 1, 2 or 4 */
	uint32_t sockets;		   /* of each queue: 1, 2 or 4, each with RX and TX, either of which may lie unused */
	uint32_t frames;		   /* 1 to 4096, as many for each pair */
	uint32_t chunk, headroom;	   /* 2048 or 4096; below chunk - 256 */
	uint32_t rx, tx, fill, comp;	   /* entries: powers of two from 2 to 2048; fill at least the frames of a pair */
	bool sg;			   /* packets may have several frames (XDP_USE_SG) */
	bool wakeup;			   /* the need-wakeup flags are used (XDP_USE_NEED_WAKEUP) */
	bool drops;			   /* a packet that finds no frame on FILL or no place on RX is dropped, and else it waits */
	uint32_t sent_packets, sent_bytes; /* room for what each driver sends */
};

/* A call that moves no items. */
struct xsk_c_asked {
	uint32_t op;	      /* enum xsk_c_op */
	uint32_t kind, index; /* enum xsk_c_ring or xsk_c_mark, and its number */
	uint32_t count;	      /* places, of a Reserve and a Release */
	uint64_t value;	      /* of a Swap */
};

enum xsk_c_op { XSK_C_RESERVE, XSK_C_RELEASE, XSK_C_LOOK, XSK_C_SWAP };

/* struct xdp_desc */
struct xsk_c_desc {
	uint64_t addr;
	uint32_t len, options;
};

/* Rings: FILL and COMPLETION are numbered by pair, RX and TX by socket. */
enum xsk_c_ring { XSK_C_FILL, XSK_C_COMP, XSK_C_RX, XSK_C_TX };

/* Marks: need-wakeup of a FILL ring (by pair) and of a TX ring (by socket), 1 where the driver wants a kick; and the kick of a driver
 * (by pair), which the application sets to 1 where need-wakeup is set. */
enum xsk_c_mark { XSK_C_NEED_FILL, XSK_C_NEED_TX, XSK_C_KICK };

/* What each export answers. But for XSK_C_DONE nothing was done: no call was made, and nothing was written but what is said. */
enum xsk_c_answer {
	XSK_C_DONE,
	XSK_C_NOT_LIVE,	 /* the handle isn't live: no bench is open, or it was closed */
	XSK_C_LIVE,	 /* the handle is live, so that no other bench can be opened there */
	XSK_C_NO_MEMORY, /* memory couldn't be had */
	XSK_C_NO_SUCH,	 /* there is no such operation, kind, pair, class or packet, or it sent more than there was room for; or no
			    application has the frame */
	XSK_C_SHORT,	 /* the bytes or the room that were handed in are too few */
	XSK_C_FULL,	 /* a Reserve found fewer places free: the call was made, and answered so */
	XSK_C_EMPTY,	 /* a Peek found nothing: the call was made, and answered so */

	/* A call isn't legal after this application's own calls and replies: the first of these conditions that fails, in this order. */
	XSK_C_NO_CALLER = 16, /* there is no such application */
	XSK_C_UNKNOWN,	      /* there is no such ring or mark */
	XSK_C_NOT_ITS_OWN,    /* it isn't the application's own */
	XSK_C_COUNT,	      /* the number isn't from 1 to 32, or none that the mark can have */
	XSK_C_PLACES,	      /* fewer places are reserved, or fewer items were peeked */
	XSK_C_ITEMS,	      /* an item may not stand in the ring: on FILL an address alone, without length and options; and no
				 application has its frame, or an item before it took that */
	XSK_C_FRAMES,	      /* another application has these frames */
	XSK_C_PACKETS,
	XSK_C_ENDED,
	XSK_C_NOT_NOW, /* the mark may not be set to this number now: in order it stands behind XSK_C_NOT_ITS_OWN */

	/* A layout is refused: the first of these that fails, in this order. */
	XSK_C_BAD_PORTS = 32,
	XSK_C_BAD_QUEUES,
	XSK_C_BAD_SOCKETS,
	XSK_C_BAD_CAPTURES, /* there aren't as many captures as ports, or their ends don't lie in the text, in order */
	XSK_C_BAD_CHUNK,
	XSK_C_BAD_HEADROOM,
	XSK_C_BAD_FRAMES,
	XSK_C_BAD_RX,
	XSK_C_BAD_TX,
	XSK_C_BAD_FILL,
	XSK_C_BAD_COMP,
	XSK_C_BAD_POOL, /* the frames of a pair don't fit its FILL */

	/* A capture is refused: the first of these that fails, in the first such capture. */
	XSK_C_SHORT_HEADER = 48,
	XSK_C_BAD_MAGIC,
	XSK_C_BAD_VERSION,
	XSK_C_BAD_LINK,
	XSK_C_TRUNCATED,
	XSK_C_RECORD_TOO_LONG,
};

/* struct xdp_statistics of one socket */
struct xsk_c_statistics {
	uint64_t rx_dropped, rx_invalid_descs, tx_invalid_descs, rx_ring_full, rx_fill_ring_empty_descs, tx_ring_empty_descs;
};

/* Opens a bench. The captures stand one behind the other in text, and are copied; ends[i] is where that of port i ends. */
uint32_t xsk_c_open(struct xsk_c *, const struct xsk_c_layout *, const uint8_t *text, size_t text_len, const uint64_t *ends, size_t ends_len);
/* Lets a bench go. The memory of the packets that its ports were to receive is not given back. */
uint32_t xsk_c_close(struct xsk_c *);

/* Makes a call that moves no items: a Reserve of places of FILL or TX, a Release of places of RX or COMPLETION that were peeked, a Look at
 * a mark, or a Swap of it. told is written where a Reserve's answer is XSK_C_FULL, with how many places are free, and by a Look and a Swap
 * with what the mark was. */
uint32_t xsk_c_call(struct xsk_c *, uint32_t app, const struct xsk_c_asked *, uint64_t *told);
/* Submits items, each with the frame of its address as it is then. */
uint32_t xsk_c_submit(struct xsk_c *, uint32_t app, uint32_t kind, uint32_t ring, const struct xsk_c_desc *descs, size_t descs_len);
/* Takes items, at most descs_len: count tells how many, and their descriptors are written. The application has their frames then. */
uint32_t xsk_c_peek(
	struct xsk_c *, uint32_t app, uint32_t kind, uint32_t ring, struct xsk_c_desc *descs, size_t descs_len, uint32_t *count);
/* Writes to the frame of an address, from the address on, or copies from there, where an application has it. Where the bytes go beyond its
 * chunk the answer is XSK_C_SHORT. What is to be sent is written before its Submit. */
uint32_t xsk_c_write(struct xsk_c *, uint64_t addr, const uint8_t *bytes, size_t len);
uint32_t xsk_c_read(struct xsk_c *, uint64_t addr, uint8_t *out, size_t len);

/* Each driver that hasn't ended makes one call; still tells whether that changed nothing. */
uint32_t xsk_c_round(struct xsk_c *, bool *still);
/* Rounds until nothing has changed for 64 of them, but no more than most; wait tells whether so. After XSK_C_NO_MEMORY the rounds so
 * far were made. */
uint32_t xsk_c_run_drivers(struct xsk_c *, uint32_t most, bool *wait);

/* The statistics of a socket, by its pair and its class there. */
uint32_t xsk_c_statistics(struct xsk_c *, uint32_t pair, uint32_t class_, struct xsk_c_statistics *);
/* How many packets the driver of a pair sent. */
uint32_t xsk_c_sent(struct xsk_c *, uint32_t pair, uint32_t *count);
/* One of them, counted from 0; len tells how long it is, also where the answer is XSK_C_SHORT. */
uint32_t xsk_c_packet(struct xsk_c *, uint32_t pair, uint32_t number, uint8_t *out, size_t out_len, uint64_t *len);
/* The journal's lines, from call number from on and as many as there is room for: next tells the call to go on with, end where the
 * lines end. The answer is XSK_C_SHORT where lines are left. */
uint32_t xsk_c_journal(struct xsk_c *, uint32_t from, uint8_t *out, size_t out_len, uint32_t *next, uint64_t *end);
/* The text of an answer; len tells how long it is, also where the answer is XSK_C_SHORT. */
uint32_t xsk_c_why(uint32_t answer, uint8_t *out, size_t out_len, uint64_t *len);

/* The calls that move no items, by their names. */
static inline uint32_t xsk_c_reserve(struct xsk_c *h, uint32_t app, uint32_t kind, uint32_t ring, uint32_t count, uint32_t *free)
{
	struct xsk_c_asked asked = {XSK_C_RESERVE, kind, ring, count, 0};
	uint64_t told = *free;
	uint32_t answer = xsk_c_call(h, app, &asked, &told);
	*free = (uint32_t)told;
	return answer;
}

static inline uint32_t xsk_c_release(struct xsk_c *h, uint32_t app, uint32_t kind, uint32_t ring, uint32_t count)
{
	struct xsk_c_asked asked = {XSK_C_RELEASE, kind, ring, count, 0};
	uint64_t told = 0;
	return xsk_c_call(h, app, &asked, &told);
}

static inline uint32_t xsk_c_look(struct xsk_c *h, uint32_t app, uint32_t mark, uint32_t index, uint64_t *value)
{
	struct xsk_c_asked asked = {XSK_C_LOOK, mark, index, 0, 0};
	return xsk_c_call(h, app, &asked, value);
}

static inline uint32_t xsk_c_swap(struct xsk_c *h, uint32_t app, uint32_t mark, uint32_t index, uint64_t value, uint64_t *old)
{
	struct xsk_c_asked asked = {XSK_C_SWAP, mark, index, 0, value};
	return xsk_c_call(h, app, &asked, old);
}

#ifdef __cplusplus
}
#endif
#endif
