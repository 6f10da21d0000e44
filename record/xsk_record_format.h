/* xsk_record_format.h: the file that xsk_record.h writes for each thread, and xsk-merge reads.
 *
 * A header, two buffers, and what was stored. The records are those that were stored, and then those of the buffer that is written to,
 * until one is 0. Each has 24 bytes, and most have something behind them; none goes from the one place to the other. */
#ifndef XSK_RECORD_FORMAT_H
#define XSK_RECORD_FORMAT_H
#include <stdint.h>

#define XSK_RECORD_MAGIC "xskrec1"
enum {
	XSK_RECORD_HEADER = 4096, /* where the first buffer begins; the second is behind it, and then what was stored */
	XSK_RECORD_MOST = 1024	  /* entries behind a record; a longer call is several */
};

struct xsk_record_header {
	char magic[8];
	uint32_t process, thread, parent; /* parent: the process of which this one was forked while it recorded, or 0 */
	uint32_t clock;			  /* 1: the processor's time stamps, 0: nanoseconds of CLOCK_MONOTONIC */
	uint64_t buffer;		  /* bytes of a buffer */
	uint64_t state;			  /* bytes that were stored, times two; and which buffer is written to */
	uint64_t ended;			  /* 1: the program came to its exit */
	uint64_t lost, lost_since;	  /* calls that found no room, and when the first did */
	uint64_t lost_reason;		  /* errno */
	uint64_t unknown;		  /* calls on rings that the recorder didn't see being made */
};

/* The first eight are the calls of docs/RECORDING.md, Touch is an entry that isn't the program's; then descriptions. */
enum xsk_record_call {
	XSK_RECORD_NONE,
	XSK_RECORD_RESERVE, /* n: asked for; reply: n, or how many were free */
	XSK_RECORD_SUBMIT, /* n: submitted; reply: places that are reserved; behind it min(n, size, XSK_RECORD_MOST) entries as they stand there */
	XSK_RECORD_PEEK,    /* n: asked for; reply: got; behind it these entries */
	XSK_RECORD_RELEASE, /* n: released; reply: entries that are held */
	XSK_RECORD_CANCEL,  /* n: cancelled */
	XSK_RECORD_FREE,    /* n: asked for; reply: free */
	XSK_RECORD_LOOK,    /* reply: the need-wakeup flag */
	XSK_RECORD_KICK,    /* n: which function */
	XSK_RECORD_TOUCH,   /* n: its number */
	XSK_RECORD_PLACE,   /* where: its number; n: the line; own: how many bytes of the file's name stand behind it */
	XSK_RECORD_UMEM,    /* behind it struct xsk_record_umem */
	XSK_RECORD_RING,    /* ring: its number; n: its size; reply: its kind; in each file before its first call */
	XSK_RECORD_SOCKET,  /* behind it struct xsk_record_socket */
	XSK_RECORD_GONE,    /* ring: its number; it was unmapped */
	XSK_RECORD_CALLS
};
enum xsk_record_kind { XSK_RECORD_FILL, XSK_RECORD_COMPLETION, XSK_RECORD_RX, XSK_RECORD_TX };
enum xsk_record_wake { XSK_RECORD_SENDTO, XSK_RECORD_RECVFROM, XSK_RECORD_POLL };

/* own: the count of entries that the program had submitted to the ring, or released, before the call */
struct xsk_record {
	uint64_t time;
	uint8_t call, ring;
	uint16_t where;
	uint32_t n, reply, own;
};
struct xsk_record_umem {
	uint64_t size;
	uint32_t chunk, headroom, flags;
	uint32_t number;
};
struct xsk_record_socket { /* rings by their numbers and 1; 0: it has none, or FILL and COMPLETION are its queue's */
	char ifname[16];
	uint32_t queue, bind_flags;
	uint16_t umem, rx, tx, fill, completion, zero[3];
};

#endif
