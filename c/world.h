/* What the parts of the library share: a UMEM with its rings and sockets, over one bench of the model (xsk_c.h). Nothing of it is the
 * program's to see. All functions but those that say otherwise are called under the lock. */
#ifndef XSK_MODEL_WORLD_H
#define XSK_MODEL_WORLD_H
#define XSK_MODEL_NO_PLACES
#include "xsk_c.h"
#include <net/if.h>
#pragma GCC visibility push(default) /* all else is hidden, and made local in the library */
#include <xdp/xsk.h>
#pragma GCC visibility pop

enum { MOST_PORTS = 4, MOST_QUEUES = 4, MOST_CLASSES = 4, MOST_PAIRS = 16, MOST_SOCKETS = 64, MOST_FRAMES = 4096, MOST_ENTRIES = 2048 };
enum { SETTLED = 64 }; /* rounds without a change behind which all drivers wait */
#define NO_FRAME UINT32_MAX

struct place {
	const char *file;
	int line;
};

/* One of the program's rings. The three counts come first: `struct xsk_ring_prod` and `xsk_ring_cons` point at them. */
struct side {
	__u32 producer, consumer, flags;
	enum xsk_c_ring kind;
	uint32_t size; /* entries of the program's ring */
	void *entries;
	struct xsk_umem *umem;
	struct pair *pair;
	struct xsk_socket *socket; /* of RX and TX */
	/* in the model */
	uint32_t app, number;
	uint32_t capacity; /* entries of its ring, but for those kept out of use */
	uint32_t room;	   /* places that are reserved and not yet filled; of RX and COMPLETION: entries peeked and not yet released */
	uint32_t passed;   /* entries before this one were submitted there; those up to `producer` are held back */
	uint32_t reserved; /* how far the program has reserved */
	uint32_t unseen;   /* entries that came and that the program hasn't peeked */
	bool holds;	   /* entries may be held back, so the program's own record judges them first */
	uint64_t packets;  /* whole packets that were submitted, or peeked */
};

/* A port's queue. */
struct pair {
	uint32_t port, queue, number;
	uint32_t socket_count;
	struct xsk_socket *sockets[MOST_CLASSES];
	struct side *fill, *comp;
	uint32_t packets;			      /* that are to come here */
	struct xsk_c_statistics before[MOST_CLASSES]; /* when the frames had been handed over */
};

struct xsk_socket {
	struct xsk_umem *umem;
	struct pair *pair;
	uint32_t class_;
	struct side *rx, *tx; /* NULL: it has none */
	struct xsk_socket_config config;
	int fd;
	bool deleted, woken;
};

/* Where a chunk of the program's is: 32 bytes, so that each lies in one line of the cache. */
enum having { WITH_PROGRAM, ON_RING, COME }; /* COME: it is back on the ring, and the program hasn't peeked it */
struct chunk {
	struct side *side; /* where it was submitted, or came, last; the rest tells of its last Submit */
	const char *file;
	uint64_t call;
	uint32_t line : 24, has : 8; /* enum having */
	uint32_t frame;		     /* the model's, or NO_FRAME */
};

struct xsk_umem {
	struct xsk_umem *next;
	struct xsk_c bench;
	char *area;
	uint64_t size;
	struct xsk_umem_config config;
	int fd;
	bool deleted, started, wakeup, sg, written;
	uint32_t users;			  /* sockets that aren't deleted */
	struct xsk_ring_prod *fill_saved; /* of no pair yet */
	struct xsk_ring_cons *comp_saved;
	struct side *fill_first, *comp_first;
	uint32_t port_count, pair_count, socket_count;
	char ports[MOST_PORTS][IFNAMSIZ];
	struct pair pairs[MOST_PAIRS];
	struct xsk_socket *sockets[MOST_SOCKETS];
	/* from the start on */
	struct xsk_c_layout layout;
	uint32_t pool, strays[MOST_PORTS];
	uint32_t chunk_count, chunk_shift, apps;
	struct chunk *chunks;
	uint32_t *chunk_of; /* by the model's frames: the program's chunk, or NO_FRAME */
	uint32_t *stock;    /* frames of no chunk, application by application */
	uint32_t stock_count[MOST_PAIRS / 2];
	uint32_t still; /* rounds in a row that changed nothing */
	uint64_t calls, illegal;
	bool invalid_told;
};

static inline uint32_t chunk_number(const struct xsk_umem *u, uint64_t address)
{
	return address < u->size ? (uint32_t)(address >> u->chunk_shift) : NO_FRAME;
}

extern struct xsk_umem *umems; /* all, those that are deleted too */
extern _Thread_local struct place here;

struct settings { /* the environment */
	uint64_t seed, end;
	bool seeded, report, copy, drops, guard;
	uint32_t room;
};
extern struct settings settings;

/* xsk.c */
struct xsk_socket *socket_of(int fd);
/* Ends the program, with status 2: what it or its environment wants can't be had. */
_Noreturn void die(const char *format, ...) __attribute__((format(printf, 1, 2)));
/* start.c: the layout is known: the bench is opened, the program gets all frames, and what it put on FILL is passed on. */
void start(struct xsk_umem *u);
/* rings.c */
void fetch(struct side *s, uint32_t wanted, enum having has);
uint32_t pass(struct side *s, uint32_t most);
uint32_t entry_size(enum xsk_c_ring kind);
/* turns.c */
void enter(struct xsk_umem *u); /* takes the lock; with a seed the drivers and other threads have turns */
void leave(void);		/* gives it back; not under the lock a signal may be raised, and the program ended */
void acted(struct xsk_umem *u);
void give_round(struct xsk_umem *u);
void settle(struct xsk_umem *u, uint32_t rounds);
bool found_nothing(struct xsk_umem *u);
bool is_ending(void);
void read_settings(void);
/* tell.c */
bool named_in(const char *variable, const char *name, char *out, size_t len);
bool refused(struct side *s, const char *call, uint32_t n, uint32_t answer, int64_t address);
/* Whether a call was made. One that isn't legal is told, with the address that makes it so, if one does (else -1), and ends the program. */
static inline bool legal(struct side *s, const char *call, uint32_t n, uint32_t answer, int64_t address)
{
	return answer == XSK_C_DONE || refused(s, call, n, answer, address);
}
const char *name_of(const struct side *s);
void write_all(void);
void tell_end(struct xsk_umem *u);
/* guard.c: chunks that the program doesn't have can't be touched, with the address sanitizer or XSK_GUARD. */
extern bool guards; /* whether one of them is there */
void guard_chunk(struct xsk_umem *u, uint32_t chunk, bool own);
static inline void guard(struct xsk_umem *u, uint32_t chunk, bool own)
{
	if (guards)
		guard_chunk(u, chunk, own);
}
void guard_set_up(void);

#endif
