/* libxdp's functions that set up UMEMs and sockets. What libxdp or the kernel refuses is refused with the same number; what the model
 * hasn't got is refused too, and told on stderr. */
#include "world.h"
#include <errno.h>
#include <stdarg.h>
#include <stdlib.h>
#include <string.h>
#include <sys/eventfd.h>
#include <unistd.h>

struct xsk_umem *umems;
_Thread_local struct place here = {"?", 0};

/* the functions of the header, for programs that take their addresses */
extern __u64 *xsk_ring_prod__fill_addr(struct xsk_ring_prod *fill, __u32 idx);
extern const __u64 *xsk_ring_cons__comp_addr(const struct xsk_ring_cons *comp, __u32 idx);
extern struct xdp_desc *xsk_ring_prod__tx_desc(struct xsk_ring_prod *tx, __u32 idx);
extern const struct xdp_desc *xsk_ring_cons__rx_desc(const struct xsk_ring_cons *rx, __u32 idx);
extern int xsk_ring_prod__needs_wakeup(const struct xsk_ring_prod *r);
extern __u32 xsk_prod_nb_free(struct xsk_ring_prod *r, __u32 nb);
extern __u32 xsk_cons_nb_avail(struct xsk_ring_cons *r, __u32 nb);
extern __u32 xsk_ring_prod__reserve(struct xsk_ring_prod *prod, __u32 nb, __u32 *idx);
extern void xsk_ring_prod__submit(struct xsk_ring_prod *prod, __u32 nb);
extern __u32 xsk_ring_cons__peek(struct xsk_ring_cons *cons, __u32 nb, __u32 *idx);
extern void xsk_ring_cons__cancel(struct xsk_ring_cons *cons, __u32 nb);
extern void xsk_ring_cons__release(struct xsk_ring_cons *cons, __u32 nb);
extern void *xsk_umem__get_data(void *umem_area, __u64 addr);
extern __u64 xsk_umem__extract_addr(__u64 addr);
extern __u64 xsk_umem__extract_offset(__u64 addr);
extern __u64 xsk_umem__add_offset_to_addr(__u64 addr);

void xsk_model_here(const char *file, int line)
{
	here.file = file;
	here.line = line;
}

void die(const char *format, ...)
{
	va_list words;
	fflush(stdout);
	fprintf(stderr, "xsk: %s:%d: ", here.file, here.line);
	va_start(words, format);
	vfprintf(stderr, format, words);
	va_end(words);
	fputc('\n', stderr);
	_exit(2);
}

/* What the model hasn't got. */
static int lacks(int error, const char *format, ...) __attribute__((format(printf, 2, 3)));
static int lacks(int error, const char *format, ...)
{
	va_list words;
	fprintf(stderr, "xsk: %s:%d: not in the model: ", here.file, here.line);
	va_start(words, format);
	vfprintf(stderr, format, words);
	va_end(words);
	fputc('\n', stderr);
	return -error;
}

static void *zeroed(size_t count, size_t size)
{
	void *p = calloc(count, size);
	if (!p)
		die("out of memory");
	return p;
}

static bool is_size(uint32_t n) { return n && !(n & (n - 1)) && n <= 1u << 20; }

static struct side *new_side(struct xsk_umem *u, enum xsk_c_ring kind, uint32_t size)
{
	struct side *s = zeroed(1, sizeof *s);
	s->kind = kind;
	s->size = size;
	s->capacity = size < MOST_ENTRIES ? size : MOST_ENTRIES;
	s->entries = zeroed(size, entry_size(kind));
	s->umem = u;
	s->holds = kind == XSK_C_FILL || (kind == XSK_C_TX && (settings.copy || s->capacity != size));
	s->flags = kind == XSK_C_TX && settings.copy ? XDP_RING_NEED_WAKEUP : 0;
	return s;
}

static void show_prod(struct xsk_ring_prod *r, struct side *s)
{
	r->cached_prod = s->producer;
	r->cached_cons = s->consumer + s->size;
	r->mask = s->size - 1;
	r->size = s->size;
	r->producer = &s->producer;
	r->consumer = &s->consumer;
	r->ring = s->entries;
	r->flags = &s->flags;
}

static void show_cons(struct xsk_ring_cons *r, struct side *s)
{
	r->cached_prod = s->producer;
	r->cached_cons = s->consumer;
	r->mask = s->size - 1;
	r->size = s->size;
	r->producer = &s->producer;
	r->consumer = &s->consumer;
	r->ring = s->entries;
	r->flags = &s->flags;
}

static pid_t creator;

static void at_exit(void)
{
	if (getpid() != creator)
		return; /* a child's rings are copies */
	enter(NULL);
	write_all();
	for (struct xsk_umem *u = umems; u; u = u->next)
		tell_end(u);
	leave();
}

static int umem_fault(const void *area, uint64_t size, const struct xsk_umem_config *c)
{
	if (c->flags)
		return lacks(EINVAL, "unaligned chunks, or another flag of a UMEM");
	if (c->frame_size != 2048 && c->frame_size != 4096)
		return lacks(EINVAL, "chunks of %u bytes: they have 2048 or 4096", c->frame_size);
	if ((uintptr_t)area % 4096 || !size || size % c->frame_size || c->frame_headroom >= c->frame_size - 256)
		return -EINVAL;
	if (size / c->frame_size > MOST_FRAMES)
		return lacks(EINVAL, "a UMEM of more than %u chunks", MOST_FRAMES);
	return is_size(c->fill_size) && is_size(c->comp_size) ? 0 : -EINVAL;
}

int xsk_umem__create(struct xsk_umem **made, void *area, __u64 size, struct xsk_ring_prod *fill, struct xsk_ring_cons *comp,
	const struct xsk_umem_config *config)
{
	static bool registered;
	struct xsk_umem_config usual = {XSK_RING_PROD__DEFAULT_NUM_DESCS, XSK_RING_CONS__DEFAULT_NUM_DESCS, XSK_UMEM__DEFAULT_FRAME_SIZE,
		XSK_UMEM__DEFAULT_FRAME_HEADROOM, XSK_UMEM__DEFAULT_FLAGS};
	struct xsk_umem *u;
	int fault;
	if (!made || !area || !fill || !comp)
		return -EFAULT;
	read_settings();
	if (config)
		usual = *config;
	fault = umem_fault(area, size, &usual);
	if (fault)
		return fault;
	u = zeroed(1, sizeof *u);
	u->area = area;
	u->size = size;
	u->config = usual;
	u->fd = eventfd(1, EFD_CLOEXEC); /* select() and epoll find it ready */
	u->chunk_shift = usual.frame_size == 2048 ? 11 : 12;
	u->chunk_count = (uint32_t)(size >> u->chunk_shift);
	u->chunks = aligned_alloc(sizeof *u->chunks, u->chunk_count * sizeof *u->chunks);
	if (!u->chunks)
		die("out of memory");
	for (uint32_t i = 0; i < u->chunk_count; i++)
		u->chunks[i] = (struct chunk){.frame = NO_FRAME};
	u->fill_first = new_side(u, XSK_C_FILL, usual.fill_size);
	u->comp_first = new_side(u, XSK_C_COMP, usual.comp_size);
	show_prod(fill, u->fill_first);
	show_cons(comp, u->comp_first);
	u->fill_saved = fill;
	u->comp_saved = comp;
	enter(NULL);
	if (!registered)
		registered = !atexit(at_exit);
	creator = getpid();
	u->next = umems;
	__atomic_store_n(&umems, u, __ATOMIC_RELEASE);
	leave();
	*made = u;
	return 0;
}

/* The port of a name, which may be a new one; MOST_PORTS where it can't be. */
static uint32_t port_of(struct xsk_umem *u, const char *name)
{
	uint32_t port;
	for (port = 0; port < u->port_count; port++)
		if (!strcmp(u->ports[port], name))
			return port;
	if (port < MOST_PORTS)
		snprintf(u->ports[u->port_count++], IFNAMSIZ, "%s", name);
	return port;
}

static bool is_elsewhere(const struct xsk_umem *u, const char *name)
{
	for (struct xsk_umem *other = umems; other; other = other->next)
		for (uint32_t i = 0; other != u && !other->deleted && i < other->port_count; i++)
			if (!strcmp(other->ports[i], name))
				return true;
	return false;
}

/* A port's queue, which is made with the rings that it is given where it is new. */
static int pair_on(
	struct xsk_umem *u, uint32_t port, uint32_t queue, struct xsk_ring_prod *fill, struct xsk_ring_cons *comp, struct pair **found)
{
	struct pair *p;
	for (p = u->pairs; p < u->pairs + u->pair_count; p++)
		if (p->port == port && p->queue == queue) {
			*found = p;
			return 0;
		}
	if (!fill || !comp)
		return -EFAULT;
	p->port = port;
	p->queue = queue;
	if (u->fill_saved) {
		if (fill != u->fill_saved)
			*fill = *u->fill_saved;
		if (comp != u->comp_saved)
			*comp = *u->comp_saved;
		p->fill = u->fill_first;
		p->comp = u->comp_first;
	} else {
		p->fill = new_side(u, XSK_C_FILL, u->config.fill_size);
		p->comp = new_side(u, XSK_C_COMP, u->config.comp_size);
		show_prod(fill, p->fill);
		show_cons(comp, p->comp);
	}
	p->fill->pair = p->comp->pair = p;
	u->fill_saved = NULL;
	u->comp_saved = NULL;
	u->pair_count++;
	*found = p;
	return 0;
}

static int socket_fault(const struct xsk_umem *u, const char *name, uint32_t queue, const struct xsk_socket_config *c)
{
	if (c->libxdp_flags & ~(uint32_t)XSK_LIBXDP_FLAGS__INHIBIT_PROG_LOAD || !is_size(c->rx_size) || !is_size(c->tx_size))
		return -EINVAL;
	if (c->bind_flags & XDP_ZEROCOPY)
		return lacks(EOPNOTSUPP, "XDP_ZEROCOPY");
	if (queue >= MOST_QUEUES)
		return lacks(EINVAL, "queue %u: a port has %d", queue, MOST_QUEUES);
	if (u->started)
		return lacks(EBUSY, "a socket that is made when traffic flows: all are made before the first call on a ring but FILL");
	if (is_elsewhere(u, name))
		return lacks(EBUSY, "sockets on %s over two UMEMs", name);
	return u->socket_count < MOST_SOCKETS ? 0 : -ENOMEM;
}

static struct xsk_socket *new_socket(
	struct xsk_umem *u, struct pair *p, struct xsk_ring_cons *rx, struct xsk_ring_prod *tx, const struct xsk_socket_config *config)
{
	struct xsk_socket *x = zeroed(1, sizeof *x);
	x->umem = u;
	x->pair = p;
	x->config = *config;
	x->class_ = p->socket_count;
	x->fd = u->socket_count ? eventfd(1, EFD_CLOEXEC) : u->fd;
	if (rx) {
		x->rx = new_side(u, XSK_C_RX, config->rx_size);
		x->rx->pair = p;
		x->rx->socket = x;
		show_cons(rx, x->rx);
	}
	if (tx) {
		x->tx = new_side(u, XSK_C_TX, config->tx_size);
		x->tx->pair = p;
		x->tx->socket = x;
		show_prod(tx, x->tx);
	}
	if (!u->socket_count) { /* the first bind's flags hold for all that share its UMEM */
		u->wakeup = config->bind_flags & XDP_USE_NEED_WAKEUP;
		u->sg = config->bind_flags & XDP_USE_SG;
	}
	p->sockets[p->socket_count++] = x;
	u->sockets[u->socket_count++] = x;
	u->users++;
	return x;
}

int xsk_socket__create_shared(struct xsk_socket **made, const char *ifname, __u32 queue, struct xsk_umem *u, struct xsk_ring_cons *rx,
	struct xsk_ring_prod *tx, struct xsk_ring_prod *fill, struct xsk_ring_cons *comp, const struct xsk_socket_config *config)
{
	struct xsk_socket_config usual = {.rx_size = XSK_RING_CONS__DEFAULT_NUM_DESCS, .tx_size = XSK_RING_PROD__DEFAULT_NUM_DESCS};
	struct pair *p = NULL;
	uint32_t port;
	int fault;
	if (!u || !made || !ifname || !(rx || tx))
		return -EFAULT;
	if (config)
		usual = *config;
	enter(NULL);
	fault = socket_fault(u, ifname, queue, &usual);
	port = fault ? 0 : port_of(u, ifname);
	if (port == MOST_PORTS)
		fault = lacks(ENODEV, "a fifth port, %s", ifname);
	if (!fault)
		fault = pair_on(u, port, queue, fill, comp, &p);
	if (!fault && p->socket_count == MOST_CLASSES)
		fault = lacks(EINVAL, "more than %d sockets on one queue", MOST_CLASSES);
	if (!fault)
		*made = new_socket(u, p, rx, tx, &usual);
	leave();
	return fault;
}

int xsk_socket__create(struct xsk_socket **made, const char *ifname, __u32 queue, struct xsk_umem *u, struct xsk_ring_cons *rx,
	struct xsk_ring_prod *tx, const struct xsk_socket_config *config)
{
	if (!u)
		return -EFAULT;
	return xsk_socket__create_shared(made, ifname, queue, u, rx, tx, u->fill_saved, u->comp_saved, config);
}

/* The model's socket goes on: a program that deletes one has ended its part. */
void xsk_socket__delete(struct xsk_socket *x)
{
	if (!x)
		return;
	enter(NULL);
	if (!x->deleted) {
		x->deleted = true;
		x->umem->users--;
		if (x->fd != x->umem->fd)
			close(x->fd);
	}
	leave();
}

/* What it sent is written. Its bench stays in memory: what that was opened over isn't given back at a close either. */
int xsk_umem__delete(struct xsk_umem *u)
{
	uint32_t i;
	if (!u)
		return 0;
	enter(NULL);
	if (u->users || u->deleted) {
		leave();
		return -EBUSY;
	}
	write_all();
	tell_end(u);
	for (i = 0; i < u->chunk_count; i++)
		guard(u, i, true);
	u->deleted = true;
	close(u->fd);
	leave();
	return 0;
}

struct xsk_socket *socket_of(int fd)
{
	for (struct xsk_umem *u = umems; u && fd >= 0; u = u->next)
		for (uint32_t i = 0; i < u->socket_count; i++)
			if (u->sockets[i]->fd == fd && !u->sockets[i]->deleted)
				return u->sockets[i];
	return NULL;
}

int xsk_umem__fd(const struct xsk_umem *u) { return u ? u->fd : -EINVAL; }

int xsk_socket__fd(const struct xsk_socket *x) { return x ? x->fd : -EINVAL; }

/* Each socket with RX gets its packets, whatever is loaded. */
int xsk_setup_xdp_prog(int ifindex, int *xsks_map_fd)
{
	(void)ifindex;
	if (xsks_map_fd)
		*xsks_map_fd = 0;
	return 0;
}

int xsk_socket__update_xskmap(struct xsk_socket *x, int xsks_map_fd)
{
	(void)xsks_map_fd;
	return x ? 0 : -EINVAL;
}
