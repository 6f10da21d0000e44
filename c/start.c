/* The start: behind the last socket and before the first call that needs the model. The bench is opened over the captures, and all frames
 * are handed over. At the model's opening they stand on FILL, and here the program has them; so each driver's packets begin with as many
 * short ones as its FILL has frames, and these are peeked and released before anything else. */
#include "world.h"
#include <stdlib.h>
#include <string.h>

enum { HEADER = 24, RECORD = 16, PRIMER = 60, MOST_BYTES = 262144, MOST_ROUNDS = 1000000 };

struct text { /* the captures, one behind the other */
	uint8_t *bytes;
	size_t len, room;
};

struct capture { /* one that is read, in either byte order */
	uint8_t *bytes;
	size_t len;
	bool swapped;
};

static uint32_t swap32(uint32_t v) { return v >> 24 | (v >> 8 & 0xff00) | (v << 8 & 0xff0000) | v << 24; }

static uint32_t number_at(const struct capture *c, size_t at)
{
	uint32_t v;
	memcpy(&v, c->bytes + at, sizeof v);
	return c->swapped ? swap32(v) : v;
}

static void put(struct text *t, const void *bytes, size_t len)
{
	if (t->room - t->len < len) {
		t->room = 2 * (t->room + len);
		t->bytes = realloc(t->bytes, t->room);
		if (!t->bytes)
			die("out of memory");
	}
	memcpy(t->bytes + t->len, bytes, len);
	t->len += len;
}

static void put_packet(struct text *t, const uint8_t *packet, uint32_t len)
{
	uint32_t record[4] = {0, 0, len, len};
	put(t, record, sizeof record);
	put(t, packet, len);
}

static struct capture read_capture(const char *name)
{
	FILE *f = fopen(name, "rb");
	struct capture c = {0};
	size_t room = 0, got;
	if (!f)
		die("XSK_IN: %s can't be read", name);
	do {
		if (c.len == room)
			c.bytes = realloc(c.bytes, room = 2 * room + 65536);
		if (!c.bytes)
			die("out of memory");
		got = fread(c.bytes + c.len, 1, room - c.len, f);
		c.len += got;
	} while (got);
	if (ferror(f))
		die("XSK_IN: %s can't be read", name);
	fclose(f);
	if (c.len < HEADER)
		die("XSK_IN: %s is no capture: it has %zu bytes", name, c.len);
	c.swapped = c.bytes[0] == 0xa1;
	if ((number_at(&c, 0) != 0xa1b2c3d4 && number_at(&c, 0) != 0xa1b23c4d) || (number_at(&c, 20) & 0xffff) != 1)
		die("XSK_IN: %s is no capture of Ethernet packets (pcap; pcapng and compressed files aren't read)", name);
	return c;
}

static uint32_t sum(const uint8_t *bytes, uint32_t len, uint32_t most)
{
	uint32_t s = 0, i;
	for (i = 0; i < len && i < most; i++)
		s += bytes[i];
	return s;
}

static struct pair *pair_at(struct xsk_umem *u, uint32_t port, uint32_t queue)
{
	for (struct pair *p = u->pairs; p < u->pairs + u->pair_count; p++)
		if (p->port == port && p->queue == queue)
			return p;
	return NULL;
}

/* The packets of a port's capture for which there is a socket with RX. */
static void put_own(struct xsk_umem *u, struct text *t, uint32_t port, const char *name)
{
	struct capture c = read_capture(name);
	uint32_t room = u->layout.chunk - 256 - u->layout.headroom, most = u->sg ? 18 * room : room;
	size_t at = HEADER;
	while (at < c.len) {
		uint32_t len = c.len - at < RECORD ? MOST_BYTES + 1 : number_at(&c, at + 8);
		const uint8_t *packet = c.bytes + at + RECORD;
		struct pair *p;
		uint32_t class_;
		if (len > MOST_BYTES || c.len - at - RECORD < len)
			die("XSK_IN: %s breaks off, or isn't one, at byte %zu", name, at);
		at += RECORD + len;
		p = pair_at(u, port, sum(packet, len, 12) % u->layout.queues);
		class_ = sum(packet, len, 14) % u->layout.sockets;
		if (!p || class_ >= p->socket_count || !p->sockets[class_]->rx) {
			u->strays[port]++;
			continue;
		}
		p->packets += len >= 14 && len <= most;
		put_packet(t, packet, len);
	}
	free(c.bytes);
}

static void put_capture(struct xsk_umem *u, struct text *t, uint32_t port)
{
	static const uint32_t header[6] = {0xa1b2c3d4, 2 | 4 << 16, 0, 0, MOST_BYTES, 1};
	uint8_t primer[PRIMER] = {0};
	char name[4096];
	put(t, header, sizeof header);
	for (uint32_t queue = 0; queue < u->layout.queues; queue++) {
		primer[11] = (uint8_t)queue; /* the queue by the first 12 bytes, and class 0 by 14 */
		primer[13] = (uint8_t)((u->layout.sockets - queue % u->layout.sockets) % u->layout.sockets);
		for (uint32_t k = 0; k < u->pool; k++)
			put_packet(t, primer, PRIMER);
	}
	if (port < u->port_count && named_in("XSK_IN", u->ports[port], name, sizeof name))
		put_own(u, t, port, name);
}

static uint32_t up(uint32_t n)
{
	uint32_t p = 1;
	while (p < n)
		p *= 2;
	return p;
}

static void raise_to(uint32_t *size, const struct side *s)
{
	if (s && s->capacity > *size)
		*size = s->capacity;
}

static void lay_out(struct xsk_umem *u)
{
	struct xsk_c_layout *l = &u->layout;
	uint32_t pairs, wanted, i;
	*l = (struct xsk_c_layout){.ports = u->port_count <= 2 ? 2 : 4,
		.queues = 1,
		.sockets = 1,
		.chunk = u->config.frame_size,
		.headroom = u->config.frame_headroom,
		.rx = 2,
		.tx = 2,
		.fill = 2,
		.comp = 2,
		.sg = u->sg,
		.wakeup = u->wakeup && !settings.copy,
		.drops = settings.drops,
		.sent_packets = settings.room};
	for (i = 0; i < u->pair_count; i++) {
		struct pair *p = &u->pairs[i];
		if (up(p->queue + 1) > l->queues)
			l->queues = up(p->queue + 1);
		if (up(p->socket_count) > l->sockets)
			l->sockets = up(p->socket_count);
		raise_to(&l->fill, p->fill);
		raise_to(&l->comp, p->comp);
	}
	for (i = 0; i < u->socket_count; i++) {
		raise_to(&l->rx, u->sockets[i]->rx);
		raise_to(&l->tx, u->sockets[i]->tx);
	}
	pairs = l->ports * l->queues;
	u->apps = pairs / 2;
	wanted = u->chunk_count > MOST_FRAMES / u->apps ? MOST_FRAMES : u->chunk_count * u->apps;
	u->pool = (wanted + pairs - 1) / pairs;
	l->frames = u->pool * pairs;
	if (up(u->pool) > l->fill)
		l->fill = up(u->pool);
	l->sent_bytes = settings.room > UINT32_MAX / 1024 ? UINT32_MAX : settings.room * 1024;
}

static void number_sides(struct xsk_umem *u)
{
	for (uint32_t i = 0; i < u->pair_count; i++) {
		struct pair *p = &u->pairs[i];
		p->number = p->port * u->layout.queues + p->queue;
		p->fill->number = p->comp->number = p->number;
		p->fill->app = p->comp->app = p->port / 2 * u->layout.queues + p->queue;
	}
	for (uint32_t i = 0; i < u->socket_count; i++) {
		struct xsk_socket *x = u->sockets[i];
		uint32_t number = x->pair->number * u->layout.sockets + x->class_;
		if (x->rx)
			x->rx->number = number, x->rx->app = x->pair->fill->app;
		if (x->tx)
			x->tx->number = number, x->tx->app = x->pair->fill->app;
	}
}

static void open_bench(struct xsk_umem *u)
{
	struct text t = {0};
	uint64_t ends[MOST_PORTS], len = 0;
	uint8_t why[160];
	uint32_t answer;
	for (uint32_t port = 0; port < u->layout.ports; port++) {
		put_capture(u, &t, port);
		ends[port] = t.len;
	}
	answer = xsk_c_open(&u->bench, &u->layout, t.bytes, t.len, ends, u->layout.ports);
	free(t.bytes);
	if (answer == XSK_C_DONE)
		return;
	xsk_c_why(answer, why, sizeof why, &len);
	die("the sockets can't be opened in the model: %.*s", (int)len, (char *)why);
}

static void set_up_frames(struct xsk_umem *u)
{
	uint32_t frames = u->layout.frames, per_app = frames / u->apps, frame, app;
	u->chunk_of = malloc(frames * sizeof *u->chunk_of);
	u->stock = malloc(frames * sizeof *u->stock);
	if (!u->chunk_of || !u->stock)
		die("out of memory");
	for (frame = frames; frame--;) { /* the lowest lies on top */
		uint32_t pair = frame / u->pool;
		app = pair / u->layout.queues / 2 * u->layout.queues + pair % u->layout.queues;
		u->chunk_of[frame] = NO_FRAME;
		if (u->apps == 1 && frame < u->chunk_count) {
			u->chunk_of[frame] = frame;
			u->chunks[frame].frame = frame;
		} else {
			u->stock[app * per_app + u->stock_count[app]++] = frame;
		}
	}
}

/* The packets before the program's own are taken, and with them the frames. */
static void hand_over(struct xsk_umem *u)
{
	uint32_t pairs = u->layout.ports * u->layout.queues, left = u->layout.frames, pair, got[MOST_PAIRS] = {0}, rounds = 0;
	while (left) {
		bool still = false;
		if (xsk_c_round(&u->bench, &still) != XSK_C_DONE || rounds++ == MOST_ROUNDS)
			die("the frames couldn't be handed over");
		for (pair = 0; pair < pairs; pair++) {
			struct xsk_c_desc items[XSK_C_MOST];
			uint32_t count = 0, socket = pair * u->layout.sockets, wanted = u->pool - got[pair], answer;
			uint32_t app = pair / u->layout.queues / 2 * u->layout.queues + pair % u->layout.queues;
			if (wanted > XSK_C_MOST)
				wanted = XSK_C_MOST;
			if (!wanted)
				continue;
			answer = xsk_c_peek(&u->bench, app, XSK_C_RX, socket, items, wanted, &count);
			if (answer == XSK_C_EMPTY)
				continue;
			if (answer != XSK_C_DONE || xsk_c_release(&u->bench, app, XSK_C_RX, socket, count) != XSK_C_DONE)
				die("the frames couldn't be handed over");
			got[pair] += count;
			left -= count;
		}
	}
}

/* Where the model's ring is larger than the program's, places are reserved and never filled. */
static void keep_out(struct xsk_umem *u, struct side *s, uint32_t size)
{
	uint32_t count = s ? size - s->capacity : 0, free = 0;
	while (count) {
		uint32_t n = count < XSK_C_MOST ? count : (uint32_t)XSK_C_MOST;
		if (xsk_c_reserve(&u->bench, s->app, s->kind, s->number, n, &free) != XSK_C_DONE)
			die("a ring of the model couldn't be made smaller");
		count -= n;
	}
}

/* What the program put on FILL so far is passed on. */
static void pass_begun(struct xsk_umem *u, struct side *s)
{
	uint32_t free = 0, count = s->reserved - s->passed;
	if (s->capacity == s->size) {
		while (count) {
			uint32_t n = count < XSK_C_MOST ? count : (uint32_t)XSK_C_MOST;
			if (xsk_c_reserve(&u->bench, s->app, s->kind, s->number, n, &free) != XSK_C_DONE)
				die("FILL couldn't be filled");
			s->room += n;
			count -= n;
		}
		s->holds = false;
	}
	pass(s, UINT32_MAX);
}

void start(struct xsk_umem *u)
{
	if (u->started)
		return;
	if (!u->socket_count)
		die("a ring is used before the UMEM has a socket");
	lay_out(u);
	number_sides(u);
	open_bench(u);
	set_up_frames(u);
	hand_over(u);
	u->started = true;
	for (uint32_t i = 0; i < u->pair_count; i++) {
		struct pair *p = &u->pairs[i];
		for (uint32_t class_ = 0; class_ < p->socket_count; class_++)
			xsk_c_statistics(&u->bench, p->number, class_, &p->before[class_]);
		keep_out(u, p->fill, u->layout.fill);
	}
	for (uint32_t i = 0; i < u->socket_count; i++)
		keep_out(u, u->sockets[i]->tx, u->layout.tx);
	for (uint32_t i = 0; i < u->pair_count; i++) {
		uint64_t old = 0;
		pass_begun(u, u->pairs[i].fill);
		if (u->layout.wakeup) /* no driver sleeps at the start */
			xsk_c_swap(&u->bench, u->pairs[i].fill->app, XSK_C_KICK, u->pairs[i].number, 1, &old);
	}
}
