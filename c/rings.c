/* The ring calls: each is one or more of the model, which judges them. */
#include "world.h"
#include <string.h>

/* An address that stands for none: what wasn't legal among entries that are held back. */
#define SKIPPED UINT64_MAX

static uint32_t min(uint32_t a, uint32_t b) { return a < b ? a : b; }

static struct side *side_of(const __u32 *producer) { return (struct side *)(uintptr_t)producer; }

uint32_t entry_size(enum xsk_c_ring kind) { return kind == XSK_C_FILL || kind == XSK_C_COMP ? sizeof(__u64) : sizeof(struct xdp_desc); }

static inline struct xdp_desc entry_at(const struct side *s, uint32_t index)
{
	struct xdp_desc e = {0};
	if (entry_size(s->kind) == sizeof e)
		return ((struct xdp_desc *)s->entries)[index & (s->size - 1)];
	e.addr = ((__u64 *)s->entries)[index & (s->size - 1)];
	return e;
}

static void set_entry(struct side *s, uint32_t index, struct xdp_desc e)
{
	if (entry_size(s->kind) == sizeof e)
		((struct xdp_desc *)s->entries)[index & (s->size - 1)] = e;
	else
		((__u64 *)s->entries)[index & (s->size - 1)] = e.addr;
}

/* ---- addresses: the model's frames stand for the program's chunks. With one application each stands for that of its number. */

static uint32_t app_of_frame(const struct xsk_umem *u, uint32_t frame)
{
	uint32_t pair = frame / u->pool;
	return pair / u->layout.queues / 2 * u->layout.queues + pair % u->layout.queues;
}

/* The frame of a chunk for an application, which gets another where the chunk was another's. */
static uint32_t frame_for(struct xsk_umem *u, uint32_t number, uint32_t app)
{
	struct chunk *c = &u->chunks[number];
	uint32_t per_app, old = c->frame;
	if (c->frame != NO_FRAME && (u->apps == 1 || app_of_frame(u, c->frame) == app))
		return c->frame;
	per_app = u->layout.frames / u->apps;
	if (!u->stock_count[app])
		die("more chunks are in use on one queue than the model has frames for it (%u)", per_app);
	c->frame = u->stock[app * per_app + --u->stock_count[app]];
	u->chunk_of[c->frame] = number;
	if (old != NO_FRAME) {
		uint32_t before = app_of_frame(u, old);
		u->chunk_of[old] = NO_FRAME;
		u->stock[before * per_app + u->stock_count[before]++] = old;
	}
	return c->frame;
}

static uint64_t model_address(struct side *s, uint64_t address)
{
	struct xsk_umem *u = s->umem;
	uint64_t beyond = (uint64_t)u->layout.frames * u->layout.chunk;
	uint32_t number = chunk_number(u, address), frame;
	if (number == NO_FRAME)
		return address < UINT64_MAX - beyond ? beyond + address : address;
	frame = u->chunks[number].frame != NO_FRAME ? u->chunks[number].frame : frame_for(u, number, s->app);
	return ((uint64_t)frame << u->chunk_shift) + (address & (u->layout.chunk - 1));
}

static uint64_t program_address(const struct xsk_umem *u, uint64_t address)
{
	uint64_t frame = address >> u->chunk_shift;
	if (frame >= u->layout.frames || u->chunk_of[frame] == NO_FRAME)
		die("the model gave a frame that stands for no chunk");
	return ((uint64_t)u->chunk_of[frame] << u->chunk_shift) + (address & (u->layout.chunk - 1));
}

/* ---- FILL and TX */

/* Reserves places in the model: all are granted, or `free` tells how many there are. */
static bool ask(struct side *s, uint32_t count, uint32_t *free)
{
	while (count) {
		uint32_t n = min(count, XSK_C_MOST), answer = xsk_c_reserve(&s->umem->bench, s->app, s->kind, s->number, n, free);
		if (answer == XSK_C_FULL || !legal(s, "reserve", n, answer, -1))
			return false;
		s->room += n;
		count -= n;
	}
	return true;
}

/* The program may fill places up to this count. */
static void show_places(struct side *s, uint32_t free)
{
	uint32_t consumer = s->passed + s->room + free - s->capacity;
	if ((int32_t)(consumer - s->consumer) > 0)
		s->consumer = consumer;
}

/* Reserves all places that are free in the model. */
static void ask_all(struct side *s)
{
	uint32_t free = 0;
	while (ask(s, XSK_C_MOST, &free))
		;
	while (free && !ask(s, free, &free))
		;
	show_places(s, 0);
}

void xsk_model_reserve(struct xsk_ring_prod *r, __u32 nb)
{
	struct side *s = side_of(r->producer);
	struct xsk_umem *u = s->umem;
	uint32_t wanted, free = 0;
	enter(u);
	u->calls++;
	wanted = r->cached_prod + nb;
	if (u->started || s->kind == XSK_C_TX) {
		start(u);
		if (s->capacity != s->size) { /* the program's ring is larger than the model's */
			pass(s, UINT32_MAX);
			show_places(s, 0);
		} else if ((int32_t)(wanted - (s->passed + s->room)) > 0 && nb <= s->size) {
			ask(s, wanted - (s->passed + s->room), &free);
			show_places(s, free);
		}
		if ((int32_t)(s->consumer + s->size - wanted) < 0)
			found_nothing(u);
	}
	if ((int32_t)(s->consumer + s->size - wanted) >= 0)
		s->reserved = wanted;
	leave();
}

void xsk_model_free(struct xsk_ring_prod *r, __u32 nb)
{
	struct side *s = side_of(r->producer);
	enter(s->umem);
	s->umem->calls++;
	start(s->umem);
	ask_all(s);
	if (s->consumer + s->size - r->cached_prod < nb)
		found_nothing(s->umem);
	leave();
}

/* Whether the program has the chunk of an entry, by its own record; if so, it is noted that it has it no more. */
static inline bool give(struct side *s, uint64_t address)
{
	struct xsk_umem *u = s->umem;
	uint32_t number = chunk_number(u, address);
	struct chunk *c;
	if (number == NO_FRAME)
		return true;
	c = &u->chunks[number];
	if (c->has != WITH_PROGRAM)
		return false;
	if (u->started && (c->frame == NO_FRAME || u->apps != 1))
		frame_for(u, number, s->app);
	c->has = ON_RING;
	c->line = (uint32_t)here.line;
	c->file = here.file;
	c->side = s;
	c->call = u->calls;
	return true;
}

static void take_back(struct side *s, uint64_t address)
{
	uint32_t number = chunk_number(s->umem, address);
	if (number != NO_FRAME)
		s->umem->chunks[number].has = WITH_PROGRAM;
}

/* The entries of a Submit, as the model has them. */
struct part {
	struct xsk_c_desc items[XSK_C_MOST];
	uint32_t count, packets; /* that end among them */
	uint32_t invalid;	 /* descriptors that TX doesn't send */
};

/* Whether its bytes lie in one chunk. */
static inline bool is_inside(const struct xsk_umem *u, const struct xdp_desc *e)
{
	return e->addr < u->size && e->len <= u->layout.chunk - (e->addr & (u->layout.chunk - 1));
}

/* Whether TX sends it. */
static inline bool is_valid(const struct xsk_umem *u, const struct xdp_desc *e)
{
	return is_inside(u, e) && e->len && e->options <= (u->sg ? XDP_PKT_CONTD : 0);
}

/* Appends an entry to a part; with its bytes, if the program has its chunk. */
static inline void append(struct side *s, struct part *p, struct xdp_desc e, bool copies)
{
	struct xsk_umem *u = s->umem;
	struct xsk_c_desc *item = &p->items[p->count++];
	*item = (struct xsk_c_desc){model_address(s, e.addr), e.len, e.options};
	if (s->kind != XSK_C_TX)
		return;
	p->packets += !(e.options & XDP_PKT_CONTD);
	p->invalid += !is_valid(u, &e);
	if (!copies || !is_inside(u, &e))
		return;
	if (s->holds)
		guard(u, chunk_number(u, e.addr), true);
	xsk_c_write(&u->bench, item->addr, (const uint8_t *)u->area + e.addr, e.len);
}

/* Appends all entries up to the n-th, without bytes. */
static void append_rest(struct side *s, struct part *p, uint32_t n)
{
	while (p->count < n)
		append(s, p, entry_at(s, s->passed + p->count), false);
}

static uint32_t submit(struct side *s, const struct part *p)
{
	return xsk_c_submit(&s->umem->bench, s->app, s->kind, s->number, p->items, p->count);
}

/* Tells of the first descriptor of all that isn't valid. */
static void tell_invalid(struct side *s, uint32_t n)
{
	struct xdp_desc e = {0};
	uint32_t i;
	if (s->umem->invalid_told)
		return;
	s->umem->invalid_told = true;
	for (i = 0; i < n; i++) {
		e = entry_at(s, s->passed + i);
		if (!is_valid(s->umem, &e))
			break;
	}
	fprintf(stderr,
		"xsk: %s:%d: %s gets an invalid descriptor, address %llu length %u options %u: it counts in tx_invalid_descs, and its "
		"frame doesn't come back\n",
		here.file, here.line, name_of(s), (unsigned long long)e.addr, e.len, e.options);
}

static void guard_all(struct side *s, uint32_t from, uint32_t n)
{
	uint32_t i, number;
	for (i = 0; guards && i < n; i++) {
		number = chunk_number(s->umem, entry_at(s, from + i).addr);
		if (number != NO_FRAME)
			guard(s->umem, number, false);
	}
}

/* The chunks of a part have left the program. */
static void gone(struct side *s, const struct part *p)
{
	s->packets += p->packets;
	if (p->invalid)
		tell_invalid(s, p->count);
	guard_all(s, s->passed, p->count);
	s->passed += p->count;
	s->room -= p->count;
	acted(s->umem);
}

/* Passes entries that were held back on to the model, `most` of them or as many as there are places for; tells how many. */
uint32_t pass(struct side *s, uint32_t most)
{
	uint32_t done = 0;
	if (s->capacity != s->size)
		ask_all(s);
	while (done < most && s->passed != s->producer && s->room) {
		struct part p;
		uint32_t limit = min(min(XSK_C_MOST, s->producer - s->passed), min(most - done, s->room));
		p.count = p.packets = p.invalid = 0;
		while (p.count < limit && entry_at(s, s->passed + p.count).addr != SKIPPED)
			append(s, &p, entry_at(s, s->passed + p.count), true);
		if (p.count && legal(s, "submit", p.count, submit(s, &p), -1))
			gone(s, &p);
		else
			s->passed += p.count ? p.count : 1;
		done += p.count;
	}
	return done;
}

/* Whether the model knows that the program hasn't a chunk. */
static bool is_known(const struct chunk *c) { return c->has == ON_RING && !c->side->holds; }

/* Judges n entries, and holds those back that may be submitted. */
static void hold(struct side *s, uint32_t from, uint32_t n)
{
	uint32_t i, given = 0;
	while (given < n && give(s, entry_at(s, from + given).addr))
		given++;
	if (given == n) {
		guard_all(s, from, n);
		return;
	}
	legal(s, "submit", n, XSK_C_FRAMES, (int64_t)entry_at(s, from + given).addr);
	for (i = 0; i < given; i++)
		take_back(s, entry_at(s, from + i).addr);
	for (i = 0; i < n; i++)
		set_entry(s, from + i, (struct xdp_desc){.addr = SKIPPED});
}

/* Judges the next n entries, and makes a Submit of the model of them; one that isn't legal isn't made. */
static void submit_next(struct side *s, uint32_t n)
{
	struct part p;
	struct xdp_desc e = {0};
	uint32_t given, i, answer = XSK_C_FRAMES;
	p.count = p.packets = p.invalid = 0;
	while (p.count < n) {
		e = entry_at(s, s->passed + p.count);
		if (!give(s, e.addr))
			break;
		append(s, &p, e, true);
	}
	given = p.count;
	if (given == n || is_known(&s->umem->chunks[chunk_number(s->umem, e.addr)])) {
		append_rest(s, &p, n);
		answer = submit(s, &p);
	}
	if (given < n && answer == XSK_C_ITEMS) /* the model finds no frame for it */
		answer = XSK_C_FRAMES;
	if (legal(s, "submit", n, answer, given < n ? (int64_t)e.addr : -1)) {
		gone(s, &p);
		return;
	}
	for (i = 0; i < given; i++)
		take_back(s, entry_at(s, s->passed + i).addr);
	s->passed += n;
}

__u32 xsk_model_submit(struct xsk_ring_prod *r, __u32 nb)
{
	struct side *s = side_of(r->producer);
	struct xsk_umem *u = s->umem;
	uint32_t reserved, done = 0;
	enter(u);
	u->calls++;
	reserved = r->cached_prod - s->producer;
	if (s->kind == XSK_C_TX)
		start(u);
	/* where the model has more places reserved for it than the program knows of, its own count decides */
	if (nb > reserved && (s->holds || s->room != reserved) && !legal(s, "submit", nb, XSK_C_PLACES, -1))
		nb = reserved;
	while (done < nb) {
		uint32_t n = min(nb - done, XSK_C_MOST);
		if (s->holds) {
			hold(s, s->producer + done, n);
		} else if (n <= s->room) {
			submit_next(s, n);
		} else { /* the model refuses it */
			struct part p;
			p.count = p.packets = p.invalid = 0;
			append_rest(s, &p, n);
			legal(s, "submit", nb, submit(s, &p), -1);
			break;
		}
		done += n;
	}
	if (s->holds && u->started && !(s->kind == XSK_C_TX && settings.copy)) {
		s->producer += done; /* for pass() to see them */
		pass(s, UINT32_MAX);
		s->producer -= done;
	}
	leave();
	return done;
}

void xsk_model_look(const struct xsk_ring_prod *r)
{
	struct side *s = side_of(r->producer);
	struct xsk_umem *u = s->umem;
	uint64_t value = 0;
	enter(u);
	u->calls++;
	if (u->wakeup && !settings.copy) {
		start(u);
		if (legal(s, "look", 1,
			    xsk_c_look(&u->bench, s->app, s->kind == XSK_C_FILL ? XSK_C_NEED_FILL : XSK_C_NEED_TX, s->number, &value), -1))
			s->flags = value ? XDP_RING_NEED_WAKEUP : 0;
	}
	leave();
}

/* ---- RX and COMPLETION */

static void came(struct side *s, uint32_t index, const struct xsk_c_desc *item, enum having has)
{
	struct xsk_umem *u = s->umem;
	uint64_t address = program_address(u, item->addr);
	uint32_t number = (uint32_t)(address >> u->chunk_shift);
	struct chunk *c = &u->chunks[number];
	c->has = has;
	c->side = s;
	s->unseen += has == COME;
	guard(u, number, true);
	set_entry(s, index, (struct xdp_desc){.addr = address, .len = item->len, .options = item->options});
	if (s->kind == XSK_C_RX) {
		xsk_c_read(&u->bench, item->addr, (uint8_t *)u->area + address, item->len);
		s->packets += !(item->options & XDP_PKT_CONTD);
	}
}

/* Takes entries from the model into the program's ring, as many as are wanted; the program has their chunks then, or once it peeks them. */
void fetch(struct side *s, uint32_t wanted, enum having has)
{
	struct xsk_umem *u = s->umem;
	struct xsk_c_desc items[XSK_C_MOST];
	while (wanted) {
		uint32_t i, count = 0, n = min(min(wanted, XSK_C_MOST), s->size - (s->producer - s->consumer)), answer;
		if (!n)
			return;
		answer = xsk_c_peek(&u->bench, s->app, s->kind, s->number, items, n, &count);
		if (answer == XSK_C_EMPTY || !legal(s, "peek", n, answer, -1))
			return;
		for (i = 0; i < count; i++)
			came(s, s->producer + i, &items[i], has);
		s->producer += count;
		s->room += count;
		acted(u);
		if (count < n)
			return;
		wanted -= n;
	}
}

/* The program has the chunks of the n entries from number `from` on, or not yet. */
static void peeked(struct side *s, uint32_t from, uint32_t n, bool has)
{
	uint32_t i;
	for (i = 0; i < n; i++) {
		struct chunk *c = &s->umem->chunks[chunk_number(s->umem, entry_at(s, from + i).addr)];
		if (c->side != s || c->has != (has ? COME : WITH_PROGRAM))
			continue;
		c->has = has ? WITH_PROGRAM : COME;
		s->unseen += has ? -1u : 1u;
	}
}

void xsk_model_peek(struct xsk_ring_cons *r, __u32 nb)
{
	struct side *s = side_of(r->producer);
	struct xsk_umem *u = s->umem;
	uint32_t stand;
	bool anew;
	enter(u);
	u->calls++;
	start(u);
	anew = r->cached_prod == r->cached_cons; /* the program looks at the count */
	stand = (anew ? s->producer : r->cached_prod) - r->cached_cons;
	peeked(s, r->cached_cons, min(nb, stand), true);
	if (anew && stand < nb)
		fetch(s, nb - stand, WITH_PROGRAM);
	if (anew && nb && s->producer == r->cached_cons)
		found_nothing(u);
	leave();
}

void xsk_model_cancel(struct xsk_ring_cons *r, __u32 nb)
{
	struct side *s = side_of(r->producer);
	enter(s->umem);
	s->umem->calls++;
	if (nb > r->cached_cons - s->consumer)
		legal(s, "cancel", nb, XSK_C_PLACES, -1);
	else
		peeked(s, r->cached_cons - nb, nb, false);
	leave();
}

__u32 xsk_model_release(struct xsk_ring_cons *r, __u32 nb)
{
	struct side *s = side_of(r->producer);
	struct xsk_umem *u = s->umem;
	uint32_t had, done = 0;
	enter(u);
	u->calls++;
	had = r->cached_cons - s->consumer;
	start(u);
	/* where the model has given more than the program peeked, its own count decides */
	if (nb > had && s->room != had && !legal(s, "release", nb, XSK_C_PLACES, -1))
		nb = had;
	while (done < nb) {
		uint32_t n = min(nb - done, XSK_C_MOST);
		if (!legal(s, "release", nb, xsk_c_release(&u->bench, s->app, s->kind, s->number, n), -1))
			break;
		s->room -= n;
		done += n;
		acted(u);
	}
	leave();
	return done;
}
