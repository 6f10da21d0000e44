/* Stands in for the proved library where that isn't built: the same exports (xsk_c.h), small and plain, and nothing of it is proved. It
 * takes captures as they are written here (little-endian, microseconds) and packets of one frame; it has no need-wakeup and no journal. */
#include "xsk_c.h"
#include <stdio.h>
#include <stdlib.h>
#include <string.h>

struct entry {
	uint64_t addr;
	uint32_t len, options;
};
struct ring {
	struct entry *entries;
	uint32_t size, head, out, held, room;
};
struct stub_pair {
	struct ring fill, comp;
	uint32_t next, sent_count; /* the packet that it is to receive, and those it sent */
	struct entry *sent;
	uint64_t dropped, fill_empty;
};
struct stub_socket {
	struct ring rx, tx;
	uint64_t invalid, full, tx_empty;
};
struct stub {
	struct xsk_c_layout l;
	struct stub_pair pairs[16];
	struct stub_socket sockets[64];
	uint8_t *umem, *text, *sent_bytes;
	uint8_t *ports[4];
	uint32_t *offsets[4], counts[4]; /* of each packet's record */
	size_t sent_at;
	uint8_t *had; /* by frame: the application that has it, and one more; 0: none */
};

static uint32_t number(const uint8_t *p)
{
	uint32_t v;
	memcpy(&v, p, 4);
	return v;
}

static uint32_t sum(const uint8_t *p, uint32_t n)
{
	uint32_t s = 0;
	while (n--)
		s += *p++;
	return s;
}

static void ring_of(struct ring *r, uint32_t size)
{
	r->size = size;
	r->entries = calloc(size, sizeof *r->entries);
}

static uint32_t places(const struct ring *r) { return r->size - r->out - r->held - r->room; }

static void put(struct ring *r, struct entry e) { r->entries[(r->head + r->out++) % r->size] = e; }

static struct entry take(struct ring *r)
{
	struct entry e = r->entries[r->head];
	r->head = (r->head + 1) % r->size;
	r->out--;
	return e;
}

static bool is_size(uint32_t n) { return n >= 2 && n <= 2048 && !(n & (n - 1)); }
static bool is_count(uint32_t n) { return n == 1 || n == 2 || n == 4; }

static uint32_t fault_of(const struct xsk_c_layout *l, size_t captures)
{
	uint32_t pairs = l->ports * l->queues;
	if (l->ports != 2 && l->ports != 4)
		return XSK_C_BAD_PORTS;
	if (!is_count(l->queues))
		return XSK_C_BAD_QUEUES;
	if (!is_count(l->sockets))
		return XSK_C_BAD_SOCKETS;
	if (captures != l->ports)
		return XSK_C_BAD_CAPTURES;
	if (l->chunk != 2048 && l->chunk != 4096)
		return XSK_C_BAD_CHUNK;
	if (l->headroom >= l->chunk - 256)
		return XSK_C_BAD_HEADROOM;
	if (!l->frames || l->frames > 4096 || l->frames % pairs)
		return XSK_C_BAD_FRAMES;
	if (!is_size(l->rx))
		return XSK_C_BAD_RX;
	if (!is_size(l->tx))
		return XSK_C_BAD_TX;
	if (!is_size(l->fill))
		return XSK_C_BAD_FILL;
	if (!is_size(l->comp))
		return XSK_C_BAD_COMP;
	return l->frames / pairs > l->fill ? XSK_C_BAD_POOL : XSK_C_DONE;
}

/* Finds the records of a port's capture. */
static uint32_t records(struct stub *s, uint32_t port, const uint8_t *text, uint64_t begin, uint64_t end)
{
	uint64_t at = begin + 24;
	if (end < at)
		return XSK_C_SHORT_HEADER;
	if (number(text + begin) != 0xa1b2c3d4)
		return XSK_C_BAD_MAGIC;
	s->offsets[port] = malloc((end - begin) / 4 + 8);
	while (at < end) {
		if (end - at < 16 || end - at - 16 < number(text + at + 8))
			return XSK_C_TRUNCATED;
		s->offsets[port][s->counts[port]++] = (uint32_t)at;
		at += 16 + number(text + at + 8);
	}
	return XSK_C_DONE;
}

uint32_t xsk_c_open(
	struct xsk_c *h, const struct xsk_c_layout *l, const uint8_t *text, size_t text_len, const uint64_t *ends, size_t ends_len)
{
	uint32_t fault = fault_of(l, ends_len), p, i, pool;
	struct stub *s;
	if (h->live)
		return XSK_C_LIVE;
	if (fault)
		return fault;
	s = calloc(1, sizeof *s);
	s->l = *l;
	s->text = malloc(text_len + 1);
	memcpy(s->text, text, text_len);
	s->umem = calloc(l->frames, l->chunk);
	s->had = calloc(l->frames, 1);
	s->sent_bytes = malloc((size_t)l->sent_bytes + 1);
	for (p = 0; p < l->ports; p++) {
		fault = records(s, p, s->text, p ? ends[p - 1] : 0, ends[p]);
		if (fault)
			return fault;
	}
	pool = l->frames / (l->ports * l->queues);
	for (p = 0; p < l->ports * l->queues; p++) {
		ring_of(&s->pairs[p].fill, l->fill);
		ring_of(&s->pairs[p].comp, l->comp);
		s->pairs[p].sent = malloc((size_t)l->sent_packets * sizeof(struct entry));
		for (i = 0; i < pool; i++)
			put(&s->pairs[p].fill, (struct entry){.addr = (uint64_t)(p * pool + i) * l->chunk});
		for (i = 0; i < l->sockets; i++) {
			ring_of(&s->sockets[p * l->sockets + i].rx, l->rx);
			ring_of(&s->sockets[p * l->sockets + i].tx, l->tx);
		}
	}
	h->at = s;
	h->live = true;
	return XSK_C_DONE;
}

uint32_t xsk_c_close(struct xsk_c *h)
{
	struct stub *s = h->at;
	uint32_t p, i;
	if (!h->live)
		return XSK_C_NOT_LIVE;
	for (p = 0; p < s->l.ports * s->l.queues; p++) {
		free(s->pairs[p].fill.entries);
		free(s->pairs[p].comp.entries);
		free(s->pairs[p].sent);
		for (i = 0; i < s->l.sockets; i++) {
			free(s->sockets[p * s->l.sockets + i].rx.entries);
			free(s->sockets[p * s->l.sockets + i].tx.entries);
		}
	}
	for (p = 0; p < s->l.ports; p++)
		free(s->offsets[p]);
	free(s->text);
	free(s->umem);
	free(s->had);
	free(s->sent_bytes);
	free(s);
	h->live = false;
	return XSK_C_DONE;
}

/* The ring of a call, if it is this application's. */
static uint32_t find(struct stub *s, uint32_t app, uint32_t kind, uint32_t ring, bool produces, struct ring **found)
{
	uint32_t pairs = s->l.ports * s->l.queues, pair = kind < XSK_C_RX ? ring : ring / s->l.sockets;
	if (kind > XSK_C_TX)
		return XSK_C_NO_SUCH;
	if (app >= s->l.ports / 2 * s->l.queues)
		return XSK_C_NO_CALLER;
	if (pair >= pairs)
		return XSK_C_UNKNOWN;
	if (pair / s->l.queues / 2 * s->l.queues + pair % s->l.queues != app || produces != (kind == XSK_C_FILL || kind == XSK_C_TX))
		return XSK_C_NOT_ITS_OWN;
	*found = kind == XSK_C_FILL   ? &s->pairs[ring].fill
		 : kind == XSK_C_COMP ? &s->pairs[ring].comp
		 : kind == XSK_C_RX   ? &s->sockets[ring].rx
				      : &s->sockets[ring].tx;
	return XSK_C_DONE;
}

static uint32_t reserve(struct xsk_c *h, uint32_t app, uint32_t kind, uint32_t ring, uint32_t count, uint64_t *free)
{
	struct ring *r = NULL;
	uint32_t fault = h->live ? find(h->at, app, kind, ring, true, &r) : (uint32_t)XSK_C_NOT_LIVE;
	if (fault)
		return fault;
	if (count < 1 || count > XSK_C_MOST)
		return XSK_C_COUNT;
	if (places(r) < count) {
		*free = places(r);
		return XSK_C_FULL;
	}
	r->room += count;
	return XSK_C_DONE;
}

uint32_t xsk_c_submit(struct xsk_c *h, uint32_t app, uint32_t kind, uint32_t ring, const struct xsk_c_desc *d, size_t n)
{
	struct stub *s = h->at;
	struct ring *r = NULL;
	uint32_t fault = h->live ? find(s, app, kind, ring, true, &r) : (uint32_t)XSK_C_NOT_LIVE;
	size_t i, j;
	if (fault)
		return fault;
	if (n < 1 || n > XSK_C_MOST)
		return XSK_C_COUNT;
	if (n > r->room)
		return XSK_C_PLACES;
	for (i = 0; i < n; i++) {
		uint64_t frame = d[i].addr / s->l.chunk;
		for (j = 0; j < i; j++)
			if (frame < s->l.frames && d[j].addr / s->l.chunk == frame)
				return XSK_C_FRAMES;
		if (frame < s->l.frames && s->had[frame] != app + 1)
			return XSK_C_FRAMES;
	}
	for (i = 0; i < n; i++) {
		uint64_t frame = d[i].addr / s->l.chunk;
		if (frame < s->l.frames)
			s->had[frame] = 0;
		put(r, (struct entry){d[i].addr, d[i].len, d[i].options});
		r->room--;
	}
	return XSK_C_DONE;
}

uint32_t xsk_c_peek(struct xsk_c *h, uint32_t app, uint32_t kind, uint32_t ring, struct xsk_c_desc *d, size_t n, uint32_t *count)
{
	struct stub *s = h->at;
	struct ring *r = NULL;
	uint32_t fault = h->live ? find(s, app, kind, ring, false, &r) : (uint32_t)XSK_C_NOT_LIVE;
	if (fault)
		return fault;
	if (n < 1 || n > XSK_C_MOST)
		return XSK_C_COUNT;
	if (!r->out)
		return XSK_C_EMPTY;
	for (*count = 0; *count < n && r->out; ++*count) {
		struct entry e = take(r);
		r->held++;
		if (e.addr / s->l.chunk < s->l.frames)
			s->had[e.addr / s->l.chunk] = (uint8_t)(app + 1);
		d[*count] = (struct xsk_c_desc){e.addr, e.len, e.options};
	}
	return XSK_C_DONE;
}

static uint32_t release(struct xsk_c *h, uint32_t app, uint32_t kind, uint32_t ring, uint32_t count)
{
	struct ring *r = NULL;
	uint32_t fault = h->live ? find(h->at, app, kind, ring, false, &r) : (uint32_t)XSK_C_NOT_LIVE;
	if (fault)
		return fault;
	if (count < 1 || count > XSK_C_MOST)
		return XSK_C_COUNT;
	if (count > r->held)
		return XSK_C_PLACES;
	r->held -= count;
	return XSK_C_DONE;
}

uint32_t xsk_c_call(struct xsk_c *h, uint32_t app, const struct xsk_c_asked *asked, uint64_t *told)
{
	if (asked->op == XSK_C_RESERVE)
		return reserve(h, app, asked->kind, asked->index, asked->count, told);
	if (asked->op == XSK_C_RELEASE)
		return release(h, app, asked->kind, asked->index, asked->count);
	*told = 0;
	return h->live ? XSK_C_DONE : XSK_C_NOT_LIVE;
}

/* The bytes of a frame that an application has, from an address on. */
static uint32_t frame_at(struct xsk_c *h, uint64_t addr, size_t len, uint8_t **bytes)
{
	struct stub *s = h->at;
	if (!h->live)
		return XSK_C_NOT_LIVE;
	if (addr / s->l.chunk >= s->l.frames || !s->had[addr / s->l.chunk])
		return XSK_C_NO_SUCH;
	*bytes = s->umem + addr;
	return addr % s->l.chunk + len <= s->l.chunk ? XSK_C_DONE : XSK_C_SHORT;
}

uint32_t xsk_c_write(struct xsk_c *h, uint64_t addr, const uint8_t *bytes, size_t len)
{
	uint8_t *to = NULL;
	uint32_t answer = frame_at(h, addr, len, &to);
	if (answer == XSK_C_DONE)
		memcpy(to, bytes, len);
	return answer;
}

uint32_t xsk_c_read(struct xsk_c *h, uint64_t addr, uint8_t *out, size_t len)
{
	uint8_t *from = NULL;
	uint32_t answer = frame_at(h, addr, len, &from);
	if (answer == XSK_C_DONE)
		memcpy(out, from, len);
	return answer;
}

/* The driver of a pair sends one packet, or receives one; else it says so. */
static bool sends(struct stub *s, uint32_t pair)
{
	struct stub_pair *p = &s->pairs[pair];
	uint32_t i, chunk = s->l.chunk;
	for (i = 0; i < s->l.sockets; i++) {
		struct stub_socket *socket = &s->sockets[pair * s->l.sockets + i];
		struct entry e;
		if (!socket->tx.out)
			socket->tx_empty++;
		if (!socket->tx.out || !places(&p->comp))
			continue;
		e = take(&socket->tx);
		if (e.addr / chunk >= s->l.frames || !e.len || e.addr % chunk + e.len > chunk || e.options) {
			socket->invalid++;
			return true;
		}
		memcpy(s->sent_bytes + s->sent_at, s->umem + e.addr, e.len);
		p->sent[p->sent_count++] = (struct entry){s->sent_at, e.len, 0};
		s->sent_at += e.len;
		put(&p->comp, (struct entry){.addr = e.addr});
		return true;
	}
	return false;
}

static bool receives(struct stub *s, uint32_t pair)
{
	struct stub_pair *p = &s->pairs[pair];
	uint32_t port = pair / s->l.queues;
	for (; p->next < s->counts[port]; p->next++) {
		const uint8_t *record = s->text + s->offsets[port][p->next];
		uint32_t len = number(record + 8);
		struct stub_socket *socket = &s->sockets[pair * s->l.sockets + sum(record + 16, len < 14 ? len : 14) % s->l.sockets];
		struct entry e;
		if (sum(record + 16, len < 12 ? len : 12) % s->l.queues != pair % s->l.queues)
			continue;
		if (len < 14 || len > s->l.chunk - 256 - s->l.headroom) {
			p->dropped += len >= 14;
			continue;
		}
		if (!p->fill.out || !places(&socket->rx)) {
			p->fill_empty += !p->fill.out;
			socket->full += p->fill.out && s->l.drops;
			p->dropped += !p->fill.out && s->l.drops;
			p->next += s->l.drops;
			return s->l.drops;
		}
		e = take(&p->fill);
		e = (struct entry){e.addr / s->l.chunk * s->l.chunk + 256 + s->l.headroom, len, 0};
		if (e.addr / s->l.chunk < s->l.frames)
			memcpy(s->umem + e.addr, record + 16, len);
		put(&socket->rx, e);
		p->next++;
		return true;
	}
	return false;
}

uint32_t xsk_c_round(struct xsk_c *h, bool *still)
{
	struct stub *s = h->at;
	uint32_t pair;
	if (!h->live)
		return XSK_C_NOT_LIVE;
	*still = true;
	for (pair = 0; pair < s->l.ports * s->l.queues; pair++)
		if (sends(s, pair) || receives(s, pair))
			*still = false;
	return XSK_C_DONE;
}

uint32_t xsk_c_run_drivers(struct xsk_c *h, uint32_t most, bool *wait)
{
	*wait = false;
	while (most-- && !*wait) {
		uint32_t fault = xsk_c_round(h, wait);
		if (fault)
			return fault;
	}
	return XSK_C_DONE;
}

uint32_t xsk_c_statistics(struct xsk_c *h, uint32_t pair, uint32_t class_, struct xsk_c_statistics *told)
{
	struct stub *s = h->at;
	if (!h->live)
		return XSK_C_NOT_LIVE;
	if (pair >= s->l.ports * s->l.queues || class_ >= s->l.sockets)
		return XSK_C_NO_SUCH;
	*told = (struct xsk_c_statistics){.rx_dropped = s->pairs[pair].dropped,
		.rx_fill_ring_empty_descs = s->pairs[pair].fill_empty,
		.tx_invalid_descs = s->sockets[pair * s->l.sockets + class_].invalid,
		.rx_ring_full = s->sockets[pair * s->l.sockets + class_].full,
		.tx_ring_empty_descs = s->sockets[pair * s->l.sockets + class_].tx_empty};
	return XSK_C_DONE;
}

uint32_t xsk_c_sent(struct xsk_c *h, uint32_t pair, uint32_t *count)
{
	struct stub *s = h->at;
	if (!h->live)
		return XSK_C_NOT_LIVE;
	if (pair >= s->l.ports * s->l.queues)
		return XSK_C_NO_SUCH;
	*count = s->pairs[pair].sent_count;
	return XSK_C_DONE;
}

uint32_t xsk_c_packet(struct xsk_c *h, uint32_t pair, uint32_t n, uint8_t *out, size_t out_len, uint64_t *len)
{
	struct stub *s = h->at;
	uint32_t count = 0, fault = xsk_c_sent(h, pair, &count);
	if (fault || n >= count)
		return fault ? fault : (uint32_t)XSK_C_NO_SUCH;
	*len = s->pairs[pair].sent[n].len;
	if (out_len < *len)
		return XSK_C_SHORT;
	memcpy(out, s->sent_bytes + s->pairs[pair].sent[n].addr, *len);
	return XSK_C_DONE;
}

uint32_t xsk_c_journal(struct xsk_c *h, uint32_t from, uint8_t *out, size_t out_len, uint32_t *next, uint64_t *end)
{
	(void)out, (void)out_len;
	*next = from;
	*end = 0;
	return h->live ? XSK_C_DONE : XSK_C_NOT_LIVE;
}

uint32_t xsk_c_why(uint32_t answer, uint8_t *out, size_t out_len, uint64_t *len)
{
	static const char *const texts[] = {"there is no such caller", "there is no such ring or mark",
		"it isn't the caller's own", "the number isn't from 1 to 32, or none that the mark can have",
		"fewer places are reserved, or fewer items were peeked", "an item may not stand in the ring",
		"the caller doesn't have these frames", "the items aren't the packets that may stand there", "the ring was ended",
		"the mark may not be set to this number now"};
	char other[40];
	const char *text = other;
	if (answer >= XSK_C_NO_CALLER && answer <= XSK_C_NOT_NOW)
		text = texts[answer - XSK_C_NO_CALLER];
	else
		snprintf(other, sizeof other, "answer %u", answer);
	*len = strlen(text);
	if (out_len < *len)
		return XSK_C_SHORT;
	memcpy(out, text, *len);
	return XSK_C_DONE;
}
