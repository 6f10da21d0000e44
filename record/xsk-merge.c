/* xsk-merge: the files that xsk_record.h wrote, as one text of all calls in their order (docs/RECORDING.md).
 *
 *     xsk-merge [-u UMEM] FILE.. >RECORDING
 *
 * -u: which UMEM, by number from 0, where the program has several. What is missing is told on stderr. Status 0: all that was recorded is in
 * the text; 1: the text ends where something is missing, and is right up to there; 2: there is no text. */
#define _POSIX_C_SOURCE 200809L
#include "xsk_record_format.h"
#include <errno.h>
#include <fcntl.h>
#include <inttypes.h>
#include <stdarg.h>
#include <stdbool.h>
#include <stdio.h>
#include <stdlib.h>
#include <string.h>
#include <sys/mman.h>
#include <sys/stat.h>
#include <unistd.h>

enum { PLACES = 65536, RINGS = 256, MOST = 64, ITEMS = 32 };

struct place {
	const char *name; /* in the file, not ended by 0 */
	int length;
	uint32_t line;
	bool told;
};
struct file {
	const char *name;
	const uint8_t *bytes;
	size_t size, at, end;  /* of the file; where it is read, and up to where its records go there */
	size_t stored, buffer; /* where the records begin that were stored, and those that weren't */
	struct xsk_record_header header;
	struct xsk_record next; /* the record at `at`, if `call` isn't 0 */
	uint64_t key;		/* its time, never less than that of the one before */
	unsigned int thread;	/* its number in the text, or 0 */
	struct place *places;
};
struct ring {
	bool known;
	uint8_t kind;
	uint32_t size;
	bool named;
	unsigned int index;   /* of the pair or socket */
	uint32_t count, room; /* entries submitted or released; places reserved, or entries held */
};
struct pair {
	char ifname[16];
	uint32_t queue;
	uint16_t fill, completion; /* by number and 1 */
};
struct merge {
	struct file *files;
	size_t file_count;
	struct ring rings[RINGS];
	struct pair pairs[MOST];
	unsigned int pair_count;
	struct xsk_record_socket sockets[MOST];
	unsigned int pair_of[MOST], socket_count;
	struct xsk_record_umem umems[RINGS];
	bool has_umem[RINGS];
	unsigned int umem;
	uint64_t start, lost_since;
	unsigned int threads;
	bool cut; /* the text ends before the recording does */
};

static const char *const kinds[] = {"fill", "comp", "rx", "tx"};
static const char *const wakes[] = {"sendto", "recvfrom", "poll"};

__attribute__((format(printf, 1, 2))) static void tell(const char *form, ...)
{
	va_list rest;
	va_start(rest, form);
	fputs("xsk-merge: ", stderr);
	vfprintf(stderr, form, rest);
	fputc('\n', stderr);
	va_end(rest);
}

__attribute__((format(printf, 1, 2), noreturn)) static void fail(const char *form, ...)
{
	va_list rest;
	va_start(rest, form);
	fputs("xsk-merge: ", stderr);
	vfprintf(stderr, form, rest);
	fputc('\n', stderr);
	va_end(rest);
	exit(2);
}

/* ------------------------------------------------------------------------------------------------------------------ a file's records */

static size_t entry_bytes(const struct ring *ring) { return ring->kind == XSK_RECORD_RX || ring->kind == XSK_RECORD_TX ? 16 : 8; }

/* How many entries stand behind a record. */
static uint32_t entries_of(const struct merge *m, const struct xsk_record *r)
{
	const struct ring *ring = &m->rings[r->ring];
	uint32_t count = r->call == XSK_RECORD_SUBMIT ? r->n : r->call == XSK_RECORD_PEEK ? r->reply : 0;
	count = count < ring->size ? count : ring->size;
	return !ring->known ? 0 : count < XSK_RECORD_MOST ? count : XSK_RECORD_MOST;
}

/* How many bytes stand behind a record. */
static size_t behind(const struct merge *m, const struct xsk_record *r)
{
	switch (r->call) {
	case XSK_RECORD_SUBMIT:
	case XSK_RECORD_PEEK:
		return entries_of(m, r) * entry_bytes(&m->rings[r->ring]);
	case XSK_RECORD_PLACE:
		return r->own;
	case XSK_RECORD_UMEM:
		return sizeof(struct xsk_record_umem);
	case XSK_RECORD_SOCKET:
		return sizeof(struct xsk_record_socket);
	default:
		return 0;
	}
}

/* Reads the record at the place that the file has come to; none at its end. */
static bool read_record(const struct merge *m, struct file *f)
{
	f->next.call = XSK_RECORD_NONE;
	if (f->at == f->end && f->at >= f->stored) {
		f->at = f->buffer;
		f->end = f->buffer + (size_t)f->header.buffer;
	}
	if (f->end - f->at < sizeof f->next)
		return false;
	memcpy(&f->next, f->bytes + f->at, sizeof f->next);
	if (f->next.call == XSK_RECORD_NONE)
		return false;
	if (f->next.call >= XSK_RECORD_CALLS || (f->next.call == XSK_RECORD_RING && (f->next.reply > XSK_RECORD_TX || !f->next.n)))
		fail("%s: byte %zu isn't a record's", f->name, f->at);
	if (f->next.call != XSK_RECORD_RING && f->end - f->at - sizeof f->next < behind(m, &f->next))
		fail("%s: the record at byte %zu has no end", f->name, f->at);
	if (f->next.time > f->key)
		f->key = f->next.time;
	return true;
}

static const uint8_t *body(const struct file *f) { return f->bytes + f->at + sizeof f->next; }

static bool step(const struct merge *m, struct file *f)
{
	f->at += sizeof f->next + behind(m, &f->next);
	return read_record(m, f);
}

static bool rewind_file(const struct merge *m, struct file *f)
{
	f->at = f->stored;
	f->end = f->stored + (size_t)(f->header.state >> 1);
	f->key = 0;
	return read_record(m, f);
}

static void open_file(struct file *f, const char *name)
{
	struct stat status;
	int descriptor = open(name, O_RDONLY);
	if (descriptor < 0 || fstat(descriptor, &status))
		fail("%s: %s", name, strerror(errno));
	f->name = name;
	f->size = (size_t)status.st_size;
	if (f->size < XSK_RECORD_HEADER)
		fail("%s: no recording", name);
	f->bytes = mmap(NULL, f->size, PROT_READ, MAP_PRIVATE, descriptor, 0);
	if (f->bytes == MAP_FAILED)
		fail("%s: %s", name, strerror(errno));
	close(descriptor);
	memcpy(&f->header, f->bytes, sizeof f->header);
	if (memcmp(f->header.magic, XSK_RECORD_MAGIC, sizeof f->header.magic) != 0)
		fail("%s: no recording", name);
	if (f->header.buffer > f->size / 2 || XSK_RECORD_HEADER + 2 * f->header.buffer > f->size ||
		f->header.state >> 1 > f->size - XSK_RECORD_HEADER - 2 * f->header.buffer)
		fail("%s: it is shorter than its header says", name);
	f->buffer = XSK_RECORD_HEADER + (size_t)((f->header.state & 1) * f->header.buffer);
	f->stored = XSK_RECORD_HEADER + 2 * (size_t)f->header.buffer;
	f->places = calloc(PLACES, sizeof *f->places);
	if (!f->places)
		fail("%s", strerror(errno));
}

/* ---------------------------------------------------------------------------------------------------------------------- descriptions */

static void see_ring(struct merge *m, const struct file *f)
{
	struct ring *ring = &m->rings[f->next.ring];
	if (ring->known && (ring->kind != f->next.reply || ring->size != f->next.n))
		fail("%s: its rings aren't those of the other files: the files are of several programs", f->name);
	ring->known = true;
	ring->kind = (uint8_t)f->next.reply;
	ring->size = f->next.n;
}

static void see_place(struct file *f)
{
	struct place *place = &f->places[f->next.where];
	const char *name = (const char *)body(f);
	size_t length = strnlen(name, f->next.own);
	const char *at = name + length;
	while (at > name && at[-1] != '/')
		at--;
	place->name = at;
	place->length = (int)(name + length - at);
	place->line = f->next.n;
	place->told = false;
}

static void see_socket(struct merge *m, const struct file *f)
{
	if (m->socket_count == MOST)
		fail("there are more than %d sockets", MOST);
	memcpy(&m->sockets[m->socket_count], body(f), sizeof *m->sockets);
	m->sockets[m->socket_count++].ifname[15] = 0;
}

/* Reads all descriptions, and when each thread begins. */
static void survey(struct merge *m, struct file *f)
{
	struct xsk_record_umem umem;
	bool more;
	for (more = rewind_file(m, f); more; more = step(m, f)) {
		switch (f->next.call) {
		case XSK_RECORD_RING:
			see_ring(m, f);
			break;
		case XSK_RECORD_PLACE:
			see_place(f);
			break;
		case XSK_RECORD_UMEM:
			memcpy(&umem, body(f), sizeof umem);
			m->umems[umem.number & (RINGS - 1)] = umem;
			m->has_umem[umem.number & (RINGS - 1)] = true;
			break;
		case XSK_RECORD_SOCKET:
			see_socket(m, f);
			break;
		default:
			break;
		}
		if (!m->start || f->next.time < m->start)
			m->start = f->next.time;
	}
}

/* Names a ring, if there is one. */
static void name_ring(struct merge *m, uint16_t number, enum xsk_record_kind kind, unsigned int index)
{
	struct ring *ring = &m->rings[(number - 1) & (RINGS - 1)];
	if (!number)
		return;
	ring->kind = (uint8_t)kind;
	ring->named = true;
	ring->index = index;
}

static unsigned int pair_for(struct merge *m, const struct xsk_record_socket *s)
{
	struct pair *pair;
	unsigned int d;
	for (d = 0; d < m->pair_count; d++)
		if (m->pairs[d].queue == s->queue && strcmp(m->pairs[d].ifname, s->ifname) == 0 &&
			(!s->fill || s->fill == m->pairs[d].fill))
			return d;
	if (!s->fill || !s->completion || m->pair_count == MOST)
		fail("the socket on %s, queue %" PRIu32 " has no FILL and COMPLETION that were recorded", s->ifname, s->queue);
	pair = &m->pairs[m->pair_count++];
	memcpy(pair->ifname, s->ifname, sizeof pair->ifname);
	pair->queue = s->queue;
	pair->fill = s->fill;
	pair->completion = s->completion;
	name_ring(m, s->fill, XSK_RECORD_FILL, d);
	name_ring(m, s->completion, XSK_RECORD_COMPLETION, d);
	return d;
}

/* Names the rings of the UMEM's sockets: FILL and COMPLETION by pair, RX and TX by socket. */
static void name_rings(struct merge *m)
{
	unsigned int k, kept = 0;
	for (k = 0; k < m->socket_count; k++) {
		struct xsk_record_socket s = m->sockets[k];
		if (s.umem != m->umem)
			continue;
		m->sockets[kept] = s;
		m->pair_of[kept] = pair_for(m, &s);
		name_ring(m, s.rx, XSK_RECORD_RX, kept);
		name_ring(m, s.tx, XSK_RECORD_TX, kept);
		kept++;
	}
	m->socket_count = kept;
	if (!kept)
		fail("no socket of UMEM %u was recorded", m->umem);
}

static void choose_umem(struct merge *m, long wanted)
{
	unsigned int u, count = 0;
	for (u = 0; u < RINGS; u++)
		count += m->has_umem[u];
	if (!count)
		fail("no UMEM was recorded: was the program built with xsk_record.h where it makes its UMEM?");
	if (wanted < 0 && count > 1)
		fail("there are %u UMEMs: say which by -u 0 to -u %u", count, count - 1);
	m->umem = wanted < 0 ? 0 : (unsigned int)wanted;
	if (m->umem >= RINGS || !m->has_umem[m->umem])
		fail("there is no UMEM %u", m->umem);
	if (m->umems[m->umem].flags & 1)
		fail("UMEM %u has unaligned chunks, which no recording says", m->umem);
	if (!m->umems[m->umem].chunk)
		fail("UMEM %u has chunks of no size", m->umem);
}

/* ---------------------------------------------------------------------------------------------------------------------------- the text */

static uint32_t size_of(const struct merge *m, uint16_t ring) { return ring ? m->rings[(ring - 1) & (RINGS - 1)].size : 0; }

static void write_header(const struct merge *m)
{
	const struct xsk_record_umem *umem = &m->umems[m->umem];
	bool sg = false;
	unsigned int k;
	printf("xsk recording 1\numem %" PRIu64 " %" PRIu32 " %" PRIu32 "\n", umem->size / umem->chunk, umem->chunk, umem->headroom);
	for (k = 0; k < m->pair_count; k++)
		printf("pair %" PRIu32 " %" PRIu32 "\n", size_of(m, m->pairs[k].fill), size_of(m, m->pairs[k].completion));
	for (k = 0; k < m->socket_count; k++) {
		const struct xsk_record_socket *s = &m->sockets[k];
		printf("socket %u %" PRIu32 " %" PRIu32 "\n", m->pair_of[k], size_of(m, s->rx), size_of(m, s->tx));
		sg = sg || (s->bind_flags & 16);
	}
	printf("kernel%s%s\ncalls\n", sg ? " sg" : "", umem->flags & 4 ? " metadata" : "");
}

/* The words that a call begins with. */
static void write_front(struct merge *m, struct file *f, const char *call)
{
	const struct place *place = &f->places[f->next.where];
	const struct ring *ring = &m->rings[f->next.ring];
	if (!f->thread)
		f->thread = ++m->threads;
	printf("%" PRIu64 " %u ", f->key - m->start, f->thread);
	if (f->next.call == XSK_RECORD_KICK)
		fputs(wakes[f->next.n % 3], stdout);
	else if (f->next.where && place->name)
		for (int i = 0; i <= place->length; i++)
			i < place->length ? putchar(place->name[i] > ' ' ? place->name[i] : '_') : printf(":%" PRIu32, place->line);
	else
		putchar('?');
	printf(" %s %s.%u", call, kinds[ring->kind], ring->index);
}

/* A Submit or Peek, 32 entries a line. */
static void write_entries(struct merge *m, struct file *f, uint32_t count)
{
	const struct ring *ring = &m->rings[f->next.ring];
	bool submit = f->next.call == XSK_RECORD_SUBMIT;
	size_t bytes = entry_bytes(ring);
	uint32_t i, asked = f->next.n;
	for (i = 0; i < count; i++) {
		uint64_t address;
		uint32_t tail[2] = {0, 0};
		memcpy(&address, body(f) + i * bytes, sizeof address);
		if (bytes == 16)
			memcpy(tail, body(f) + i * bytes + 8, sizeof tail);
		if (i % ITEMS == 0) {
			uint32_t wanted = count - i > ITEMS ? ITEMS : asked;
			write_front(m, f, submit ? "submit" : "peek");
			if (!submit)
				printf(" %" PRIu32 " -> items", wanted);
			asked -= wanted;
		}
		printf(" %" PRIu64 ":%" PRIu32 ":%" PRIu32, address, tail[0], tail[1]);
		if (i % ITEMS == ITEMS - 1 || i + 1 == count)
			puts(submit ? " -> submitted" : "");
	}
}

static void write_call(struct merge *m, struct file *f)
{
	const struct xsk_record *r = &f->next;
	switch (r->call) {
	case XSK_RECORD_RESERVE:
		write_front(m, f, "reserve");
		r->reply == r->n ? printf(" %" PRIu32 " -> granted\n", r->n) : printf(" %" PRIu32 " -> full %" PRIu32 "\n", r->n, r->reply);
		break;
	case XSK_RECORD_PEEK:
		if (r->reply) {
			write_entries(m, f, entries_of(m, r));
			break;
		}
		write_front(m, f, "peek");
		printf(" %" PRIu32 " -> empty\n", r->n);
		break;
	case XSK_RECORD_SUBMIT:
		write_entries(m, f, entries_of(m, r));
		break;
	case XSK_RECORD_RELEASE:
		write_front(m, f, "release");
		printf(" %" PRIu32 " -> released\n", r->n);
		break;
	case XSK_RECORD_CANCEL:
		write_front(m, f, "cancel");
		printf(" %" PRIu32 " -> cancelled\n", r->n);
		break;
	case XSK_RECORD_FREE:
		write_front(m, f, "free");
		printf(" %" PRIu32 " -> %" PRIu32 "\n", r->n, r->reply);
		break;
	case XSK_RECORD_LOOK:
		write_front(m, f, "look");
		printf(" -> %" PRIu32 "\n", r->reply);
		break;
	case XSK_RECORD_KICK:
		write_front(m, f, "kick");
		puts(" -> 0");
		break;
	default:
		break;
	}
}

/* --------------------------------------------------------------------------------------------------------------------- what is missing */

/* Places that the program reserved or gave back without a call: it moved its own count by hand, as some do. */
static void write_by_hand(struct merge *m, struct file *f, struct ring *ring)
{
	int32_t more = (int32_t)(f->next.reply - ring->room);
	if (!more)
		return;
	write_front(m, f, more > 0 ? "reserve" : "cancel");
	more > 0 ? printf(" %" PRId32 " -> granted\n", more) : printf(" %" PRId32 " -> cancelled\n", -more);
	ring->room = f->next.reply;
}

/* Whether the ring's counts say that all calls before this one were recorded; and what they are behind it. */
static bool follows(struct merge *m, struct file *f)
{
	const struct xsk_record *r = &f->next;
	struct ring *ring = &m->rings[r->ring];
	bool counted = r->call != XSK_RECORD_LOOK && r->call != XSK_RECORD_KICK && r->call != XSK_RECORD_TOUCH;
	if (counted && r->own != ring->count) {
		tell("a call on %s.%u isn't recorded: its count is %" PRIu32 ", and the calls before make %" PRIu32, kinds[ring->kind],
			ring->index, r->own, ring->count);
		return false;
	}
	if (r->call == XSK_RECORD_RELEASE && r->reply != ring->room) {
		tell("entries of %s.%u were peeked or cancelled by hand: %" PRId32 " are held, and the calls before make %" PRId32,
			kinds[ring->kind], ring->index, (int32_t)r->reply, (int32_t)ring->room);
		return false;
	}
	if (r->call == XSK_RECORD_SUBMIT)
		write_by_hand(m, f, ring);
	if (r->call == XSK_RECORD_RESERVE && r->reply == r->n)
		ring->room += r->n;
	if (r->call == XSK_RECORD_PEEK)
		ring->room += r->reply;
	if (r->call == XSK_RECORD_SUBMIT || r->call == XSK_RECORD_RELEASE) {
		ring->room -= r->n;
		ring->count += r->n;
	}
	if (r->call == XSK_RECORD_CANCEL)
		ring->room -= r->n;
	return true;
}

static bool gives(uint8_t call) { return call == XSK_RECORD_SUBMIT || call == XSK_RECORD_RELEASE || call == XSK_RECORD_CANCEL; }

/* The file whose record comes next: by time, and what gives before what takes; none at the end of all. */
static struct file *first(struct merge *m)
{
	struct file *best = NULL;
	size_t i;
	for (i = 0; i < m->file_count; i++) {
		struct file *f = &m->files[i];
		if (f->next.call == XSK_RECORD_NONE)
			continue;
		if (!best || f->key < best->key || (f->key == best->key && gives(f->next.call) && !gives(best->next.call)))
			best = f;
	}
	return best;
}

static bool is_call(uint8_t call) { return call >= XSK_RECORD_RESERVE && call <= XSK_RECORD_TOUCH; }

/* An entry was touched that is neither reserved nor peeked: told once for each place. */
static void tell_touch(const struct merge *m, struct file *f)
{
	struct place *place = &f->places[f->next.where];
	const struct ring *ring = &m->rings[f->next.ring];
	if (place->name && !place->told)
		tell("%.*s:%" PRIu32 " touches entry %" PRIu32 " of %s.%u, which isn't the program's then", place->length, place->name,
			place->line, f->next.n, kinds[ring->kind], ring->index);
	place->told = true;
}

/* Writes all calls in their order; false where the text had to end before them. */
static bool write_calls(struct merge *m)
{
	struct file *f;
	bool gone = false;
	for (f = first(m); f; step(m, f), f = first(m)) {
		const struct ring *ring = &m->rings[f->next.ring];
		if (m->lost_since && f->key >= m->lost_since)
			return false;
		if (f->next.call == XSK_RECORD_GONE && ring->named)
			gone = true;
		if (!is_call(f->next.call) || !ring->named)
			continue;
		if (gone) {
			tell("a socket was deleted, and calls come behind it: they aren't in the text");
			return false;
		}
		if (f->next.call == XSK_RECORD_TOUCH) {
			tell_touch(m, f);
			continue;
		}
		if (!follows(m, f))
			return false;
		write_call(m, f);
	}
	return true;
}

/* Tells what each file says of itself. */
static void tell_losses(struct merge *m)
{
	size_t i;
	for (i = 0; i < m->file_count; i++) {
		const struct xsk_record_header *h = &m->files[i].header;
		const char *name = m->files[i].name;
		if (!h->ended)
			tell("%s: the program didn't come to its exit: it was ended, or still runs", name);
		if (h->unknown)
			tell("%s: %" PRIu64 " calls on rings that were made where xsk_record.h didn't see it", name, h->unknown);
		if (h->lost) {
			tell("%s: %" PRIu64 " calls found no room (%s)", name, h->lost, strerror((int)h->lost_reason));
			if (!m->lost_since || h->lost_since < m->lost_since)
				m->lost_since = h->lost_since;
		}
		if (h->clock != m->files[0].header.clock)
			fail("%s: it has another clock than %s", name, m->files[0].name);
		m->cut = m->cut || h->unknown || h->lost;
	}
}

int main(int count, char **words)
{
	static struct merge m;
	long umem = -1;
	int option, i;
	while ((option = getopt(count, words, "u:")) != -1) {
		if (option != 'u')
			return 2;
		umem = strtol(optarg, NULL, 10);
	}
	if (optind == count)
		fail("usage: xsk-merge [-u UMEM] FILE.. >RECORDING");
	m.file_count = (size_t)(count - optind);
	m.files = calloc(m.file_count, sizeof *m.files);
	if (!m.files)
		fail("%s", strerror(errno));
	for (i = optind; i < count; i++) {
		open_file(&m.files[i - optind], words[i]);
		survey(&m, &m.files[i - optind]);
	}
	choose_umem(&m, umem);
	name_rings(&m);
	tell_losses(&m);
	for (i = optind; i < count; i++)
		rewind_file(&m, &m.files[i - optind]);
	write_header(&m);
	if (!write_calls(&m))
		m.cut = true;
	if (fflush(stdout) || ferror(stdout))
		fail("the text can't be written: %s", strerror(errno));
	return m.cut;
}
