/* What is told: calls that aren't legal, and at the end the captures, the journal, and what stands where it shouldn't. */
#include "world.h"
#include <stdlib.h>
#include <string.h>

/* The file of a port in a list PORT=FILE,PORT=FILE. */
bool named_in(const char *variable, const char *name, char *out, size_t len)
{
	const char *p = getenv(variable);
	size_t n = strlen(name);
	while (p && *p) {
		size_t word = strcspn(p, ",");
		if (word > n && !strncmp(p, name, n) && p[n] == '=') {
			snprintf(out, len, "%.*s", (int)(word - n - 1), p + n + 1);
			return true;
		}
		p += word + (p[word] == ',');
	}
	return false;
}

const char *name_of(const struct side *s)
{
	static const char *const kinds[] = {"FILL", "COMPLETION", "RX", "TX"};
	static char text[4][IFNAMSIZ + 48];
	static unsigned int next;
	char *to = text[next++ % 4];
	size_t room = sizeof text[0];
	int len;
	if (!s->pair) {
		snprintf(to, room, "%s", kinds[s->kind]);
		return to;
	}
	len = snprintf(to, room, "%s of %s queue %u", kinds[s->kind], s->umem->ports[s->pair->port], s->pair->queue);
	if (s->socket && s->pair->socket_count > 1)
		snprintf(to + len, room - (size_t)len, " socket %u", s->socket->class_);
	return to;
}

static void tell_holder(const struct xsk_umem *u, uint64_t address)
{
	uint32_t number = chunk_number(u, address);
	const struct chunk *c = &u->chunks[number];
	fprintf(stderr, "xsk:   address %llu (frame %u) ", (unsigned long long)address, number);
	if (c->has == COME)
		fprintf(stderr, "stands on %s, and the program hasn't peeked it; it was submitted", name_of(c->side));
	else if (c->has == ON_RING)
		fprintf(stderr, "was submitted on %s and hasn't come back, since", name_of(c->side));
	else
		fprintf(stderr, "came back to the program, and was submitted before");
	fprintf(stderr, " at %s:%u, call %llu\n", c->file, c->line, (unsigned long long)c->call);
}

/* Tells of a call that wasn't made; it is false. */
bool refused(struct side *s, const char *call, uint32_t n, uint32_t answer, int64_t address)
{
	struct xsk_umem *u = s->umem;
	uint8_t why[160];
	uint64_t len = 0;
	if (xsk_c_why(answer, why, sizeof why, &len) != XSK_C_DONE)
		len = 0;
	if (answer < XSK_C_NO_CALLER)
		die("%s of %u on %s failed: %.*s", call, n, name_of(s), (int)len, (char *)why);
	fflush(stdout);
	fprintf(stderr, "xsk: %s:%d: %s of %u on %s isn't legal: %.*s\n", here.file, here.line, call, n, name_of(s), (int)len, (char *)why);
	if (address >= 0 && chunk_number(u, (uint64_t)address) != NO_FRAME)
		tell_holder(u, (uint64_t)address);
	fprintf(stderr, "xsk:   it is call %llu of the program", (unsigned long long)u->calls);
	if (settings.seeded)
		fprintf(stderr, ", with XSK_SEED=%llu", (unsigned long long)settings.seed);
	fputc('\n', stderr);
	u->illegal++;
	if (!settings.report) {
		write_all();
		abort();
	}
	return false;
}

/* ---- captures and journal */

static void write_packets(struct xsk_umem *u, uint32_t port, FILE *f)
{
	static uint8_t packet[262144];
	uint32_t number = 0, count = 0, queue, k;
	for (queue = 0; queue < u->layout.queues; queue++) {
		uint32_t pair = port * u->layout.queues + queue;
		if (xsk_c_sent(&u->bench, pair, &count) != XSK_C_DONE) {
			fprintf(stderr, "xsk: %s sent more than there is room for: XSK_ROOM=%u\n", u->ports[port], 2 * settings.room);
			return;
		}
		for (k = 0; k < count; k++) {
			uint32_t record[4] = {number / 1000000, number % 1000000, 0, 0};
			uint64_t len = 0;
			if (xsk_c_packet(&u->bench, pair, k, packet, sizeof packet, &len) != XSK_C_DONE)
				return;
			record[2] = record[3] = (uint32_t)len;
			fwrite(record, sizeof record, 1, f);
			fwrite(packet, 1, len, f);
			number++;
		}
	}
}

static void write_capture(struct xsk_umem *u, uint32_t port)
{
	static const uint32_t header[6] = {0xa1b2c3d4, 2 | 4 << 16, 0, 0, 262144, 1};
	char name[4096];
	FILE *f;
	if (!named_in("XSK_OUT", u->ports[port], name, sizeof name))
		return;
	f = fopen(name, "wb");
	if (f) {
		fwrite(header, sizeof header, 1, f);
		if (u->started)
			write_packets(u, port, f);
	}
	if (!f || ferror(f) | fclose(f))
		fprintf(stderr, "xsk: XSK_OUT: %s can't be written\n", name);
}

/* An audit wants the number of a round before each line: any that doesn't fall will do. */
static void write_lines(const uint8_t *lines, uint64_t len, FILE *f)
{
	const uint8_t *end = lines + len, *feed;
	for (; lines < end && (feed = memchr(lines, '\n', (size_t)(end - lines))); lines = feed + 1) {
		fputs("0 ", f);
		fwrite(lines, 1, (size_t)(feed + 1 - lines), f);
	}
}

/* The journal of the first UMEM, or of a further one: behind the name stands its number then. Its first line is how it is audited. */
static void write_journal(struct xsk_umem *u, uint32_t number)
{
	const size_t room = 1 << 26; /* each part is found from the first call on */
	const struct xsk_c_layout *l = &u->layout;
	const char *file = getenv("XSK_JOURNAL");
	char name[4096];
	uint32_t next = 0, answer;
	uint8_t *lines;
	FILE *f;
	if (!file || !*file || !u->started)
		return;
	lines = malloc(room);
	snprintf(name, sizeof name, number ? "%s-%u" : "%s", file, number);
	f = lines ? fopen(name, "wb") : NULL;
	if (f) {
		fprintf(f,
			"audit --ports %u --queues %u --sockets %u --frames %u --chunk %u --headroom %u --rx %u --tx %u --fill %u --comp "
			"%u%s%s\n",
			l->ports, l->queues, l->sockets, l->frames, l->chunk, l->headroom, l->rx, l->tx, l->fill, l->comp,
			l->sg ? " --sg" : "", l->wakeup ? " --wakeup" : "");
		do {
			uint64_t end = 0;
			uint32_t from = next;
			answer = xsk_c_journal(&u->bench, from, lines, room, &next, &end);
			write_lines(lines, end, f);
			if (answer == XSK_C_SHORT && next == from)
				break;
		} while (answer == XSK_C_SHORT);
	}
	if (!f || ferror(f) | fclose(f))
		fprintf(stderr, "xsk: XSK_JOURNAL: %s can't be written\n", name);
	free(lines);
}

void write_all(void)
{
	uint32_t number = 0;
	struct xsk_umem *u;
	for (u = umems; u; u = u->next)
		number++;
	for (u = umems; u; u = u->next) {
		number--;
		if (u->deleted)
			continue; /* it is written, and its ports may be another's */
		for (uint32_t port = 0; port < u->port_count; port++)
			write_capture(u, port);
		write_journal(u, number);
	}
}

/* ---- what stands at the end */

static uint64_t less(uint64_t a, uint64_t b) { return a > b ? a - b : 0; }

/* Tells of a queue what wasn't received and what wasn't sent. */
static bool tell_queue(struct xsk_umem *u, struct pair *p)
{
	uint64_t received = 0, submitted = 0, invalid = 0, held = 0;
	uint32_t sent = 0, i;
	bool woken = false, told = false;
	for (i = 0; i < p->socket_count; i++) {
		struct xsk_socket *x = p->sockets[i];
		struct xsk_c_statistics all = {0};
		xsk_c_statistics(&u->bench, p->number, i, &all);
		invalid += all.tx_invalid_descs - p->before[i].tx_invalid_descs;
		received += x->rx ? x->rx->packets : 0;
		submitted += x->tx ? x->tx->packets : 0;
		held += x->tx ? x->tx->producer - x->tx->passed : 0;
		woken |= x->woken;
	}
	if (xsk_c_sent(&u->bench, p->number, &sent) != XSK_C_DONE)
		return false;
	if (!settings.drops && received < p->packets) {
		fprintf(stderr, "xsk: %s queue %u: %llu of %u packets weren't received\n", u->ports[p->port], p->queue,
			(unsigned long long)(p->packets - received), p->packets);
		told = true;
	}
	if (less(submitted, invalid) > sent || held) {
		fprintf(stderr, "xsk: %s queue %u: %llu packets on TX weren't sent%s\n", u->ports[p->port], p->queue,
			(unsigned long long)(less(less(submitted, invalid), sent) + held),
			held && !woken ? ": no sendto() or poll() came" : "");
		told = true;
	}
	return told;
}

/* Tells how many frames are where. */
static void tell_frames(const struct xsk_umem *u)
{
	uint32_t own = 0, i, k;
	for (i = 0; i < u->chunk_count; i++)
		own += u->chunks[i].has == WITH_PROGRAM;
	fprintf(stderr, "xsk:   of %u frames %u are with the program", u->chunk_count, own);
	for (i = 0; i < 2 * u->pair_count + u->socket_count; i++) {
		const struct xsk_socket *x = i < 2 * u->pair_count ? NULL : u->sockets[i - 2 * u->pair_count];
		const struct side *s = x ? x->tx : i % 2 ? u->pairs[i / 2].comp : u->pairs[i / 2].fill;
		uint32_t count = 0, come = 0;
		for (k = 0; s && k < u->chunk_count; k++) {
			count += u->chunks[k].has == ON_RING && u->chunks[k].side == s;
			come += u->chunks[k].has == COME && u->chunks[k].side == s;
		}
		if (count)
			fprintf(stderr, ", %u were submitted on %s and didn't come back", count, name_of(s));
		if (come)
			fprintf(stderr, ", %u stand on %s", come, name_of(s));
	}
	fputc('\n', stderr);
}

void tell_end(struct xsk_umem *u)
{
	bool told = false;
	if (u->written)
		return;
	u->written = true;
	fflush(stdout);
	for (uint32_t port = 0; port < u->port_count; port++)
		if (u->strays[port])
			fprintf(stderr, "xsk: %s: %u packets of its capture came on a queue or class that has no socket with RX\n",
				u->ports[port], u->strays[port]);
	for (uint32_t i = 0; i < u->pair_count && u->started; i++)
		told |= tell_queue(u, &u->pairs[i]);
	if (told)
		tell_frames(u);
	if (u->illegal)
		fprintf(stderr, "xsk: %llu calls weren't legal\n", (unsigned long long)u->illegal);
}
