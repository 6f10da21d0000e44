/* The inline functions of both headers, on the same calls: two rings of each kind in plain memory, one driven by libxdp's functions and one
 * by this repository's, with the same kernel on the other side. All counts, cached values and answers are equal, or it says where not.
 *
 *     inline CALLS SEED */
#include "inline_ops.h"
#include <stdbool.h>
#include <stdio.h>
#include <stdlib.h>
#include <string.h>

struct ring { /* struct xsk_ring_prod, and xsk_ring_cons */
	uint32_t cached_prod, cached_cons, mask, size, *producer, *consumer;
	void *ring;
	uint32_t *flags;
	uint32_t counts[3]; /* what the pointers point at */
	uint64_t entries[128];
};

/* The library's part is nothing here. */
struct xsk_ring_prod;
struct xsk_ring_cons;
int xsk_model_pauses;
void xsk_model_here(const char *file, int line) { (void)file, (void)line; }
void xsk_model_pause(void) {}
void xsk_model_reserve(struct xsk_ring_prod *r, uint32_t nb) { (void)r, (void)nb; }
void xsk_model_free(struct xsk_ring_prod *r, uint32_t nb) { (void)r, (void)nb; }
uint32_t xsk_model_submit(struct xsk_ring_prod *r, uint32_t nb) { return (void)r, nb; }
uint32_t xsk_model_release(struct xsk_ring_cons *r, uint32_t nb) { return (void)r, nb; }
void xsk_model_peek(struct xsk_ring_cons *r, uint32_t nb) { (void)r, (void)nb; }
void xsk_model_cancel(struct xsk_ring_cons *r, uint32_t nb) { (void)r, (void)nb; }
void xsk_model_look(const struct xsk_ring_prod *r) { (void)r; }

static uint64_t state;

static uint32_t dice(uint32_t below)
{
	state ^= state << 13;
	state ^= state >> 7;
	state ^= state << 17;
	return (uint32_t)(state >> 33) % below;
}

static void set_up(struct ring *r, uint32_t size, uint32_t begin, bool produces)
{
	memset(r, 0, sizeof *r);
	r->size = size;
	r->mask = size - 1;
	r->producer = &r->counts[0];
	r->consumer = &r->counts[1];
	r->flags = &r->counts[2];
	r->ring = r->entries;
	r->counts[0] = r->counts[1] = r->cached_prod = begin;
	r->cached_cons = begin + (produces ? size : 0);
}

static bool equal(const struct ring *a, const struct ring *b)
{
	return a->cached_prod == b->cached_prod && a->cached_cons == b->cached_cons && !memcmp(a->counts, b->counts, sizeof a->counts);
}

/* One call of the program on a ring that it fills; gives the answer, and the index behind it. */
static uint64_t fill(const struct ops *o, struct ring *r, uint32_t call, uint32_t nb)
{
	uint32_t idx = 77, answer = 0;
	switch (call) {
	case 0:
		answer = o->reserve(r, nb, &idx);
		break;
	case 1:
		answer = o->free(r, nb);
		break;
	case 2:
		o->submit(r, nb % (r->cached_prod - r->counts[0] + 1));
		break;
	default:
		answer = (uint32_t)o->wakeup(r);
	}
	return (uint64_t)answer << 32 | idx;
}

static uint64_t empty(const struct ops *o, struct ring *r, uint32_t call, uint32_t nb)
{
	uint32_t idx = 77, answer = 0;
	switch (call) {
	case 0:
		answer = o->peek(r, nb, &idx);
		break;
	case 1:
		answer = o->avail(r, nb);
		break;
	case 2:
		o->release(r, nb % (r->cached_cons - r->counts[1] + 1));
		break;
	default:
		o->cancel(r, nb % (r->cached_cons - r->counts[1] + 1));
	}
	return (uint64_t)answer << 32 | idx;
}

static bool others_are_equal(void)
{
	uint32_t which = dice(4), kind = dice(4), idx = dice(UINT32_MAX);
	uint64_t addr = (uint64_t)dice(UINT32_MAX) << 32 | dice(UINT32_MAX);
	struct ring r;
	set_up(&r, 1u << dice(6), 0, true);
	return real_ops.address(addr, which) == model_ops.address(addr, which) &&
	       real_ops.entry(&r, kind, idx) == model_ops.entry(&r, kind, idx);
}

int main(int count, char **words)
{
	unsigned long calls = count > 1 ? strtoul(words[1], NULL, 10) : 1000000, k;
	struct ring rings[2][2]; /* by who produces, and by header */
	state = (count > 2 ? strtoull(words[2], NULL, 10) : 1) * 0x9e3779b97f4a7c15u;
	if (memcmp(real_ops.sizes, model_ops.sizes, sizeof real_ops.sizes)) {
		puts("structures have other sizes");
		return 1;
	}
	for (k = 0; k < calls; k++) {
		uint32_t produces = dice(2), call = dice(5), nb = dice(20);
		struct ring *real = &rings[produces][0], *model = &rings[produces][1];
		uint64_t a, b;
		if (k % 5000 == 0) { /* other sizes, and counts that are about to wrap */
			uint32_t size = 1u << dice(6), begin = dice(3) ? dice(1000) : UINT32_MAX - dice(100);
			for (int i = 0; i < 4; i++)
				set_up(&rings[i / 2][i % 2], size, begin, i / 2);
		}
		if (call == 4) { /* the kernel */
			uint32_t flag = dice(2), steps = dice(16),
				 places = produces ? real->counts[0] - real->counts[1] : real->size - (real->counts[0] - real->counts[1]);
			steps = steps < places ? steps : places;
			for (int i = 0; i < 2; i++) {
				rings[produces][i].counts[produces] += steps;
				rings[produces][i].counts[2] = flag;
			}
			continue;
		}
		a = produces ? fill(&real_ops, real, call, nb) : empty(&real_ops, real, call, nb);
		b = produces ? fill(&model_ops, model, call, nb) : empty(&model_ops, model, call, nb);
		if (a != b || !equal(real, model) || !others_are_equal()) {
			printf("call %lu: %s %u of %u: %llx and %llx\n", k, produces ? "fill" : "empty", call, nb, (unsigned long long)a,
				(unsigned long long)b);
			return 1;
		}
	}
	return 0;
}
