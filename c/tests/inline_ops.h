/* The inline functions of a <xdp/xsk.h> by a name of their own: INLINE_OPS, which is `real` or `model`. */
#ifndef INLINE_OPS_H
#define INLINE_OPS_H
#include <stdint.h>

struct ops {
	uint32_t (*reserve)(void *ring, uint32_t nb, uint32_t *idx);
	uint32_t (*free)(void *ring, uint32_t nb);
	void (*submit)(void *ring, uint32_t nb);
	int (*wakeup)(void *ring);
	uint32_t (*peek)(void *ring, uint32_t nb, uint32_t *idx);
	uint32_t (*avail)(void *ring, uint32_t nb);
	void (*cancel)(void *ring, uint32_t nb);
	void (*release)(void *ring, uint32_t nb);
	void *(*entry)(void *ring, uint32_t kind, uint32_t idx); /* FILL, COMPLETION, RX, TX */
	uint64_t (*address)(uint64_t addr, uint32_t which);
	uint64_t sizes[4]; /* of the structures */
};
extern const struct ops real_ops, model_ops;

#endif
