/* What the library makes, in plain memory and without a kernel: UMEMs, sockets and their rings. Compiled without the recorder. */
#include "memory.h"
#include <stdlib.h>
#include <string.h>

struct xsk_umem {
	struct xsk_umem_config config;
};
struct xsk_socket {
	int descriptor;
};

static int descriptors = 100;

/* Producer, consumer and flags, and the entries behind them on a page of their own. */
static uint32_t *ring_memory(uint32_t size, size_t entry)
{
	uint32_t *memory = aligned_alloc(4096, 4096 + ((size * entry + 4095) & ~(size_t)4095));
	if (!memory)
		abort();
	memset(memory, 0, 4096 + size * entry);
	return memory;
}

static void make_prod(struct xsk_ring_prod *r, uint32_t size, size_t entry)
{
	uint32_t *memory = ring_memory(size, entry);
	*r = (struct xsk_ring_prod){.cached_cons = size,
		.mask = size - 1,
		.size = size,
		.producer = memory,
		.consumer = memory + 1,
		.ring = memory + 1024,
		.flags = memory + 2};
}

static void make_cons(struct xsk_ring_cons *r, uint32_t size, size_t entry)
{
	uint32_t *memory = ring_memory(size, entry);
	*r = (struct xsk_ring_cons){
		.mask = size - 1, .size = size, .producer = memory, .consumer = memory + 1, .ring = memory + 1024, .flags = memory + 2};
}

int xsk_umem__create(struct xsk_umem **umem, void *area, __u64 size, struct xsk_ring_prod *fill, struct xsk_ring_cons *comp,
	const struct xsk_umem_config *config)
{
	(void)area, (void)size;
	*umem = calloc(1, sizeof **umem);
	(*umem)->config = *config;
	make_prod(fill, config->fill_size, 8);
	make_cons(comp, config->comp_size, 8);
	return 0;
}

int xsk_socket__create(struct xsk_socket **xsk, const char *ifname, __u32 queue, struct xsk_umem *umem, struct xsk_ring_cons *rx,
	struct xsk_ring_prod *tx, const struct xsk_socket_config *config)
{
	return xsk_socket__create_shared(xsk, ifname, queue, umem, rx, tx, NULL, NULL, config);
}

int xsk_socket__create_shared(struct xsk_socket **xsk, const char *ifname, __u32 queue, struct xsk_umem *umem, struct xsk_ring_cons *rx,
	struct xsk_ring_prod *tx, struct xsk_ring_prod *fill, struct xsk_ring_cons *comp, const struct xsk_socket_config *config)
{
	(void)ifname, (void)queue;
	*xsk = calloc(1, sizeof **xsk);
	(*xsk)->descriptor = descriptors++;
	if (rx)
		make_cons(rx, config->rx_size, 16);
	if (tx)
		make_prod(tx, config->tx_size, 16);
	if (fill && !fill->ring)
		make_prod(fill, umem->config.fill_size, 8);
	if (comp && !comp->ring)
		make_cons(comp, umem->config.comp_size, 8);
	return 0;
}

int xsk_socket__fd(const struct xsk_socket *xsk) { return xsk->descriptor; }

void xsk_socket__delete(struct xsk_socket *xsk) { free(xsk); }

int xsk_umem__delete(struct xsk_umem *umem)
{
	free(umem);
	return 0;
}
