/* Compiled twice: with libxdp's header and INLINE_OPS real_ops, with this repository's and model_ops. */
#include "inline_ops.h"
#include <xdp/xsk.h>

static uint32_t reserve(void *r, uint32_t nb, uint32_t *idx) { return xsk_ring_prod__reserve((struct xsk_ring_prod *)r, nb, idx); }
static uint32_t places(void *r, uint32_t nb) { return xsk_prod_nb_free((struct xsk_ring_prod *)r, nb); }
static void submit(void *r, uint32_t nb) { xsk_ring_prod__submit((struct xsk_ring_prod *)r, nb); }
static int wakeup(void *r) { return xsk_ring_prod__needs_wakeup((const struct xsk_ring_prod *)r); }
static uint32_t peek(void *r, uint32_t nb, uint32_t *idx) { return xsk_ring_cons__peek((struct xsk_ring_cons *)r, nb, idx); }
static uint32_t avail(void *r, uint32_t nb) { return xsk_cons_nb_avail((struct xsk_ring_cons *)r, nb); }
static void cancel(void *r, uint32_t nb) { xsk_ring_cons__cancel((struct xsk_ring_cons *)r, nb); }
static void release(void *r, uint32_t nb) { xsk_ring_cons__release((struct xsk_ring_cons *)r, nb); }

static void *entry(void *r, uint32_t kind, uint32_t idx)
{
	switch (kind) {
	case 0:
		return xsk_ring_prod__fill_addr((struct xsk_ring_prod *)r, idx);
	case 1:
		return (void *)(uintptr_t)xsk_ring_cons__comp_addr((const struct xsk_ring_cons *)r, idx);
	case 2:
		return (void *)(uintptr_t)xsk_ring_cons__rx_desc((const struct xsk_ring_cons *)r, idx);
	default:
		return xsk_ring_prod__tx_desc((struct xsk_ring_prod *)r, idx);
	}
}

static uint64_t address(uint64_t addr, uint32_t which)
{
	static char area[16];
	switch (which) {
	case 0:
		return xsk_umem__extract_addr(addr);
	case 1:
		return xsk_umem__extract_offset(addr);
	case 2:
		return xsk_umem__add_offset_to_addr(addr);
	default:
		return (uint64_t)((char *)xsk_umem__get_data(area, addr % 16) - area);
	}
}

const struct ops INLINE_OPS = {reserve, places, submit, wakeup, peek, avail, cancel, release, entry, address,
	{sizeof(struct xsk_ring_prod), sizeof(struct xsk_ring_cons), sizeof(struct xsk_umem_config), sizeof(struct xsk_socket_config)}};
