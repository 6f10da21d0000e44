/* <xdp/xsk.h> over the model of AF_XDP sockets: the names, types and functions of libxdp 1.3, so that a program that is written for it
 * compiles unchanged (docs/C.md). No socket of the kernel is made.
 *
 * A ring is libxdp's: entries in plain memory with a producer's and a consumer's count, and what the functions below reckon is what
 * libxdp's do. Beside it each of them tells the model what the program does (xsk_model_..): the model judges the call, and its drivers
 * stand for the kernel. With XSK_MODEL_NO_PLACES defined before it, the program's file and line aren't told. */
#ifndef __LIBBPF_XSK_H /* libxdp's own guard: one of both headers is read */
#define __LIBBPF_XSK_H
#define __LIBXDP_XSK_H

#include <stdint.h>
#include <stdio.h>
#if defined __has_include
#if __has_include(<bpf/libbpf.h>)
#include <bpf/libbpf.h> /* as libxdp's header does: programs find more there */
#endif
#endif
#include <linux/if_xdp.h>

/* what headers of older kernels lack */
#ifndef XDP_USE_SG
#define XDP_USE_SG (1 << 4)
#endif
#ifndef XDP_PKT_CONTD
#define XDP_PKT_CONTD (1 << 0)
#endif

#ifdef __cplusplus
extern "C" {
#endif

#ifdef __GNUC_STDC_INLINE__
#define XDP_ALWAYS_INLINE inline __attribute__((__always_inline__))
#elif __GNUC_GNU_INLINE__
#define XDP_ALWAYS_INLINE static inline __attribute__((__always_inline__))
#else
#define XDP_ALWAYS_INLINE static inline
#endif

#define DEFINE_XSK_RING(name)                                                                                                              \
	struct name {                                                                                                                      \
		__u32 cached_prod;                                                                                                         \
		__u32 cached_cons;                                                                                                         \
		__u32 mask;                                                                                                                \
		__u32 size;                                                                                                                \
		__u32 *producer;                                                                                                           \
		__u32 *consumer;                                                                                                           \
		void *ring;                                                                                                                \
		__u32 *flags;                                                                                                              \
	}

DEFINE_XSK_RING(xsk_ring_prod);
DEFINE_XSK_RING(xsk_ring_cons);

struct xsk_umem;
struct xsk_socket;

/* ---- what the library does at the program's calls: each before the count in memory is changed */

/* The place of the calls that follow on this thread. */
void xsk_model_here(const char *file, int line);
/* Places are asked for: *consumer tells then whether they are free, and by `free` exactly how many are. */
void xsk_model_reserve(struct xsk_ring_prod *prod, __u32 nb);
void xsk_model_free(struct xsk_ring_prod *prod, __u32 nb);
/* Entries are submitted, or released; it answers by how many the count goes on: nb, if the call is legal. */
__u32 xsk_model_submit(struct xsk_ring_prod *prod, __u32 nb);
__u32 xsk_model_release(struct xsk_ring_cons *cons, __u32 nb);
/* Entries are looked for: behind *producer stand those that came, nb of them at most. */
void xsk_model_peek(struct xsk_ring_cons *cons, __u32 nb);
void xsk_model_cancel(struct xsk_ring_cons *cons, __u32 nb);
/* The need-wakeup flag is looked at. */
void xsk_model_look(const struct xsk_ring_prod *prod);
/* Where this isn't 0, several threads are explored: behind a reserve another may come first. */
extern int xsk_model_pauses;
void xsk_model_pause(void);

/* ---- entries */

XDP_ALWAYS_INLINE __u64 *xsk_ring_prod__fill_addr(struct xsk_ring_prod *fill, __u32 idx)
{
	return (__u64 *)fill->ring + (idx & fill->mask);
}

XDP_ALWAYS_INLINE const __u64 *xsk_ring_cons__comp_addr(const struct xsk_ring_cons *comp, __u32 idx)
{
	return (const __u64 *)comp->ring + (idx & comp->mask);
}

XDP_ALWAYS_INLINE struct xdp_desc *xsk_ring_prod__tx_desc(struct xsk_ring_prod *tx, __u32 idx)
{
	return (struct xdp_desc *)tx->ring + (idx & tx->mask);
}

XDP_ALWAYS_INLINE const struct xdp_desc *xsk_ring_cons__rx_desc(const struct xsk_ring_cons *rx, __u32 idx)
{
	return (const struct xdp_desc *)rx->ring + (idx & rx->mask);
}

/* ---- rings that the program fills: FILL and TX */

XDP_ALWAYS_INLINE int xsk_ring_prod__needs_wakeup(const struct xsk_ring_prod *r)
{
	xsk_model_look(r);
	return (int)(*r->flags & XDP_RING_NEED_WAKEUP);
}

/* How many places are free: exactly, where that is below nb. */
XDP_ALWAYS_INLINE __u32 xsk_prod_nb_free(struct xsk_ring_prod *r, __u32 nb)
{
	__u32 known = r->cached_cons - r->cached_prod;

	if (known >= nb)
		return known;
	xsk_model_free(r, nb);
	r->cached_cons = __atomic_load_n(r->consumer, __ATOMIC_ACQUIRE) + r->size;
	return r->cached_cons - r->cached_prod;
}

XDP_ALWAYS_INLINE __u32 xsk_ring_prod__reserve(struct xsk_ring_prod *prod, __u32 nb, __u32 *idx)
{
	xsk_model_reserve(prod, nb);
	if (prod->cached_cons - prod->cached_prod < nb) {
		prod->cached_cons = __atomic_load_n(prod->consumer, __ATOMIC_ACQUIRE) + prod->size;
		if (prod->cached_cons - prod->cached_prod < nb)
			return 0;
	}
	*idx = prod->cached_prod;
	prod->cached_prod += nb;
	if (__atomic_load_n(&xsk_model_pauses, __ATOMIC_RELAXED))
		xsk_model_pause();
	return nb;
}

XDP_ALWAYS_INLINE void xsk_ring_prod__submit(struct xsk_ring_prod *prod, __u32 nb)
{
	__u32 made = xsk_model_submit(prod, nb);

	__atomic_store_n(prod->producer, *prod->producer + made, __ATOMIC_RELEASE);
}

/* ---- rings that the program empties: RX and COMPLETION */

/* How many entries stand there, nb at most: those that were seen, and others only where there are none of these. */
XDP_ALWAYS_INLINE __u32 xsk_cons_nb_avail(struct xsk_ring_cons *r, __u32 nb)
{
	__u32 entries = r->cached_prod - r->cached_cons;

	xsk_model_peek(r, nb);
	if (entries == 0) {
		r->cached_prod = __atomic_load_n(r->producer, __ATOMIC_ACQUIRE);
		entries = r->cached_prod - r->cached_cons;
	}
	return entries > nb ? nb : entries;
}

XDP_ALWAYS_INLINE __u32 xsk_ring_cons__peek(struct xsk_ring_cons *cons, __u32 nb, __u32 *idx)
{
	__u32 entries = xsk_cons_nb_avail(cons, nb);

	if (entries > 0) {
		*idx = cons->cached_cons;
		cons->cached_cons += entries;
	}
	return entries;
}

XDP_ALWAYS_INLINE void xsk_ring_cons__cancel(struct xsk_ring_cons *cons, __u32 nb)
{
	xsk_model_cancel(cons, nb);
	cons->cached_cons -= nb;
}

XDP_ALWAYS_INLINE void xsk_ring_cons__release(struct xsk_ring_cons *cons, __u32 nb)
{
	__u32 made = xsk_model_release(cons, nb);

	__atomic_store_n(cons->consumer, *cons->consumer + made, __ATOMIC_RELEASE);
}

/* ---- addresses */

XDP_ALWAYS_INLINE void *xsk_umem__get_data(void *umem_area, __u64 addr) { return (char *)umem_area + addr; }
XDP_ALWAYS_INLINE __u64 xsk_umem__extract_addr(__u64 addr) { return addr & XSK_UNALIGNED_BUF_ADDR_MASK; }
XDP_ALWAYS_INLINE __u64 xsk_umem__extract_offset(__u64 addr) { return addr >> XSK_UNALIGNED_BUF_OFFSET_SHIFT; }
XDP_ALWAYS_INLINE __u64 xsk_umem__add_offset_to_addr(__u64 addr) { return xsk_umem__extract_addr(addr) + xsk_umem__extract_offset(addr); }

/* ---- setting up: 0, or the number of an error below 0, as libxdp's. Why is told on stderr where libxdp wouldn't refuse. */

#define XSK_RING_CONS__DEFAULT_NUM_DESCS 2048
#define XSK_RING_PROD__DEFAULT_NUM_DESCS 2048
#define XSK_UMEM__DEFAULT_FRAME_SHIFT 12
#define XSK_UMEM__DEFAULT_FRAME_SIZE (1 << XSK_UMEM__DEFAULT_FRAME_SHIFT)
#define XSK_UMEM__DEFAULT_FRAME_HEADROOM 0
#define XSK_UMEM__DEFAULT_FLAGS 0
#define XSK_LIBBPF_FLAGS__INHIBIT_PROG_LOAD (1 << 0)
#define XSK_LIBXDP_FLAGS__INHIBIT_PROG_LOAD (1 << 0)

struct xsk_umem_config {
	__u32 fill_size;
	__u32 comp_size;
	__u32 frame_size;
	__u32 frame_headroom;
	__u32 flags;
};

struct xsk_socket_config {
	__u32 rx_size;
	__u32 tx_size;
	__extension__ union {
		__u32 libbpf_flags;
		__u32 libxdp_flags;
	};
	__u32 xdp_flags;
	__u16 bind_flags;
};

int xsk_umem__fd(const struct xsk_umem *umem);
int xsk_socket__fd(const struct xsk_socket *xsk);
int xsk_setup_xdp_prog(int ifindex, int *xsks_map_fd);
int xsk_socket__update_xskmap(struct xsk_socket *xsk, int xsks_map_fd);
int xsk_umem__create(struct xsk_umem **umem, void *umem_area, __u64 size, struct xsk_ring_prod *fill, struct xsk_ring_cons *comp,
	const struct xsk_umem_config *config);
int xsk_socket__create(struct xsk_socket **xsk, const char *ifname, __u32 queue_id, struct xsk_umem *umem, struct xsk_ring_cons *rx,
	struct xsk_ring_prod *tx, const struct xsk_socket_config *config);
int xsk_socket__create_shared(struct xsk_socket **xsk_ptr, const char *ifname, __u32 queue_id, struct xsk_umem *umem,
	struct xsk_ring_cons *rx, struct xsk_ring_prod *tx, struct xsk_ring_prod *fill, struct xsk_ring_cons *comp,
	const struct xsk_socket_config *config);
int xsk_umem__delete(struct xsk_umem *umem);
void xsk_socket__delete(struct xsk_socket *xsk);

/* ---- the program's calls know their places */

#ifndef XSK_MODEL_NO_PLACES
#define XSK_MODEL_HERE xsk_model_here(__FILE__, __LINE__)
#define xsk_ring_prod__reserve(prod, nb, idx) (XSK_MODEL_HERE, xsk_ring_prod__reserve(prod, nb, idx))
#define xsk_ring_prod__submit(prod, nb) (XSK_MODEL_HERE, xsk_ring_prod__submit(prod, nb))
#define xsk_ring_prod__needs_wakeup(prod) (XSK_MODEL_HERE, xsk_ring_prod__needs_wakeup(prod))
#define xsk_prod_nb_free(prod, nb) (XSK_MODEL_HERE, xsk_prod_nb_free(prod, nb))
#define xsk_ring_cons__peek(cons, nb, idx) (XSK_MODEL_HERE, xsk_ring_cons__peek(cons, nb, idx))
#define xsk_ring_cons__release(cons, nb) (XSK_MODEL_HERE, xsk_ring_cons__release(cons, nb))
#define xsk_ring_cons__cancel(cons, nb) (XSK_MODEL_HERE, xsk_ring_cons__cancel(cons, nb))
#define xsk_cons_nb_avail(cons, nb) (XSK_MODEL_HERE, xsk_cons_nb_avail(cons, nb))
#define xsk_umem__create(umem, area, size, fill, comp, config) (XSK_MODEL_HERE, xsk_umem__create(umem, area, size, fill, comp, config))
#define xsk_socket__create(xsk, ifname, queue, umem, rx, tx, config)                                                                       \
	(XSK_MODEL_HERE, xsk_socket__create(xsk, ifname, queue, umem, rx, tx, config))
#define xsk_socket__create_shared(xsk, ifname, queue, umem, rx, tx, fill, comp, config)                                                    \
	(XSK_MODEL_HERE, xsk_socket__create_shared(xsk, ifname, queue, umem, rx, tx, fill, comp, config))
#endif

#ifdef __cplusplus
} /* extern "C" */
#endif

#endif
