/* xsk_record.h: records the AF_XDP ring calls of a program, over libxdp's <xdp/xsk.h> or libbpf's older <bpf/xsk.h>.
 *
 *     cc -include record/xsk_record.h ..          no other change; or #include it in place of <xdp/xsk.h>, before other headers
 *     XSK_RECORD=/dev/shm/run ./program           writes /dev/shm/run.PID.TID for each thread that makes ring calls
 *     xsk-merge /dev/shm/run.* >run.rec           makes the text of it (docs/RECORDING.md)
 *
 * Without XSK_RECORD in the environment a call costs a load and a branch more. XSK_RECORD_MB is the most of a thread's file, 1024 at
 * first. XSK_RECORD_AHEAD=MB takes so much memory for each thread as it begins, and stores nothing before it is full: that is quicker. -DXSK_RECORD_ASAN, with -fsanitize=address, poisons each frame that the program doesn't hold. -DXSK_RECORD_OVER='<header>' names
 * the header of the ring functions. The files are mapped, so they outlive the program, however it ends. Tried on x86-64. */
#ifndef XSK_RECORD_H
#define XSK_RECORD_H
#ifndef XSK_RECORD_SHOW_WARNINGS /* only its own tests want them */
#pragma GCC system_header
#endif

#include "xsk_record_file.h"
#ifdef XSK_RECORD_ASAN
#include <sanitizer/asan_interface.h>
#endif
#ifdef XSK_RECORD_OVER
#include XSK_RECORD_OVER
#elif !defined __LIBBPF_XSK_H && defined __has_include
#if __has_include(<xdp/xsk.h>)
#include <xdp/xsk.h>
#else
#include <bpf/xsk.h>
#endif
#endif

#ifdef __cplusplus
extern "C" {
#endif

enum { XSK_RECORD_UMEMS = 16, XSK_RECORD_DESCRIPTORS = 4096 };

struct xsk_record_area {
	struct xsk_umem *umem;
	char *start;
	uint64_t size;
	uint32_t chunk;
	uint16_t fill, completion, number; /* the rings: 0 once a socket has them */
};
struct xsk_record_known_ring {
	void *entries; /* where it is mapped, so a program may copy the struct; NULL: nothing was here, the table itself: it is gone */
	struct xsk_record_area *area;
	uint32_t size;
	uint16_t number; /* from 1 on; 0: it isn't known. Records have one less */
	uint8_t kind;
};
struct xsk_record_known_socket {
	struct xsk_socket *xsk;
	uint16_t wakes_tx, wakes_rx; /* rings that a call on it wakes */
};

XSK_RECORD_SHARED uint32_t xsk_record_ring_count, xsk_record_umem_count;
XSK_RECORD_SHARED struct xsk_record_area xsk_record_areas[XSK_RECORD_UMEMS];
XSK_RECORD_SHARED struct xsk_record_known_ring xsk_record_rings[XSK_RECORD_RINGS];
XSK_RECORD_SHARED struct xsk_record_known_socket xsk_record_sockets[XSK_RECORD_DESCRIPTORS];

/* ------------------------------------------------------------------------------------------------------------------------- rings */

XSK_RECORD_SLOW struct xsk_record_known_ring *xsk_record_seek(const void *entries);
XSK_RECORD_SLOW void xsk_record_tell(struct xsk_record_thread *t, const struct xsk_record_known_ring *known);
XSK_RECORD_SLOW uint16_t xsk_record_new_ring(enum xsk_record_kind kind, void *entries, uint32_t size, struct xsk_record_area *area);

XSK_RECORD_INLINE uint32_t xsk_record_slot(const void *entries) { return (uint32_t)((uintptr_t)entries >> 12) & (XSK_RECORD_RINGS - 1); }

/* The ring that is mapped there; one without a number where it isn't known. */
XSK_RECORD_INLINE struct xsk_record_known_ring *xsk_record_find(const void *entries)
{
	struct xsk_record_known_ring *known = &xsk_record_rings[xsk_record_slot(entries)];
	return XSK_RECORD_LIKELY(known->entries == entries) ? known : xsk_record_seek(entries);
}

/* How records name it. */
XSK_RECORD_INLINE uint8_t xsk_record_byte(const struct xsk_record_known_ring *known) { return (uint8_t)(known->number - 1); }

XSK_RECORD_SLOW struct xsk_record_known_ring *xsk_record_seek(const void *entries)
{
	static struct xsk_record_known_ring none;
	uint32_t slot = xsk_record_slot(entries), tries;
	for (tries = 0; tries < XSK_RECORD_RINGS; tries++, slot = (slot + 1) & (XSK_RECORD_RINGS - 1))
		if (xsk_record_rings[slot].entries == entries)
			return &xsk_record_rings[slot];
	return &none;
}

XSK_RECORD_INLINE void xsk_record_describe(struct xsk_record_thread *t, const struct xsk_record_known_ring *known)
{
	xsk_record_put(t, XSK_RECORD_RING, xsk_record_byte(known), 0, known->size, known->kind, 0, NULL, 0);
}

/* Describes a ring in the file of this thread, which is to make a call on it; what isn't known is counted. */
XSK_RECORD_SLOW void xsk_record_tell(struct xsk_record_thread *t, const struct xsk_record_known_ring *known)
{
	if (!t->header && !xsk_record_more(t))
		return;
	if (!known->number) {
		t->header->unknown++;
		return;
	}
	xsk_record_calls(t);
	t->told[known->number] = 1;
	xsk_record_describe(t, known);
}

XSK_RECORD_SLOW uint16_t xsk_record_new_ring(enum xsk_record_kind kind, void *entries, uint32_t size, struct xsk_record_area *area)
{
	uint32_t slot = xsk_record_slot(entries), tries;
	if (xsk_record_find(entries)->number)
		return xsk_record_find(entries)->number;
	for (tries = 0; tries < XSK_RECORD_RINGS; tries++, slot = (slot + 1) & (XSK_RECORD_RINGS - 1)) {
		struct xsk_record_known_ring *known = &xsk_record_rings[slot];
		void *before = __atomic_load_n(&known->entries, __ATOMIC_ACQUIRE);
		if ((before && before != (void *)xsk_record_rings) ||
			!__atomic_compare_exchange_n(&known->entries, &before, entries, 0, __ATOMIC_ACQ_REL, __ATOMIC_ACQUIRE))
			continue;
		known->number = (uint16_t)__atomic_add_fetch(&xsk_record_ring_count, 1, __ATOMIC_ACQ_REL);
		known->kind = (uint8_t)kind;
		known->area = area;
		known->size = size;
		if (xsk_record_here())
			xsk_record_describe(xsk_record_mine, known);
		return known->number;
	}
	return 0;
}

/* The ring of a call, which this thread's file describes before its first call; NULL where it isn't known, which is counted. */
XSK_RECORD_INLINE const struct xsk_record_known_ring *xsk_record_on(struct xsk_record_thread *t, const void *entries)
{
	const struct xsk_record_known_ring *known = xsk_record_find(entries);
	if (!XSK_RECORD_LIKELY(t->told[known->number])) {
		xsk_record_tell(t, known);
		return known->number ? known : NULL;
	}
	return known;
}

XSK_RECORD_INLINE void xsk_record_forget_ring(const void *entries)
{
	struct xsk_record_known_ring *known = xsk_record_find(entries);
	struct xsk_record_thread *t = xsk_record_here();
	if (!known->number)
		return;
	if (t) {
		xsk_record_calls(t);
		xsk_record_put(t, XSK_RECORD_GONE, xsk_record_byte(known), 0, 0, 0, 0, NULL, 0);
	}
	known->number = 0;
	__atomic_store_n(&known->entries, (void *)xsk_record_rings, __ATOMIC_RELEASE);
}

/* With XSK_RECORD_ASAN: frames that the kernel may have can't be touched, and those that came can. */
XSK_RECORD_INLINE void xsk_record_guard(
	const struct xsk_record_known_ring *known, const void *ring, uint32_t mask, uint32_t from, uint32_t n, int mine)
{
#ifdef XSK_RECORD_ASAN
	size_t bytes = known->kind == XSK_RECORD_RX || known->kind == XSK_RECORD_TX ? 16 : 8;
	const char *entries = (const char *)ring;
	uint32_t i;
	for (i = 0; known->area && i < n; i++) {
		uint64_t address;
		memcpy(&address, entries + ((from + i) & mask) * bytes, sizeof address);
		address -= address % known->area->chunk;
		if (address >= known->area->size)
			continue;
		if (mine)
			ASAN_UNPOISON_MEMORY_REGION(known->area->start + address, known->area->chunk);
		else
			ASAN_POISON_MEMORY_REGION(known->area->start + address, known->area->chunk);
	}
#else
	(void)known, (void)ring, (void)mask, (void)from, (void)n, (void)mine;
#endif
}

/* A Submit or Peek: `n` were submitted or asked for, `left` is what its record says in `reply`, and `count` entries stand in the ring from
 * number `from` on. */
XSK_RECORD_INLINE void xsk_record_put_entries(struct xsk_record_thread *t, const struct xsk_record_known_ring *known,
	enum xsk_record_call call, uint16_t where, uint32_t n, uint32_t left, uint32_t own, const void *ring, uint32_t mask, uint32_t from,
	uint32_t count)
{
	size_t bytes = known->kind == XSK_RECORD_RX || known->kind == XSK_RECORD_TX ? 16 : 8;
	uint64_t time = xsk_record_now();
	const char *entries = (const char *)ring;
	t->changes++;
	do {
		uint32_t part = count < (uint32_t)XSK_RECORD_MOST ? count : (uint32_t)XSK_RECORD_MOST, place = from & mask;
		size_t first = mask + 1 - place < part ? mask + 1 - place : part;
		struct xsk_record *r = xsk_record_new(t, part * bytes);
		if (!r)
			return;
		count -= part;
		xsk_record_fill_in(r, time, xsk_record_byte(known), where, count ? part : n, call == XSK_RECORD_PEEK ? part : left, own);
		if (part == 1) {
			memcpy(r + 1, entries + place * bytes, 8);
			if (bytes == 16)
				memcpy((char *)(r + 1) + 8, entries + place * bytes + 8, 8);
		} else {
			memcpy(r + 1, entries + place * bytes, first * bytes);
			if (first < part)
				memcpy((char *)(r + 1) + first * bytes, entries, (part - first) * bytes);
		}
		xsk_record_done(t, r, call, part * bytes);
		from += part;
		n -= part;
		left -= part;
		own += call == XSK_RECORD_SUBMIT ? part : 0;
	} while (count);
}

/* ----------------------------------------------------------------------------------------------------------------- the ring calls
 * What gives is recorded before it is done, and what takes behind it: so the merged order of threads is one that could have been. */

/* The same place. A compiler that sees more code than the library's can't tell that it is written to where it is read, and warns. */
XSK_RECORD_INLINE __u32 *xsk_record_hidden(__u32 *idx)
{
	__asm__("" : "+r"(idx));
	return idx;
}

XSK_RECORD_INLINE uint32_t xsk_record_reserve(struct xsk_ring_prod *r, uint32_t n, __u32 *idx, const char *file, uint32_t line)
{
	uint32_t got = (uint32_t)xsk_ring_prod__reserve(r, n, xsk_record_hidden(idx));
	struct xsk_record_thread *t = xsk_record_here();
	const struct xsk_record_known_ring *known = t && n ? xsk_record_on(t, r->ring) : NULL;
	if (known && got) {
		t->changes++;
		xsk_record_put(t, XSK_RECORD_RESERVE, xsk_record_byte(known), xsk_record_at(t, file, line), n, got, *r->producer, NULL, 0);
	} else if (known) {
		xsk_record_put_quiet(t, XSK_RECORD_RESERVE, 0, xsk_record_byte(known), xsk_record_at(t, file, line), n,
			r->cached_cons - r->cached_prod, *r->producer);
	}
	return got;
}

XSK_RECORD_INLINE uint32_t xsk_record_free(struct xsk_ring_prod *r, uint32_t n, const char *file, uint32_t line)
{
	uint32_t got = (uint32_t)xsk_prod_nb_free(r, n);
	struct xsk_record_thread *t = xsk_record_here();
	const struct xsk_record_known_ring *known = t ? xsk_record_on(t, r->ring) : NULL;
	if (known)
		xsk_record_put_quiet(t, XSK_RECORD_FREE, 1, xsk_record_byte(known), xsk_record_at(t, file, line), n, got, *r->producer);
	return got;
}

XSK_RECORD_INLINE void xsk_record_submit(struct xsk_ring_prod *r, uint32_t n, const char *file, uint32_t line)
{
	struct xsk_record_thread *t = xsk_record_here();
	const struct xsk_record_known_ring *known = t && n ? xsk_record_on(t, r->ring) : NULL;
	uint32_t from = *r->producer, count = n < r->size ? n : r->size;
	if (known)
		xsk_record_put_entries(t, known, XSK_RECORD_SUBMIT, xsk_record_at(t, file, line), n, r->cached_prod - from, from, r->ring,
			r->mask, from, count);
#ifdef XSK_RECORD_ASAN
	xsk_record_guard(xsk_record_find(r->ring), r->ring, r->mask, from, count, 0);
#endif
	xsk_ring_prod__submit(r, n);
}

XSK_RECORD_INLINE uint32_t xsk_record_peek(struct xsk_ring_cons *r, uint32_t n, __u32 *idx, const char *file, uint32_t line)
{
	uint32_t got = (uint32_t)xsk_ring_cons__peek(r, n, xsk_record_hidden(idx));
	struct xsk_record_thread *t = xsk_record_here();
	const struct xsk_record_known_ring *known = t && n ? xsk_record_on(t, r->ring) : NULL;
	if (known && got)
		xsk_record_put_entries(t, known, XSK_RECORD_PEEK, xsk_record_at(t, file, line), n, got, *r->consumer, r->ring, r->mask,
			r->cached_cons - got, got);
	else if (known)
		xsk_record_put_quiet(t, XSK_RECORD_PEEK, 0, xsk_record_byte(known), xsk_record_at(t, file, line), n, 0, *r->consumer);
#ifdef XSK_RECORD_ASAN
	xsk_record_guard(xsk_record_find(r->ring), r->ring, r->mask, r->cached_cons - got, got, 1);
#endif
	return got;
}

/* A Release or Cancel. */
XSK_RECORD_INLINE void xsk_record_consumed(struct xsk_ring_cons *r, enum xsk_record_call call, uint32_t n, const char *file, uint32_t line)
{
	struct xsk_record_thread *t = xsk_record_here();
	const struct xsk_record_known_ring *known = t && n ? xsk_record_on(t, r->ring) : NULL;
	if (!known)
		return;
	t->changes++;
	xsk_record_put(
		t, call, xsk_record_byte(known), xsk_record_at(t, file, line), n, r->cached_cons - *r->consumer, *r->consumer, NULL, 0);
}

XSK_RECORD_INLINE void xsk_record_release(struct xsk_ring_cons *r, uint32_t n, const char *file, uint32_t line)
{
	xsk_record_consumed(r, XSK_RECORD_RELEASE, n, file, line);
	xsk_ring_cons__release(r, n);
}

#ifndef XSK_RECORD_NO_CANCEL /* libbpf up to 0.2 has none */
XSK_RECORD_INLINE void xsk_record_cancel(struct xsk_ring_cons *r, uint32_t n, const char *file, uint32_t line)
{
	xsk_record_consumed(r, XSK_RECORD_CANCEL, n, file, line);
#ifdef XSK_RECORD_ASAN
	xsk_record_guard(xsk_record_find(r->ring), r->ring, r->mask, r->cached_cons - n, n, 0);
#endif
	xsk_ring_cons__cancel(r, n);
}
#endif

XSK_RECORD_INLINE int xsk_record_look(const struct xsk_ring_prod *r, const char *file, uint32_t line)
{
	int flag = xsk_ring_prod__needs_wakeup(r);
	struct xsk_record_thread *t = xsk_record_here();
	const struct xsk_record_known_ring *known = t ? xsk_record_on(t, r->ring) : NULL;
	if (known)
		xsk_record_put_quiet(t, XSK_RECORD_LOOK, 2, xsk_record_byte(known), xsk_record_at(t, file, line), 0, flag != 0, 0);
	return flag;
}

/* An entry that is touched is one that is reserved, or peeked and not yet released; else it is told. */
XSK_RECORD_INLINE uint32_t xsk_record_touch(const void *entries, uint32_t idx, uint32_t from, uint32_t to, const char *file, uint32_t line)
{
	if (!XSK_RECORD_LIKELY(idx - from < to - from && (int32_t)(to - from) > 0)) {
		struct xsk_record_thread *t = xsk_record_here();
		const struct xsk_record_known_ring *known = t ? xsk_record_on(t, entries) : NULL;
		if (known)
			xsk_record_put_quiet(t, XSK_RECORD_TOUCH, 1, xsk_record_byte(known), xsk_record_at(t, file, line), idx, idx, from);
	}
	return idx;
}

XSK_RECORD_INLINE uint32_t xsk_record_touch_produced(const struct xsk_ring_prod *r, uint32_t idx, const char *file, uint32_t line)
{
	return xsk_record_off ? idx : xsk_record_touch(r->ring, idx, *r->producer, r->cached_prod, file, line);
}

XSK_RECORD_INLINE uint32_t xsk_record_touch_consumed(const struct xsk_ring_cons *r, uint32_t idx, const char *file, uint32_t line)
{
	return xsk_record_off ? idx : xsk_record_touch(r->ring, idx, *r->consumer, r->cached_cons, file, line);
}

XSK_RECORD_INLINE __u64 *xsk_record_fill_addr(struct xsk_ring_prod *r, uint32_t idx, const char *file, uint32_t line)
{
	return xsk_ring_prod__fill_addr(r, xsk_record_touch_produced(r, idx, file, line));
}

XSK_RECORD_INLINE struct xdp_desc *xsk_record_tx_desc(struct xsk_ring_prod *r, uint32_t idx, const char *file, uint32_t line)
{
	return xsk_ring_prod__tx_desc(r, xsk_record_touch_produced(r, idx, file, line));
}

XSK_RECORD_INLINE const __u64 *xsk_record_comp_addr(const struct xsk_ring_cons *r, uint32_t idx, const char *file, uint32_t line)
{
	return xsk_ring_cons__comp_addr(r, xsk_record_touch_consumed(r, idx, file, line));
}

XSK_RECORD_INLINE const struct xdp_desc *xsk_record_rx_desc(const struct xsk_ring_cons *r, uint32_t idx, const char *file, uint32_t line)
{
	return xsk_ring_cons__rx_desc(r, xsk_record_touch_consumed(r, idx, file, line));
}

/* ------------------------------------------------------------------------------------------------------------------------- wakes
 * sendto(), recvfrom() and poll() by bodies that are inlined where they are called. They are no macros: a program may have members of
 * these names. */
#define XSK_RECORD_CALL extern __inline __attribute__((__always_inline__, __gnu_inline__, __artificial__))

#ifdef __GLIBC__
#define XSK_RECORD_TO __CONST_SOCKADDR_ARG
#define XSK_RECORD_FROM __SOCKADDR_ARG
#else
#define XSK_RECORD_TO const struct sockaddr *
#define XSK_RECORD_FROM struct sockaddr *__restrict
#endif
extern ssize_t xsk_record_real_sendto(int, const void *, size_t, int, XSK_RECORD_TO, socklen_t) __asm__("sendto");
extern ssize_t xsk_record_real_recvfrom(int, void *__restrict, size_t, int, XSK_RECORD_FROM, socklen_t *__restrict) __asm__("recvfrom");
extern int xsk_record_real_poll(struct pollfd *, nfds_t, int) __asm__("poll");

XSK_RECORD_SLOW void xsk_record_wake(int descriptor, enum xsk_record_wake how);
XSK_RECORD_SLOW void xsk_record_wake(int descriptor, enum xsk_record_wake how)
{
	struct xsk_record_thread *t;
	const struct xsk_record_known_socket *known = &xsk_record_sockets[descriptor & (XSK_RECORD_DESCRIPTORS - 1)];
	if (descriptor < 0 || descriptor >= XSK_RECORD_DESCRIPTORS || !known->xsk)
		return;
	t = xsk_record_here();
	if (t)
		xsk_record_calls(t);
	if (t && known->wakes_tx && how != XSK_RECORD_RECVFROM)
		xsk_record_put_quiet(t, XSK_RECORD_KICK, 3, (uint8_t)(known->wakes_tx - 1), 0, how, how, 0);
	if (t && known->wakes_rx && how != XSK_RECORD_SENDTO)
		xsk_record_put_quiet(t, XSK_RECORD_KICK, 3, (uint8_t)(known->wakes_rx - 1), 0, how, how, 0);
}

XSK_RECORD_CALL ssize_t sendto(int descriptor, const void *bytes, size_t length, int flags, XSK_RECORD_TO to, socklen_t size)
{
	if (!xsk_record_off)
		xsk_record_wake(descriptor, XSK_RECORD_SENDTO);
	return xsk_record_real_sendto(descriptor, bytes, length, flags, to, size);
}

XSK_RECORD_CALL ssize_t recvfrom(
	int descriptor, void *__restrict bytes, size_t length, int flags, XSK_RECORD_FROM from, socklen_t *__restrict size)
{
	if (!xsk_record_off)
		xsk_record_wake(descriptor, XSK_RECORD_RECVFROM);
	return xsk_record_real_recvfrom(descriptor, bytes, length, flags, from, size);
}

XSK_RECORD_CALL int poll(struct pollfd *descriptors, nfds_t count, int milliseconds)
{
	nfds_t i;
	for (i = 0; !xsk_record_off && i < count; i++)
		xsk_record_wake(descriptors[i].fd, XSK_RECORD_POLL);
	return xsk_record_real_poll(descriptors, count, milliseconds);
}

/* --------------------------------------------------------------------------------------------------------------------- setting up */

XSK_RECORD_INLINE uint16_t xsk_record_made_prod(enum xsk_record_kind kind, struct xsk_ring_prod *r, struct xsk_record_area *area)
{
	return r && r->ring ? xsk_record_new_ring(kind, r->ring, r->size, area) : 0;
}

XSK_RECORD_INLINE uint16_t xsk_record_made_cons(enum xsk_record_kind kind, struct xsk_ring_cons *r, struct xsk_record_area *area)
{
	return r && r->ring ? xsk_record_new_ring(kind, r->ring, r->size, area) : 0;
}

XSK_RECORD_INLINE struct xsk_record_area *xsk_record_area_of(const struct xsk_umem *umem)
{
	uint32_t i;
	for (i = 0; i < XSK_RECORD_UMEMS; i++)
		if (umem && xsk_record_areas[i].umem == umem)
			return &xsk_record_areas[i];
	return NULL;
}

XSK_RECORD_INLINE struct xsk_record_area *xsk_record_new_area(struct xsk_umem *umem)
{
	uint32_t i;
	for (i = 0; i < XSK_RECORD_UMEMS; i++) {
		struct xsk_umem *none = NULL;
		if (__atomic_compare_exchange_n(&xsk_record_areas[i].umem, &none, umem, 0, __ATOMIC_ACQ_REL, __ATOMIC_ACQUIRE))
			return &xsk_record_areas[i];
	}
	return NULL;
}

XSK_RECORD_SLOW void xsk_record_new_umem(struct xsk_umem *umem, void *start, uint64_t size, struct xsk_ring_prod *fill,
	struct xsk_ring_cons *completion, const struct xsk_umem_config *config);
XSK_RECORD_SLOW void xsk_record_new_umem(struct xsk_umem *umem, void *start, uint64_t size, struct xsk_ring_prod *fill,
	struct xsk_ring_cons *completion, const struct xsk_umem_config *config)
{
	struct xsk_record_thread *t = xsk_record_here();
	struct xsk_record_area *area = xsk_record_new_area(umem);
	struct xsk_record_umem told;
	if (!area)
		return;
	area->start = (char *)start;
	area->size = size;
	area->chunk = config ? config->frame_size : XSK_UMEM__DEFAULT_FRAME_SIZE;
	area->number = (uint16_t)__atomic_fetch_add(&xsk_record_umem_count, 1, __ATOMIC_ACQ_REL);
	area->fill = xsk_record_made_prod(XSK_RECORD_FILL, fill, area);
	area->completion = xsk_record_made_cons(XSK_RECORD_COMPLETION, completion, area);
	if (!t)
		return;
	memset(&told, 0, sizeof told);
	told.size = size;
	told.chunk = area->chunk;
	told.headroom = config ? config->frame_headroom : XSK_UMEM__DEFAULT_FRAME_HEADROOM;
	told.flags = config ? config->flags : 0;
	told.number = area->number;
	xsk_record_put(t, XSK_RECORD_UMEM, 0, 0, 0, 0, 0, &told, sizeof told);
}

XSK_RECORD_SLOW void xsk_record_new_socket(struct xsk_socket *xsk, const char *ifname, uint32_t queue, struct xsk_umem *umem,
	struct xsk_ring_cons *rx, struct xsk_ring_prod *tx, struct xsk_ring_prod *fill, struct xsk_ring_cons *completion,
	const struct xsk_socket_config *config);
XSK_RECORD_SLOW void xsk_record_new_socket(struct xsk_socket *xsk, const char *ifname, uint32_t queue, struct xsk_umem *umem,
	struct xsk_ring_cons *rx, struct xsk_ring_prod *tx, struct xsk_ring_prod *fill, struct xsk_ring_cons *completion,
	const struct xsk_socket_config *config)
{
	struct xsk_record_thread *t = xsk_record_here();
	struct xsk_record_area *area = xsk_record_area_of(umem);
	struct xsk_record_socket told;
	int descriptor = xsk_socket__fd(xsk);
	memset(&told, 0, sizeof told);
	strncpy(told.ifname, ifname, sizeof told.ifname - 1);
	told.queue = queue;
	told.bind_flags = config ? config->bind_flags : 0;
	told.umem = area ? area->number : (uint16_t)XSK_RECORD_UMEMS;
	told.rx = xsk_record_made_cons(XSK_RECORD_RX, rx, area);
	told.tx = xsk_record_made_prod(XSK_RECORD_TX, tx, area);
	told.fill = xsk_record_made_prod(XSK_RECORD_FILL, fill, area);
	told.completion = xsk_record_made_cons(XSK_RECORD_COMPLETION, completion, area);
	if (area && !fill && !completion) {
		told.fill = area->fill;
		told.completion = area->completion;
		area->fill = area->completion = 0;
	}
	if (descriptor >= 0 && descriptor < XSK_RECORD_DESCRIPTORS) {
		xsk_record_sockets[descriptor].xsk = xsk;
		xsk_record_sockets[descriptor].wakes_tx = told.tx;
		xsk_record_sockets[descriptor].wakes_rx = told.rx;
	}
	if (t)
		xsk_record_put(t, XSK_RECORD_SOCKET, 0, 0, 0, 0, 0, &told, sizeof told);
}

XSK_RECORD_INLINE int xsk_record_umem_create(struct xsk_umem **umem, void *start, uint64_t size, struct xsk_ring_prod *fill,
	struct xsk_ring_cons *completion, const struct xsk_umem_config *config)
{
	int fault = xsk_umem__create(umem, start, size, fill, completion, config);
	if (!fault)
		xsk_record_new_umem(*umem, start, size, fill, completion, config);
	return fault;
}

XSK_RECORD_INLINE int xsk_record_socket_create(struct xsk_socket **xsk, const char *ifname, uint32_t queue, struct xsk_umem *umem,
	struct xsk_ring_cons *rx, struct xsk_ring_prod *tx, const struct xsk_socket_config *config)
{
	int fault = xsk_socket__create(xsk, ifname, queue, umem, rx, tx, config);
	if (!fault)
		xsk_record_new_socket(*xsk, ifname, queue, umem, rx, tx, NULL, NULL, config);
	return fault;
}

#ifndef XSK_RECORD_NO_SHARED /* libbpf up to 0.1 has none */
XSK_RECORD_INLINE int xsk_record_socket_create_shared(struct xsk_socket **xsk, const char *ifname, uint32_t queue, struct xsk_umem *umem,
	struct xsk_ring_cons *rx, struct xsk_ring_prod *tx, struct xsk_ring_prod *fill, struct xsk_ring_cons *completion,
	const struct xsk_socket_config *config)
{
	int fault = xsk_socket__create_shared(xsk, ifname, queue, umem, rx, tx, fill, completion, config);
	if (!fault)
		xsk_record_new_socket(*xsk, ifname, queue, umem, rx, tx, fill, completion, config);
	return fault;
}
#endif

/* A socket's RX and TX go with it, FILL and COMPLETION with the UMEM. */
XSK_RECORD_INLINE void xsk_record_socket_delete(struct xsk_socket *xsk)
{
	int descriptor = xsk ? xsk_socket__fd(xsk) : -1;
	if (descriptor >= 0 && descriptor < XSK_RECORD_DESCRIPTORS && xsk_record_sockets[descriptor].xsk == xsk) {
		struct xsk_record_known_socket *known = &xsk_record_sockets[descriptor];
		uint32_t i;
		for (i = 0; i < XSK_RECORD_RINGS; i++)
			if (xsk_record_rings[i].number &&
				(xsk_record_rings[i].number == known->wakes_tx || xsk_record_rings[i].number == known->wakes_rx))
				xsk_record_forget_ring(xsk_record_rings[i].entries);
		known->xsk = NULL;
	}
	xsk_socket__delete(xsk);
}

XSK_RECORD_INLINE int xsk_record_umem_delete(struct xsk_umem *umem)
{
	int fault = xsk_umem__delete(umem);
	struct xsk_record_area *area = fault ? NULL : xsk_record_area_of(umem);
	uint32_t i;
	for (i = 0; area && i < XSK_RECORD_RINGS; i++)
		if (xsk_record_rings[i].number && xsk_record_rings[i].area == area)
			xsk_record_forget_ring(xsk_record_rings[i].entries);
#ifdef XSK_RECORD_ASAN
	if (area)
		ASAN_UNPOISON_MEMORY_REGION(area->start, area->size);
#endif
	if (area)
		area->umem = NULL;
	return fault;
}

#ifdef __cplusplus
} /* extern "C" */
#endif

#ifdef XSK_RECORD_ASKED_FOR_GNU
#undef _GNU_SOURCE
#undef XSK_RECORD_ASKED_FOR_GNU
#endif

/* From here on the program's calls are the recorder's. */
#define xsk_ring_prod__reserve(ring, n, idx) xsk_record_reserve(ring, n, idx, __FILE__, __LINE__)
#define xsk_ring_prod__submit(ring, n) xsk_record_submit(ring, n, __FILE__, __LINE__)
#define xsk_ring_prod__needs_wakeup(ring) xsk_record_look(ring, __FILE__, __LINE__)
#define xsk_ring_prod__fill_addr(ring, idx) xsk_record_fill_addr(ring, idx, __FILE__, __LINE__)
#define xsk_ring_prod__tx_desc(ring, idx) xsk_record_tx_desc(ring, idx, __FILE__, __LINE__)
#define xsk_prod_nb_free(ring, n) xsk_record_free(ring, n, __FILE__, __LINE__)
#define xsk_ring_cons__peek(ring, n, idx) xsk_record_peek(ring, n, idx, __FILE__, __LINE__)
#define xsk_ring_cons__release(ring, n) xsk_record_release(ring, n, __FILE__, __LINE__)
#define xsk_ring_cons__cancel(ring, n) xsk_record_cancel(ring, n, __FILE__, __LINE__)
#define xsk_ring_cons__comp_addr(ring, idx) xsk_record_comp_addr(ring, idx, __FILE__, __LINE__)
#define xsk_ring_cons__rx_desc(ring, idx) xsk_record_rx_desc(ring, idx, __FILE__, __LINE__)
#define xsk_umem__create(umem, start, size, fill, completion, config) xsk_record_umem_create(umem, start, size, fill, completion, config)
#define xsk_umem__delete(umem) xsk_record_umem_delete(umem)
#define xsk_socket__create(xsk, ifname, queue, umem, rx, tx, config) xsk_record_socket_create(xsk, ifname, queue, umem, rx, tx, config)
#define xsk_socket__create_shared(xsk, ifname, queue, umem, rx, tx, fill, completion, config)                                              \
	xsk_record_socket_create_shared(xsk, ifname, queue, umem, rx, tx, fill, completion, config)
#define xsk_socket__delete(xsk) xsk_record_socket_delete(xsk)

#endif
