/* xsk_record_file.h: the file of a thread: how it is begun, mapped, and written to. A part of xsk_record.h. */
#ifndef XSK_RECORD_FILE_H
#define XSK_RECORD_FILE_H
#ifndef XSK_RECORD_SHOW_WARNINGS
#pragma GCC system_header
#endif

/* What it stands on.
 * All of the C library is asked for, since a program may ask for it only behind this. The checked forms of poll() and recvfrom() are
 * left out, as they would stand where the recorder's stand. */
#ifndef _GNU_SOURCE
#define _GNU_SOURCE 1
#define XSK_RECORD_ASKED_FOR_GNU
#endif
#include <features.h>
#if defined __USE_FORTIFY_LEVEL && __USE_FORTIFY_LEVEL > 0
#if defined _SYS_POLL_H || defined _SYS_SOCKET_H
#error "with _FORTIFY_SOURCE include xsk_record.h before <poll.h> and <sys/socket.h>, as -include does"
#endif
#pragma push_macro("__USE_FORTIFY_LEVEL")
#undef __USE_FORTIFY_LEVEL
#define __USE_FORTIFY_LEVEL 0
#include <poll.h>
#include <sys/socket.h>
#pragma pop_macro("__USE_FORTIFY_LEVEL")
#endif
#include "xsk_record_format.h"
#include <errno.h>
#include <fcntl.h>
#include <poll.h>
#include <pthread.h>
#include <stdio.h>
#include <stdlib.h>
#include <string.h>
#include <sys/mman.h>
#include <sys/resource.h>
#include <sys/socket.h>
#include <sys/syscall.h>
#include <time.h>
#include <unistd.h>
#ifdef __x86_64__
#include <cpuid.h>
#endif

#ifdef __cplusplus
extern "C" {
#endif

#define XSK_RECORD_INLINE static inline __attribute__((always_inline, unused))
#define XSK_RECORD_SHARED __attribute__((weak, visibility("default"))) /* one for all files of a program */
#define XSK_RECORD_SLOW XSK_RECORD_SHARED __attribute__((noinline, cold))
#define XSK_RECORD_LIKELY(truth) __builtin_expect(!!(truth), 1)

enum {
	XSK_RECORD_PLACES = 1024,
	XSK_RECORD_RINGS = 256,
	XSK_RECORD_BUFFER = 1 << 16, /* the least bytes of a buffer */
	XSK_RECORD_QUIET = 1 << 28   /* in the clock's units: how long a call that changes nothing isn't told again */
};

struct xsk_record_place {
	const char *file;
	uint32_t line;
};
/* the last call of a kind on a ring that changed nothing */
struct xsk_record_quiet {
	uint64_t time;
	uint32_t changes, reply;
};
/* What a thread keeps. A child of fork() finds zeros, and begins a file of its own. */
struct xsk_record_thread {
	char *at, *end, *buffer; /* where the next record goes, and the buffer that has it */
	struct xsk_record_header *header;
	struct xsk_record_thread *next;
	uint64_t most; /* bytes of the file */
	int descriptor;
	uint32_t changes;		    /* calls that changed something */
	uint8_t told[XSK_RECORD_RINGS + 1]; /* whether it has made a call on the ring, which its file describes */
	struct xsk_record_place places[XSK_RECORD_PLACES];
	struct xsk_record_quiet quiet[4][XSK_RECORD_RINGS];
};

/* Where times are taken from: the processor's time stamp counter, if it is one for all processors. `ORDERED` waits until the reads before it
 * are done: a frame that another thread handed on was got before it. `ALONE` doesn't: one thread has made calls, and its own are in order. */
enum xsk_record_clocks { XSK_RECORD_UNKNOWN, XSK_RECORD_MONOTONIC, XSK_RECORD_ORDERED, XSK_RECORD_ALONE };

XSK_RECORD_SHARED int xsk_record_off;
XSK_RECORD_SHARED uint32_t xsk_record_clock, xsk_record_process, xsk_record_parent;
XSK_RECORD_SHARED struct xsk_record_thread *xsk_record_threads, *xsk_record_caller; /* all; the first that made a call */
XSK_RECORD_SHARED __thread struct xsk_record_thread *xsk_record_mine;

/* --------------------------------------------------------------------------------------------------------------------- the clock */

XSK_RECORD_INLINE uint64_t xsk_record_monotonic(void)
{
	struct timespec now;
	clock_gettime(CLOCK_MONOTONIC, &now);
	return (uint64_t)now.tv_sec * 1000000000u + (uint64_t)now.tv_nsec;
}

XSK_RECORD_INLINE uint64_t xsk_record_now(void)
{
#ifdef __x86_64__
	/* Read behind what the call read: where that shows another thread's call, this does too. */
	uint32_t clock = __atomic_load_n(&xsk_record_clock, __ATOMIC_ACQUIRE);
	unsigned int processor;
	if (XSK_RECORD_LIKELY(clock == XSK_RECORD_ALONE))
		return __builtin_ia32_rdtsc();
	if (XSK_RECORD_LIKELY(clock == XSK_RECORD_ORDERED))
		return __builtin_ia32_rdtscp(&processor);
#endif
	return xsk_record_monotonic();
}

/* Finds out whether all processors have one time stamp counter, which doesn't stop, and the instruction that waits for reads. */
XSK_RECORD_INLINE void xsk_record_find_clock(void)
{
	uint32_t clock = XSK_RECORD_MONOTONIC, unknown = XSK_RECORD_UNKNOWN;
#ifdef __x86_64__
	unsigned int a, b, c, d;
	if (__get_cpuid(0x80000007u, &a, &b, &c, &d) && (d >> 8 & 1) && __get_cpuid(0x80000001u, &a, &b, &c, &d) && (d >> 27 & 1))
		clock = XSK_RECORD_ALONE;
#endif
	__atomic_compare_exchange_n(&xsk_record_clock, &unknown, clock, 0, __ATOMIC_ACQ_REL, __ATOMIC_ACQUIRE);
}

XSK_RECORD_SLOW void xsk_record_not_alone(void);
XSK_RECORD_SLOW void xsk_record_calls(struct xsk_record_thread *t);

/* Before any other thread's call, and before a fork. */
XSK_RECORD_SLOW void xsk_record_not_alone(void)
{
	uint32_t alone = XSK_RECORD_ALONE;
	__atomic_compare_exchange_n(&xsk_record_clock, &alone, XSK_RECORD_ORDERED, 0, __ATOMIC_SEQ_CST, __ATOMIC_SEQ_CST);
}

/* This thread makes calls. */
XSK_RECORD_SLOW void xsk_record_calls(struct xsk_record_thread *t)
{
	struct xsk_record_thread *first = NULL;
	if (!__atomic_compare_exchange_n(&xsk_record_caller, &first, t, 0, __ATOMIC_ACQ_REL, __ATOMIC_ACQUIRE) && first != t)
		xsk_record_not_alone();
}

/* ------------------------------------------------------------------------------------------------------------------ beginning, ending */

XSK_RECORD_SLOW void xsk_record_end(void);
XSK_RECORD_SLOW struct xsk_record_thread *xsk_record_begin(void);
XSK_RECORD_SLOW char *xsk_record_more(struct xsk_record_thread *t);
XSK_RECORD_SLOW uint16_t xsk_record_new_place(struct xsk_record_thread *t, const char *file, uint32_t line);

/* At the program's exit. Other threads may still run, so their files are neither cut nor unmapped. */
XSK_RECORD_SLOW void xsk_record_end(void)
{
	struct xsk_record_thread *t;
	for (t = __atomic_load_n(&xsk_record_threads, __ATOMIC_ACQUIRE); t; t = t->next)
		if (t->header)
			t->header->ended = 1;
}

/* A number that the environment gives, or what stands for it. */
XSK_RECORD_INLINE unsigned long xsk_record_setting(const char *name, unsigned long otherwise)
{
	const char *text = secure_getenv(name);
	return text && *text ? strtoul(text, NULL, 10) : otherwise;
}

/* Says in a thread's file that calls are missing from now on. */
XSK_RECORD_INLINE void xsk_record_lose(struct xsk_record_header *header, int fault)
{
	if (!header->lost++) {
		header->lost_since = xsk_record_now();
		header->lost_reason = (uint64_t)fault;
	}
}

/* Opens the file of this thread; 0, or an errno. */
XSK_RECORD_INLINE int xsk_record_open(struct xsk_record_thread *t, const char *prefix)
{
	char name[4096];
	struct xsk_record_header *header;
	uint64_t buffer;
	uint32_t thread = (uint32_t)syscall(SYS_gettid);
	int length = snprintf(name, sizeof name, "%s.%u.%u", prefix, (unsigned)xsk_record_process, (unsigned)thread), fault;
	if (length < 0 || (size_t)length >= sizeof name)
		return ENAMETOOLONG;
	t->descriptor = (int)syscall(SYS_openat, AT_FDCWD, name, O_RDWR | O_CREAT | O_TRUNC | O_CLOEXEC, 0600);
	if (t->descriptor < 0)
		return errno;
	buffer = (uint64_t)xsk_record_setting("XSK_RECORD_AHEAD", 0) << 20;
	buffer = buffer < XSK_RECORD_BUFFER ? (uint64_t)XSK_RECORD_BUFFER : buffer;
	fault = posix_fallocate(t->descriptor, 0, (off_t)(XSK_RECORD_HEADER + 2 * buffer));
	if (fault)
		return fault;
	header = (struct xsk_record_header *)mmap(
		NULL, XSK_RECORD_HEADER + 2 * buffer, PROT_READ | PROT_WRITE, MAP_SHARED, t->descriptor, 0);
	if (header == MAP_FAILED)
		return errno;
	madvise(header, XSK_RECORD_HEADER + 2 * buffer, MADV_DONTFORK);
	memcpy(header->magic, XSK_RECORD_MAGIC, sizeof header->magic);
	header->process = xsk_record_process;
	header->parent = xsk_record_parent;
	header->thread = thread;
	header->clock = xsk_record_clock != XSK_RECORD_MONOTONIC;
	header->buffer = buffer;
	t->header = header;
	t->most = (uint64_t)xsk_record_setting("XSK_RECORD_MB", 1024) << 20;
	t->buffer = t->at = (char *)header + XSK_RECORD_HEADER;
	t->end = t->buffer + buffer;
	memset(t->buffer, 0, buffer);
	return 0;
}

/* In a child of fork() the lists are those of its parent. */
XSK_RECORD_INLINE void xsk_record_know_process(void)
{
	uint32_t process = (uint32_t)getpid(), before = __atomic_exchange_n(&xsk_record_process, process, __ATOMIC_ACQ_REL);
	if (before == process)
		return;
	xsk_record_parent = before;
	__atomic_store_n(&xsk_record_threads, NULL, __ATOMIC_RELEASE);
	if (!before) {
		atexit(xsk_record_end);
		pthread_atfork(xsk_record_not_alone, NULL, NULL);
	}
}

/* Makes this thread one that records, if recording is on. */
XSK_RECORD_SLOW struct xsk_record_thread *xsk_record_begin(void)
{
	const char *prefix = secure_getenv("XSK_RECORD");
	struct xsk_record_thread *t = xsk_record_mine;
	int before = errno, fault = 0;
	if (!prefix || !*prefix) {
		xsk_record_off = 1;
		return NULL;
	}
	xsk_record_find_clock();
	xsk_record_know_process();
	if (!t) {
		t = (struct xsk_record_thread *)mmap(NULL, sizeof *t, PROT_READ | PROT_WRITE, MAP_PRIVATE | MAP_ANONYMOUS, -1, 0);
		fault = t == MAP_FAILED ? errno : 0;
		if (!fault && madvise(t, sizeof *t, MADV_WIPEONFORK))
			fault = errno;
	}
	if (!fault)
		fault = xsk_record_open(t, prefix);
	if (fault) {
		struct xsk_record_thread *other;
		fprintf(stderr, "xsk_record: %s: %s; nothing more is recorded\n", prefix, strerror(fault));
		xsk_record_off = 1;
		for (other = __atomic_load_n(&xsk_record_threads, __ATOMIC_ACQUIRE); other; other = other->next)
			if (other->header)
				xsk_record_lose(other->header, fault);
	} else {
		t->next = __atomic_load_n(&xsk_record_threads, __ATOMIC_ACQUIRE);
		while (!__atomic_compare_exchange_n(&xsk_record_threads, &t->next, t, 0, __ATOMIC_ACQ_REL, __ATOMIC_ACQUIRE)) {
		}
		xsk_record_mine = t;
	}
	errno = before;
	return fault ? NULL : t;
}

/* What this thread keeps, or NULL where nothing is recorded. */
XSK_RECORD_INLINE struct xsk_record_thread *xsk_record_here(void)
{
	if (xsk_record_off)
		return NULL;
	return XSK_RECORD_LIKELY(xsk_record_mine != NULL) ? xsk_record_mine : xsk_record_begin();
}

/* ----------------------------------------------------------------------------------------------------------------------- records */

/* pwrite(), which would be a place where a thread can be cancelled. */
XSK_RECORD_INLINE ssize_t xsk_record_write(int descriptor, const char *bytes, size_t size, uint64_t at)
{
#ifdef __LP64__
	return syscall(SYS_pwrite64, descriptor, bytes, size, at);
#else
	return pwrite(descriptor, bytes, size, (off_t)at);
#endif
}

/* Stores the buffer at the end of the file and begins the other one; 0, or an errno. Which records there are changes in one write. */
XSK_RECORD_INLINE int xsk_record_store(struct xsk_record_thread *t)
{
	uint64_t buffer = t->header->buffer, state = t->header->state, stored = state >> 1, start = XSK_RECORD_HEADER + 2 * buffer;
	char *other = (char *)t->header + XSK_RECORD_HEADER + (state & 1 ? 0 : buffer);
	size_t size = (size_t)(t->at - t->buffer), done = 0;
	struct rlimit largest;
	if (start + stored + size > t->most || (!getrlimit(RLIMIT_FSIZE, &largest) && start + stored + size > largest.rlim_cur))
		return EFBIG;
	while (done < size) {
		ssize_t wrote = xsk_record_write(t->descriptor, t->buffer + done, size - done, start + stored + done);
		if (wrote < 0 && errno != EINTR)
			return errno;
		done += wrote > 0 ? (size_t)wrote : 0;
	}
	memset(other, 0, buffer);
	__atomic_store_n(&t->header->state, (stored + size) << 1 | (~state & 1), __ATOMIC_RELEASE);
	t->buffer = t->at = other;
	t->end = other + buffer;
	return 0;
}

/* Room for a record where the buffer has none: in the other one, or in a child's own file; NULL where there is none. */
XSK_RECORD_SLOW char *xsk_record_more(struct xsk_record_thread *t)
{
	int before = errno, fault = 0;
	if (!t->header) {
		if (!xsk_record_begin())
			return NULL;
	} else {
		fault = t->header->lost ? (int)t->header->lost_reason : xsk_record_store(t);
	}
	if (fault) {
		xsk_record_lose(t->header, fault);
		t->end = t->at;
	}
	errno = before;
	return fault ? NULL : t->at;
}

/* A record and what stands behind it, or NULL. Its call is written last (`xsk_record_done`), so what a killed program leaves is whole. */
XSK_RECORD_INLINE struct xsk_record *xsk_record_new(struct xsk_record_thread *t, size_t behind)
{
	size_t bytes = sizeof(struct xsk_record) + behind;
	char *at = t->at;
	if (!XSK_RECORD_LIKELY((size_t)(t->end - at) >= bytes))
		at = xsk_record_more(t);
	return (struct xsk_record *)(void *)at;
}

XSK_RECORD_INLINE void xsk_record_done(struct xsk_record_thread *t, struct xsk_record *r, enum xsk_record_call call, size_t behind)
{
	__atomic_store_n(&r->call, (uint8_t)call, __ATOMIC_RELEASE);
	t->at += sizeof *r + behind;
}

XSK_RECORD_INLINE void xsk_record_fill_in(
	struct xsk_record *r, uint64_t time, uint8_t ring, uint16_t where, uint32_t n, uint32_t reply, uint32_t own)
{
	r->time = time;
	r->ring = ring;
	r->where = where;
	r->n = n;
	r->reply = reply;
	r->own = own;
}

/* A call without entries, or a description. */
XSK_RECORD_INLINE void xsk_record_put(struct xsk_record_thread *t, enum xsk_record_call call, uint8_t ring, uint16_t where, uint32_t n,
	uint32_t reply, uint32_t own, const void *behind, size_t bytes)
{
	struct xsk_record *r = xsk_record_new(t, bytes);
	if (!r)
		return;
	xsk_record_fill_in(r, xsk_record_now(), ring, where, n, reply, own);
	if (bytes)
		memcpy(r + 1, behind, bytes);
	xsk_record_done(t, r, call, bytes);
}

/* A call that changes nothing: told once between calls that do, and again after a while. */
XSK_RECORD_INLINE void xsk_record_put_quiet(struct xsk_record_thread *t, enum xsk_record_call call, unsigned int slot, uint8_t ring,
	uint16_t where, uint32_t n, uint32_t reply, uint32_t own)
{
	struct xsk_record_quiet *q = &t->quiet[slot][ring];
	uint64_t now = xsk_record_now();
	struct xsk_record *r;
	if (q->time && q->changes == t->changes && q->reply == reply && now - q->time < XSK_RECORD_QUIET)
		return;
	r = xsk_record_new(t, 0);
	if (!r)
		return;
	q->time = now;
	q->changes = t->changes;
	q->reply = reply;
	xsk_record_fill_in(r, now, ring, where, n, reply, own);
	xsk_record_done(t, r, call, 0);
}

/* The number of a place in the program. Each file has its own; 0 where there are too many. */
XSK_RECORD_INLINE uint16_t xsk_record_at(struct xsk_record_thread *t, const char *file, uint32_t line)
{
	uint32_t slot = ((uint32_t)(uintptr_t)file + line * 2654435761u) >> 5 & (XSK_RECORD_PLACES - 1);
	const struct xsk_record_place *p = &t->places[slot];
	if (XSK_RECORD_LIKELY(p->file == file && p->line == line))
		return (uint16_t)(slot + 1);
	return xsk_record_new_place(t, file, line);
}

XSK_RECORD_SLOW uint16_t xsk_record_new_place(struct xsk_record_thread *t, const char *file, uint32_t line)
{
	uint32_t slot = ((uint32_t)(uintptr_t)file + line * 2654435761u) >> 5 & (XSK_RECORD_PLACES - 1), tries;
	for (tries = 0; tries < XSK_RECORD_PLACES; tries++, slot = (slot + 1) & (XSK_RECORD_PLACES - 1)) {
		struct xsk_record_place *p = &t->places[slot];
		char text[256] = {0};
		size_t length = strlen(file), bytes;
		if (p->file == file && p->line == line)
			return (uint16_t)(slot + 1);
		if (p->file)
			continue;
		if (!t->header && !xsk_record_more(t))
			return 0;
		bytes = length < sizeof text ? length : sizeof text - 1;
		memcpy(text, file + length - bytes, bytes);
		bytes = (bytes + 8) & ~(size_t)7;
		xsk_record_put(t, XSK_RECORD_PLACE, 0, (uint16_t)(slot + 1), line, 0, (uint32_t)bytes, text, bytes);
		p->file = file;
		p->line = line;
		return (uint16_t)(slot + 1);
	}
	return 0;
}

#ifdef __cplusplus
} /* extern "C" */
#endif

#endif
