/* Chunks that the program doesn't have can't be touched: with the address sanitizer always, and else with XSK_GUARD=1 where chunks are
 * pages. It stops at the very line, and is told whose the chunk was. */
#include "world.h"
#include <signal.h>
#include <sys/mman.h>
#include <unistd.h>

/* of the sanitizer's library, where the program is linked with it */
void __asan_poison_memory_region(const volatile void *area, size_t size) __attribute__((weak, visibility("default")));
void __asan_unpoison_memory_region(const volatile void *area, size_t size) __attribute__((weak, visibility("default")));

static void touched(int number, siginfo_t *info, void *context)
{
	const char *at = info->si_addr;
	(void)context;
	for (struct xsk_umem *u = umems; u; u = u->next) {
		const struct chunk *c;
		if (at < u->area || at >= u->area + u->size)
			continue;
		c = &u->chunks[(uint64_t)(at - u->area) / u->config.frame_size];
		fprintf(stderr,
			"xsk: behind %s:%d: address %llu of the UMEM is touched, and isn't the program's: its frame was submitted on %s at "
			"%s:%u\n",
			here.file, here.line, (unsigned long long)(at - u->area), name_of(c->side), c->file, c->line);
	}
	signal(number, SIG_DFL); /* it comes again, at the same line */
}

bool guards;

void guard_set_up(void)
{
	struct sigaction action = {.sa_sigaction = touched, .sa_flags = SA_SIGINFO};
	guards = settings.guard || __asan_poison_memory_region;
	if (settings.guard && !__asan_poison_memory_region)
		sigaction(SIGSEGV, &action, NULL);
}

void guard_chunk(struct xsk_umem *u, uint32_t chunk, bool own)
{
	char *at = u->area + (size_t)chunk * u->config.frame_size;
	if (__asan_poison_memory_region) {
		(own ? __asan_unpoison_memory_region : __asan_poison_memory_region)(at, u->config.frame_size);
	} else if (settings.guard && u->config.frame_size == (uint32_t)sysconf(_SC_PAGESIZE)) {
		if (mprotect(at, u->config.frame_size, own ? PROT_READ | PROT_WRITE : PROT_NONE))
			die("XSK_GUARD: a chunk couldn't be guarded");
	}
}
