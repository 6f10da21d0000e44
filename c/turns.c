/* Whose turn it is: the drivers' rounds, other threads, and the end of a program for which nothing more comes. */
#define _GNU_SOURCE /* for the kind of the lock */
#include "world.h"
#include <pthread.h>
#include <signal.h>
#include <stdlib.h>
#include <string.h>
#include <time.h>
#include <unistd.h>

enum { PATIENCE = 12 }; /* rounds without a change behind which the program goes on, as long as it does something itself */
/* nanoseconds: without a change, and then behind SIGINT, where several threads make calls */
#define THREADS_WAIT 1000000000u
#define THREADS_END 5000000000u

struct settings settings;
static pthread_mutex_t lock = PTHREAD_RECURSIVE_MUTEX_INITIALIZER_NP; /* a handler of a signal may end the program in a call */
static pthread_cond_t entered = PTHREAD_COND_INITIALIZER;
static pthread_key_t known_threads;
static _Thread_local bool is_known; /* the thread is counted */
static pthread_once_t once = PTHREAD_ONCE_INIT;
static uint32_t threads, waiting;
static uint64_t entries, random_state;
static uint64_t moved, moved_seen, quiet, quiet_since, interrupted; /* changes of any bench, and calls since the last that found nothing */
static uint64_t calls_since, moved_before;			    /* all calls since the last change */
static bool interrupts, ends;
int xsk_model_pauses;

static void thread_ends(void *known)
{
	(void)known;
	pthread_mutex_lock(&lock);
	is_known = false;
	threads--;
	__atomic_store_n(&xsk_model_pauses, settings.seeded && threads > 1, __ATOMIC_RELAXED);
	pthread_mutex_unlock(&lock);
}

static uint64_t number_in(const char *name, uint64_t otherwise)
{
	const char *text = getenv(name);
	return text && *text ? strtoull(text, NULL, 10) : otherwise;
}

static bool is_in(const char *name, const char *word)
{
	const char *text = getenv(name);
	return text && !strcmp(text, word);
}

static void read_once(void)
{
	settings.seeded = getenv("XSK_SEED") != NULL;
	settings.seed = number_in("XSK_SEED", 0);
	settings.end = number_in("XSK_END", 1000);
	settings.report = is_in("XSK_ON_ILLEGAL", "report");
	settings.copy = is_in("XSK_LIKE", "copy");
	settings.drops = is_in("XSK_WIRE", "drop");
	settings.guard = number_in("XSK_GUARD", 0) != 0;
	settings.room = (uint32_t)number_in("XSK_ROOM", 65536);
	random_state = (settings.seed + 1) * 0x9e3779b97f4a7c15u;
	pthread_key_create(&known_threads, thread_ends);
	guard_set_up();
}

void read_settings(void) { pthread_once(&once, read_once); }

static uint32_t next_random(void)
{
	random_state ^= random_state << 13;
	random_state ^= random_state >> 7;
	random_state ^= random_state << 17;
	return (uint32_t)(random_state >> 32);
}

static uint64_t now(void)
{
	struct timespec t;
	clock_gettime(CLOCK_MONOTONIC, &t);
	return (uint64_t)t.tv_sec * 1000000000 + (uint64_t)t.tv_nsec;
}

/* Lets another thread make a call, if one comes in time. */
static void let_others(void)
{
	struct timespec until;
	uint64_t seen = entries;
	clock_gettime(CLOCK_REALTIME, &until);
	until.tv_nsec += 200000;
	if (until.tv_nsec >= 1000000000) {
		until.tv_nsec -= 1000000000;
		until.tv_sec++;
	}
	waiting++;
	while (seen == entries && !pthread_cond_timedwait(&entered, &lock, &until))
		;
	waiting--;
}

void give_round(struct xsk_umem *u)
{
	bool still = false;
	if (xsk_c_round(&u->bench, &still) != XSK_C_DONE)
		die("a round of the drivers failed: out of memory");
	u->still = still ? u->still + 1 : 0;
	moved += !still;
}

void settle(struct xsk_umem *u, uint32_t rounds)
{
	while (u->still < rounds)
		give_round(u);
}

void acted(struct xsk_umem *u)
{
	u->still = 0;
	moved++;
}

void enter(struct xsk_umem *u)
{
	pthread_mutex_lock(&lock);
	entries++;
	if (!is_known) {
		is_known = true;
		pthread_setspecific(known_threads, &lock);
		threads++;
		__atomic_store_n(&xsk_model_pauses, settings.seeded && threads > 1, __ATOMIC_RELAXED);
	}
	if (waiting)
		pthread_cond_broadcast(&entered);
	calls_since = moved == moved_before ? calls_since + 1 : 0;
	moved_before = moved;
	if (u && u->started && calls_since % 128 == 127) /* what goes on without a change finds nothing either */
		found_nothing(u);
	if (!settings.seeded)
		return;
	if (threads > 1 && next_random() % 4 == 0)
		let_others();
	if (u && u->started) {
		/* mostly none or few, and at times so many that all is done that can be */
		uint32_t r = next_random(), rounds = r % 16 == 0 ? (r >> 8) % 256 : r % 16 < 8 ? 0 : r % 4;
		while (rounds--)
			give_round(u);
	}
}

void xsk_model_pause(void)
{
	pthread_mutex_lock(&lock);
	if (next_random() % 4 == 0)
		let_others();
	pthread_mutex_unlock(&lock);
}

void leave(void)
{
	struct sigaction action;
	bool raises = interrupts, exits = ends;
	interrupts = false;
	pthread_mutex_unlock(&lock);
	if (exits) {
		fputs("xsk: the program goes on though nothing comes any more, and SIGINT was raised (XSK_END): it is ended\n", stderr);
		_exit(3);
	}
	if (!raises)
		return;
	if (!sigaction(SIGINT, NULL, &action) && action.sa_handler == SIG_DFL)
		exit(130);
	raise(SIGINT);
}

bool is_ending(void) { return interrupts || ends; }

/* The program found nothing: the drivers go on, and once nothing changes any more it is told to end. Whether something may still come. */
bool found_nothing(struct xsk_umem *u)
{
	if (settings.seeded)
		give_round(u);
	else
		settle(u, moved == moved_seen ? SETTLED : PATIENCE);
	if (moved != moved_seen) {
		moved_seen = moved;
		quiet = 0;
		quiet_since = 0;
		return true;
	}
	if (u->still < SETTLED)
		return true;
	if (threads > 1) {
		if (!quiet_since)
			quiet_since = now();
		if (now() - quiet_since < THREADS_WAIT)
			return true;
	}
	quiet++;
	if (!settings.end || quiet < settings.end)
		return false;
	if (quiet == settings.end) {
		write_all();
		interrupts = true;
		interrupted = now();
	}
	if (quiet < 2 * settings.end || (threads > 1 && now() - interrupted < THREADS_END))
		return false;
	write_all();
	ends = true;
	for (u = umems; u && ends; u = u->next)
		tell_end(u);
	return false;
}
