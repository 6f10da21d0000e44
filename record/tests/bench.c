/* What recording costs: nanoseconds of a call at batch 1, and of a packet at batch 32 over the eight calls that forward it.
 * The kernel's side is played in between, and its time is taken off. With a word behind it another thread has made a call before. */
#include <xsk_record.h>
#include <pthread.h>

enum { RING = 512, CALLS = 8 };

static struct xsk_umem *umem;
static struct xsk_socket *xsk;
static struct xsk_ring_prod fill, tx;
static struct xsk_ring_cons comp, rx;

static double now(void)
{
	struct timespec t;
	clock_gettime(CLOCK_THREAD_CPUTIME_ID, &t);
	return (double)t.tv_sec * 1e9 + (double)t.tv_nsec;
}

static void kernel(uint32_t n)
{
	*fill.consumer += n;
	*tx.consumer += n;
	__atomic_store_n(rx.producer, *rx.producer + n, __ATOMIC_RELEASE);
	__atomic_store_n(comp.producer, *comp.producer + n, __ATOMIC_RELEASE);
}

/* The eight calls of a batch, and what a program writes into the rings. */
#define BATCH(reserve, submit, peek, release, n)                                                                                           \
	do {                                                                                                                               \
		uint32_t at_fill = 0, at_tx = 0, at_rx = 0, at_comp = 0, i;                                                                \
		kernel(n);                                                                                                                 \
		sum += peek(&comp, n, &at_comp);                                                                                           \
		release(&comp, n);                                                                                                         \
		sum += peek(&rx, n, &at_rx);                                                                                               \
		sum += reserve(&tx, n, &at_tx);                                                                                            \
		for (i = 0; i < (n); i++)                                                                                                  \
			((struct xdp_desc *)tx.ring)[(at_tx + i) & tx.mask] = ((struct xdp_desc *)rx.ring)[(at_rx + i) & rx.mask];         \
		submit(&tx, n);                                                                                                            \
		release(&rx, n);                                                                                                           \
		sum += reserve(&fill, n, &at_fill);                                                                                        \
		for (i = 0; i < (n); i++)                                                                                                  \
			((uint64_t *)fill.ring)[(at_fill + i) & fill.mask] = ((uint64_t *)comp.ring)[(at_comp + i) & comp.mask];           \
		submit(&fill, n);                                                                                                          \
	} while (0)

static uint64_t sum;

static __attribute__((noinline)) double plain(uint32_t batch, uint32_t batches)
{
	double begin = now();
	uint32_t b;
	for (b = 0; b < batches; b++)
		BATCH((xsk_ring_prod__reserve), (xsk_ring_prod__submit), (xsk_ring_cons__peek), (xsk_ring_cons__release), batch);
	return now() - begin;
}

static __attribute__((noinline)) double recorded(uint32_t batch, uint32_t batches)
{
	double begin = now();
	uint32_t b;
	for (b = 0; b < batches; b++)
		BATCH(xsk_ring_prod__reserve, xsk_ring_prod__submit, xsk_ring_cons__peek, xsk_ring_cons__release, batch);
	return now() - begin;
}

/* The least of several rounds with and without, each of so many batches. */
static double costs(uint32_t batch, uint32_t batches)
{
	double with = 1e18, without = 1e18, took;
	int round;
	for (round = 0; round < 40; round++) {
		took = plain(batch, batches);
		without = took < without ? took : without;
		took = recorded(batch, batches);
		with = took < with ? took : with;
	}
	return (with - without) / batches;
}

static void *another(void *argument)
{
	(void)xsk_ring_prod__needs_wakeup(&fill);
	return argument;
}

int main(int words, char **word)
{
	struct xsk_umem_config memory = {0};
	struct xsk_socket_config sockets = {0};
	const char *what = !getenv("XSK_RECORD") ? "off" : words > 1 ? "on, two threads" : "on, one thread";
	const char *ahead = getenv("XSK_RECORD_AHEAD");
	pthread_t thread;
	double one, many;
	memory.fill_size = memory.comp_size = sockets.rx_size = sockets.tx_size = RING;
	memory.frame_size = 2048;
	xsk_umem__create(&umem, NULL, 64 * 2048, &fill, &comp, &memory);
	xsk_socket__create(&xsk, "v0", 0, umem, &rx, &tx, &sockets);
	if (words > 1 && (pthread_create(&thread, NULL, another, word) || pthread_join(thread, NULL)))
		return 1;
	one = costs(1, 5000) / CALLS;
	many = costs(32, 1000) / 32;
	printf("recording %s, %s MB ahead: %.1f ns a call at batch 1, %.1f ns a packet at batch 32\n", what, ahead ? ahead : "0", one,
		many);
	return sum == 0;
}
