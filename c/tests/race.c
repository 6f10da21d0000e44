/* race: two sockets on one queue, and a thread for each that drops what comes there. Both refill the queue's one FILL ring, with -l under a
 * lock, and without it as programs do that have forgotten that the ring is shared. */
#include <xdp/xsk.h>
#include <errno.h>
#include <pthread.h>
#include <signal.h>
#include <stdbool.h>
#include <stdlib.h>
#include <string.h>
#include <sys/mman.h>
#include <sys/socket.h>
#include <unistd.h>

enum { FRAMES = 256, CHUNK = 2048, RING = 256, BATCH = 8 };

static struct xsk_ring_prod fill;
static struct xsk_ring_cons completion, rx[2];
static struct xsk_socket *xsk[2];
static pthread_mutex_t lock = PTHREAD_MUTEX_INITIALIZER;
static bool locks;
static volatile sig_atomic_t stopped;
static uint64_t received[2];

static void stop(int number) { stopped = number; }

static void must(const char *what, int fault)
{
	if (!fault)
		return;
	fprintf(stderr, "race: %s: %s\n", what, strerror(fault < 0 ? -fault : fault));
	exit(1);
}

static bool refill(const uint64_t *frames, uint32_t count)
{
	uint32_t index, i;
	while (xsk_ring_prod__reserve(&fill, count, &index) != count)
		if (stopped)
			return false;
	for (i = 0; i < count; i++)
		*xsk_ring_prod__fill_addr(&fill, index + i) = frames[i];
	xsk_ring_prod__submit(&fill, count);
	return true;
}

static void *drop(void *number)
{
	int k = *(int *)number;
	while (!stopped) {
		uint64_t frames[BATCH];
		uint32_t index, i, count = xsk_ring_cons__peek(&rx[k], BATCH, &index);
		if (!count)
			continue;
		for (i = 0; i < count; i++)
			frames[i] = xsk_ring_cons__rx_desc(&rx[k], index + i)->addr;
		xsk_ring_cons__release(&rx[k], count);
		received[k] += count;
		if (locks)
			pthread_mutex_lock(&lock);
		refill(frames, count);
		if (locks)
			pthread_mutex_unlock(&lock);
	}
	return NULL;
}

int main(int count, char **words)
{
	struct xsk_umem_config memory = {.fill_size = RING, .comp_size = RING, .frame_size = CHUNK};
	struct xsk_socket_config sockets = {.rx_size = RING, .tx_size = RING};
	struct xsk_umem *umem;
	pthread_t threads[2];
	int numbers[2] = {0, 1};
	uint64_t all[FRAMES];
	void *area = mmap(NULL, FRAMES * CHUNK, PROT_READ | PROT_WRITE, MAP_PRIVATE | MAP_ANONYMOUS, -1, 0);
	must("memory", area == MAP_FAILED ? errno : 0);
	locks = count > 1 && !strcmp(words[1], "-l");
	signal(SIGINT, stop);
	must("UMEM", xsk_umem__create(&umem, area, FRAMES * CHUNK, &fill, &completion, &memory));
	for (int k = 0; k < 2; k++)
		must("socket", xsk_socket__create(&xsk[k], "eth0", 0, umem, &rx[k], NULL, &sockets));
	for (uint32_t i = 0; i < FRAMES; i++)
		all[i] = (uint64_t)i * CHUNK;
	refill(all, FRAMES);
	for (int k = 0; k < 2; k++)
		must("thread", pthread_create(&threads[k], NULL, drop, &numbers[k]));
	for (int k = 0; k < 2; k++)
		pthread_join(threads[k], NULL);
	printf("received %llu\n", (unsigned long long)(received[0] + received[1]));
	return 0;
}
