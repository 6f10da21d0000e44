/* What a ring call costs here, the model's part in it and copying 60 bytes a packet included: places of TX are reserved and filled, and
 * completions peeked and released, in batches of 1 and of 32. The drivers' rounds between aren't timed. make bench */
#include <xdp/xsk.h>
#include <stdlib.h>
#include <string.h>
#include <sys/mman.h>
#include <sys/socket.h>
#include <time.h>

enum { FRAMES = 128, CHUNK = 2048, RING = 128, TIMES = 200 };

static struct xsk_ring_prod fill, tx;
static struct xsk_ring_cons completion;
static struct xsk_socket *xsk;

static double now(void)
{
	struct timespec t;
	clock_gettime(CLOCK_PROCESS_CPUTIME_ID, &t);
	return (double)t.tv_sec * 1e9 + (double)t.tv_nsec;
}

static void submit(uint32_t batch)
{
	uint32_t index, i, sent;
	for (sent = 0; sent < FRAMES; sent += batch) {
		if (xsk_ring_prod__reserve(&tx, batch, &index) != batch)
			exit(1);
		for (i = 0; i < batch; i++)
			*xsk_ring_prod__tx_desc(&tx, index + i) = (struct xdp_desc){(uint64_t)(sent + i) * CHUNK, 60, 0};
		xsk_ring_prod__submit(&tx, batch);
	}
}

static void complete(uint32_t batch)
{
	uint32_t index, got;
	for (got = 0; got < FRAMES; got += batch) {
		if (xsk_ring_cons__peek(&completion, batch, &index) != batch)
			exit(1);
		xsk_ring_cons__release(&completion, batch);
	}
}

int main(void)
{
	struct xsk_umem_config memory = {.fill_size = RING, .comp_size = RING, .frame_size = CHUNK};
	struct xsk_socket_config sockets = {.rx_size = RING, .tx_size = RING};
	struct xsk_umem *umem;
	void *area = mmap(NULL, (size_t)FRAMES * CHUNK, PROT_READ | PROT_WRITE, MAP_PRIVATE | MAP_ANONYMOUS, -1, 0);
	memset(area, 0x55, (size_t)FRAMES * CHUNK);
	if (xsk_umem__create(&umem, area, (size_t)FRAMES * CHUNK, &fill, &completion, &memory) ||
		xsk_socket__create(&xsk, "eth0", 0, umem, NULL, &tx, &sockets))
		return 1;
	for (uint32_t batch = 1; batch <= 32; batch *= 32) {
		double begin, submitted = 0, completed = 0;
		for (int k = -1; k < TIMES; k++) {
			begin = now();
			submit(batch);
			submitted += k < 0 ? 0 : now() - begin;
			for (int turn = 0; turn < 4; turn++)
				sendto(xsk_socket__fd(xsk), NULL, 0, MSG_DONTWAIT, NULL, 0);
			begin = now();
			complete(batch);
			completed += k < 0 ? 0 : now() - begin;
		}
		printf("batch %2u: reserve and submit %.1f ns an entry, peek and release %.1f ns an entry; %.0f ns a call\n", batch,
			submitted / TIMES / FRAMES, completed / TIMES / FRAMES, (submitted + completed) / TIMES / FRAMES * batch / 4);
	}
	return 0;
}
