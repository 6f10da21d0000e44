/* lost: sends 200 packets with XDP_USE_NEED_WAKEUP, and looks at TX's flag before it submits. A driver that falls asleep between these two
 * isn't woken, and the program waits for its completions for ever. With -b it looks behind its Submit, as it should. */
#include <xdp/xsk.h>
#include <signal.h>
#include <stdbool.h>
#include <string.h>
#include <sys/mman.h>
#include <sys/socket.h>

enum { FRAMES = 64, CHUNK = 2048, RING = 64, BATCH = 4 };

static struct xsk_ring_prod tx;
static struct xsk_socket *xsk;

static void wake(void)
{
	if (xsk_ring_prod__needs_wakeup(&tx))
		sendto(xsk_socket__fd(xsk), NULL, 0, MSG_DONTWAIT, NULL, 0);
}

int main(int count, char **words)
{
	bool behind = count > 1 && !strcmp(words[1], "-b");
	struct xsk_umem_config memory = {.fill_size = RING, .comp_size = RING, .frame_size = CHUNK};
	struct xsk_socket_config sockets = {.rx_size = RING, .tx_size = RING, .bind_flags = XDP_USE_NEED_WAKEUP};
	struct xsk_ring_prod fill;
	struct xsk_ring_cons completion;
	struct xsk_umem *umem;
	uint32_t index, i, sent, got;
	void *area = mmap(NULL, FRAMES * CHUNK, PROT_READ | PROT_WRITE, MAP_PRIVATE | MAP_ANONYMOUS, -1, 0);
	signal(SIGINT, SIG_IGN);
	if (xsk_umem__create(&umem, area, FRAMES * CHUNK, &fill, &completion, &memory) ||
		xsk_socket__create(&xsk, "eth0", 0, umem, NULL, &tx, &sockets))
		return 1;
	for (sent = 0; sent < 200; sent += BATCH) {
		if (!behind)
			wake();
		if (xsk_ring_prod__reserve(&tx, BATCH, &index) != BATCH)
			return 1;
		for (i = 0; i < BATCH; i++)
			*xsk_ring_prod__tx_desc(&tx, index + i) = (struct xdp_desc){(uint64_t)i * CHUNK, 60, 0};
		xsk_ring_prod__submit(&tx, BATCH);
		if (behind)
			wake();
		for (got = 0; got < BATCH;) {
			uint32_t n = xsk_ring_cons__peek(&completion, BATCH - got, &index);
			if (n)
				xsk_ring_cons__release(&completion, n);
			got += n;
		}
	}
	return 0;
}
