/* hang: waits for eight packets at once, and puts back those that came meanwhile. But a peek behind a cancel finds these alone: libxdp looks
 * at the ring anew only where it has seen none. So it goes well as long as eight stand there at its first look. It ends at 400 packets. */
#include <xdp/xsk.h>
#include <signal.h>
#include <stdlib.h>
#include <sys/mman.h>

enum { FRAMES = 64, CHUNK = 2048, RING = 64, BATCH = 8 };

int main(void)
{
	struct xsk_umem_config memory = {.fill_size = RING, .comp_size = RING, .frame_size = CHUNK};
	struct xsk_socket_config sockets = {.rx_size = RING, .tx_size = RING};
	struct xsk_ring_prod fill;
	struct xsk_ring_cons rx, completion;
	struct xsk_umem *umem;
	struct xsk_socket *xsk;
	uint32_t in, out, i, received = 0;
	void *area = mmap(NULL, FRAMES * CHUNK, PROT_READ | PROT_WRITE, MAP_PRIVATE | MAP_ANONYMOUS, -1, 0);
	signal(SIGINT, SIG_IGN);
	if (xsk_umem__create(&umem, area, FRAMES * CHUNK, &fill, &completion, &memory) ||
		xsk_socket__create(&xsk, "eth0", 0, umem, &rx, NULL, &sockets) || xsk_ring_prod__reserve(&fill, FRAMES, &out) != FRAMES)
		return 1;
	for (i = 0; i < FRAMES; i++)
		*xsk_ring_prod__fill_addr(&fill, out + i) = (uint64_t)i * CHUNK;
	xsk_ring_prod__submit(&fill, FRAMES);
	while (received < 400) {
		uint32_t count = xsk_ring_cons__peek(&rx, BATCH, &in);
		if (count < BATCH) {
			xsk_ring_cons__cancel(&rx, count);
			continue;
		}
		if (xsk_ring_prod__reserve(&fill, BATCH, &out) != BATCH)
			return 1;
		for (i = 0; i < BATCH; i++)
			*xsk_ring_prod__fill_addr(&fill, out + i) = xsk_ring_cons__rx_desc(&rx, in + i)->addr;
		xsk_ring_prod__submit(&fill, BATCH);
		xsk_ring_cons__release(&rx, BATCH);
		received += BATCH;
	}
	return 0;
}
