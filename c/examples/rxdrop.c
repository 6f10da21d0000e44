/* rxdrop: takes what comes at a port, counts it, and gives the frames back to FILL. AF_XDP by libxdp, with XDP_USE_NEED_WAKEUP.
 *
 *     rxdrop PORT
 *
 * It ends at Ctrl-C, or once nothing came for a second. */
#include <xdp/xsk.h>
#include <errno.h>
#include <poll.h>
#include <signal.h>
#include <stdlib.h>
#include <string.h>
#include <sys/mman.h>
#include <sys/socket.h>

#ifndef SOL_XDP
#define SOL_XDP 283
#endif
enum { FRAMES = 1024, CHUNK = 2048, RING = 1024, BATCH = 64 };

static struct xsk_ring_prod fill;
static struct xsk_ring_cons rx, completion;
static struct xsk_socket *xsk;
static volatile sig_atomic_t stopped;

static void stop(int number) { stopped = number; }

static void must(const char *what, int fault)
{
	if (!fault)
		return;
	fprintf(stderr, "rxdrop: %s: %s\n", what, strerror(fault < 0 ? -fault : fault));
	exit(1);
}

static void set_up(const char *name)
{
	struct xsk_umem_config memory = {.fill_size = RING, .comp_size = RING, .frame_size = CHUNK};
	struct xsk_socket_config sockets = {.rx_size = RING, .bind_flags = XDP_USE_NEED_WAKEUP};
	struct xsk_umem *umem;
	uint32_t index, i;
	void *area = mmap(NULL, (size_t)FRAMES * CHUNK, PROT_READ | PROT_WRITE, MAP_PRIVATE | MAP_ANONYMOUS, -1, 0);
	must("memory", area == MAP_FAILED ? errno : 0);
	must("UMEM", xsk_umem__create(&umem, area, (size_t)FRAMES * CHUNK, &fill, &completion, &memory));
	sockets.tx_size = RING;
	must(name, xsk_socket__create(&xsk, name, 0, umem, &rx, NULL, &sockets));
	must("FILL", xsk_ring_prod__reserve(&fill, FRAMES, &index) == FRAMES ? 0 : ENOSPC);
	for (i = 0; i < FRAMES; i++)
		*xsk_ring_prod__fill_addr(&fill, index + i) = (__u64)i * CHUNK;
	xsk_ring_prod__submit(&fill, FRAMES);
}

/* Takes one batch, and tells how many packets and bytes it had. */
static uint32_t drop(uint64_t *bytes)
{
	uint32_t in, out, i, count = xsk_ring_cons__peek(&rx, BATCH, &in);
	if (!count) {
		if (xsk_ring_prod__needs_wakeup(&fill))
			recvfrom(xsk_socket__fd(xsk), NULL, 0, MSG_DONTWAIT, NULL, NULL);
		return 0;
	}
	while (xsk_ring_prod__reserve(&fill, count, &out) != count) {
		if (xsk_ring_prod__needs_wakeup(&fill))
			recvfrom(xsk_socket__fd(xsk), NULL, 0, MSG_DONTWAIT, NULL, NULL);
		if (stopped)
			return 0;
	}
	for (i = 0; i < count; i++) {
		const struct xdp_desc *received = xsk_ring_cons__rx_desc(&rx, in + i);
		*bytes += received->len;
		*xsk_ring_prod__fill_addr(&fill, out + i) = received->addr;
	}
	xsk_ring_prod__submit(&fill, count);
	xsk_ring_cons__release(&rx, count);
	return count;
}

int main(int count, char **words)
{
	struct xdp_statistics statistics;
	socklen_t len = sizeof statistics;
	uint64_t packets = 0, bytes = 0;
	struct pollfd look = {.events = POLLIN};
	if (count != 2)
		return 2;
	signal(SIGINT, stop);
	set_up(words[1]);
	look.fd = xsk_socket__fd(xsk);
	while (!stopped && poll(&look, 1, 1000) > 0)
		packets += drop(&bytes);
	printf("%s received %llu packets, %llu bytes\n", words[1], (unsigned long long)packets, (unsigned long long)bytes);
	must("statistics", getsockopt(look.fd, SOL_XDP, XDP_STATISTICS, &statistics, &len) ? errno : 0);
	printf("rx_dropped %llu rx_ring_full %llu\n", (unsigned long long)statistics.rx_dropped,
		(unsigned long long)statistics.rx_ring_full);
	return 0;
}
