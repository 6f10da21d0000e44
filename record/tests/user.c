/* A user's program, in C and in C++: what a recorder's header might break. It asks for the C library's extensions itself, has members
 * that are named like functions, and calls in all ways. It is compiled, and run without a kernel. */
#define _GNU_SOURCE 1
#include "memory.h"
#include <poll.h>
#include <pthread.h>
#include <stdio.h>
#include <sys/socket.h>

struct device {
	int (*poll)(int milliseconds);
	int (*sendto)(const char *bytes);
};

static int ready(int milliseconds) { return milliseconds; }
static int length(const char *bytes) { return bytes[0] ? 1 : 0; }

static inline __u32 take(struct xsk_ring_cons *ring, __u32 most)
{
	__u32 index, count = xsk_ring_cons__peek(ring, most, &index), i, sum = 0;
	for (i = 0; i < count; i++)
		sum += xsk_ring_cons__rx_desc(ring, index + i)->len;
	if (count)
		xsk_ring_cons__release(ring, count);
	return sum;
}

#ifdef __cplusplus
class port
{
      public:
	int poll(int milliseconds) { return milliseconds; }
	int recvfrom() { return 1; }
	template <class Ring> static __u32 places(Ring *ring) { return xsk_prod_nb_free(ring, 1); }
};
#endif

int main(void)
{
	struct xsk_umem_config memory = {4, 4, 2048, 0, 0};
	struct xsk_socket_config config;
	struct device device = {ready, length};
	struct xsk_umem *umem;
	struct xsk_socket *xsk;
	struct xsk_ring_prod fill, tx;
	struct xsk_ring_cons comp, rx;
	struct pollfd descriptors[1];
	cpu_set_t processors;
	__u32 index;
	CPU_ZERO(&processors);
	config.rx_size = config.tx_size = 4;
	config.bind_flags = XDP_COPY;
	if (xsk_umem__create(&umem, NULL, 4 * 2048, &fill, &comp, &memory) || xsk_socket__create(&xsk, "v0", 0, umem, &rx, &tx, &config))
		return 1;
	if (xsk_ring_prod__reserve(&fill, 1, &index) == 1) {
		*xsk_ring_prod__fill_addr(&fill, index) = 0;
		xsk_ring_prod__submit(&fill, 1);
	}
	if (xsk_ring_prod__needs_wakeup(&fill))
		recvfrom(xsk_socket__fd(xsk), NULL, 0, MSG_DONTWAIT, NULL, NULL);
	descriptors[0].fd = xsk_socket__fd(xsk);
	descriptors[0].events = POLLIN;
	poll(descriptors, 1, 0);
	sendto(xsk_socket__fd(xsk), NULL, 0, MSG_DONTWAIT, NULL, 0);
	printf("%u %d %d\n", take(&rx, 4), device.poll(3), device.sendto("x"));
#ifdef __cplusplus
	port p;
	printf("%d %d %u\n", p.poll(3), p.recvfrom(), port::places(&fill));
#endif
	xsk_socket__delete(xsk);
	return xsk_umem__delete(umem);
}
