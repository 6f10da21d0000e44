/* What the setting up refuses, with which number, and that other descriptors are left to the kernel. Status 0: all as it should be. */
#include <xdp/xsk.h>
#include <errno.h>
#include <net/if.h>
#include <poll.h>
#include <stdlib.h>
#include <string.h>
#include <sys/mman.h>
#include <sys/socket.h>
#include <unistd.h>

#ifndef SOL_XDP
#define SOL_XDP 283
#endif
enum { FRAMES = 64, CHUNK = 4096, RING = 64 };

static int faults;

static void is(int line, long got, long wanted)
{
	if (got == wanted)
		return;
	printf("refused.c:%d: %ld, and %ld is wanted\n", line, got, wanted);
	faults++;
}
#define IS(got, wanted) is(__LINE__, got, wanted)

static struct xsk_ring_prod fill, fill1, tx, tx1;
static struct xsk_ring_cons completion, completion1, rx, rx1;
static char *area;

static void umems(void)
{
	static const struct xsk_umem_config faulty[] = {{RING, RING, 1024, 0, 0}, {RING, RING, 8192, 0, 0}, {RING, RING, CHUNK, 0, 1},
		{RING, RING, CHUNK, CHUNK - 256, 0}, {0, RING, CHUNK, 0, 0}, {RING, 3, CHUNK, 0, 0}};
	struct xsk_umem_config fine = {RING, RING, CHUNK, CHUNK - 257, 0};
	struct xsk_umem *umem;
	IS(xsk_umem__create(NULL, area, FRAMES * CHUNK, &fill, &completion, NULL), -EFAULT);
	IS(xsk_umem__create(&umem, NULL, FRAMES * CHUNK, &fill, &completion, NULL), -EFAULT);
	IS(xsk_umem__create(&umem, area, FRAMES * CHUNK, NULL, &completion, NULL), -EFAULT);
	IS(xsk_umem__create(&umem, area, FRAMES * CHUNK, &fill, NULL, NULL), -EFAULT);
	IS(xsk_umem__create(&umem, area + 64, FRAMES * CHUNK, &fill, &completion, NULL), -EINVAL);
	IS(xsk_umem__create(&umem, area, FRAMES * CHUNK - 1, &fill, &completion, NULL), -EINVAL);
	IS(xsk_umem__create(&umem, area, 0, &fill, &completion, NULL), -EINVAL);
	IS(xsk_umem__create(&umem, area, 4097ul * CHUNK, &fill, &completion, NULL), -EINVAL);
	for (size_t i = 0; i < sizeof faulty / sizeof *faulty; i++)
		IS(xsk_umem__create(&umem, area, FRAMES * CHUNK, &fill, &completion, &faulty[i]), -EINVAL);
	IS(xsk_umem__create(&umem, area, FRAMES * CHUNK, &fill, &completion, &fine), 0);
	IS(xsk_umem__delete(umem), 0);
	IS(xsk_umem__delete(NULL), 0);
	xsk_socket__delete(NULL);
	IS(xsk_umem__fd(NULL), -EINVAL);
	IS(xsk_socket__fd(NULL), -EINVAL);
}

static void sockets(struct xsk_umem *umem, struct xsk_socket **first)
{
	struct xsk_socket_config c = {.rx_size = RING, .tx_size = RING};
	struct xsk_socket *other;
	IS(xsk_socket__create(first, "eth0", 0, NULL, &rx, &tx, &c), -EFAULT);
	IS(xsk_socket__create(NULL, "eth0", 0, umem, &rx, &tx, &c), -EFAULT);
	IS(xsk_socket__create(first, "eth0", 0, umem, NULL, NULL, &c), -EFAULT);
	c.rx_size = 48;
	IS(xsk_socket__create(first, "eth0", 0, umem, &rx, &tx, &c), -EINVAL);
	c.rx_size = RING;
	c.libxdp_flags = 2;
	IS(xsk_socket__create(first, "eth0", 0, umem, &rx, &tx, &c), -EINVAL);
	c.libxdp_flags = XSK_LIBXDP_FLAGS__INHIBIT_PROG_LOAD;
	c.bind_flags = XDP_ZEROCOPY;
	IS(xsk_socket__create(first, "eth0", 0, umem, &rx, &tx, &c), -EOPNOTSUPP);
	c.bind_flags = XDP_COPY;
	IS(xsk_socket__create(first, "eth0", 4, umem, &rx, &tx, &c), -EINVAL);
	IS(xsk_socket__create(first, "eth0", 0, umem, &rx, &tx, &c), 0);
	IS(xsk_socket__fd(*first) == xsk_umem__fd(umem), 1);
	IS(xsk_socket__create(&other, "eth1", 0, umem, &rx1, &tx1, &c), -EFAULT); /* a queue of its own wants rings of its own */
	IS(xsk_socket__create_shared(&other, "eth1", 0, umem, &rx1, &tx1, &fill1, &completion1, &c), 0);
	IS(fill1.size == RING && fill1.cached_cons == RING && completion1.mask == RING - 1 && rx1.ring != rx.ring, 1);
	IS(xsk_umem__delete(umem), -EBUSY);
}

/* A ring of 64 places: 65 can't be had, and neither can one once 64 are. */
static void fill_it(struct xsk_socket *first)
{
	struct xdp_statistics statistics;
	struct xdp_options options;
	socklen_t len = sizeof statistics, short_len = 8;
	uint32_t index = 7;
	int fd = xsk_socket__fd(first);
	IS(xsk_ring_prod__reserve(&fill, 65, &index), 0);
	IS(index, 7);
	IS(xsk_prod_nb_free(&fill, 64), 64);
	IS(xsk_ring_prod__reserve(&fill, FRAMES, &index), FRAMES);
	IS(index, 0);
	IS(xsk_ring_prod__reserve(&fill, 1, &index), 0);
	for (uint32_t i = 0; i < FRAMES; i++)
		*xsk_ring_prod__fill_addr(&fill, i) = (uint64_t)i * CHUNK;
	xsk_ring_prod__submit(&fill, FRAMES);
	IS(*fill.producer, FRAMES);
	IS(getsockopt(fd, SOL_XDP, XDP_STATISTICS, &statistics, &len), 0);
	IS(len, sizeof statistics);
	IS((long)statistics.rx_dropped, 0);
	IS(getsockopt(fd, SOL_XDP, XDP_STATISTICS, &statistics, &short_len) == -1 && errno == EINVAL, 1);
	len = sizeof options;
	IS(getsockopt(fd, SOL_XDP, XDP_OPTIONS, &options, &len) || options.flags, 0);
	IS(xsk_cons_nb_avail(&completion, 4), 0);
	IS(sendto(fd, NULL, 0, MSG_DONTWAIT, NULL, 0), 0);
	IS(recvfrom(fd, NULL, 0, MSG_DONTWAIT, NULL, NULL), 0);
}

static void others(void)
{
	struct pollfd look = {.events = POLLIN};
	char text[4] = "";
	int ends[2], value = 0;
	socklen_t len = sizeof value;
	IS(socketpair(AF_UNIX, SOCK_DGRAM, 0, ends), 0);
	look.fd = ends[1];
	IS(poll(&look, 1, 0), 0);
	IS(sendto(ends[0], "abc", 3, 0, NULL, 0), 3);
	IS(poll(&look, 1, 1000), 1);
	IS(recvfrom(ends[1], text, sizeof text, 0, NULL, NULL), 3);
	IS(memcmp(text, "abc", 3), 0);
	IS(getsockopt(ends[0], SOL_SOCKET, SO_TYPE, &value, &len) || value != SOCK_DGRAM, 0);
	IS(if_nametoindex("lo") > 0 && if_nametoindex("eth0") > 0 && if_nametoindex("none-such") == 0, 1);
}

int main(void)
{
	struct xsk_umem *umem;
	struct xsk_socket *first = NULL, *late;
	struct xsk_umem_config memory = {RING, RING, CHUNK, 0, 0};
	int map = -1;
	area = mmap(NULL, FRAMES * CHUNK, PROT_READ | PROT_WRITE, MAP_PRIVATE | MAP_ANONYMOUS, -1, 0);
	setenv("XSK_IN", "eth0=/dev/null", 1);
	IS(if_nametoindex("eth0") > 0, 1);
	unsetenv("XSK_IN");
	setenv("XSK_OUT", "eth0=/dev/null,eth1=/dev/null", 1);
	umems();
	IS(xsk_umem__create(&umem, area, FRAMES * CHUNK, &fill, &completion, &memory), 0);
	sockets(umem, &first);
	fill_it(first);
	IS(xsk_socket__create_shared(&late, "eth2", 0, umem, &rx1, &tx1, &fill1, &completion1, NULL), -EBUSY);
	IS(xsk_setup_xdp_prog(1, &map) || map < 0, 0);
	IS(xsk_socket__update_xskmap(first, map), 0);
	others();
	return faults != 0;
}
