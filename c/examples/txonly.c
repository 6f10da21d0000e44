/* txonly: sends so many packets of 60 bytes at a port, each with its number behind the header. AF_XDP by libxdp, TX alone.
 *
 *     txonly PORT COUNT
 *
 * It looks at TX's flag each time, and calls where it is 1, so that it sends in copy mode and with zero copy. */
#include <xdp/xsk.h>
#include <errno.h>
#include <stdlib.h>
#include <string.h>
#include <sys/mman.h>
#include <sys/socket.h>

enum { FRAMES = 256, CHUNK = 4096, RING = 128, BATCH = 16, LENGTH = 60 };

static struct xsk_ring_prod fill, tx;
static struct xsk_ring_cons completion;
static struct xsk_socket *xsk;
static char *area;
static uint64_t free_frames[FRAMES];
static uint32_t free_count;

static void must(const char *what, int fault)
{
	if (!fault)
		return;
	fprintf(stderr, "txonly: %s: %s\n", what, strerror(fault < 0 ? -fault : fault));
	exit(1);
}

static void set_up(const char *name)
{
	static const unsigned char header[14] = {2, 0, 0, 0, 0, 2, 2, 0, 0, 0, 0, 1, 0x88, 0xb5};
	struct xsk_umem_config memory = {.fill_size = RING, .comp_size = RING, .frame_size = CHUNK};
	struct xsk_socket_config sockets = {.rx_size = RING, .tx_size = RING, .bind_flags = XDP_USE_NEED_WAKEUP};
	struct xsk_umem *umem;
	area = mmap(NULL, FRAMES * CHUNK, PROT_READ | PROT_WRITE, MAP_PRIVATE | MAP_ANONYMOUS, -1, 0);
	must("memory", area == MAP_FAILED ? errno : 0);
	must("UMEM", xsk_umem__create(&umem, area, FRAMES * CHUNK, &fill, &completion, &memory));
	must(name, xsk_socket__create(&xsk, name, 0, umem, NULL, &tx, &sockets));
	for (; free_count < FRAMES; free_count++) {
		free_frames[free_count] = (uint64_t)free_count * CHUNK;
		memcpy(area + free_frames[free_count], header, sizeof header);
	}
}

/* Takes back what was sent, and tells the kernel of what is to be. */
static uint32_t complete(void)
{
	uint32_t index, i, count;
	if (xsk_ring_prod__needs_wakeup(&tx) && sendto(xsk_socket__fd(xsk), NULL, 0, MSG_DONTWAIT, NULL, 0) < 0 && errno != EAGAIN &&
		errno != EBUSY && errno != ENOBUFS)
		must("sendto", errno);
	count = xsk_ring_cons__peek(&completion, BATCH, &index);
	for (i = 0; i < count; i++)
		free_frames[free_count++] = *xsk_ring_cons__comp_addr(&completion, index + i);
	if (count)
		xsk_ring_cons__release(&completion, count);
	return count;
}

/* Sends the packets from one number to another, if there are frames and places for them. */
static uint32_t submit(uint32_t from, uint32_t to)
{
	uint32_t index, i, count = to - from < BATCH ? to - from : BATCH;
	if (count > free_count)
		count = free_count;
	if (!count || xsk_ring_prod__reserve(&tx, count, &index) != count)
		return 0;
	for (i = 0; i < count; i++) {
		struct xdp_desc *sent = xsk_ring_prod__tx_desc(&tx, index + i);
		uint32_t number = from + i;
		sent->addr = free_frames[--free_count];
		sent->len = LENGTH;
		sent->options = 0;
		memcpy(area + sent->addr + 14, &number, sizeof number);
	}
	xsk_ring_prod__submit(&tx, count);
	return count;
}

int main(int count, char **words)
{
	uint32_t sent = 0, completed = 0, wanted;
	if (count != 3)
		return 2;
	wanted = (uint32_t)strtoul(words[2], NULL, 10);
	set_up(words[1]);
	while (completed < wanted) {
		sent += submit(sent, wanted);
		completed += complete();
	}
	printf("%s sent %u packets\n", words[1], sent);
	return 0;
}
