/* tutorial: answers pings (ICMPv6 echo requests) on a port, in the manner of the AF_XDP lesson of xdp-tutorial: frames are kept on a stack,
 * FILL is filled up in part, and what isn't a ping is dropped.
 *
 *     tutorial PORT */
#include <xdp/xsk.h>
#include <errno.h>
#include <poll.h>
#include <signal.h>
#include <stdbool.h>
#include <stdlib.h>
#include <string.h>
#include <sys/resource.h>
#include <sys/socket.h>
#include <unistd.h>

enum { FRAMES = 4096, BATCH = 64, ETHERNET = 14, IPV6 = 40, ECHO_REQUEST = 128, ECHO_REPLY = 129 };
#define CHUNK XSK_UMEM__DEFAULT_FRAME_SIZE
#define RINGS XSK_RING_PROD__DEFAULT_NUM_DESCS
#define NO_FRAME UINT64_MAX

struct port {
	struct xsk_ring_cons rx, completion;
	struct xsk_ring_prod tx, fill;
	struct xsk_umem *umem;
	struct xsk_socket *xsk;
	unsigned char *area;
	uint64_t frames[FRAMES]; /* that are free: the last is taken first */
	uint32_t free, on_tx;
	uint64_t received, sent;
};

static volatile sig_atomic_t stopped;

static void stop(int number) { stopped = number; }

static void must(const char *what, int fault)
{
	if (!fault)
		return;
	fprintf(stderr, "tutorial: %s: %s\n", what, strerror(fault < 0 ? -fault : fault));
	exit(1);
}

static uint64_t take_frame(struct port *p)
{
	uint64_t frame;
	if (!p->free)
		return NO_FRAME;
	frame = p->frames[--p->free];
	p->frames[p->free] = NO_FRAME;
	return frame;
}

static void give_frame(struct port *p, uint64_t frame) { p->frames[p->free++] = frame; }

static void fill_up(struct port *p, uint32_t count)
{
	uint32_t index, i;
	while (xsk_ring_prod__reserve(&p->fill, count, &index) != count)
		if (stopped)
			return;
	for (i = 0; i < count; i++)
		*xsk_ring_prod__fill_addr(&p->fill, index + i) = take_frame(p);
	xsk_ring_prod__submit(&p->fill, count);
}

static struct port *set_up(const char *name)
{
	struct xsk_socket_config config = {.rx_size = RINGS, .tx_size = RINGS};
	struct port *p = calloc(1, sizeof *p);
	void *area = NULL;
	must("memory", p ? posix_memalign(&area, (size_t)getpagesize(), (size_t)FRAMES * CHUNK) : ENOMEM);
	p->area = area;
	must("UMEM", xsk_umem__create(&p->umem, area, (__u64)FRAMES * CHUNK, &p->fill, &p->completion, NULL));
	must(name, xsk_socket__create(&p->xsk, name, 0, p->umem, &p->rx, &p->tx, &config));
	while (p->free < FRAMES)
		give_frame(p, (uint64_t)p->free * CHUNK);
	fill_up(p, RINGS);
	return p;
}

static void complete(struct port *p)
{
	uint32_t index, count, i;
	if (!p->on_tx)
		return;
	sendto(xsk_socket__fd(p->xsk), NULL, 0, MSG_DONTWAIT, NULL, 0);
	count = xsk_ring_cons__peek(&p->completion, RINGS, &index);
	for (i = 0; i < count; i++)
		give_frame(p, *xsk_ring_cons__comp_addr(&p->completion, index + i) / CHUNK * CHUNK);
	if (count)
		xsk_ring_cons__release(&p->completion, count);
	p->on_tx -= count < p->on_tx ? count : p->on_tx;
}

static void swap(unsigned char *a, unsigned char *b, size_t len)
{
	unsigned char kept[16];
	memcpy(kept, a, len);
	memcpy(a, b, len);
	memcpy(b, kept, len);
}

/* Makes the reply of a ping: its sum grows by what the type falls, in ones' complement. */
static bool to_reply(unsigned char *packet, uint32_t len)
{
	unsigned char *icmp = packet + ETHERNET + IPV6;
	uint32_t sum;
	if (len < ETHERNET + IPV6 + 8 || packet[12] != 0x86 || packet[13] != 0xdd || packet[ETHERNET + 6] != 58 || icmp[0] != ECHO_REQUEST)
		return false;
	swap(packet, packet + 6, 6);
	swap(packet + ETHERNET + 8, packet + ETHERNET + 24, 16);
	icmp[0] = ECHO_REPLY;
	sum = (uint32_t)(~(icmp[2] << 8 | icmp[3]) & 0xffff) + (uint32_t)(~(ECHO_REQUEST << 8) & 0xffff) + (ECHO_REPLY << 8);
	sum = (sum & 0xffff) + (sum >> 16);
	sum = ~((sum & 0xffff) + (sum >> 16)) & 0xffff;
	icmp[2] = (unsigned char)(sum >> 8);
	icmp[3] = (unsigned char)sum;
	return true;
}

static bool answer(struct port *p, uint64_t addr, uint32_t len)
{
	uint32_t index = 0;
	if (!to_reply(xsk_umem__get_data(p->area, addr), len))
		return false;
	if (xsk_ring_prod__reserve(&p->tx, 1, &index) != 1)
		return false; /* TX is full: it is dropped */
	xsk_ring_prod__tx_desc(&p->tx, index)->addr = addr;
	xsk_ring_prod__tx_desc(&p->tx, index)->len = len;
	xsk_ring_prod__submit(&p->tx, 1);
	p->on_tx++;
	p->sent++;
	return true;
}

static void receive(struct port *p)
{
	uint32_t index, i, places, count = xsk_ring_cons__peek(&p->rx, BATCH, &index);
	if (!count)
		return;
	places = xsk_prod_nb_free(&p->fill, p->free);
	if (places > p->free)
		places = p->free;
	if (places > 0)
		fill_up(p, places);
	for (i = 0; i < count; i++) {
		const struct xdp_desc *received = xsk_ring_cons__rx_desc(&p->rx, index + i);
		if (!answer(p, received->addr, received->len))
			give_frame(p, received->addr / CHUNK * CHUNK);
	}
	xsk_ring_cons__release(&p->rx, count);
	p->received += count;
	complete(p);
}

int main(int count, char **words)
{
	struct rlimit all = {RLIM_INFINITY, RLIM_INFINITY};
	struct pollfd look = {.events = POLLIN};
	struct port *p;
	if (count != 2)
		return 2;
	must("locked memory", setrlimit(RLIMIT_MEMLOCK, &all) ? errno : 0);
	signal(SIGINT, stop);
	p = set_up(words[1]);
	look.fd = xsk_socket__fd(p->xsk);
	while (!stopped)
		if (poll(&look, 1, -1) > 0)
			receive(p);
	printf("%s received %llu, answered %llu\n", words[1], (unsigned long long)p->received, (unsigned long long)p->sent);
	xsk_socket__delete(p->xsk);
	xsk_umem__delete(p->umem);
	free(p->area);
	free(p);
	return 0;
}
