/* l2fwd: what comes at one port is sent at the other, with its addresses swapped; AF_XDP sockets by libxdp, copy mode, one UMEM.
 *
 *     l2fwd [-m MISTAKE] [-i IDLE_MS] PORT PORT
 *
 * It ends once nothing came for so long (1,000), or at Ctrl-C. Each mistake is made at every 10th opportunity, but 3, 9 and 10 always:
 * 1 a frame stays in the list of free ones though it is put on FILL    6 a frame is written to after it was submitted
 * 2 a frame is taken for free while it stands on TX                    7 an address on FILL is reckoned with chunks of half the size
 * 3 completions are never taken                                        8 a length on TX goes beyond the chunk
 * 4 one entry more is submitted than was reserved                      9 FILL isn't refilled
 * 5 one entry more is released than was peeked                        10 the kernel is never told to send */
#include <xdp/xsk.h>
#include <errno.h>
#include <signal.h>
#include <stdbool.h>
#include <stdlib.h>
#include <string.h>
#include <sys/mman.h>
#include <sys/socket.h>
#include <time.h>
#include <unistd.h>

enum { FRAMES = 512, CHUNK = 4096, RING = 256, BATCH = 32 };
enum mistake {
	NONE,
	FILL_TWICE,
	FREED_ON_TX,
	NOT_COMPLETED,
	SUBMIT_MORE,
	RELEASE_MORE,
	WRITE_LATE,
	HALF_ADDRESS,
	TOO_LONG,
	NO_REFILL,
	NO_WAKE
};

struct port {
	const char *ifname;
	struct xsk_socket *xsk;
	struct xsk_ring_prod fill, tx;
	struct xsk_ring_cons rx, completion;
	uint32_t on_tx;
	uint64_t received, sent, completed;
};

static struct port ports[2];
static char *area;
static uint64_t free_frames[2 * FRAMES];
static uint32_t free_count;
static int mistake;
static volatile sig_atomic_t stopped;

static void stop(int number) { stopped = number; }

static void must(const char *what, int fault)
{
	if (!fault)
		return;
	fprintf(stderr, "l2fwd: %s: %s\n", what, strerror(fault < 0 ? -fault : fault));
	exit(1);
}

/* Whether this mistake is made now. */
static bool makes(enum mistake which)
{
	static unsigned int opportunities;
	return mistake == (int)which && ++opportunities % 10 == 0;
}

static void put_free(uint64_t address)
{
	if (free_count < 2 * FRAMES)
		free_frames[free_count++] = address;
}

/* Gives the kernel frames to receive into. */
static void refill(struct port *port, uint32_t count)
{
	uint32_t index, i;
	if (count > free_count)
		count = free_count;
	if (!count || xsk_ring_prod__reserve(&port->fill, count, &index) != count)
		return;
	for (i = 0; i < count; i++)
		*xsk_ring_prod__fill_addr(&port->fill, index + i) = free_frames[--free_count];
	if (makes(FILL_TWICE))
		free_count++;
	if (makes(HALF_ADDRESS))
		*xsk_ring_prod__fill_addr(&port->fill, index) /= 2;
	xsk_ring_prod__submit(&port->fill, count + makes(SUBMIT_MORE));
}

/* Tells the kernel to send, and takes back the frames that it has sent. */
static void complete(struct port *port)
{
	uint32_t index, count, i;
	if (!port->on_tx)
		return;
	if (mistake != NO_WAKE && sendto(xsk_socket__fd(port->xsk), NULL, 0, MSG_DONTWAIT, NULL, 0) < 0 && errno != EAGAIN &&
		errno != EBUSY && errno != ENOBUFS)
		must("sendto", errno);
	if (mistake == NOT_COMPLETED)
		return;
	count = xsk_ring_cons__peek(&port->completion, BATCH, &index);
	for (i = 0; i < count; i++)
		put_free(*xsk_ring_cons__comp_addr(&port->completion, index + i) & ~(uint64_t)(CHUNK - 1));
	if (count)
		xsk_ring_cons__release(&port->completion, count + makes(RELEASE_MORE));
	port->completed += count;
	port->on_tx -= count < port->on_tx ? count : port->on_tx;
}

static void swap_addresses(char *packet)
{
	char first[6];
	memcpy(first, packet, 6);
	memmove(packet, packet + 6, 6);
	memcpy(packet + 6, first, 6);
}

/* Forwards one batch; gives how many packets it had. */
static uint32_t forward(struct port *from, struct port *to)
{
	uint32_t in, out, count = xsk_ring_cons__peek(&from->rx, BATCH, &in), i;
	uint64_t last = 0;
	if (!count)
		return 0;
	while (xsk_ring_prod__reserve(&to->tx, count, &out) != count) {
		complete(to);
		if (stopped)
			return 0;
	}
	for (i = 0; i < count; i++) {
		const struct xdp_desc *received = xsk_ring_cons__rx_desc(&from->rx, in + i);
		struct xdp_desc *sent = xsk_ring_prod__tx_desc(&to->tx, out + i);
		swap_addresses(area + received->addr);
		sent->addr = last = received->addr;
		sent->len = makes(TOO_LONG) ? CHUNK : received->len;
		sent->options = 0;
	}
	xsk_ring_prod__submit(&to->tx, count);
	to->on_tx += count;
	if (makes(WRITE_LATE))
		memset(area + last, 0xee, 60);
	if (makes(FREED_ON_TX))
		put_free(last & ~(uint64_t)(CHUNK - 1));
	xsk_ring_cons__release(&from->rx, count);
	from->received += count;
	to->sent += count;
	if (mistake != NO_REFILL)
		refill(from, count);
	return count;
}

static void set_up(char **names)
{
	struct xsk_umem_config memory = {.fill_size = RING, .comp_size = RING, .frame_size = CHUNK};
	struct xsk_socket_config sockets = {.rx_size = RING, .tx_size = RING, .bind_flags = XDP_COPY};
	struct xsk_umem *umem;
	int p;
	area = mmap(NULL, FRAMES * CHUNK, PROT_READ | PROT_WRITE, MAP_PRIVATE | MAP_ANONYMOUS, -1, 0);
	must("memory", area == MAP_FAILED ? errno : 0);
	while (free_count < FRAMES)
		put_free((uint64_t)free_count * CHUNK);
	must("UMEM", xsk_umem__create(&umem, area, FRAMES * CHUNK, &ports[0].fill, &ports[0].completion, &memory));
	for (p = 0; p < 2; p++) {
		struct port *port = &ports[p];
		port->ifname = names[p];
		must(port->ifname, xsk_socket__create_shared(&port->xsk, port->ifname, 0, umem, &port->rx, &port->tx, &port->fill,
					   &port->completion, &sockets));
		refill(port, FRAMES / 2);
	}
}

static double milliseconds(void)
{
	struct timespec now;
	clock_gettime(CLOCK_MONOTONIC, &now);
	return (double)now.tv_sec * 1e3 + (double)now.tv_nsec / 1e6;
}

int main(int count, char **words)
{
	double idle = 1000, last;
	int option, p;
	while ((option = getopt(count, words, "m:i:")) != -1)
		option == 'm' ? (void)(mistake = atoi(optarg)) : (void)(idle = atof(optarg));
	if (count - optind != 2 || idle <= 0)
		return 2;
	signal(SIGINT, stop);
	set_up(words + optind);
	puts("ready");
	fflush(stdout);
	for (last = milliseconds(); !stopped && milliseconds() - last < idle;) {
		complete(&ports[0]);
		complete(&ports[1]);
		if (forward(&ports[0], &ports[1]) + forward(&ports[1], &ports[0]))
			last = milliseconds();
	}
	for (p = 0; p < 2; p++)
		printf("%s received %lu sent %lu completed %lu\n", ports[p].ifname, ports[p].received, ports[p].sent, ports[p].completed);
	return 0;
}
