/* A correct forwarder whose settings are words: what a recording must be able to say. By libxdp, copy mode, one UMEM.
 *
 *     settings [-s SOCKETS] [-n FRAMES] [-w] [-g] [-t] [-o rx|tx] PORT [PORT]
 *
 * -s: sockets of a queue, by the last byte of the source address; -w: XDP_USE_NEED_WAKEUP; -g: XDP_USE_SG; -t: a thread for each port;
 * -o: it receives alone, or sends 400 packets alone. With one port all goes back by it. It ends at Ctrl-C. */
#include <xdp/xsk.h>
#include <bpf/bpf.h>
#include <errno.h>
#include <linux/if_link.h>
#include <net/if.h>
#include <poll.h>
#include <pthread.h>
#include <sched.h>
#include <signal.h>
#include <stdbool.h>
#include <stdlib.h>
#include <string.h>
#include <sys/mman.h>
#include <sys/socket.h>
#include <unistd.h>

enum { CHUNK = 4096, RING = 1024, BATCH = 32, SOCKETS = 4, USE_SG = 16, PKT_CONTD = 1, HAS_FRAGS = 1 << 5, PACKETS = 400 };

struct side {
	struct xsk_socket *xsk;
	struct xsk_ring_cons rx;
	struct xsk_ring_prod tx;
	uint32_t on_tx;
};
struct port {
	const char *ifname;
	struct xsk_ring_prod fill;
	struct xsk_ring_cons completion;
	struct side sides[SOCKETS];
	struct port *peer;
	uint64_t received, sent;
};

static struct port ports[2];
static unsigned int port_count, socket_count = 1, frame_count = 1024;
static bool wakeup, sg, threads;
static char only = 'b';
static char *area;
static uint64_t *free_frames;
static unsigned int free_count;
static pthread_mutex_t lock = PTHREAD_MUTEX_INITIALIZER;
static volatile sig_atomic_t stopped;

static void stop(int number) { stopped = number; }

static void must(const char *what, int fault)
{
	if (!fault)
		return;
	fprintf(stderr, "settings: %s: %s\n", what, strerror(abs(fault)));
	exit(1);
}

/* A program that redirects to the cell of the source address's last byte modulo the sockets; gives its map. */
static int attach(const char *ifname)
{
	int map = bpf_map_create(BPF_MAP_TYPE_XSKMAP, "xsks", 4, 4, SOCKETS, NULL), program;
	struct bpf_insn code[] = {
		{0x61, 2, 1, 0, 0},
		{0x61, 4, 1, 4, 0},
		{0xbf, 5, 2, 0, 0},
		{0x07, 5, 0, 0, 14}, /* r2 = data, r4 = its end, r5 = r2 + 14 */
		{0xb7, 3, 0, 0, 0},
		{0x2d, 5, 4, 2, 0},
		{0x71, 3, 2, 11, 0},
		{0x97, 3, 0, 0, (int)socket_count}, /* r3 = the cell */
		{0xbf, 2, 3, 0, 0},
		{0x18, 1, 1, 0, map},
		{0, 0, 0, 0, 0},
		{0xb7, 3, 0, 0, XDP_PASS},
		{0x85, 0, 0, 0, 51},
		{0x95, 0, 0, 0, 0},
	};
	struct bpf_prog_load_opts options = {.sz = sizeof options, .prog_flags = sg ? HAS_FRAGS : 0};
	must("map", map < 0 ? errno : 0);
	program = bpf_prog_load(BPF_PROG_TYPE_XDP, "settings", "GPL", code, sizeof code / sizeof *code, &options);
	must("program", program < 0 ? errno : 0);
	must("attach", bpf_xdp_attach((int)if_nametoindex(ifname), program, XDP_FLAGS_DRV_MODE, NULL));
	return map;
}

static void put_free(uint64_t address)
{
	pthread_mutex_lock(&lock);
	free_frames[free_count++] = address / CHUNK * CHUNK;
	pthread_mutex_unlock(&lock);
}

static uint32_t take_free(uint64_t *addresses, uint32_t most)
{
	uint32_t count = 0;
	pthread_mutex_lock(&lock);
	while (count < most && free_count)
		addresses[count++] = free_frames[--free_count];
	pthread_mutex_unlock(&lock);
	return count;
}

static void refill(struct port *port, uint32_t most)
{
	uint64_t addresses[BATCH];
	uint32_t index, i, count = take_free(addresses, most < BATCH ? most : BATCH);
	if (count && xsk_ring_prod__reserve(&port->fill, count, &index) == count) {
		for (i = 0; i < count; i++)
			*xsk_ring_prod__fill_addr(&port->fill, index + i) = addresses[i];
		xsk_ring_prod__submit(&port->fill, count);
	} else {
		for (i = 0; i < count; i++)
			put_free(addresses[i]);
	}
}

static void wake(struct side *side)
{
	if (!wakeup || xsk_ring_prod__needs_wakeup(&side->tx))
		sendto(xsk_socket__fd(side->xsk), NULL, 0, MSG_DONTWAIT, NULL, 0);
}

static void complete(struct port *port)
{
	uint32_t index, i, count, waiting = 0;
	unsigned int s;
	for (s = 0; s < socket_count; s++) {
		waiting += port->sides[s].on_tx;
		if (port->sides[s].on_tx)
			wake(&port->sides[s]);
	}
	count = waiting ? xsk_ring_cons__peek(&port->completion, BATCH, &index) : 0;
	for (i = 0; i < count; i++)
		put_free(*xsk_ring_cons__comp_addr(&port->completion, index + i));
	if (count)
		xsk_ring_cons__release(&port->completion, count);
	for (s = 0; s < socket_count; s++) {
		uint32_t part = port->sides[s].on_tx < count ? port->sides[s].on_tx : count;
		port->sides[s].on_tx -= part;
		count -= part;
	}
}

static void receive(struct port *port, struct side *side)
{
	uint32_t index, i, count = xsk_ring_cons__peek(&side->rx, BATCH, &index);
	struct pollfd waits = {.fd = xsk_socket__fd(side->xsk), .events = POLLIN};
	for (i = 0; i < count; i++)
		put_free(xsk_ring_cons__rx_desc(&side->rx, index + i)->addr);
	if (count)
		xsk_ring_cons__release(&side->rx, count);
	else
		poll(&waits, 1, 1);
	port->received += count;
}

static void forward(struct port *port, struct side *in, struct side *out)
{
	uint32_t from, to = 0, i, count = xsk_ring_cons__peek(&in->rx, BATCH, &from);
	if (count > 4) { /* some are put back, and come again */
		xsk_ring_cons__cancel(&in->rx, 2);
		count -= 2;
	}
	while (count && !xsk_ring_prod__reserve(&out->tx, count, &to) && !stopped)
		complete(port->peer);
	if (!count || stopped)
		return;
	for (i = 0; i < count; i++) {
		const struct xdp_desc *received = xsk_ring_cons__rx_desc(&in->rx, from + i);
		*xsk_ring_prod__tx_desc(&out->tx, to + i) = *received;
		port->received += !(received->options & PKT_CONTD);
	}
	xsk_ring_prod__submit(&out->tx, count);
	out->on_tx += count;
	xsk_ring_cons__release(&in->rx, count);
	port->peer->sent += count;
	wake(out);
}

static void generate(struct port *port, struct side *side)
{
	uint64_t addresses[BATCH];
	uint32_t index, i, count = port->sent < PACKETS ? take_free(addresses, BATCH / 2) : 0;
	if (!count || !xsk_ring_prod__reserve(&side->tx, count, &index)) {
		for (i = 0; i < count; i++)
			put_free(addresses[i]);
		return;
	}
	for (i = 0; i < count; i++) {
		memcpy(area + addresses[i], "\2\0\0\0\0\2\2\0\0\0\0\1\x88\xb5", 14);
		*xsk_ring_prod__tx_desc(&side->tx, index + i) = (struct xdp_desc){addresses[i], 60, 0};
	}
	xsk_ring_prod__submit(&side->tx, count);
	side->on_tx += count;
	port->sent += count;
	wake(side);
}

/* One round over a port's sockets: FILL of the port, and TX and COMPLETION of its peer. */
static void serve(struct port *port)
{
	unsigned int s;
	if (only != 'r')
		complete(port->peer);
	if (only != 't')
		refill(port, BATCH);
	for (s = 0; s < socket_count; s++) {
		if (only == 'r')
			receive(port, &port->sides[s]);
		else if (only == 't')
			generate(port, &port->sides[s]);
		else
			forward(port, &port->sides[s], &port->peer->sides[s]);
	}
}

static void *serve_alone(void *port)
{
	for (; !stopped; sched_yield())
		serve(port);
	return NULL;
}

static void open_port(struct port *port, struct xsk_umem *umem)
{
	struct xsk_socket_config config = {.rx_size = RING,
		.tx_size = RING,
		.libxdp_flags = XSK_LIBXDP_FLAGS__INHIBIT_PROG_LOAD,
		.bind_flags = (uint16_t)(XDP_COPY | (wakeup ? XDP_USE_NEED_WAKEUP : 0) | (sg ? USE_SG : 0))};
	int map = attach(port->ifname);
	unsigned int s;
	for (s = 0; s < socket_count; s++) {
		struct side *side = &port->sides[s];
		int descriptor;
		must("socket", xsk_socket__create_shared(&side->xsk, port->ifname, 0, umem, only == 't' ? NULL : &side->rx,
				       only == 'r' ? NULL : &side->tx, &port->fill, &port->completion, &config));
		descriptor = xsk_socket__fd(side->xsk);
		if (only != 't')
			must("cell", bpf_map_update_elem(map, &s, &descriptor, 0));
	}
	for (s = 0; only != 't' && s < frame_count / (4 * BATCH); s++)
		refill(port, BATCH);
}

static void read_words(int count, char **words)
{
	int option;
	while ((option = getopt(count, words, "s:n:wgto:")) != -1) {
		if (option == 's')
			socket_count = (unsigned int)atoi(optarg);
		else if (option == 'n')
			frame_count = (unsigned int)atoi(optarg);
		else if (option == 'o')
			only = optarg[0];
		wakeup = wakeup || option == 'w';
		sg = sg || option == 'g';
		threads = threads || option == 't';
	}
	for (; optind < count && port_count < 2; port_count++)
		ports[port_count].ifname = words[optind++];
	must("words", port_count && socket_count && socket_count <= SOCKETS ? 0 : EINVAL);
}

int main(int count, char **words)
{
	struct xsk_umem_config memory = {.fill_size = RING, .comp_size = RING, .frame_size = CHUNK};
	struct xsk_umem *umem;
	pthread_t workers[2];
	unsigned int p;
	read_words(count, words);
	signal(SIGINT, stop);
	area = mmap(NULL, (size_t)frame_count * CHUNK, PROT_READ | PROT_WRITE, MAP_PRIVATE | MAP_ANONYMOUS, -1, 0);
	free_frames = calloc(frame_count, sizeof *free_frames);
	must("memory", area == MAP_FAILED || !free_frames ? ENOMEM : 0);
	while (free_count < frame_count)
		put_free((uint64_t)free_count * CHUNK);
	must("UMEM", xsk_umem__create(&umem, area, (uint64_t)frame_count * CHUNK, &ports[0].fill, &ports[0].completion, &memory));
	for (p = 0; p < port_count; p++) {
		ports[p].peer = &ports[port_count - 1 - p];
		open_port(&ports[p], umem);
	}
	puts("ready");
	fflush(stdout);
	for (p = 0; threads && p < port_count; p++)
		must("thread", pthread_create(&workers[p], NULL, serve_alone, &ports[p]));
	for (p = 0; threads && p < port_count; p++)
		pthread_join(workers[p], NULL);
	for (p = 0; !stopped; p = (p + 1) % port_count) {
		serve(&ports[p]);
		sched_yield();
	}
	for (p = 0; p < port_count; p++)
		printf("received %lu sent %lu\n", ports[p].received, ports[p].sent);
	return 0;
}
