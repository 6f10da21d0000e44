/* many: several ports and queues over one UMEM and one list of free frames. What comes at a port is sent at the next, on the same queue; a
 * frame that comes back goes to whichever queue is filled next.
 *
 *     many QUEUES PORT PORT .. */
#include <xdp/xsk.h>
#include <errno.h>
#include <signal.h>
#include <stdbool.h>
#include <stdlib.h>
#include <string.h>
#include <sys/mman.h>
#include <sys/socket.h>

enum { FRAMES = 512, CHUNK = 2048, RING = 64, BATCH = 16, PORTS = 4, QUEUES = 4 };

struct queue {
	struct xsk_ring_prod fill, tx;
	struct xsk_ring_cons rx, completion;
	struct xsk_socket *xsk;
	uint32_t on_fill;
};

static struct queue queues[PORTS][QUEUES];
static uint64_t free_frames[FRAMES], received;
static uint32_t free_count;
static volatile sig_atomic_t stopped;

static void stop(int number) { stopped = number; }

static void must(const char *what, int fault)
{
	if (!fault)
		return;
	fprintf(stderr, "many: %s: %s\n", what, strerror(abs(fault)));
	exit(1);
}

static void refill(struct queue *q)
{
	uint32_t index, i, count = RING / 2 - q->on_fill;
	if (count > free_count)
		count = free_count;
	if (!count || xsk_ring_prod__reserve(&q->fill, count, &index) != count)
		return;
	for (i = 0; i < count; i++)
		*xsk_ring_prod__fill_addr(&q->fill, index + i) = free_frames[--free_count];
	xsk_ring_prod__submit(&q->fill, count);
	q->on_fill += count;
}

static void complete(struct queue *q)
{
	uint32_t index, i, count;
	sendto(xsk_socket__fd(q->xsk), NULL, 0, MSG_DONTWAIT, NULL, 0);
	count = xsk_ring_cons__peek(&q->completion, BATCH, &index);
	for (i = 0; i < count; i++)
		free_frames[free_count++] = *xsk_ring_cons__comp_addr(&q->completion, index + i) / CHUNK * CHUNK;
	if (count)
		xsk_ring_cons__release(&q->completion, count);
}

static void forward(struct queue *in, struct queue *out)
{
	uint32_t from, to, i, count = xsk_ring_cons__peek(&in->rx, BATCH, &from);
	if (!count)
		return;
	while (xsk_ring_prod__reserve(&out->tx, count, &to) != count) {
		complete(out);
		if (stopped)
			return;
	}
	for (i = 0; i < count; i++)
		*xsk_ring_prod__tx_desc(&out->tx, to + i) = *xsk_ring_cons__rx_desc(&in->rx, from + i);
	xsk_ring_prod__submit(&out->tx, count);
	xsk_ring_cons__release(&in->rx, count);
	in->on_fill -= count;
	received += count;
}

int main(int count, char **words)
{
	struct xsk_umem_config memory = {.fill_size = RING, .comp_size = RING, .frame_size = CHUNK};
	struct xsk_socket_config sockets = {.rx_size = RING, .tx_size = RING, .bind_flags = XDP_COPY};
	struct xsk_umem *umem;
	int ports = count - 2, queue_count = count > 1 ? atoi(words[1]) : 0, p, k;
	void *area = mmap(NULL, FRAMES * CHUNK, PROT_READ | PROT_WRITE, MAP_PRIVATE | MAP_ANONYMOUS, -1, 0);
	if (ports < 1 || ports > PORTS || queue_count < 1 || queue_count > QUEUES)
		return 2;
	signal(SIGINT, stop);
	while (free_count < FRAMES) {
		free_frames[free_count] = (uint64_t)free_count * CHUNK;
		free_count++;
	}
	must("UMEM", xsk_umem__create(&umem, area, FRAMES * CHUNK, &queues[0][0].fill, &queues[0][0].completion, &memory));
	for (p = 0; p < ports; p++)
		for (k = 0; k < queue_count; k++) {
			struct queue *q = &queues[p][k];
			must(words[p + 2], xsk_socket__create_shared(&q->xsk, words[p + 2], (__u32)k, umem, &q->rx, &q->tx, &q->fill,
						   &q->completion, &sockets));
		}
	while (!stopped)
		for (p = 0; p < ports; p++)
			for (k = 0; k < queue_count; k++) {
				refill(&queues[p][k]);
				forward(&queues[p][k], &queues[(p + 1) % ports][k]);
				complete(&queues[p][k]);
			}
	printf("received %llu, free %u\n", (unsigned long long)received, free_count);
	return 0;
}
