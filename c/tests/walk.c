/* walk: a program that makes whatever it may, at random, by its own book of places and frames: reserves and submits in parts, peeks, puts
 * back and releases in parts, looks, polls and sends. Nothing of it may be told to be wrong, and in the end all frames are there, and each
 * packet that it sent has its number in order.
 *
 *     walk SEED STEPS FRAMES RING [WRONG]
 *
 * With WRONG it does one thing that it may not at some step, and goes on to its end if nothing stops it: 1 submits a frame that it hasn't, 2
 * submits one entry too many, 3 releases one too many, 4 puts a frame twice into one Submit. */
#include <xdp/xsk.h>
#include <poll.h>
#include <stdbool.h>
#include <stdlib.h>
#include <string.h>
#include <sys/mman.h>
#include <sys/socket.h>

enum { CHUNK = 2048, MOST = 4096, KINDS = 4 };
enum kind { FILL, TX, RX, COMPLETION };

static struct xsk_ring_prod prod[2]; /* FILL and TX */
static struct xsk_ring_cons cons[2]; /* RX and COMPLETION */
static struct xsk_socket *xsk;
static char *area;
static uint64_t frames[MOST], gone[MOST]; /* that it has, and that it gave last */
static uint32_t have, last_gone, written[2], held[2];
static uint32_t number, sent, completed;
static uint64_t state;
static int wrong;
static unsigned long wrong_at, steps;

static uint32_t dice(uint32_t below)
{
	state ^= state << 13;
	state ^= state >> 7;
	state ^= state << 17;
	return (uint32_t)(state >> 33) % below;
}

static uint64_t take(void)
{
	uint32_t k = dice(have);
	uint64_t frame = frames[k];
	frames[k] = frames[--have];
	gone[last_gone++ % MOST] = frame;
	return frame;
}

/* Reserves places and fills them; they are submitted later, in other parts. */
static void fill(enum kind kind)
{
	uint32_t index, i, n = 1 + dice(40);
	if (n > have)
		n = have;
	if (!n || xsk_ring_prod__reserve(&prod[kind], n, &index) != n)
		return;
	for (i = 0; i < n; i++) {
		uint64_t frame = take();
		if (kind == FILL) {
			*xsk_ring_prod__fill_addr(&prod[FILL], index + i) = frame + dice(CHUNK);
			continue;
		}
		memcpy(area + frame, "\2\0\0\0\0\2\2\0\0\0\0\1\x88\xb5", 14);
		memcpy(area + frame + 14, &number, sizeof number);
		memset(area + frame + 18, 0, 42);
		number++;
		*xsk_ring_prod__tx_desc(&prod[TX], index + i) = (struct xdp_desc){frame, 60, 0};
	}
	written[kind] += n;
}

static void submit(enum kind kind, bool all)
{
	uint32_t n = all ? written[kind] : dice(written[kind] + 1);
	if (!n)
		return;
	if (wrong == 1 && steps >= wrong_at && last_gone > 200) { /* a frame that it gave long ago, or one of the first */
		uint64_t other = gone[(last_gone - 1 - written[0] - written[1]) % MOST];
		if (kind == FILL)
			*xsk_ring_prod__fill_addr(&prod[FILL], *prod[FILL].producer) = other;
		else
			xsk_ring_prod__tx_desc(&prod[TX], *prod[TX].producer)->addr = other;
		wrong = 0;
	}
	if (wrong == 4 && steps >= wrong_at && n > 1 && kind == TX) {
		uint32_t from = *prod[TX].producer;
		xsk_ring_prod__tx_desc(&prod[TX], from + n - 1)->addr = xsk_ring_prod__tx_desc(&prod[TX], from)->addr;
		wrong = 0;
	}
	if (wrong == 2 && steps >= wrong_at) {
		n = written[kind] + 1;
		wrong = 0;
	}
	xsk_ring_prod__submit(&prod[kind], n);
	written[kind] -= n < written[kind] ? n : written[kind];
	sent += kind == TX ? n : 0;
}

static void empty(enum kind kind)
{
	struct xsk_ring_cons *r = &cons[kind - RX];
	uint32_t index = 0, i, n = xsk_ring_cons__peek(r, 1 + dice(70), &index);
	if (n && dice(4) == 0) {
		uint32_t back = dice(n + 1);
		xsk_ring_cons__cancel(r, back);
		n -= back;
	}
	for (i = 0; i < n; i++) {
		uint64_t addr = kind == RX ? xsk_ring_cons__rx_desc(r, index + i)->addr : *xsk_ring_cons__comp_addr(r, index + i);
		frames[have++] = addr / CHUNK * CHUNK;
	}
	held[kind - RX] += n;
	completed += kind == COMPLETION ? n : 0;
}

static void release(enum kind kind, bool all)
{
	uint32_t n = all ? held[kind - RX] : dice(held[kind - RX] + 1);
	if (wrong == 3 && steps >= wrong_at && held[kind - RX]) {
		n = held[kind - RX] + 1;
		wrong = 0;
	}
	if (!n)
		return;
	xsk_ring_cons__release(&cons[kind - RX], n);
	held[kind - RX] -= n < held[kind - RX] ? n : held[kind - RX];
}

static void look(void)
{
	struct pollfd look = {.fd = xsk_socket__fd(xsk), .events = POLLIN};
	switch (dice(6)) {
	case 0:
		if (xsk_ring_prod__needs_wakeup(&prod[FILL]))
			recvfrom(look.fd, NULL, 0, MSG_DONTWAIT, NULL, NULL);
		break;
	case 1:
		poll(&look, 1, 0);
		break;
	case 2:
		xsk_prod_nb_free(&prod[dice(2)], dice(50));
		break;
	case 3:
		xsk_cons_nb_avail(&cons[dice(2)], dice(50));
		break;
	default:
		if (xsk_ring_prod__needs_wakeup(&prod[TX]) || dice(2))
			sendto(look.fd, NULL, 0, MSG_DONTWAIT, NULL, 0);
	}
}

static void step(void)
{
	switch (dice(10)) {
	case 0:
		fill(FILL);
		break;
	case 1:
		fill(TX);
		break;
	case 2:
	case 3:
		submit(dice(2) ? FILL : TX, false);
		break;
	case 4:
		empty(RX);
		break;
	case 5:
		empty(COMPLETION);
		break;
	case 6:
		release(RX, false);
		break;
	case 7:
		release(COMPLETION, false);
		break;
	default:
		look();
	}
}

int main(int count, char **words)
{
	struct xsk_umem_config memory = {.frame_size = CHUNK};
	struct xsk_socket_config sockets = {.bind_flags = XDP_USE_NEED_WAKEUP};
	struct xsk_umem *umem;
	uint32_t frame_count, ring;
	unsigned long most;
	if (count < 5)
		return 2;
	state = (strtoull(words[1], NULL, 10) + 1) * 0x9e3779b97f4a7c15u;
	most = strtoul(words[2], NULL, 10);
	frame_count = (uint32_t)strtoul(words[3], NULL, 10);
	ring = (uint32_t)strtoul(words[4], NULL, 10);
	wrong = count > 5 ? atoi(words[5]) : 0;
	wrong_at = most / 2;
	memory.fill_size = memory.comp_size = sockets.rx_size = sockets.tx_size = ring;
	area = mmap(NULL, (size_t)frame_count * CHUNK, PROT_READ | PROT_WRITE, MAP_PRIVATE | MAP_ANONYMOUS, -1, 0);
	if (xsk_umem__create(&umem, area, (size_t)frame_count * CHUNK, &prod[FILL], &cons[1], &memory) ||
		xsk_socket__create(&xsk, "eth0", 0, umem, &cons[0], &prod[TX], &sockets))
		return 2;
	for (; have < frame_count; have++)
		frames[have] = (uint64_t)have * CHUNK;
	while (steps++ < most)
		step();
	for (steps = 0; steps < 100000 && completed < number; steps++) { /* all that is to be sent is sent, and comes back */
		submit(TX, true);
		sendto(xsk_socket__fd(xsk), NULL, 0, MSG_DONTWAIT, NULL, 0);
		empty(COMPLETION);
		release(COMPLETION, true);
	}
	printf("sent %u completed %u\n", sent, completed);
	return completed != number;
}
