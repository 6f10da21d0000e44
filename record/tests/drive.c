/* A program whose ring calls are recorded, over rings in plain memory: it makes the calls of a script, or one of the scenes below.
 *
 *     drive script FILE | threads COUNT CALLS | stages FRAMES | uneven CALLS | batches | order | alone | fork | killed | much CALLS | guarded
 *
 * A line of a script is a call, with `on N` before it where thread N makes it, or what the kernel does (`kernel ..`); `missed ..` is a call
 * that isn't recorded, and `hand RING N` moves the program's own count. */
#include <xsk_record.h>
#include <pthread.h>
#include <sched.h>
#include <signal.h>
#include <stdbool.h>
#include <sys/wait.h>

enum { PAIRS = 64, THREADS = 80, CHUNK = 2048, WORDS = 64 };

static struct xsk_umem *umem[2];
static unsigned int umems;
static struct xsk_ring_prod fill[PAIRS], tx[PAIRS];
static struct xsk_ring_cons comp[PAIRS], rx[PAIRS];
static struct xsk_socket *sockets[PAIRS];
static unsigned int pairs, socket_count;
static uint32_t at[2][PAIRS]; /* where the last reservation began: FILL, TX */
static char *area;

static void must(bool truth, const char *what)
{
	if (truth)
		return;
	fprintf(stderr, "drive: %s\n", what);
	exit(3);
}

/* ------------------------------------------------------------------------------------------------------------------------- scripts */

static struct xsk_ring_prod *produced(const char *name)
{
	return strncmp(name, "fill.", 5) == 0 ? &fill[atoi(name + 5)] : strncmp(name, "tx.", 3) == 0 ? &tx[atoi(name + 3)] : NULL;
}

static struct xsk_ring_cons *consumed(const char *name)
{
	return strncmp(name, "comp.", 5) == 0 ? &comp[atoi(name + 5)] : strncmp(name, "rx.", 3) == 0 ? &rx[atoi(name + 3)] : NULL;
}

static struct xdp_desc entry(const char *word)
{
	struct xdp_desc d = {0, 0, 0};
	unsigned long long address;
	must(sscanf(word, "%llu:%u:%u", &address, &d.len, &d.options) >= 1, "no entry");
	d.addr = address;
	return d;
}

static void make_umem(char **w)
{
	struct xsk_umem_config config = {0};
	size_t size = (size_t)atoi(w[1]) * (size_t)atoi(w[2]);
	config.fill_size = (uint32_t)atoi(w[3]);
	config.comp_size = (uint32_t)atoi(w[4]);
	config.frame_size = (uint32_t)atoi(w[2]);
	config.flags = w[5] ? (uint32_t)atoi(w[5]) : 0;
	area = aligned_alloc(4096, (size + 4095) & ~(size_t)4095);
	must(!xsk_umem__create(&umem[umems++], area, size, &fill[pairs], &comp[pairs], &config), "no UMEM");
	pairs++;
}

/* socket IFNAME QUEUE RX TX first|same|own|shared [FLAGS]: with the UMEM's pair (same: named again), a new one, or that of its queue */
static void make_socket(char **w)
{
	struct xsk_socket_config config = {0};
	unsigned int k = socket_count++, queue = (unsigned int)atoi(w[2]);
	struct xsk_ring_cons *r = atoi(w[3]) ? &rx[k] : NULL;
	struct xsk_ring_prod *t = atoi(w[4]) ? &tx[k] : NULL;
	int fault;
	config.rx_size = (uint32_t)atoi(w[3]);
	config.tx_size = (uint32_t)atoi(w[4]);
	config.bind_flags = w[6] ? (uint16_t)atoi(w[6]) : 0;
	if (strcmp(w[5], "first") == 0)
		fault = xsk_socket__create(&sockets[k], w[1], queue, umem[umems - 1], r, t, &config);
	else if (strcmp(w[5], "same") == 0)
		fault = xsk_socket__create_shared(
			&sockets[k], w[1], queue, umem[umems - 1], r, t, &fill[pairs - 1], &comp[pairs - 1], &config);
	else if (strcmp(w[5], "own") == 0)
		fault = xsk_socket__create_shared(&sockets[k], w[1], queue, umem[umems - 1], r, t, &fill[pairs], &comp[pairs], &config);
	else
		fault = xsk_socket__create_shared(&sockets[k], w[1], queue, umem[umems - 1], r, t, NULL, NULL, &config);
	pairs += strcmp(w[5], "own") == 0;
	must(!fault, "no socket");
}

static void submit(char **w, uint32_t count)
{
	struct xsk_ring_prod *r = produced(w[1]);
	uint32_t from = at[w[1][0] == 't'][r - (w[1][0] == 't' ? tx : fill)], i;
	for (i = 0; i < count; i++) {
		struct xdp_desc d = entry(w[2 + i]);
		if (w[1][0] == 't')
			*xsk_ring_prod__tx_desc(r, from + i) = d;
		else
			*xsk_ring_prod__fill_addr(r, from + i) = d.addr;
	}
	xsk_ring_prod__submit(r, count);
}

/* What the kernel does: `kernel take RING N`, `kernel put RING ENTRY..`, `kernel flag RING 0|1`. */
static void kernel(char **w, uint32_t count)
{
	struct xsk_ring_prod *p = produced(w[2]);
	struct xsk_ring_cons *c = consumed(w[2]);
	uint32_t i;
	if (strcmp(w[1], "take") == 0)
		*p->consumer += (uint32_t)atoi(w[3]);
	else if (strcmp(w[1], "flag") == 0)
		*p->flags = (uint32_t)atoi(w[3]);
	else
		for (i = 3; i < count; i++, ++*c->producer) {
			struct xdp_desc d = entry(w[i]);
			if (w[2][0] == 'r')
				((struct xdp_desc *)c->ring)[*c->producer & c->mask] = d;
			else
				((__u64 *)c->ring)[*c->producer & c->mask] = d.addr;
		}
}

static void missed(char **w)
{
	uint32_t n = (uint32_t)atoi(w[3]);
	if (strcmp(w[1], "submit") == 0)
		(xsk_ring_prod__submit)(produced(w[2]), n);
	else if (strcmp(w[1], "release") == 0)
		(xsk_ring_cons__release)(consumed(w[2]), n);
	else
		must(false, "no call that is missed");
}

static void wake(char **w)
{
	struct pollfd polled = {.fd = xsk_socket__fd(sockets[atoi(w[1])]), .events = POLLIN};
	if (strcmp(w[0], "sendto") == 0)
		sendto(polled.fd, NULL, 0, MSG_DONTWAIT, NULL, 0);
	else if (strcmp(w[0], "recvfrom") == 0)
		recvfrom(polled.fd, NULL, 0, MSG_DONTWAIT, NULL, NULL);
	else
		poll(&polled, 1, 0);
}

static void call(char **w, uint32_t count)
{
	uint32_t n = count > 2 ? (uint32_t)atoi(w[2]) : 0, index;
	if (strcmp(w[0], "umem") == 0)
		make_umem(w);
	else if (strcmp(w[0], "socket") == 0)
		make_socket(w);
	else if (strcmp(w[0], "delete") == 0)
		xsk_socket__delete(sockets[atoi(w[1])]);
	else if (strcmp(w[0], "kernel") == 0)
		kernel(w, count);
	else if (strcmp(w[0], "missed") == 0)
		missed(w);
	else if (strcmp(w[0], "hand") == 0)
		produced(w[1])->cached_prod += n;
	else if (strcmp(w[0], "reserve") == 0)
		(void)(xsk_ring_prod__reserve(produced(w[1]), n, &index) &&
			(at[w[1][0] == 't'][produced(w[1]) - (w[1][0] == 't' ? tx : fill)] = index));
	else if (strcmp(w[0], "submit") == 0)
		submit(w, count - 2);
	else if (strcmp(w[0], "free") == 0)
		(void)xsk_prod_nb_free(produced(w[1]), n);
	else if (strcmp(w[0], "look") == 0)
		(void)xsk_ring_prod__needs_wakeup(produced(w[1]));
	else if (strcmp(w[0], "peek") == 0)
		(void)xsk_ring_cons__peek(consumed(w[1]), n, &index);
	else if (strcmp(w[0], "cancel") == 0)
		xsk_ring_cons__cancel(consumed(w[1]), n);
	else if (strcmp(w[0], "release") == 0)
		xsk_ring_cons__release(consumed(w[1]), n);
	else if (strcmp(w[0], "read") == 0)
		(void)xsk_ring_cons__rx_desc(consumed(w[1]), n);
	else
		wake(w);
}

struct line {
	char *words[WORDS];
	uint32_t count;
};
static struct line given[THREADS]; /* the line that a thread is to make, if it has words */
static pthread_t threads[THREADS];
static pthread_mutex_t lock = PTHREAD_MUTEX_INITIALIZER;
static pthread_cond_t changed = PTHREAD_COND_INITIALIZER;

static void *worker(void *argument)
{
	struct line *mine = argument;
	pthread_mutex_lock(&lock);
	for (;;) {
		while (!mine->count)
			pthread_cond_wait(&changed, &lock);
		call(mine->words, mine->count);
		mine->count = 0;
		pthread_cond_broadcast(&changed);
	}
	return NULL;
}

/* Has a thread make a call, and waits until it is made. */
static void on_thread(int number, char **words, uint32_t count)
{
	struct line *line = &given[number];
	pthread_mutex_lock(&lock);
	memcpy(line->words, words, count * sizeof *words);
	line->words[count] = NULL;
	line->count = count;
	if (!threads[number])
		must(!pthread_create(&threads[number], NULL, worker, line), "no thread");
	pthread_cond_broadcast(&changed);
	while (line->count)
		pthread_cond_wait(&changed, &lock);
	pthread_mutex_unlock(&lock);
}

static void script(const char *name)
{
	FILE *file = fopen(name, "r");
	char text[4096];
	must(file != NULL, name);
	while (fgets(text, sizeof text, file)) {
		char *words[WORDS + 1] = {NULL}, *rest = text;
		uint32_t count = 0;
		while (count < WORDS && (words[count] = strtok_r(rest, " \n", &rest)) != NULL)
			count++;
		if (count && strcmp(words[0], "on") == 0)
			on_thread(atoi(words[1]), words + 2, count - 2);
		else if (count && words[0][0] != '#')
			call(words, count);
	}
	fclose(file);
}

/* -------------------------------------------------------------------------------------------------------------------------- scenes */

static void one_socket(const char *frames, const char *ring)
{
	char name[8] = "v0", word[3][8] = {"2048", "0", "first"}, first[16], size[16];
	char *of_umem[] = {NULL, first, word[0], size, size, NULL};
	char *of_socket[] = {NULL, name, word[1], size, size, word[2], NULL};
	snprintf(first, sizeof first, "%s", frames);
	snprintf(size, sizeof size, "%s", ring);
	make_umem(of_umem);
	make_socket(of_socket);
}

/* One frame goes to FILL and comes on RX, so often. */
static void rounds(unsigned int pair, uint32_t count)
{
	uint32_t i, index;
	for (i = 0; i < count; i++) {
		must(xsk_ring_prod__reserve(&fill[pair], 1, &index) == 1, "no place");
		*xsk_ring_prod__fill_addr(&fill[pair], index) = (uint64_t)pair * CHUNK;
		xsk_ring_prod__submit(&fill[pair], 1);
		++*fill[pair].consumer;
		((struct xdp_desc *)rx[pair].ring)[i & rx[pair].mask] = (struct xdp_desc){(uint64_t)pair * CHUNK + 256, 60, 0};
		__atomic_store_n(rx[pair].producer, *rx[pair].producer + 1, __ATOMIC_RELEASE);
		must(xsk_ring_cons__peek(&rx[pair], 1, &index) == 1, "nothing there");
		xsk_ring_cons__release(&rx[pair], 1);
	}
}

struct part {
	unsigned int pair;
	uint32_t calls;
};

static void *part(void *argument)
{
	const struct part *mine = argument;
	rounds(mine->pair, mine->calls);
	return NULL;
}

/* So many threads, each with a socket of its own. */
static void many(unsigned int count, uint32_t calls)
{
	static struct part parts[PAIRS];
	unsigned int i;
	one_socket("64", "64");
	for (i = 1; i < count; i++) {
		char name[8] = "v0", queue[16], size[] = "64", own[] = "own";
		char *words[] = {NULL, name, queue, size, size, own, NULL};
		snprintf(queue, sizeof queue, "%u", i);
		make_socket(words);
	}
	for (i = 0; i < count; i++) {
		parts[i] = (struct part){i, calls / 4};
		must(!pthread_create(&threads[i], NULL, part, &parts[i]), "no thread");
	}
	for (i = 0; i < count; i++)
		pthread_join(threads[i], NULL);
}

/* Batches that a record has no room for: a whole ring goes to FILL and comes on RX. */
static void batches(void)
{
	uint32_t index, i, turn;
	one_socket("4096", "4096");
	for (turn = 0; turn < 2; turn++) {
		must(xsk_ring_prod__reserve(&fill[0], 2500, &index) == 2500, "no place");
		for (i = 0; i < 2500; i++)
			*xsk_ring_prod__fill_addr(&fill[0], index + i) = i * (uint64_t)CHUNK;
		xsk_ring_prod__submit(&fill[0], 2500);
		*fill[0].consumer += 2500;
		for (i = 0; i < 2500; i++)
			((struct xdp_desc *)rx[0].ring)[(*rx[0].producer)++ & rx[0].mask] =
				(struct xdp_desc){i * (uint64_t)CHUNK + 256, 60, 0};
		must(xsk_ring_cons__peek(&rx[0], 3000, &index) == 2500, "not all came");
		xsk_ring_cons__release(&rx[0], 2500);
	}
}

/* A thread makes so many calls, and when it is done another one ten rounds. */
static void uneven(uint32_t calls)
{
	char name[] = "v0", queue[] = "1", size[] = "64", own[] = "own";
	char *words[] = {NULL, name, queue, size, size, own, NULL};
	struct part parts[] = {{0, calls}, {1, 10}};
	unsigned int i;
	one_socket("64", "64");
	make_socket(words);
	for (i = 0; i < 2; i++) {
		must(!pthread_create(&threads[i], NULL, part, &parts[i]), "no thread");
		pthread_join(threads[i], NULL);
	}
}

/* A list that one thread puts into and another takes from. */
struct list {
	uint64_t addresses[64];
	uint32_t put, taken;
};
static struct list received, completed;
static uint32_t frames_left;

static void hand_on(struct list *list, uint64_t address)
{
	list->addresses[list->put % 64] = address;
	__atomic_store_n(&list->put, list->put + 1, __ATOMIC_RELEASE);
}

static bool take_over(struct list *list, uint64_t *address)
{
	if (__atomic_load_n(&list->put, __ATOMIC_ACQUIRE) == list->taken)
		return false;
	*address = list->addresses[list->taken++ % 64];
	return true;
}

static bool going(void) { return __atomic_load_n(&frames_left, __ATOMIC_ACQUIRE) > 0; }

/* Takes from RX, and hands each frame on. */
static void *receives(void *argument)
{
	uint32_t index, count, i;
	for (; going(); sched_yield()) {
		count = xsk_ring_cons__peek(&rx[0], 8, &index);
		for (i = 0; i < count; i++)
			hand_on(&received, xsk_ring_cons__rx_desc(&rx[0], index + i)->addr);
		if (count)
			xsk_ring_cons__release(&rx[0], count);
	}
	return argument;
}

/* Sends what was handed to it, and hands on what was sent. */
static void *sends(void *argument)
{
	uint64_t address;
	uint32_t index, count, i;
	for (; going(); sched_yield()) {
		while (take_over(&received, &address)) {
			must(xsk_ring_prod__reserve(&tx[0], 1, &index) == 1, "no place on TX");
			*xsk_ring_prod__tx_desc(&tx[0], index) = (struct xdp_desc){address, 60, 0};
			xsk_ring_prod__submit(&tx[0], 1);
		}
		count = xsk_ring_cons__peek(&comp[0], 8, &index);
		for (i = 0; i < count; i++)
			hand_on(&completed, *xsk_ring_cons__comp_addr(&comp[0], index + i));
		if (count)
			xsk_ring_cons__release(&comp[0], count);
	}
	return argument;
}

/* Gives what was sent back to FILL, until so many frames went round. */
static void *refills(void *argument)
{
	uint64_t address;
	uint32_t index;
	for (; going(); sched_yield())
		while (going() && take_over(&completed, &address)) {
			must(xsk_ring_prod__reserve(&fill[0], 1, &index) == 1, "no place on FILL");
			*xsk_ring_prod__fill_addr(&fill[0], index) = address / CHUNK * CHUNK;
			xsk_ring_prod__submit(&fill[0], 1);
			__atomic_sub_fetch(&frames_left, 1, __ATOMIC_ACQ_REL);
		}
	return argument;
}

/* The kernel: what stands on FILL comes on RX, and what stands on TX on COMPLETION. */
static void *moves(void *argument)
{
	while (going()) {
		while (*fill[0].consumer != __atomic_load_n(fill[0].producer, __ATOMIC_ACQUIRE)) {
			uint64_t address = ((__u64 *)fill[0].ring)[*fill[0].consumer & fill[0].mask];
			((struct xdp_desc *)rx[0].ring)[*rx[0].producer & rx[0].mask] = (struct xdp_desc){address + 256, 60, 0};
			__atomic_store_n(fill[0].consumer, *fill[0].consumer + 1, __ATOMIC_RELEASE);
			__atomic_store_n(rx[0].producer, *rx[0].producer + 1, __ATOMIC_RELEASE);
		}
		while (*tx[0].consumer != __atomic_load_n(tx[0].producer, __ATOMIC_ACQUIRE)) {
			((__u64 *)comp[0].ring)[*comp[0].producer & comp[0].mask] =
				((struct xdp_desc *)tx[0].ring)[*tx[0].consumer & tx[0].mask].addr;
			__atomic_store_n(tx[0].consumer, *tx[0].consumer + 1, __ATOMIC_RELEASE);
			__atomic_store_n(comp[0].producer, *comp[0].producer + 1, __ATOMIC_RELEASE);
		}
		sched_yield();
	}
	return argument;
}

/* Three threads, of which each hands its frames to the next. */
static void stages(uint32_t frames)
{
	void *(*parts[])(void *) = {receives, sends, refills, moves};
	unsigned int i;
	one_socket("32", "32");
	frames_left = frames;
	for (i = 0; i < 32; i++)
		hand_on(&completed, i * (uint64_t)CHUNK);
	for (i = 0; i < 4; i++)
		must(!pthread_create(&threads[i], NULL, parts[i], NULL), "no thread");
	for (i = 0; i < 4; i++)
		pthread_join(threads[i], NULL);
}

/* The parent gives a frame, its child takes it when it has come, and the parent gives it again. */
static void forked(void)
{
	pid_t child;
	one_socket("4", "4");
	rounds(0, 2);
	must(xsk_record_clock != XSK_RECORD_ORDERED, "one process's times are ordered");
	child = fork();
	must(child >= 0, "no child");
	must(xsk_record_clock != XSK_RECORD_ALONE, "two processes' times aren't ordered");
	rounds(0, child ? 0 : 3);
	if (!child)
		exit(0);
	waitpid(child, NULL, 0);
}

static volatile uint64_t touched_time; /* when a guarded page was touched */
static char *volatile touched_record;  /* where the next record went then */
static void *volatile page;

static void touched(int number)
{
	(void)number;
	touched_record = xsk_record_mine->at;
	touched_time = xsk_record_now();
	must(!mprotect(page, 4096, PROT_READ | PROT_WRITE), "no page");
}

/* Lets the next touch of a ring's counts be seen: each, or where it is written to. */
static const struct xsk_record *watch(uint32_t *counts, int allowed)
{
	page = counts;
	touched_record = NULL;
	must(!mprotect(page, 4096, allowed), "no page");
	return (const struct xsk_record *)(const void *)xsk_record_mine->at;
}

/* What gives is recorded, with its time, before it is done; and what takes behind it. */
static void order(void)
{
	const struct xsk_record *record;
	uint32_t index, i;
	one_socket("4", "4");
	rounds(0, 3);
	signal(SIGSEGV, touched);
	for (i = 0; i < 2; i++) {
		record = watch(fill[0].producer, PROT_NONE);
		must(xsk_ring_prod__reserve(&fill[0], 4, &index) == 4 && touched_record == (const char *)record,
			"reserve is recorded too early");
		must(record->time >= touched_time, "reserve's time is before it");
		record = watch(fill[0].producer, PROT_READ);
		xsk_ring_prod__submit(&fill[0], 4);
		must(touched_record > (const char *)record && record->time <= touched_time, "submit is recorded too late");
		*fill[0].consumer += 4;
		((struct xdp_desc *)rx[0].ring)[*rx[0].producer & rx[0].mask] = (struct xdp_desc){256, 60, 0};
		*rx[0].producer += 1;
		record = watch(rx[0].producer, PROT_NONE);
		must(xsk_ring_cons__peek(&rx[0], 4, &index) == 1 && touched_record == (const char *)record, "peek is recorded too early");
		must(record->time >= touched_time, "peek's time is before it");
		record = watch(rx[0].producer, PROT_READ);
		xsk_ring_cons__release(&rx[0], 1);
		must(touched_record > (const char *)record && record->time <= touched_time, "release is recorded too late");
	}
}

/* While one thread alone makes calls its times needn't wait for anything; with another thread's call, or a fork, they must. */
static void alone(void)
{
	struct part once = {0, 4};
	one_socket("4", "4");
	must(!pthread_create(&threads[0], NULL, part, &once), "no thread");
	pthread_join(threads[0], NULL);
	must(xsk_record_clock != XSK_RECORD_ORDERED, "one thread's times are ordered");
	rounds(0, 1);
	must(xsk_record_clock != XSK_RECORD_ALONE, "two threads' times aren't ordered");
}

/* A frame that was submitted can't be written to, until it comes back. */
static void guarded(void)
{
	uint32_t index;
	one_socket("4", "4");
	memset(area, 1, 4 * CHUNK);
	rounds(0, 1);
	memset(area, 2, 4 * CHUNK);
	must(xsk_ring_prod__reserve(&tx[0], 1, &index) == 1, "no place");
	*xsk_ring_prod__tx_desc(&tx[0], index) = (struct xdp_desc){CHUNK + 256, 60, 0};
	xsk_ring_prod__submit(&tx[0], 1);
	puts("submitted");
	fflush(stdout);
	area[CHUNK + 256] = 3;
	puts("written");
}

int main(int count, char **words)
{
	must(count > 1, "which scene?");
	if (strcmp(words[1], "script") == 0) {
		script(words[2]);
	} else if (strcmp(words[1], "threads") == 0) {
		many((unsigned int)atoi(words[2]), (uint32_t)atoi(words[3]));
	} else if (strcmp(words[1], "stages") == 0) {
		stages((uint32_t)atoi(words[2]));
	} else if (strcmp(words[1], "uneven") == 0) {
		uneven((uint32_t)atoi(words[2]) / 4);
	} else if (strcmp(words[1], "batches") == 0) {
		batches();
	} else if (strcmp(words[1], "order") == 0) {
		order();
	} else if (strcmp(words[1], "alone") == 0) {
		alone();
	} else if (strcmp(words[1], "fork") == 0) {
		forked();
	} else if (strcmp(words[1], "much") == 0) {
		one_socket("4", "4");
		rounds(0, (uint32_t)atoi(words[2]) / 4);
	} else if (strcmp(words[1], "killed") == 0) {
		one_socket("4", "4");
		rounds(0, 100);
		raise(SIGKILL);
	} else {
		guarded();
	}
	return 0;
}
