/* System calls on a socket's descriptor: each gives the drivers a turn. Those on other descriptors go to the kernel. */
#undef _FORTIFY_SOURCE /* it makes functions of its own of these */
#include "world.h"
#include <errno.h>
#include <poll.h>
#include <sched.h>
#include <string.h>
#include <sys/resource.h>
#include <sys/socket.h>
#include <sys/syscall.h>
#include <unistd.h>

#ifndef SOL_XDP
#define SOL_XDP 283
#endif
#pragma GCC visibility push(default) /* these are the program's */

static bool any(void) { return __atomic_load_n(&umems, __ATOMIC_ACQUIRE) != NULL; }

/* The driver is woken, or told to send as in copy mode: 32 entries of this socket. Tells whether some are left. */
static bool wake(struct xsk_socket *x, bool sends)
{
	struct xsk_umem *u = x->umem;
	struct side *s = x->tx ? x->tx : x->rx;
	uint64_t old = 0;
	bool left = false;
	u->calls++;
	start(u);
	x->woken |= sends;
	if (u->wakeup && !settings.copy && legal(s, "kick", 1, xsk_c_swap(&u->bench, s->app, XSK_C_KICK, x->pair->number, 1, &old), -1) &&
		!old)
		acted(u);
	if (settings.copy && sends && x->tx) {
		pass(x->tx, XSK_C_MOST);
		left = x->tx->passed != x->tx->producer;
	}
	if (!settings.seeded)
		settle(u, u->still ? SETTLED : SETTLED / 4);
	return left;
}

/* A call on one of the sockets: 0, or -1 with errno; `ours` tells whether it is one. */
static ssize_t woken(int fd, bool sends, bool *ours)
{
	struct xsk_socket *x;
	bool left = false;
	if (!any()) {
		*ours = false;
		return 0;
	}
	enter(NULL);
	x = socket_of(fd);
	*ours = x != NULL;
	if (x) {
		left = wake(x, sends);
		found_nothing(x->umem);
	}
	leave();
	if (left)
		errno = EAGAIN;
	return left ? -1 : 0;
}

ssize_t sendto(int fd, const void *buf, size_t n, int flags, const struct sockaddr *addr, socklen_t len)
{
	bool ours;
	ssize_t answer = woken(fd, true, &ours);
	return ours ? answer : syscall(SYS_sendto, fd, buf, n, flags, addr, len);
}

ssize_t sendmsg(int fd, const struct msghdr *message, int flags)
{
	bool ours;
	ssize_t answer = woken(fd, true, &ours);
	return ours ? answer : syscall(SYS_sendmsg, fd, message, flags);
}

ssize_t recvfrom(int fd, void *restrict buf, size_t n, int flags, struct sockaddr *restrict addr, socklen_t *restrict len)
{
	bool ours;
	ssize_t answer = woken(fd, false, &ours);
	return ours ? answer : syscall(SYS_recvfrom, fd, buf, n, flags, addr, len);
}

ssize_t recvmsg(int fd, struct msghdr *message, int flags)
{
	bool ours;
	ssize_t answer = woken(fd, false, &ours);
	return ours ? answer : syscall(SYS_recvmsg, fd, message, flags);
}

/* Whether RX has something, or TX is to be written to. */
static short ready(struct xsk_socket *x, short events)
{
	short told = 0;
	if (events & (POLLIN | POLLRDNORM) && x->rx) {
		if (!x->rx->unseen)
			fetch(x->rx, 1, COME);
		told |= x->rx->unseen ? events & (POLLIN | POLLRDNORM) : 0;
	}
	if (events & (POLLOUT | POLLWRNORM) && x->tx)
		told |= events & (POLLOUT | POLLWRNORM);
	return told;
}

/* One look at all sockets among the descriptors; the others' are left. The first time each wakes its driver. */
static int look(struct pollfd *fds, nfds_t n, bool wakes, struct xsk_umem **one)
{
	int found = 0;
	*one = NULL;
	for (nfds_t i = 0; i < n; i++) {
		struct xsk_socket *x = socket_of(fds[i].fd);
		if (!x)
			continue;
		*one = x->umem;
		if (wakes)
			wake(x, true);
		fds[i].revents = ready(x, fds[i].events);
		found += fds[i].revents != 0;
	}
	return found;
}

/* poll() of the descriptors that aren't sockets here. */
static int look_at_others(struct pollfd *fds, nfds_t n)
{
	int found = 0;
	for (nfds_t i = 0; i < n; i++) {
		struct pollfd one = fds[i];
		if (socket_of(one.fd))
			continue;
		if (syscall(SYS_poll, &one, 1, 0) > 0)
			found++;
		fds[i].revents = one.revents;
	}
	return found;
}

/* Time doesn't pass here: who waits waits until nothing comes any more. With several threads that takes a while. */
static int poll_ours(struct pollfd *fds, nfds_t n, int timeout)
{
	bool wakes = true;
	for (;;) {
		struct xsk_umem *one;
		bool ends, goes_on = false;
		int found;
		enter(NULL);
		found = look(fds, n, wakes, &one) + look_at_others(fds, n);
		if (!found && one && timeout) {
			settle(one, SETTLED);
			found = look(fds, n, false, &one);
		}
		if (!found && one)
			goes_on = found_nothing(one);
		ends = is_ending();
		leave();
		wakes = false;
		if (found)
			return found;
		if (ends) {
			errno = EINTR;
			return -1;
		}
		if (timeout == 0 || (timeout > 0 && !goes_on))
			return 0;
		sched_yield();
	}
}

int poll(struct pollfd *fds, nfds_t n, int timeout)
{
	bool ours = false;
	if (any()) {
		enter(NULL);
		for (nfds_t i = 0; i < n; i++)
			ours |= socket_of(fds[i].fd) != NULL;
		leave();
	}
	return ours ? poll_ours(fds, n, timeout) : (int)syscall(SYS_poll, fds, n, timeout);
}

/* what the same calls are with _FORTIFY_SOURCE */
int __poll_chk(struct pollfd *fds, nfds_t n, int timeout, size_t room);
int __poll_chk(struct pollfd *fds, nfds_t n, int timeout, size_t room)
{
	if (room / sizeof *fds < n)
		die("poll() of more descriptors than there is room for");
	return poll(fds, n, timeout);
}

ssize_t __recvfrom_chk(
	int fd, void *restrict buf, size_t n, size_t room, int flags, struct sockaddr *restrict addr, socklen_t *restrict len);
ssize_t __recvfrom_chk(
	int fd, void *restrict buf, size_t n, size_t room, int flags, struct sockaddr *restrict addr, socklen_t *restrict len)
{
	if (room < n)
		die("recvfrom() of more bytes than there is room for");
	return recvfrom(fd, buf, n, flags, addr, len);
}

static struct xdp_statistics statistics_of(struct xsk_socket *x)
{
	struct xsk_c_statistics all = {0};
	const struct xsk_c_statistics *before = &x->pair->before[x->class_];
	if (x->umem->started)
		xsk_c_statistics(&x->umem->bench, x->pair->number, x->class_, &all);
	return (struct xdp_statistics){.rx_dropped = all.rx_dropped - before->rx_dropped,
		.rx_invalid_descs = all.rx_invalid_descs - before->rx_invalid_descs,
		.tx_invalid_descs = all.tx_invalid_descs - before->tx_invalid_descs,
		.rx_ring_full = all.rx_ring_full - before->rx_ring_full,
		.rx_fill_ring_empty_descs = all.rx_fill_ring_empty_descs - before->rx_fill_ring_empty_descs,
		.tx_ring_empty_descs = all.tx_ring_empty_descs - before->tx_ring_empty_descs};
}

static int option_of(struct xsk_socket *x, int level, int name, void *value, socklen_t *len)
{
	struct xdp_statistics statistics;
	struct xdp_options options = {0};
	const void *told = level == SOL_XDP && name == XDP_STATISTICS ? (const void *)&statistics : (const void *)&options;
	socklen_t size = level == SOL_XDP && name == XDP_STATISTICS ? sizeof statistics : sizeof options;
	if (level == SOL_XDP && name != XDP_STATISTICS && name != XDP_OPTIONS) {
		errno = ENOPROTOOPT;
		return -1;
	}
	if (told == &statistics)
		statistics = statistics_of(x);
	if (level == SOL_XDP && *len < (name == XDP_STATISTICS ? 24 : size)) { /* kernels before 5.9 have three counters */
		errno = EINVAL;
		return -1;
	}
	if (*len > size)
		*len = size;
	memcpy(value, told, *len);
	return 0;
}

int getsockopt(int fd, int level, int name, void *restrict value, socklen_t *restrict len)
{
	struct xsk_socket *x;
	int answer = 0;
	if (!any())
		return (int)syscall(SYS_getsockopt, fd, level, name, value, len);
	enter(NULL);
	x = socket_of(fd);
	if (x)
		answer = option_of(x, level, name, value, len);
	leave();
	return x ? answer : (int)syscall(SYS_getsockopt, fd, level, name, value, len);
}

/* Options of a bound socket (SO_BUSY_POLL and the like) are taken, and change nothing. */
int setsockopt(int fd, int level, int name, const void *value, socklen_t len)
{
	struct xsk_socket *x;
	if (!any())
		return (int)syscall(SYS_setsockopt, fd, level, name, value, len);
	enter(NULL);
	x = socket_of(fd);
	leave();
	if (!x)
		return (int)syscall(SYS_setsockopt, fd, level, name, value, len);
	if (level != SOL_XDP)
		return 0;
	errno = EBUSY;
	return -1;
}

/* Ports that XSK_IN or XSK_OUT names exist. */
unsigned int if_nametoindex(const char *name)
{
	const char *const variables[] = {"XSK_IN", "XSK_OUT"};
	struct ifreq request;
	char file[8];
	int fd, answer;
	for (int i = 0; i < 2; i++) {
		uint32_t index = 100000;
		if (named_in(variables[i], name, file, sizeof file)) {
			for (const char *c = name; *c; c++)
				index = index * 31 + (uint8_t)*c;
			return index & 0x3fffffff;
		}
	}
	fd = socket(AF_INET, SOCK_DGRAM | SOCK_CLOEXEC, 0);
	memset(&request, 0, sizeof request);
	strncpy(request.ifr_name, name, IFNAMSIZ - 1);
	answer = fd < 0 ? -1 : (int)syscall(SYS_ioctl, fd, 0x8933 /* SIOCGIFINDEX */, &request);
	if (fd >= 0)
		close(fd);
	if (answer < 0)
		errno = ENODEV;
	return answer < 0 ? 0 : (unsigned int)request.ifr_ifindex;
}

/* A program that is no root may lock memory: there is none to lock. */
int setrlimit(__rlimit_resource_t which, const struct rlimit *limit)
{
	long answer = syscall(SYS_prlimit64, 0, which, limit, NULL);
	return answer && which == RLIMIT_MEMLOCK ? 0 : (int)answer;
}

#if defined __GLIBC__ && defined __LP64__
int setrlimit64(__rlimit_resource_t which, const struct rlimit *limit);
int setrlimit64(__rlimit_resource_t which, const struct rlimit *limit) { return setrlimit(which, limit); }
#endif
#pragma GCC visibility pop
