/* What settings.c loads for its sockets, done without a kernel: here each socket with RX gets its packets anyhow. */
#include <bpf/bpf.h>
#include <bpf/libbpf.h>

int bpf_map_create(enum bpf_map_type type, const char *name, __u32 key, __u32 value, __u32 entries, const struct bpf_map_create_opts *opts)
{
	(void)type, (void)name, (void)key, (void)value, (void)entries, (void)opts;
	return 1000;
}

int bpf_prog_load(enum bpf_prog_type type, const char *name, const char *license, const struct bpf_insn *code, size_t count,
	const struct bpf_prog_load_opts *opts)
{
	(void)type, (void)name, (void)license, (void)code, (void)count, (void)opts;
	return 1001;
}

int bpf_xdp_attach(int ifindex, int program, __u32 flags, const struct bpf_xdp_attach_opts *opts)
{
	(void)program, (void)flags, (void)opts;
	return ifindex ? 0 : -1;
}

int bpf_map_update_elem(int map, const void *key, const void *value, __u64 flags)
{
	(void)map, (void)key, (void)value, (void)flags;
	return 0;
}
