/* data.c - what a thread reads and writes: sums of the bytes by descriptor, in their order. */
#define _GNU_SOURCE
#include "data.h"

#include <stdlib.h>
#include <string.h>
#include <sys/socket.h>
#include <sys/syscall.h>
#include <sys/uio.h>
#include <unistd.h>

/* What goes through a descriptor in one direction. */
struct stream {
	int file;
	bool is_written, is_ours; /* some of it was a file that the box has written */
	uint64_t size, sum;
	struct stream *next;
};

struct data {
	char *key;
	int births, executions;
	bool is_killed; /* so what it read and wrote may end anywhere */
	struct stream *streams;
};

/* The calls that carry bytes in memory, and where these are. */
static const struct carrier {
	int64_t call;
	bool is_written;
	enum { IN_ONE, IN_PARTS, IN_MESSAGE } where;
} carriers[] = {
	{ SYS_read, false, IN_ONE }, { SYS_pread64, false, IN_ONE }, { SYS_recvfrom, false, IN_ONE }, { SYS_readv, false,
		IN_PARTS },
	{ SYS_preadv, false, IN_PARTS }, { SYS_preadv2, false, IN_PARTS }, { SYS_recvmsg, false, IN_MESSAGE },
	{ SYS_write, true, IN_ONE }, { SYS_pwrite64, true, IN_ONE }, { SYS_sendto, true, IN_ONE }, { SYS_writev, true,
		IN_PARTS },
	{ SYS_pwritev, true, IN_PARTS }, { SYS_pwritev2, true, IN_PARTS }, { SYS_sendmsg, true, IN_MESSAGE }
};

/* FNV-1a, of 64 bits. */
static const uint64_t first_sum = 14695981039346656037u, factor = 1099511628211u;

static FILE *to;

void data_open(const char *file)
{
	to = fopen(file, "we");
}

/* Whether all lines are written. */
bool data_close(void)
{
	bool is_whole = !to || !(ferror(to) | fclose(to));

	to = NULL;
	return is_whole;
}

bool data_is_kept(void)
{
	return to;
}

static struct data *make(char *key)
{
	struct data *data = calloc(1, sizeof *data);

	if (!data || !key)
		abort();
	data->key = key;
	return data;
}

struct data *data_of_first(void)
{
	return to ? make(strdup("1")) : NULL;
}

struct data *data_of_child(struct data *parent)
{
	char *key;

	if (!parent)
		return NULL;
	return make(asprintf(&key, "%s.%d", parent->key, ++parent->births) < 0 ? NULL : key);
}

static const struct carrier *carrier_of(int64_t call)
{
	for (size_t i = 0; i < sizeof carriers / sizeof carriers[0]; i++)
		if (carriers[i].call == call)
			return &carriers[i];
	return NULL;
}

bool data_is_carried(int64_t call)
{
	return carrier_of(call);
}

static struct stream *stream_of(struct data *data, int file, bool is_written)
{
	struct stream *stream = data->streams;

	while (stream && (stream->file != file || stream->is_written != is_written))
		stream = stream->next;
	if (stream)
		return stream;
	stream = calloc(1, sizeof *stream);
	if (!stream)
		abort();
	*stream = (struct stream){ .file = file, .is_written = is_written, .sum = first_sum, .next = data->streams };
	return data->streams = stream;
}

static void add_bytes(struct stream *stream, pid_t tid, uint64_t at, uint64_t size)
{
	unsigned char bytes[4096];

	for (uint64_t done = 0, part; done < size; done += part) {
		part = size - done < sizeof bytes ? size - done : sizeof bytes;
		if (!read_memory(tid, at + done, bytes, part))
			return;
		for (uint64_t i = 0; i < part; i++)
			stream->sum = (stream->sum ^ bytes[i]) * factor;
	}
	stream->size += size;
}

static void add_parts(struct stream *stream, pid_t tid, uint64_t at, uint64_t count, uint64_t size)
{
	struct iovec part;

	for (uint64_t i = 0; i < count && size > 0; i++) {
		uint64_t here;

		if (!read_memory(tid, at + i * sizeof part, &part, sizeof part))
			return;
		here = part.iov_len < size ? part.iov_len : size;
		add_bytes(stream, tid, (uint64_t)part.iov_base, here);
		size -= here;
	}
}

static bool is_written_by_box(pid_t tid, int file)
{
	static const char begins[] = "/memfd:pidtab-box";
	char link[64], found[sizeof begins];

	snprintf(link, sizeof link, "/proc/%d/fd/%d", tid, file);
	return readlink(link, found, sizeof found) >= (ssize_t)strlen(begins) && !memcmp(found, begins, strlen(begins));
}

/* A call is over, and the program has all that it is to see. */
void data_add(struct data *data, pid_t tid, const struct registers *made, int64_t result)
{
	const struct carrier *carrier = carrier_of(registers_call(made));
	int file = (int)registers_argument(made, 0);
	uint64_t at = registers_argument(made, 1);
	struct stream *stream;
	struct msghdr head;

	if (!data || !carrier || result <= 0)
		return;
	stream = stream_of(data, file, carrier->is_written);
	stream->is_ours |= is_written_by_box(tid, file);
	if (carrier->where == IN_ONE)
		add_bytes(stream, tid, at, registers_argument(made, 2) < (uint64_t)result ? registers_argument(made, 2)
			: (uint64_t)result);
	else if (carrier->where == IN_PARTS)
		add_parts(stream, tid, at, registers_argument(made, 2), (uint64_t)result);
	else if (read_memory(tid, at, &head, sizeof head))
		add_parts(stream, tid, (uint64_t)head.msg_iov, head.msg_iovlen, (uint64_t)result);
}

/* A line for each stream: who, after how many executions, the descriptor, the direction, how many bytes, and their
 * sum. */
void data_executed(struct data *data)
{
	while (data && data->streams) {
		struct stream *stream = data->streams;

		if (to)
			fprintf(to, "%s %d %d %s %lu %016lx%s\n", data->key, data->executions, stream->file,
				stream->is_written ? "written" : "read", stream->size,
			        stream->sum, stream->is_ours ? " ours" : data->is_killed ? " killed" : "");
		data->streams = stream->next;
		free(stream);
	}
	if (data)
		data->executions++;
}

void data_killed(struct data *data)
{
	if (data)
		data->is_killed = true;
}

void data_end(struct data *data)
{
	data_executed(data);
	if (data)
		free(data->key);
	free(data);
}
