/* check DIR [DUMP]: replays all that the log of DIR has, from the first call on, on a fresh table, and compares each reply. What is recorded of leases is
 * counted among the entries, and passed. It needs the files of --archive. Writes `ORDINAL SEAT|COMMAND|REPLY` for each call, and the text of the table to DUMP. It shares no code with the daemon but the library. */
#define _GNU_SOURCE
#include <pidtab_saved.h>

#include <dirent.h>
#include <fcntl.h>
#include <inttypes.h>
#include <stdio.h>
#include <stdlib.h>
#include <string.h>
#include <sys/mman.h>
#include <sys/stat.h>
#include <unistd.h>

/* Written by tools/interface: names. */
static const char *const names[] = {
	"FORK", "GETPID", "NSPID", "EXEC", "EXIT", "WAIT", "GETPPID", "SETPGID", "SETSID", "MK", "RM", "LIMIT", "MOVE", "COUNT",
	"GETPGID", "GETSID", "NEXT", "JOIN", "SUBREAPER",
};
/* The end of names. */

/* From this operation on an entry is no call; one with the other is a part of the fork behind it. */
enum { FIRST_NOTE = 128, FORKS = 200 };

static void print_call(const struct pidtab_call *c)
{
	printf("%s ", names[c->operation]);
	/* Written by tools/interface: words of calls. */
	switch (c->operation) {
	case PIDTAB_FORK:
		printf("%u", c->caller);
		if (c->choice)
			printf(" NEW");
		break;
	case PIDTAB_GETPID:
	case PIDTAB_EXEC:
	case PIDTAB_GETPPID:
	case PIDTAB_SETSID:
		printf("%u", c->caller);
		break;
	case PIDTAB_NSPID:
	case PIDTAB_EXIT:
	case PIDTAB_GETPGID:
	case PIDTAB_GETSID:
	case PIDTAB_JOIN:
		printf("%u %u", c->caller, c->number);
		break;
	case PIDTAB_WAIT:
		printf("%u %s", c->caller, (const char *[]){ "ANY", "PID", "OWN", "GROUP" }[c->choice]);
		if (c->choice == PIDTAB_CHILD || c->choice == PIDTAB_GROUP)
			printf(" %u", c->number);
		break;
	case PIDTAB_SETPGID:
		printf("%u %d %d", c->caller, c->pid, c->pgid);
		break;
	case PIDTAB_MK:
	case PIDTAB_RM:
	case PIDTAB_COUNT:
		printf("%" PRIu64, c->id);
		break;
	case PIDTAB_LIMIT:
		printf("%" PRIu64, c->id);
		if (c->choice)
			printf(" %u", c->number);
		else
			printf(" MAX");
		break;
	case PIDTAB_MOVE:
		printf("%u %" PRIu64, c->caller, c->id);
		break;
	case PIDTAB_NEXT:
		printf("%u %s %u", c->caller, (const char *[]){ "TASK", "GROUP", "SESSION" }[c->choice], c->number);
		break;
	case PIDTAB_SUBREAPER:
		printf("%u %s", c->caller, c->choice ? "ON" : "OFF");
		break;
	}
	/* The end of words of calls. */
}

static void print_reply(const struct pidtab_reply *r)
{
	switch (r->kind) {
	case PIDTAB_FORKED: printf("%" PRIu64 ",%" PRIu64, r->first, r->second); break;
	case PIDTAB_OK: printf("OK"); break;
	case PIDTAB_REAPED: printf("%" PRIu64 ",", r->first); if (r->second == PIDTAB_KILLED) printf("killed"); else printf("%" PRIu64, r->second); break;
	case PIDTAB_NONE_YET: case PIDTAB_END: printf("nil"); break;
	case PIDTAB_LEVELS: for (uint32_t i = 0; i < r->count; i++) printf("%s%u", i ? "," : "", r->levels[i]); break;
	case PIDTAB_REFUSED: printf("-%u %s", r->error, pidtab_word(r->refusal)); if (r->refusal == PIDTAB_NO_NUMBER || r->refusal == PIDTAB_PIDS_LIMIT) printf(" %" PRIu64, r->first); break;
	default: printf("%" PRIu64, r->first);
	}
}

static int is_log(const struct dirent *each)
{
	return strncmp(each->d_name, "log-", 4) == 0 || strncmp(each->d_name, "old-log-", 8) == 0;
}

static int by_base(const struct dirent **a, const struct dirent **b)
{
	return strcmp(strrchr((*a)->d_name, '-'), strrchr((*b)->d_name, '-'));
}

static int wrong(const char *file, const char *what, uint64_t at)
{
	fprintf(stderr, "check: %s: %s at %" PRIu64 "\n", file, what, at);
	return 1;
}

int main(int count, char **words)
{
	struct pidtab table = PIDTAB_INIT;
	struct dirent **files;
	uint64_t ordinal = 0, entries = 0, sum = 0;
	int found = scandir(words[1], &files, is_log, by_base);
	size_t size = 0, used = 0, room;
	char *dump;

	for (int i = 0; i < found; i++) {
		char path[4096];
		struct stat about;
		struct pidtab_saved_head head;
		snprintf(path, sizeof path, "%s/%s", words[1], files[i]->d_name);
		int file = open(path, O_RDONLY);
		if (file < 0 || fstat(file, &about) != 0)
			return wrong(path, "cannot be read", 0);
		const char *bytes = mmap(NULL, (size_t)about.st_size, PROT_READ, MAP_PRIVATE, file, 0);
		size_t at = 0, length = (size_t)about.st_size;
		if (strtoull(strrchr(path, '-') + 1, NULL, 10) != entries)
			return wrong(path, "a gap", entries);
		if (bytes == MAP_FAILED || pidtab_saved_take_head(bytes, length, &head, &used, &sum) != PIDTAB_DONE)
			return wrong(path, "no head", 0);
		if (entries == 0 && pidtab_open(&table, head.pid_max) != PIDTAB_DONE)
			return wrong(path, "no table", 0);
		for (at = used; at < length; at += used) {
			struct pidtab_entry entry;
			struct pidtab_reply reply;
			uint32_t status = pidtab_saved_take(bytes + at, length - at, &entry, &used, &sum);
			if (status != PIDTAB_DONE)
				return wrong(path, pidtab_saved_text(status), at);
			entries += entry.call.operation != FORKS;
			if (entry.call.operation >= FIRST_NOTE)
				continue;
			if (pidtab_call(&table, &entry.call, &reply) != PIDTAB_DONE)
				return wrong(path, "a call is not made", ordinal);
			if (reply.kind != entry.reply.kind || reply.error != entry.reply.error || reply.refusal != entry.reply.refusal || reply.first != entry.reply.first
				|| reply.second != entry.reply.second || reply.count != entry.reply.count || memcmp(reply.levels, entry.reply.levels, sizeof reply.levels) != 0)
				return wrong(path, "another reply", ordinal);
			printf("%" PRIu64 " %" PRIu64 "|", ordinal++, entry.worker);
			print_call(&entry.call);
			putchar('|');
			print_reply(&entry.reply);
			putchar('\n');
		}
		close(file);
	}
	if (count > 2) {
		char none[1];
		FILE *to = fopen(words[2], "w");
		pidtab_dump(&table, none, 0, &room);
		dump = malloc(room);
		if (!to || !dump || pidtab_dump(&table, dump, room, &size) != PIDTAB_DONE || fwrite(dump, 1, size, to) != size || fclose(to) != 0)
			return wrong(words[2], "no dump", 0);
	}
	return 0;
}
