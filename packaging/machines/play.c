/* `pidtab run --pid-max N` and `pidtab list --pid-max N` by the library: for tests of pidtab.c, on machines that have no program. */
#include <pidtab.h>
#include <stdio.h>
#include <stdlib.h>
#include <string.h>

/* A longer line is bad, whatever follows. */
enum { LINE_ROOM = 256 };

static void answer(struct pidtab *table, const char *line, size_t length, bool is_run)
{
	char bytes[PIDTAB_LONGEST_ANSWER];
	size_t size = 0;
	uint32_t status = pidtab_line(table, line, length, bytes, sizeof bytes, &size);

	if (status != PIDTAB_DONE && status != PIDTAB_BAD_LINE && status != PIDTAB_EMPTY_LINE)
		exit(1);
	if (is_run && status == PIDTAB_DONE)
		printf("%.*s\n", (int)size, bytes);
	if (is_run && status == PIDTAB_BAD_LINE)
		puts("bad line");
}

static void write_list(struct pidtab *table)
{
	char none[1], *bytes;
	size_t size = 0;

	if (pidtab_list(table, none, 0, &size) != PIDTAB_NO_ROOM)
		exit(1);
	bytes = malloc(size);
	if (!bytes || pidtab_list(table, bytes, size, &size) != PIDTAB_DONE)
		exit(1);
	fwrite(bytes, 1, size, stdout);
	free(bytes);
}

static void play(struct pidtab *table, bool is_run)
{
	char line[LINE_ROOM];
	size_t length = 0;
	int byte;

	while ((byte = getchar()) != EOF) {
		if (byte == '\n') {
			answer(table, line, length, is_run);
			length = 0;
		} else if (length < sizeof line) {
			line[length++] = (char)byte;
		}
	}
}

int main(int count, char **words)
{
	struct pidtab table = PIDTAB_INIT;
	bool is_run;

	if (count != 4 || pidtab_open(&table, (uint32_t)strtoul(words[3], NULL, 10)) != PIDTAB_DONE)
		return 1;
	is_run = strcmp(words[1], "run") == 0;
	play(&table, is_run);
	if (!is_run)
		write_list(&table);
	pidtab_close(&table);
	return 0;
}
