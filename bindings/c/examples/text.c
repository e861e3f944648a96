/* Writes the text of a table, and goes on from it in another one. Built by `cc text.c -Iout out/libpidtab.a`. */
#include "pidtab.h"

#include <stdio.h>
#include <stdlib.h>

/* The text of the table, to be freed; none where there is no memory. */
static char *save(struct pidtab *table, size_t *size)
{
	char none[1], *text = NULL;

	if (pidtab_dump(table, none, 0, size) == PIDTAB_NO_ROOM)
		text = malloc(*size);
	if (text && pidtab_dump(table, text, *size, size) == PIDTAB_DONE)
		return text;
	free(text);
	return NULL;
}

/* Opens a table from the text, and makes a call on it. */
static void go_on(const char *text, size_t size)
{
	struct pidtab table = PIDTAB_INIT;
	struct pidtab_fault fault;
	uint32_t status = pidtab_load(&table, text, size, &fault);

	if (status == PIDTAB_DONE)
		printf("child %d\n", (int)pidtab_fork(&table, 1, false, NULL));
	else if (status == PIDTAB_BAD_TEXT)
		printf("line %d: %s\n", (int)fault.line, pidtab_fault_text(fault.kind));
	else
		fprintf(stderr, "%s\n", pidtab_text(status));
	pidtab_close(&table);
}

int main(void)
{
	struct pidtab table = PIDTAB_INIT;
	size_t size;

	if (pidtab_open(&table, 32768) != PIDTAB_DONE || pidtab_fork(&table, 1, true, NULL) != 2)
		return 1;
	char *text = save(&table, &size);
	pidtab_close(&table);
	if (!text)
		return 1;
	fwrite(text, 1, size, stdout);
	go_on(text, size);
	/* A cut text is none. */
	go_on(text, size - 1);
	free(text);
	return 0;
}

/* It prints
 *
 *     pidtab table 1 pid-max 32768 stamp 2
 *     task 1@0 parent - group 1@0 session 1@0 control 0 children 0 live
 *     task 2,1@1 parent 1@0 group 1@0 session 1@0 control 0 children 1 live
 *     space 0 parent - cursor 3
 *     space 1 parent 0 cursor 2
 *     control 0 parent - limit max
 *     end sha256 574e1724efa9005a5ce5593e8ce4226fba5e54e7369d356577936f9fc8a35275
 *     child 3
 *     line 7: bad line
 */
