/* What the examples on one table share: `run` works on a new one, and what went wrong is said. */
#include "pidtab.h"

#include <inttypes.h>
#include <stdio.h>

static uint32_t run(struct pidtab *table);

int main(void)
{
	struct pidtab table = PIDTAB_INIT;
	uint32_t status = pidtab_open(&table, 32768);

	if (status == PIDTAB_DONE)
		status = run(&table);
	if (status != PIDTAB_DONE)
		fprintf(stderr, "%s\n", pidtab_text(status));
	pidtab_close(&table);
	return status != PIDTAB_DONE;
}
