/* One use of a heap waits, in the middle of a function, until it is told to go on. For the one file of a test that takes this in. */
#include <semaphore.h>
#include <stdatomic.h>
#include <stdbool.h>

/* Whether the next use is to wait. */
static atomic_bool hold;
static sem_t is_held, go_on;

static void hold_once(void)
{
	if (!atomic_exchange(&hold, false))
		return;
	sem_post(&is_held);
	sem_wait(&go_on);
}
