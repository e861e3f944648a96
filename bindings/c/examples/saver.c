/* Eight threads make a hundred forks each, and answer each once it is on the disk, by one saver for all.
 * Built by `cc saver.c -Iout out/libpidtab.a -pthread`. It makes the file `history`. */
#define _POSIX_C_SOURCE 200809L
#include <pidtab_saved.h>

#include <fcntl.h>
#include <pthread.h>
#include <stdio.h>
#include <unistd.h>

#define THREADS 8
#define REQUESTS 100

static struct pidtab table;
static struct pidtab_saved saved;

/* All that the saver does. It cuts the history at 4,096 entries. */
static void *save(void *unused)
{
	uint32_t status = pidtab_saved_serve(&saved, &table, 4096, true);

	if (status != PIDTAB_DONE)
		fprintf(stderr, "call %d: %s\n", (int)saved.next, pidtab_saved_text(status));
	return unused;
}

/* A fork that is on the disk. Any other status says that it is not known to be there: it is not answered. */
static uint32_t fork_on_disk(uint32_t worker, struct pidtab_reply *reply)
{
	const struct pidtab_call call = { .operation = PIDTAB_FORK, .caller = 1 };
	uint64_t ordinal;
	uint32_t status = pidtab_call_by(&table, worker, &call, reply, &ordinal);

	return status == PIDTAB_DONE ? pidtab_saved_wait(&table, ordinal) : status;
}

static void *answer(void *count)
{
	struct pidtab_reply reply;
	uint32_t worker;

	pidtab_seat(&table, &worker);
	for (int i = 0; i < REQUESTS && fork_on_disk(worker, &reply) == PIDTAB_DONE; i++)
		++*(int *)count;
	return NULL;
}

int main(void)
{
	const struct pidtab_settings settings = { .workers = THREADS, .keep = 4096, .threads = true };
	int file = open("history", O_RDWR | O_CREAT, 0600), counts[THREADS] = { 0 }, answers = 0;
	pthread_t threads[THREADS], saver;

	if (pidtab_saved_resume(&saved, file, &table, &settings) != PIDTAB_DONE)
		return 1;
	pidtab_saved_bound(&table, 1024);
	pthread_create(&saver, NULL, save, NULL);
	for (int i = 0; i < THREADS; i++)
		pthread_create(&threads[i], NULL, answer, &counts[i]);
	for (int i = 0; i < THREADS; i++) {
		pthread_join(threads[i], NULL);
		answers += counts[i];
	}
	pidtab_saved_end(&table);
	pthread_join(saver, NULL);
	printf("answers: %d, calls in the file: %d\n", answers, (int)saved.next);
	pidtab_close(&table);
	close(file);
	return 0;
}

/* It prints
 *
 *     answers: 800, calls in the file: 800
 */
