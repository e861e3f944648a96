/* data.h - what a thread reads and writes: sums of the bytes by descriptor, in their order. */
#ifndef DATA_H
#define DATA_H

#include "registers.h"

#include <stdio.h>

/* Of one thread. Its key says who it is without a number: the first one is 1, and the second child or thread that
 * it begins is 1.2. */
struct data;

void data_open(const char *file);
bool data_close(void);
bool data_is_kept(void);
struct data *data_of_first(void);
struct data *data_of_child(struct data *parent);
bool data_is_carried(int64_t call);
void data_add(struct data *data, pid_t tid, const struct registers *made, int64_t result);
void data_executed(struct data *data);
void data_killed(struct data *data);
void data_end(struct data *data);

/* Of the caller: see box.h. */
bool read_memory(pid_t tid, uint64_t at, void *to, size_t size);

#endif
