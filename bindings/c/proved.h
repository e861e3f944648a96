/* The proved functions that work on a table or a replica, by the names that renamed.syms gives them. A function of the headers calls one of them while its
 * table is marked. Written by tools/guard. */
#ifndef PIDTAB_PROVED_H
#define PIDTAB_PROVED_H

#include "pidtab_replica.h"

uint32_t proved_open_with(struct pidtab *table, const struct pidtab_settings *settings);
uint32_t proved_load_with(struct pidtab *table, const void *text, size_t length, const uint64_t *counts, size_t workers, bool keeps_history, struct pidtab_fault *fault);
void proved_close(struct pidtab *table);
uint32_t proved_call_keeping(struct pidtab *table, uint32_t worker, const struct pidtab_call *call, uint64_t keep, struct pidtab_reply *reply, uint64_t *ordinal);
uint32_t proved_line_by(struct pidtab *table, uint32_t worker, const void *line, size_t length, void *answer, size_t room, size_t *size, uint64_t *ordinal);
uint32_t proved_list(struct pidtab *table, void *bytes, size_t room, size_t *size);
uint32_t proved_dump(struct pidtab *table, void *bytes, size_t room, size_t *size);
uint32_t proved_call(struct pidtab *table, const struct pidtab_call *call, struct pidtab_reply *reply);
uint32_t proved_getpid_of(struct pidtab *table, uint32_t caller, uint64_t *number);
uint32_t proved_getppid_of(struct pidtab *table, uint32_t caller, uint64_t *number);
uint32_t proved_getpgid_of(struct pidtab *table, uint32_t caller, uint32_t pid, uint64_t *number);
uint32_t proved_getsid_of(struct pidtab *table, uint32_t caller, uint32_t pid, uint64_t *number);
uint32_t proved_next_of(struct pidtab *table, uint32_t caller, uint32_t kind, uint32_t from, uint64_t *number);
uint32_t proved_count_of(struct pidtab *table, uint64_t id, uint64_t *number);
uint32_t proved_ask(struct pidtab *table, const struct pidtab_call *call, struct pidtab_reply *reply);
uint32_t proved_stat(struct pidtab *table, uint32_t caller, uint32_t number, struct pidtab_task *task);
uint32_t proved_page(struct pidtab *table, uint32_t caller, uint32_t whom, uint32_t number, uint32_t from, uint32_t *numbers, size_t room, struct pidtab_reply *reply);
uint32_t proved_space(struct pidtab *table, uint64_t id, struct pidtab_space *space);
uint32_t proved_inside(struct pidtab *table, uint32_t tree, uint64_t id, uint64_t from, uint64_t *ids, size_t room, uint64_t *count);
uint32_t proved_control_tasks(struct pidtab *table, uint32_t caller, uint64_t control, uint32_t from, uint32_t *numbers, size_t room, struct pidtab_reply *reply);
uint32_t proved_would(struct pidtab *table, const struct pidtab_call *call, struct pidtab_reply *reply);
uint32_t proved_fork_at_by(struct pidtab *table, uint32_t worker, uint32_t caller, uint32_t new_space, uint32_t child, uint32_t root, struct pidtab_reply *reply, uint64_t *ordinal);
uint32_t proved_call_told_by(struct pidtab *table, uint32_t worker, const struct pidtab_call *call, struct pidtab_reply *reply, uint64_t *ordinal, struct pidtab_effect *effects, size_t room, uint64_t *count);
uint32_t proved_call_by(struct pidtab *table, uint32_t worker, const struct pidtab_call *call, struct pidtab_reply *reply, uint64_t *ordinal);
uint32_t proved_calls(struct pidtab *table, uint32_t worker, const struct pidtab_call *calls, size_t count, struct pidtab_reply *replies, size_t room, size_t *made, uint64_t *ordinal);
uint32_t proved_counts(struct pidtab *table, uint64_t *first_kept, uint64_t *recorded);
uint32_t proved_worker(struct pidtab *table, uint32_t worker, uint64_t *calls);
uint32_t proved_entry(struct pidtab *table, uint64_t ordinal, uint64_t *worker, struct pidtab_call *call, struct pidtab_reply *reply);
uint32_t proved_read(struct pidtab *table, uint64_t from, struct pidtab_entry *entries, size_t room, size_t *count);
uint32_t proved_replay(struct pidtab *table, const struct pidtab_entry *saved, size_t count, size_t *place);
uint32_t proved_keep(struct pidtab *table, uint64_t keep);
uint32_t proved_checkpoint(struct pidtab *table);
uint32_t proved_checkpoint_at(struct pidtab *table, uint64_t seen);
uint32_t proved_opening(struct pidtab *table, void *bytes, size_t room, size_t *size);
uint32_t proved_replica_open(struct pidtab_replica *replica, uint64_t pid_max, uint64_t model);
void proved_replica_close(struct pidtab_replica *replica);
uint32_t proved_replica_apply(struct pidtab_replica *replica, struct pidtab *table, uint64_t position, const void *entry, size_t length, struct pidtab_applied *applied);
uint32_t proved_replica_answers(struct pidtab_replica *replica, void *bytes, size_t room, size_t *size);
uint32_t proved_replica_log(struct pidtab_replica *replica, struct pidtab_log *log);
uint32_t proved_replica_digest(struct pidtab_replica *replica, uint64_t position, struct pidtab_digest *digest);
uint32_t proved_replica_last(struct pidtab_replica *replica, uint64_t session, uint64_t *sequence);
uint32_t proved_replica_write(struct pidtab_replica *replica, void *bytes, size_t room, size_t *size);
uint32_t proved_replica_read(struct pidtab_replica *replica, const void *text, size_t length, size_t *used);

#endif
