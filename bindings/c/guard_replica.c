/* The functions of pidtab_replica.h, with the mark of guard.h around each. Written by tools/guard. */
#include "guard.h"

/* What opens or closes assigns the whole struct, and may clear the mark with it, so it works on a copy. No other proved function writes any of it. */
static struct pidtab_replica held_by(const struct pidtab_replica *replica)
{
	return (struct pidtab_replica){ replica->at, replica->is_open, 0 };
}

/* Puts the copy back, and takes the mark away. */
static uint32_t put_back(struct pidtab_replica *replica, const struct pidtab_replica *held, uint32_t status)
{
	replica->at = held->at;
	replica->is_open = held->is_open;
	return leave(&replica->in_use, status);
}

uint32_t pidtab_replica_open(struct pidtab_replica *replica, uint64_t pid_max, uint64_t model)
{
	struct pidtab_replica held;

	if (!enter(&replica->in_use))
		return PIDTAB_BUSY;
	held = held_by(replica);
	return put_back(replica, &held, proved_replica_open(&held, pid_max, model));
}

uint32_t pidtab_replica_close(struct pidtab_replica *replica)
{
	struct pidtab_replica held;

	if (!enter(&replica->in_use))
		return PIDTAB_BUSY;
	held = held_by(replica);
	proved_replica_close(&held);
	return put_back(replica, &held, PIDTAB_DONE);
}

uint32_t pidtab_replica_apply(struct pidtab_replica *replica, struct pidtab *table, uint64_t position, const void *entry, size_t length, struct pidtab_applied *applied)
{
	struct pidtab *held;
	uint32_t status;

	if (!enter(&replica->in_use))
		return PIDTAB_BUSY;
	status = begin_change(table, &held);
	if (status == PIDTAB_DONE)
		status = end_calls(table, held, proved_replica_apply(replica, held, position, entry, length, applied));
	return leave(&replica->in_use, status);
}

uint32_t pidtab_replica_answers(const struct pidtab_replica *replica, void *bytes, size_t room, size_t *size)
{
	struct pidtab_replica held;

	if (!enter_query(&replica->in_use))
		return PIDTAB_BUSY;
	held = held_by(replica);
	return leave_query(&replica->in_use, proved_replica_answers(&held, bytes, room, size));
}

uint32_t pidtab_replica_log(const struct pidtab_replica *replica, struct pidtab_log *log)
{
	struct pidtab_replica held;

	if (!enter_query(&replica->in_use))
		return PIDTAB_BUSY;
	held = held_by(replica);
	return leave_query(&replica->in_use, proved_replica_log(&held, log));
}

uint32_t pidtab_replica_digest(const struct pidtab_replica *replica, uint64_t position, struct pidtab_digest *digest)
{
	struct pidtab_replica held;

	if (!enter_query(&replica->in_use))
		return PIDTAB_BUSY;
	held = held_by(replica);
	return leave_query(&replica->in_use, proved_replica_digest(&held, position, digest));
}

uint32_t pidtab_replica_last(const struct pidtab_replica *replica, uint64_t session, uint64_t *sequence)
{
	struct pidtab_replica held;

	if (!enter_query(&replica->in_use))
		return PIDTAB_BUSY;
	held = held_by(replica);
	return leave_query(&replica->in_use, proved_replica_last(&held, session, sequence));
}

uint32_t pidtab_replica_write(const struct pidtab_replica *replica, void *bytes, size_t room, size_t *size)
{
	struct pidtab_replica held;

	if (!enter_query(&replica->in_use))
		return PIDTAB_BUSY;
	held = held_by(replica);
	return leave_query(&replica->in_use, proved_replica_write(&held, bytes, room, size));
}

uint32_t pidtab_replica_read(struct pidtab_replica *replica, const void *text, size_t length, size_t *used)
{
	if (!enter(&replica->in_use))
		return PIDTAB_BUSY;
	return leave(&replica->in_use, proved_replica_read(replica, text, length, used));
}
