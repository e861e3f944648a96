/* Tests host_calls.h: calls are played to each of their ends, by what docs/CLUSTER.md says of the states of a call. */
#include "host_calls.h"

#include "test.h"

#define SESSION 100
#define LATER_SESSION 200
#define DEADLINE 50
#define MOST_BYTES (512 * 1024)

/* A host with its calls, each by its ticket. */
struct world {
	struct host_calls host;
	struct host_call calls[8];
};

static void begin(struct world *it)
{
	memset(it, 0xff, sizeof *it);
	host_calls_begin(&it->host);
}

static struct host_call *submit(struct world *it, uint64_t lines, uint64_t size)
{
	struct host_call *call = &it->calls[it->host.submitted];

	CHECK(host_calls_submit(&it->host, call, lines, size, DEADLINE));
	CHECK(call->state == HOST_CALL_QUEUED && call->ticket == (uint64_t)(call - it->calls));
	return call;
}

static struct host_put_step next_put(const struct world *it)
{
	struct host_put_step step;

	host_calls_next_put(&it->host, &step);
	return step;
}

static uint32_t take(struct world *it)
{
	struct host_put_step step = next_put(it);

	CHECK(step.kind == HOST_PUT_TAKE);
	return host_calls_take(&it->host, &it->calls[step.first]);
}

/* The entry that is made up is sealed, and is put with this session and number. */
static void seal(struct world *it, uint64_t session, uint64_t sequence)
{
	CHECK(next_put(it).kind == HOST_PUT_SEAL && host_calls_seal(&it->host));
	/* However often it is asked, it is the same entry. */
	for (int i = 0; i < 2; i++) {
		struct host_put_step step = next_put(it);
		CHECK(step.kind == HOST_PUT_ENTRY && step.first == session && step.second == sequence);
	}
}

static void open_session(struct world *it, uint64_t session)
{
	CHECK(next_put(it).kind == HOST_PUT_OPEN);
	CHECK(host_calls_opened(&it->host, session) && !host_calls_opened(&it->host, session));
}

static uint32_t tell(struct world *it)
{
	CHECK(host_calls_is_telling(&it->host));
	return host_calls_tell(&it->host, &it->calls[it->host.told]);
}

/* A host whose only entry, with one call, is put. */
static struct host_call *put_one(struct world *it)
{
	struct host_call *call;

	begin(it);
	CHECK(next_put(it).kind == HOST_PUT_REST);
	call = submit(it, 1, 7);
	open_session(it, SESSION);
	CHECK(take(it) == HOST_TAKEN_BEGINS);
	seal(it, SESSION, 1);
	return call;
}

/* Two calls are in one entry, and each is answered at its place, once. */
static void answered(void)
{
	struct world it;
	struct host_call *first, *second;

	begin(&it);
	first = submit(&it, 2, 14);
	second = submit(&it, 1, 7);
	open_session(&it, SESSION);
	CHECK(take(&it) == HOST_TAKEN_BEGINS && take(&it) == HOST_TAKEN_JOINS);
	seal(&it, SESSION, 1);
	CHECK(host_calls_read(&it.host, HOST_OUTCOME_MADE, SESSION + 1, 1) == HOST_READING_IGNORES);
	CHECK(host_calls_read(&it.host, HOST_OUTCOME_MADE, SESSION, 1) == HOST_READING_TELLS);
	CHECK(host_calls_read(&it.host, HOST_OUTCOME_MADE, SESSION, 2) == HOST_READING_BUSY);
	CHECK(tell(&it) == HOST_TOLD_ANSWERS && tell(&it) == HOST_TOLD_ANSWERS && !host_calls_is_telling(&it.host));
	CHECK(first->state == HOST_CALL_ANSWERED && first->place == 0 && second->state == HOST_CALL_ANSWERED && second->place == 2);
	CHECK(first->session == SESSION && first->sequence == 1 && second->session == SESSION && second->sequence == 1);
	/* The log's own answer comes after it was read. */
	CHECK(!host_calls_acknowledge(&it.host, SESSION, 1));
	CHECK(host_calls_read(&it.host, HOST_OUTCOME_REPEATED, SESSION, 1) == HOST_READING_IGNORES && next_put(&it).kind == HOST_PUT_REST);
}

/* The session has ended before the entry came: its call goes into a new one. */
static void ended(void)
{
	struct world it;
	struct host_call *call = put_one(&it);

	CHECK(host_calls_acknowledge(&it.host, SESSION, 1) && next_put(&it).kind == HOST_PUT_REST);
	CHECK(host_calls_read(&it.host, HOST_OUTCOME_GONE, SESSION, 1) == HOST_READING_RENEWS);
	CHECK(call->state == HOST_CALL_ENTERED && !host_calls_cancel(call));
	open_session(&it, LATER_SESSION);
	CHECK(take(&it) == HOST_TAKEN_BEGINS);
	seal(&it, LATER_SESSION, 1);
	CHECK(host_calls_read(&it.host, HOST_OUTCOME_MADE, LATER_SESSION, 1) == HOST_READING_TELLS && tell(&it) == HOST_TOLD_ANSWERS);
	CHECK(call->state == HOST_CALL_ANSWERED && call->session == LATER_SESSION);
}

/* A call that no entry has can be cancelled, and none has it then. Of one that is over, a copy with its ticket and any of the last states is enough. */
static void cancelled(void)
{
	struct world it;
	struct host_call *first, *second, over = { .ticket = 0, .state = HOST_CALL_NOT_MADE };

	begin(&it);
	first = submit(&it, 1, 7);
	second = submit(&it, 1, 7);
	CHECK(host_calls_cancel(first) && first->state == HOST_CALL_CANCELLED && !host_calls_cancel(first));
	open_session(&it, SESSION);
	CHECK(host_calls_take(&it.host, second) == HOST_TAKEN_REFUSED);
	CHECK(host_calls_take(&it.host, &over) == HOST_TAKEN_PASSES && take(&it) == HOST_TAKEN_BEGINS);
	CHECK(!host_calls_cancel(second) && second->state == HOST_CALL_ENTERED);
	seal(&it, SESSION, 1);
	CHECK(host_calls_read(&it.host, HOST_OUTCOME_MADE, SESSION, 1) == HOST_READING_TELLS);
	CHECK(host_calls_tell(&it.host, &over) == HOST_TOLD_PASSES && tell(&it) == HOST_TOLD_ANSWERS && second->place == 0);
}

/* Who is late waits no more: a call is not made, or is in an entry that is put yet. */
static void late(void)
{
	struct world it;
	struct host_call *entered = put_one(&it), *queued = submit(&it, 1, 7);

	CHECK(!host_calls_expire(queued, DEADLINE - 1) && queued->state == HOST_CALL_QUEUED);
	CHECK(host_calls_expire(queued, DEADLINE) && queued->state == HOST_CALL_NOT_MADE);
	CHECK(host_calls_expire(entered, DEADLINE + 1) && entered->state == HOST_CALL_NOT_KNOWN);
	CHECK(next_put(&it).kind == HOST_PUT_ENTRY);
	CHECK(host_calls_read(&it.host, HOST_OUTCOME_MADE, SESSION, 1) == HOST_READING_TELLS && tell(&it) == HOST_TOLD_PASSES);
	CHECK(take(&it) == HOST_TAKEN_PASSES && next_put(&it).kind == HOST_PUT_REST);
}

/* An entry has at most so many bytes, if it has several calls. */
static void full(void)
{
	struct world it;

	begin(&it);
	submit(&it, 1, MOST_BYTES - 1);
	submit(&it, 1, 1);
	submit(&it, 1, 1);
	open_session(&it, SESSION);
	CHECK(take(&it) == HOST_TAKEN_BEGINS && take(&it) == HOST_TAKEN_JOINS && take(&it) == HOST_TAKEN_FILLS);
	seal(&it, SESSION, 1);
	CHECK(host_calls_acknowledge(&it.host, SESSION, 1) && take(&it) == HOST_TAKEN_BEGINS);
	seal(&it, SESSION, 2);
}

/* A snapshot stands where the entry was: nobody knows. One that the log cannot have is missed. */
static void loaded(void)
{
	struct world it;
	struct host_call *call = put_one(&it);

	CHECK(host_calls_load(&it.host, SESSION - 1, true, 1) == HOST_READING_IGNORES);
	CHECK(host_calls_load(&it.host, SESSION + 9, true, 2) == HOST_READING_MISSES);
	CHECK(host_calls_read(&it.host, HOST_OUTCOME_GAP, SESSION, 3) == HOST_READING_MISSES);
	CHECK(host_calls_load(&it.host, SESSION + 9, true, 1) == HOST_READING_TELLS && tell(&it) == HOST_TOLD_LOSES);
	CHECK(call->state == HOST_CALL_NOT_KNOWN && next_put(&it).kind == HOST_PUT_REST);
}

/* Each call that is not over is told, and none is taken any more. */
static void stopped(void)
{
	struct world it;
	struct host_call *entered = put_one(&it), *queued = submit(&it, 1, 7), none = *queued;

	host_calls_stop(&it.host);
	CHECK(tell(&it) == HOST_TOLD_LOSES && tell(&it) == HOST_TOLD_DROPS && !host_calls_is_telling(&it.host));
	CHECK(entered->state == HOST_CALL_NOT_KNOWN && queued->state == HOST_CALL_NOT_MADE && next_put(&it).kind == HOST_PUT_REST);
	CHECK(!host_calls_submit(&it.host, &none, 1, 7, DEADLINE) && none.ticket == queued->ticket);
}

int main(void)
{
	answered();
	ended();
	cancelled();
	late();
	full();
	loaded();
	stopped();
	return 0;
}
