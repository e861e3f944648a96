/* A table, and its text in two rooms, for tests that compare what a call has left. A test takes this in after test.h. */
static struct pidtab table = PIDTAB_INIT;

static char texts[2][1 << 20];

static size_t text_of(char *room)
{
	size_t size = 0;

	CHECK(pidtab_dump(&table, room, sizeof texts[0], &size) == PIDTAB_DONE);
	return size;
}
