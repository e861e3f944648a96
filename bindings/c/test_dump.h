/* Texts for the tests of saved tables, with a digest that is reckoned here, by FIPS 180-4, and not by the code under test. */
#include "test.h"

/* Bytes on the heap. */
struct text {
	char *bytes;
	size_t size;
};

static inline uint32_t turned(uint32_t x, int by)
{
	return x >> by | x << (32 - by);
}

static inline void take_block(uint32_t hash[8], const unsigned char *block)
{
	static const uint32_t rounds[64] = {
		0x428a2f98, 0x71374491, 0xb5c0fbcf, 0xe9b5dba5, 0x3956c25b, 0x59f111f1, 0x923f82a4, 0xab1c5ed5,
		0xd807aa98, 0x12835b01, 0x243185be, 0x550c7dc3, 0x72be5d74, 0x80deb1fe, 0x9bdc06a7, 0xc19bf174,
		0xe49b69c1, 0xefbe4786, 0x0fc19dc6, 0x240ca1cc, 0x2de92c6f, 0x4a7484aa, 0x5cb0a9dc, 0x76f988da,
		0x983e5152, 0xa831c66d, 0xb00327c8, 0xbf597fc7, 0xc6e00bf3, 0xd5a79147, 0x06ca6351, 0x14292967,
		0x27b70a85, 0x2e1b2138, 0x4d2c6dfc, 0x53380d13, 0x650a7354, 0x766a0abb, 0x81c2c92e, 0x92722c85,
		0xa2bfe8a1, 0xa81a664b, 0xc24b8b70, 0xc76c51a3, 0xd192e819, 0xd6990624, 0xf40e3585, 0x106aa070,
		0x19a4c116, 0x1e376c08, 0x2748774c, 0x34b0bcb5, 0x391c0cb3, 0x4ed8aa4a, 0x5b9cca4f, 0x682e6ff3,
		0x748f82ee, 0x78a5636f, 0x84c87814, 0x8cc70208, 0x90befffa, 0xa4506ceb, 0xbef9a3f7, 0xc67178f2
	};
	uint32_t w[64], h[8];

	for (int i = 0; i < 16; i++)
		w[i] = (uint32_t)block[4 * i] << 24 | (uint32_t)block[4 * i + 1] << 16 | (uint32_t)block[4 * i + 2] << 8 | block[4 * i + 3];
	for (int i = 16; i < 64; i++) {
		uint32_t a = w[i - 15], b = w[i - 2];
		w[i] = w[i - 16] + (turned(a, 7) ^ turned(a, 18) ^ a >> 3) + w[i - 7] + (turned(b, 17) ^ turned(b, 19) ^ b >> 10);
	}
	memcpy(h, hash, sizeof h);
	for (int i = 0; i < 64; i++) {
		uint32_t one = h[7] + (turned(h[4], 6) ^ turned(h[4], 11) ^ turned(h[4], 25)) + ((h[4] & h[5]) ^ (~h[4] & h[6])) + rounds[i] + w[i];
		uint32_t two = (turned(h[0], 2) ^ turned(h[0], 13) ^ turned(h[0], 22)) + ((h[0] & h[1]) ^ (h[0] & h[2]) ^ (h[1] & h[2]));
		memmove(h + 1, h, 7 * sizeof *h);
		h[4] += one;
		h[0] = one + two;
	}
	for (int i = 0; i < 8; i++)
		hash[i] += h[i];
}

/* The SHA-256 of the bytes, in hex of lower case. */
static inline void put_digest(const char *bytes, size_t size, char digest[65])
{
	uint32_t hash[8] = { 0x6a09e667, 0xbb67ae85, 0x3c6ef372, 0xa54ff53a, 0x510e527f, 0x9b05688c, 0x1f83d9ab, 0x5be0cd19 };
	size_t blocks = (size + 8) / 64 + 1;
	unsigned char *padded = calloc(blocks, 64);

	CHECK(padded != NULL);
	memcpy(padded, bytes, size);
	padded[size] = 0x80;
	for (int i = 0; i < 8; i++)
		padded[blocks * 64 - 1 - (size_t)i] = (unsigned char)((uint64_t)size * 8 >> 8 * i);
	for (size_t i = 0; i < blocks; i++)
		take_block(hash, padded + 64 * i);
	free(padded);
	for (int i = 0; i < 8; i++)
		snprintf(digest + 8 * i, 9, "%08x", hash[i]);
}

/* What a text says, with the last line that it has to have. */
static inline struct text sealed(const char *said, size_t size)
{
	struct text text = { malloc(size + 77), size + 76 };
	char digest[65];

	CHECK(text.bytes != NULL);
	put_digest(said, size, digest);
	memcpy(text.bytes, said, size);
	snprintf(text.bytes + size, 77, "end sha256 %s\n", digest);
	return text;
}

static inline bool same_text(struct text one, struct text other)
{
	return one.size == other.size && memcmp(one.bytes, other.bytes, one.size) == 0;
}

/* The text of the table: its size is asked for first. */
static inline struct text dumped(struct pidtab *table)
{
	struct text text = { NULL, 0 };
	char none[1];
	size_t size = 0;

	CHECK(pidtab_dump(table, none, 0, &text.size) == PIDTAB_NO_ROOM && text.size > 150);
	text.bytes = malloc(text.size);
	CHECK(text.bytes && pidtab_dump(table, text.bytes, text.size, &size) == PIDTAB_DONE && size == text.size);
	return text;
}

/* Whether both tables have one text. */
static inline bool same_tables(struct pidtab *one, struct pidtab *other)
{
	struct text a = dumped(one), b = dumped(other);
	bool same = same_text(a, b);

	free(a.bytes);
	free(b.bytes);
	return same;
}

/* The text with process 1 alone, and a stamp. */
static inline struct text first_text(const char *stamp)
{
	char said[256];
	int size = snprintf(said, sizeof said, "pidtab table 1 pid-max 301 stamp %s\ntask 1@0 parent - group 1@0 session 1@0 control 0 children 0 live\n"
		"space 0 parent - cursor 2\ncontrol 0 parent - limit max\n", stamp);

	return sealed(said, (size_t)size);
}

/* Numbers that come in the same order each time. */
static inline uint32_t drawn(uint64_t *seed, uint32_t below)
{
	*seed = *seed * 6364136223846793005 + 1442695040888963407;
	return (uint32_t)(*seed >> 33) % below;
}

/* A call among some forty tasks and a few cgroups: one in three is a fork, and most are not refused. */
static inline struct pidtab_call drawn_call(uint64_t *seed)
{
	struct pidtab_call call = { .operation = PIDTAB_FORK, .caller = drawn(seed, 40) + 1, .id = drawn(seed, 60) };

	if (drawn(seed, 3) > 0)
		call.operation = drawn(seed, PIDTAB_SUBREAPER + 1);
	call.number = drawn(seed, 6);
	call.choice = drawn(seed, 8) == 0;
	call.pid = (int32_t)drawn(seed, 4);
	call.pgid = (int32_t)drawn(seed, 4);
	if (call.operation == PIDTAB_MK || call.operation == PIDTAB_MOVE)
		call.id = drawn(seed, 3) ? 0 : call.id;
	return call;
}

static inline bool same_reply(const struct pidtab_reply *a, const struct pidtab_reply *b)
{
	return a->kind == b->kind && a->error == b->error && a->refusal == b->refusal && a->count == b->count && a->first == b->first
		&& a->second == b->second && memcmp(a->levels, b->levels, sizeof a->levels) == 0;
}
