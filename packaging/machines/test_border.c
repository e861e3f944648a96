/* What passes between border.ll and C: C takes each number of 32 bits as one that fills its register, as riscv64's convention says. */
#include <assert.h>
#include <stdint.h>

uint32_t low_word(uint64_t value);
uint8_t low_byte(uint64_t value);
uint64_t by_c(uint64_t value);

static const uint64_t values[] = { 1, 0x8000000000000001, 0x7fffffff80000001, 0xffffffff00000101, 0x00000001fffffffe };

uint32_t next_in_c(uint32_t word, uint8_t byte)
{
	/* Both comparisons are of whole registers. */
	return word == 1 && byte == 1 ? 2 : word == 0x80000001 ? 3 : word == 0x101 ? byte : word == 0xfffffffe ? 4 : 5;
}

int main(void)
{
	static const uint32_t words[] = { 1, 1, 0x80000001, 0x101, 0xfffffffe };
	static const uint64_t answers[] = { 2, 2, 3, 1, 4 };
	for (unsigned at = 0; at < sizeof values / sizeof values[0]; at++) {
		assert(low_word(values[at]) == words[at]);
		assert(low_byte(values[at]) == words[at] % 256);
		assert(by_c(values[at]) == answers[at]);
	}
	return 0;
}
