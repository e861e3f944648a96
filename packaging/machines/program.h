/* What program.c has for the program, and what that has for it. */
#ifndef PROGRAM_H
#define PROGRAM_H

#include <stddef.h>
#include <stdint.h>

/* What a text comes to that is not there, and one that the room is too short for. */
enum { ABSENT = -1, TOO_LONG = -2 };

int64_t rattle_arg_count(void);
int64_t rattle_arg(size_t at, unsigned char *to, size_t room);
int64_t rattle_env(const char *name, unsigned char *to, size_t room);
int64_t rattle_env_at(size_t at, unsigned char *to, size_t room);
int rattle_errno(void);
void rattle_set_errno(int error);

/* The number of futex(2) in a module for x86-64. */
enum { FUTEX_OF_X86_64 = 202 };
long program_syscall(long number, void *at, long operation, long value, void *timeout);

int program_main(void);

#endif
