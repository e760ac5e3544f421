/* What a library that is loaded before the C library counts: the calls, of which that of the number AT, counted from 1, is the chosen
   one. When the program ends, also by _exit, the file COUNT gets how many there were, and what the chosen one was on. */
#define _GNU_SOURCE
#include <dlfcn.h>
#include <limits.h>
#include <stdio.h>
#include <stdlib.h>
#include <sys/syscall.h>
#include <unistd.h>

static long counted = 0;
static long chosen = 0;
static char met[2 * PATH_MAX];

__attribute__((constructor)) static void begin(void) {
  const char *number = getenv("AT");
  chosen = number ? atol(number) : 0;
}

/* Counts a call, and says whether it is the chosen one. */
static int is_chosen(void) { return __atomic_add_fetch(&counted, 1, __ATOMIC_SEQ_CST) == chosen; }

__attribute__((destructor)) static void tell(void) {
  const char *path = getenv("COUNT");
  long number = counted;
  FILE *file = path ? fopen(path, "w") : NULL;
  if (!file) return;
  fprintf(file, "%ld %s\n", number, met);
  fclose(file);
}

void _exit(int status) {
  tell();
  syscall(SYS_exit_group, status);
  __builtin_unreachable();
}
