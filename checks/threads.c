/* Loaded before the C library: no thread can be made. */
#include <errno.h>

int pthread_create(void *thread, const void *attributes, void *(*start)(void *), void *given) {
  (void)thread, (void)attributes, (void)start, (void)given;
  return EAGAIN;
}
