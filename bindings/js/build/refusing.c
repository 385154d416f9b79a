/* For tests: refuses memory to the library at its call of malloc or realloc number `fail_at`, and
 * counts the blocks that it has not freed. Linked with --wrap for malloc, realloc and free. */
#include "types.h"

void *__real_malloc(size_t), *__real_realloc(void *, size_t);
void __real_free(void *);

static long fail_at, calls, live;

void refuse_at(long call) {
  fail_at = call;
  calls = 0;
}

long live_blocks(void) { return live; }

void *__wrap_malloc(size_t size) {
  void *bytes = ++calls == fail_at ? nullptr : __real_malloc(size);
  live += bytes != nullptr;
  return bytes;
}

void *__wrap_realloc(void *bytes, size_t size) {
  void *moved = ++calls == fail_at ? nullptr : __real_realloc(bytes, size);
  live += moved && !bytes;
  return moved;
}

void __wrap_free(void *bytes) {
  live -= bytes != nullptr;
  __real_free(bytes);
}
