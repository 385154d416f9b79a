/* The heap of the compiled library: the three functions that its allocations call. */
#include "types.h"

void *malloc(size_t), *realloc(void *, size_t);
void free(void *);

struct taken {
  uint64_t done; /* 1, or 0 if memory ran out */
  void *bytes;
};

static char none[1];

static struct taken taken(void *bytes) {
  return bytes ? (struct taken){1, bytes} : (struct taken){0, none};
}

struct taken rattle_alloc(size_t size, size_t align) { return taken(malloc(size ? size : align)); }

struct taken rattle_realloc(void *bytes, size_t old, size_t size, size_t align) {
  (void)old;
  return taken(realloc(bytes, size ? size : align));
}

void rattle_dealloc(void *bytes) { free(bytes); }
