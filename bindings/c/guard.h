/* What stands between a program's handle and the handle that the proved calls are given: a block
 * with a tag and a busy mark, so that a wrong handle, a null pointer, the copy of a closed handle
 * and a second thread are answered X3D_MISUSE, and change nothing. scripts/guards writes a function
 * over these for each call of x3d.h. Not proved: tested by bindings/c/misuse.c. */
#ifndef X3D_GUARD_H
#define X3D_GUARD_H

#include "x3d.h"
#include <sched.h>
#include <stdatomic.h>
#include <stdlib.h>
#include <string.h>

enum guard_tag {
  GUARD_CLOSED = 0,
  GUARD_WORLD = 0x57443358,
  GUARD_HOST = 0x48443358,
  GUARD_VIEWER = 0x56443358,
  GUARD_LOG = 0x4c443358,
  GUARD_PART = 0x50443358
};

/* A block stays where it is from open to close. */
struct guard {
  _Atomic uint32_t tag;
  atomic_flag busy;
  /* The handle that the proved calls are given. */
  void *at;
};

/* The blocks of the first handles, and those of them that were closed since, in the order in which
 * they are used again. So the copy of a handle is told as closed for long. The handles of a program
 * that has more at once have blocks of malloc. */
enum { GUARD_POOL = 1024 };
static struct guard guard_pool[GUARD_POOL];
static uint16_t guard_closed[GUARD_POOL];
static size_t guard_used, guard_oldest, guard_waiting;
static atomic_flag guard_pooling = ATOMIC_FLAG_INIT;

static void guard_lock(atomic_flag *flag) {
  while (atomic_flag_test_and_set_explicit(flag, memory_order_acquire)) sched_yield();
}

static void guard_unlock(atomic_flag *flag) {
  atomic_flag_clear_explicit(flag, memory_order_release);
}

/* A block of the pool, or null. */
static struct guard *guard_pooled(void) {
  struct guard *guard = NULL;
  guard_lock(&guard_pooling);
  if (guard_used < GUARD_POOL) {
    guard = &guard_pool[guard_used++];
  } else if (guard_waiting > 0) {
    guard = &guard_pool[guard_closed[guard_oldest]];
    guard_oldest = (guard_oldest + 1) % GUARD_POOL;
    guard_waiting--;
  }
  guard_unlock(&guard_pooling);
  return guard;
}

/* A new block, which is busy, or null if memory ran out. */
static struct guard *guard_new(uint32_t tag) {
  struct guard *guard = guard_pooled();
  if (!guard) {
    guard = malloc(sizeof *guard);
    if (!guard) return NULL;
    atomic_flag_clear(&guard->busy);
  }
  guard_lock(&guard->busy);
  guard->at = NULL;
  atomic_store(&guard->tag, tag);
  return guard;
}

static void guard_drop(struct guard *guard) {
  atomic_store(&guard->tag, GUARD_CLOSED);
  guard_unlock(&guard->busy);
  if (guard < guard_pool || guard >= guard_pool + GUARD_POOL) {
    free(guard);
    return;
  }
  guard_lock(&guard_pooling);
  guard_closed[(guard_oldest + guard_waiting++) % GUARD_POOL] = (uint16_t)(guard - guard_pool);
  guard_unlock(&guard_pooling);
}

/* Whether a block is of this kind, and no other call is in it; it is busy then. A call that only
 * reads waits for others that do. */
static bool guard_enter(struct guard *guard, uint32_t tag, bool waits) {
  if (atomic_load(&guard->tag) != tag) return false;
  if (waits) {
    guard_lock(&guard->busy);
  } else if (atomic_flag_test_and_set_explicit(&guard->busy, memory_order_acquire)) {
    return false;
  }
  if (atomic_load(&guard->tag) == tag) return true;
  guard_unlock(&guard->busy);
  return false;
}

static void guard_leave(struct guard *guard) { guard_unlock(&guard->busy); }

/* Where a call may read or write nothing. */
static uint64_t guard_nothing[1];

/* The line of a refusal for memory, as the proved calls copy it. */
static uint8_t guard_memory(uint8_t *refusal, size_t room, size_t *wanted) {
  static const char line[] = "refused Memory";
  if (wanted) *wanted = sizeof line - 1;
  if (refusal && room >= sizeof line - 1) memcpy(refusal, line, sizeof line - 1);
  return X3D_MEMORY;
}

#endif
