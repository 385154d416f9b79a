/* Bytes are loaded as a snapshot. The first byte says of which scene, and whether they are taken as
 * they are, or get the head and the digest that a snapshot of that scene has. What is refused
 * changes nothing, and what is loaded is written the same. */
#include "common.h"
#include "sha256.h"

enum { HEAD = 4 + 1 + 32, DIGEST = 32 };

/* Of each scene a world that stays, with its snapshot. */
static struct x3d_world worlds[SCENES];
static struct bytes shots[SCENES];

static void begin(size_t i) {
  struct x3d_work work;
  struct x3d_aim aim = {0, 0, 10000000, 0, 0, -1000000};
  must(opened(&worlds[i], (const uint8_t *)scenes[i], strlen(scenes[i])) == X3D_DONE);
  must(x3d_world_clock(&worlds[i], 1, 1000000, &work) == X3D_DONE);
  must(x3d_world_point(&worlds[i], 2, 1250000, 3, true, &aim, &work) == X3D_DONE);
  shots[i] = shot_of(&worlds[i], 1);
}

/* The bytes behind the head of a snapshot, and their digest. */
static struct bytes sealed(size_t i, const uint8_t *data, size_t size) {
  struct bytes b = {malloc(HEAD + size + DIGEST), HEAD + size + DIGEST};
  must(b.at != NULL);
  memcpy(b.at, shots[i].at, HEAD);
  memcpy(b.at + HEAD, data, size);
  sha256(b.at, HEAD + size, b.at + HEAD + size);
  return b;
}

/* The world is looked at behind each that is loaded, and behind every 16th that is refused: what one of those changed is
 * still there by then. */
static void is_as_ever(size_t i) {
  struct bytes now = shot_of(&worlds[i], 1);
  must(are_same(now, shots[i]));
  let_go(now);
}

static void try_load(size_t i, struct bytes given) {
  static size_t refused;
  struct x3d_saved saved;
  uint8_t status = x3d_world_load(&worlds[i], UINT32_MAX, given.at, given.length, &saved);
  if (status == X3D_DONE) {
    struct bytes again = shot_of(&worlds[i], saved.boot);
    must(are_same(given, again));
    let_go(again);
    must(x3d_world_load(&worlds[i], 2, shots[i].at, shots[i].length, &saved) == X3D_DONE);
    is_as_ever(i);
  } else {
    must(status == X3D_MEMORY || (status >= X3D_SHORT && status <= X3D_SCRIPT_STATE));
    if (++refused % 16 == 0)
      for (size_t k = 0; k < SCENES; k++) is_as_ever(k);
  }
}

static void begin_all(void) {
  if (!shots[0].at)
    for (size_t i = 0; i < SCENES; i++) begin(i);
}

size_t LLVMFuzzerMutate(uint8_t *data, size_t size, size_t most);

/* One input of eight begins anew with what a real snapshot has between head and digest. */
size_t LLVMFuzzerCustomMutator(uint8_t *data, size_t size, size_t most, unsigned int seed) {
  begin_all();
  size_t i = seed / 8 % SCENES, between = shots[i].length - HEAD - DIGEST;
  if (seed % 8 == 0 && between + 1 <= most) {
    data[0] = (uint8_t)i;
    memcpy(data + 1, shots[i].at + HEAD, between);
    size = between + 1;
  }
  return LLVMFuzzerMutate(data, size, most);
}

int LLVMFuzzerTestOneInput(const uint8_t *data, size_t size) {
  end_if_enough();
  begin_all();
  if (size == 0) return 0;
  count_try();
  size_t i = data[0] % SCENES;
  struct bytes given =
      data[0] & 128 ? (struct bytes){NULL, size - 1} : sealed(i, data + 1, size - 1);
  if (!given.at) {
    given.at = malloc(size);
    must(given.at != NULL);
    memcpy(given.at, data + 1, size - 1);
  }
  try_load(i, given);
  let_go(given);
  return 0;
}
