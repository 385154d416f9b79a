/* What the harnesses share. Each is a LLVMFuzzerTestOneInput over the static library:
 * scripts/fuzz_library builds and runs them. What must hold is asked by `must`, which ends the
 * process where it doesn't. */
#ifndef COMMON_H
#define COMMON_H

#include "x3d.h"
#include <stdio.h>
#include <stdlib.h>
#include <string.h>
#include <unistd.h>

#define must(holds)                                                                                \
  do {                                                                                             \
    if (!(holds)) {                                                                                \
      fprintf(stderr, "%s:%d: does not hold: %s\n", __FILE__, __LINE__, #holds);                   \
      abort();                                                                                     \
    }                                                                                              \
  } while (0)

/* How many scenes, snapshots, datagrams or calls were tried; one input of libFuzzer's has many datagrams or calls. The
 * last process of a run tells it at its end, and ends well once they are as many as $TRIES says. */
static uint64_t tries, most_tries = UINT64_MAX;

static inline void tell_tries(void) {
  fprintf(stderr, "tries: %llu\n", (unsigned long long)tries);
  fflush(stderr);
}

static inline void begin_tries(void) {
  const char *most = getenv("TRIES");
  if (most) most_tries = strtoull(most, NULL, 10);
  atexit(tell_tries);
}

static inline void count_try(void) {
  if (tries == 0) begin_tries();
  tries++;
}

/* Called between two inputs. What libFuzzer found is in its folder by then, and it takes `exit` for a fault. */
static inline void end_if_enough(void) {
  if (tries < most_tries) return;
  tell_tries();
  _exit(0);
}

/* Bytes on the heap. */
struct bytes {
  uint8_t *at;
  size_t length;
};

static inline void let_go(struct bytes b) { free(b.at); }

static inline bool are_same(struct bytes a, struct bytes b) {
  return a.length == b.length && memcmp(a.at, b.at, a.length) == 0;
}

/* Why the last scene was refused. */
static uint8_t refusal[64];

static inline uint8_t opened(struct x3d_world *world, const uint8_t *text, size_t length) {
  uint8_t status;
  size_t wanted = 0;
  status = x3d_world_open(world, text, length, refusal, sizeof refusal, &wanted);
  must(status == X3D_DONE || status == X3D_SCENE || status == X3D_MEMORY);
  if (status == X3D_SCENE) must(wanted > 8 && wanted <= 64 && memcmp(refusal, "refused ", 8) == 0);
  return status;
}

/* What was made last: its length first, then all of it. */
static inline struct bytes copied(struct x3d_world *world) {
  struct bytes b = {NULL, 0};
  uint8_t none[1];
  uint8_t status = x3d_world_copy_text(world, none, 0, &b.length);
  must(status == (b.length ? X3D_ROOM : X3D_DONE));
  b.at = malloc(b.length + 1);
  must(b.at != NULL);
  must(x3d_world_copy_text(world, b.at, b.length, &b.length) == X3D_DONE);
  return b;
}

static inline struct bytes scene_of(struct x3d_world *world) {
  must(x3d_world_make_scene(world) == X3D_DONE);
  return copied(world);
}

static inline struct bytes trace_of(struct x3d_world *world) {
  must(x3d_world_make_trace(world, 0) == X3D_DONE);
  return copied(world);
}

static inline struct bytes shot_of(struct x3d_world *world, uint32_t boot) {
  must(x3d_world_make_snapshot(world, boot) == X3D_DONE);
  return copied(world);
}

/* Scenes with sensors, prototypes, helpers, scripts that are run, and labels of every kind. */
static const char door[] =
    "#X3D V3.0 utf8\nDEF Motor TimeSensor { cycleInterval 2 loop TRUE }\nDEF Slide "
    "PositionInterpolator { key [ 0 1 ] "
    "keyValue [ 0 0 0 1 0 0 ] }\nDEF Door Transform { children [ DEF Knob TouchSensor {} Shape { "
    "geometry Box { size 1 2 0.1 } } ] "
    "}\nROUTE Knob.touchTime TO Motor.startTime\nROUTE Motor.fraction_changed TO "
    "Slide.set_fraction\nROUTE Slide.value_changed TO "
    "Door.translation\n";
static const char scripts[] = "#X3D V3.0 utf8\nDEF T TouchSensor {}\nShape { geometry Box { size 4 "
                              "4 4 } }\nDEF C Script { url \"x3dshare:counter\" inputOnly "
                              "SFBool tick initializeOnly SFInt32 start 5 initializeOnly SFInt32 "
                              "step 2 outputOnly SFInt32 count }\nDEF M Script { url "
                              "\"x3dshare:meter\" inputOnly SFFloat reading outputOnly SFFloat "
                              "mean }\nDEF L TimeSensor { loop TRUE }\nDEF Q IntegerSequencer { "
                              "key [ 0 0.5 ] keyValue [ 3 4 ] }\nDEF W Switch { children [ Group "
                              "{} ] }\nROUTE T.isActive TO C.tick\nROUTE C.count TO "
                              "W.whichChoice\nROUTE L.fraction_changed TO M.reading\nROUTE "
                              "L.fraction_changed TO Q.set_fraction\n";
static const char instances[] =
    "#X3D V3.0 utf8\nPROTO P [ initializeOnly MFNode more [] ] { Group { children IS more } DEF N3 "
    "TimeSensor { loop TRUE } }\nP { more "
    "[ DEF N0 Group {} DEF S Shape { geometry Sphere {} } USE S ] }\nDEF N1 BooleanToggle {}\n";
static const char *const scenes[] = {door, scripts, instances};
#define SCENES (sizeof scenes / sizeof scenes[0])

#endif
