/* A text is opened as a scene. Where it is one, what is written of it is read again and written the
 * same, clocks and pointers are applied, and a snapshot of that loads into a second world, which is
 * the same. */
#include "common.h"

/* What is written is refused for its size alone. */
static void is_read_again(struct x3d_world *world, struct x3d_world *second) {
  struct bytes text = scene_of(world);
  uint8_t status = opened(second, text.at, text.length);
  if (status == X3D_DONE) {
    struct bytes again = scene_of(second);
    must(are_same(text, again));
    let_go(again);
  } else if (status == X3D_SCENE) {
    must(memcmp(refusal, "refused Too", 11) == 0);
  }
  let_go(text);
}

static void goes_on(struct x3d_world *world) {
  struct x3d_work work;
  struct x3d_aim aim = {0, 0, 10000000, 0, 0, -1000000};
  must(x3d_world_clock(world, 1, 1000000, &work) == X3D_DONE);
  must(x3d_world_point(world, 2, 1500000, 0, true, &aim, &work) == X3D_DONE);
  must(x3d_world_point(world, 3, 1500001, 0, false, &aim, &work) == X3D_DONE);
  must(x3d_world_clock(world, 4, 2250000, &work) == X3D_DONE);
}

int LLVMFuzzerTestOneInput(const uint8_t *data, size_t size) {
  end_if_enough();
  count_try();
  struct x3d_world world = X3D_NONE, second = X3D_NONE;
  if (opened(&world, data ? data : (const uint8_t *)"", size) == X3D_DONE) {
    is_read_again(&world, &second);
    x3d_world_close(&second);
    goes_on(&world);
    struct bytes shot = shot_of(&world, 7), trace = trace_of(&world);
    struct x3d_saved saved;
    must(opened(&second, data ? data : (const uint8_t *)"", size) == X3D_DONE);
    must(x3d_world_load(&second, 8, shot.at, shot.length, &saved) == X3D_DONE);
    must(saved.boot == 7 && saved.applied == 4);
    struct bytes again = trace_of(&second);
    must(are_same(trace, again));
    is_read_again(&world, &second);
    let_go(shot);
    let_go(trace);
    let_go(again);
  }
  x3d_world_close(&world);
  x3d_world_close(&second);
  return 0;
}
