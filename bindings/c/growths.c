/* A world is opened, moved on, read, saved and loaded, once for each call of malloc and realloc:
 * that one fails. Every answer is then done, refused memory or spoiled, nothing is lost, and
 * closing frees all. */
#include "refusing.h"

static int run(void) {
  struct x3d_world world = X3D_NONE;
  struct x3d_work work;
  struct x3d_met met;
  struct x3d_saved saved;
  struct x3d_aim aim = {0, 0, 10000000, 0, 0, -1000000};
  uint8_t line[64], shot[4096];
  size_t wanted = 0;
  uint64_t applied = 0;
  uint16_t field;
  struct x3d_change changes[64];
  int status =
      x3d_world_open(&world, (const uint8_t *)scene, sizeof scene - 1, line, sizeof line, &wanted);
  if (!told(status)) return 1;
  if (status != X3D_DONE) {
    if (world.at || x3d_world_clock(&world, 1, 1, &work) != X3D_CLOSED) return 2;
    if (wanted != 14 || memcmp(line, "refused Memory", 14) != 0) return 3;
    return 0;
  }
  if (!told(x3d_world_clock(&world, 1, 10000000, &work))) return 4;
  x3d_world_applied(&world, &applied);
  if (applied == 1 && !told(x3d_world_point(&world, 2, 10000001, 0, true, &aim, &work))) return 5;
  x3d_world_applied(&world, &applied);
  if (applied == 2 && !told(x3d_world_point(&world, 3, 10000002, 0, false, &aim, &work))) return 6;
  if (!told(x3d_world_make_trace(&world, 0)) || !told(x3d_world_make_scene(&world))) return 7;
  if (!told(x3d_world_make_changes(&world, 2)) || !told(x3d_world_make_value(&world, 0, 0)))
    return 8;
  status = x3d_world_list_changed(&world, 0);
  if (!told(status)) return 20;
  if (x3d_world_copy_changed(&world, changes, 64, &wanted) != X3D_DONE) return 21;
  if ((wanted != 0) != (status == X3D_DONE && applied > 0)) return 22;
  if (!told(x3d_world_make_label(&world, 2)) || !told(x3d_world_make_type(&world, 2))) return 9;
  if (!told(x3d_world_list_roots(&world)) || !told(x3d_world_list_children(&world, 2))) return 10;
  /* It takes no memory. */
  if (x3d_world_field_named(&world, 2, (const uint8_t *)"isActive", 8, &field) != X3D_DONE)
    return 19;
  if (!told(x3d_world_meet(&world, &aim, &met))) return 11;
  status = x3d_world_make_snapshot(&world, 1);
  if (!told(status)) return 12;
  if (status == X3D_DONE) {
    if (x3d_world_copy_text(&world, shot, sizeof shot, &wanted) != X3D_DONE) return 13;
    status = x3d_world_load(&world, 2, shot, wanted, &saved);
    if (!told(status)) return 14;
    /* A spoiled world comes back by its snapshot. */
    fail_at = -1;
    if (status == X3D_MEMORY &&
        x3d_world_clock(&world, applied + 1, 20000000, &work) != X3D_SPOILED)
      return 15;
    if (x3d_world_load(&world, 2, shot, wanted, &saved) != X3D_DONE) return 16;
    if (x3d_world_clock(&world, saved.applied + 1, 20000000, &work) != X3D_DONE) return 17;
  }
  fail_at = -1;
  x3d_world_close(&world);
  x3d_world_close(&world);
  return world.at ? 18 : 0;
}

int main(void) { return refuse_each(run); }
