/* A schedule of calls, some bytes each, on two worlds of one scene. Inputs go to both worlds, which
 * answer the same; so what they show is the same at the end, whatever was asked, saved and loaded
 * between. */
#include "common.h"

struct schedule {
  const uint8_t *at;
  size_t left;
};

static uint64_t taken(struct schedule *s, int many) {
  uint64_t n = 0;
  for (int i = 0; i < many; i++) {
    n = n << 8 | (s->left ? *s->at : 0);
    if (s->left) s->at++, s->left--;
  }
  return n;
}

/* A number that is mostly small. */
static uint64_t few(struct schedule *s) {
  uint64_t n = taken(s, 1);
  return n < 240 ? n : taken(s, 8);
}

static struct x3d_aim aimed(struct schedule *s) {
  int64_t c[6];
  for (int i = 0; i < 6; i++) {
    uint64_t n = few(s);
    c[i] = n < 240 ? ((int64_t)n - 120) * 100000 : (int64_t)n;
  }
  struct x3d_aim aim = {c[0], c[1], c[2], c[3], c[4], c[5]};
  return aim;
}

/* The number is mostly the next, and the time mostly later. */
static void input(struct x3d_world both[2], struct schedule *s, int64_t *time) {
  struct x3d_work a = {0}, b = {0};
  uint8_t how = (uint8_t)taken(s, 1), one, other;
  uint64_t number = 0;
  must(x3d_world_applied(&both[0], &number) == X3D_DONE);
  number = how & 1 ? few(s) : number + 1;
  int64_t t = how & 2 ? (int64_t)few(s) : *time + 1 + (int64_t)taken(s, 1) * 50000;
  if (how & 4) {
    one = x3d_world_clock(&both[0], number, t, &a);
    other = x3d_world_clock(&both[1], number, t, &b);
  } else {
    struct x3d_aim aim = aimed(s);
    uint8_t viewer = how >> 4 == 15 && how & 8 ? (uint8_t)taken(s, 1) : how >> 4;
    one = x3d_world_point(&both[0], number, t, viewer, how & 8, &aim, &a);
    other = x3d_world_point(&both[1], number, t, viewer, how & 8, &aim, &b);
  }
  must(one == other && a.sends == b.sends && a.deliveries == b.deliveries &&
       a.settles == b.settles);
  if (one == X3D_DONE) *time = t;
}

/* What asks changes nothing; what it answers is copied into too little room, and into enough. */
static void ask(struct x3d_world *world, struct schedule *s) {
  uint32_t node = (uint32_t)few(s), count = 0;
  uint16_t field = (uint16_t)few(s), found = 0;
  int64_t numbers[32];
  struct x3d_change changes[8];
  uint8_t out[64];
  size_t wanted = 0;
  struct x3d_met met;
  struct x3d_aim aim;
  switch (taken(s, 1) % 14) {
  case 0: x3d_world_make_trace(world, node); break;
  case 1: x3d_world_make_changes(world, node); break;
  case 2: x3d_world_make_scene(world); break;
  case 3: x3d_world_make_type(world, node); break;
  case 4: x3d_world_make_label(world, node); break;
  case 5: x3d_world_make_field_name(world, node, field); break;
  case 6: x3d_world_make_value(world, node, field); break;
  case 7: x3d_world_list_roots(world); break;
  case 8: x3d_world_list_children(world, node); break;
  case 9: x3d_world_list_value(world, node, field); break;
  case 10:
    aim = aimed(s);
    x3d_world_meet(world, &aim, &met);
    break;
  case 11:
    x3d_world_field_named(world, node, (const uint8_t *)"children", field % 9, &found);
    break;
  case 12:
    x3d_world_list_changed(world, node);
    x3d_world_copy_changed(world, changes, field % 8, &wanted);
    break;
  default:
    x3d_world_field_count(world, node, &count);
    x3d_world_node_count(world, &wanted);
    break;
  }
  x3d_world_copy_text(world, out, taken(s, 1) % sizeof out, &wanted);
  x3d_world_copy_numbers(world, numbers, taken(s, 1) % 32, &wanted);
}

/* The first world is put in the place of the second, or the other way round. */
static void carry(struct x3d_world both[2], struct schedule *s) {
  int from = (int)(taken(s, 1) & 1);
  uint32_t boot = (uint32_t)few(s);
  struct x3d_saved saved;
  uint8_t status = x3d_world_make_snapshot(&both[from], boot);
  if (status == X3D_RANGE) return;
  must(status == X3D_DONE);
  struct bytes shot = copied(&both[from]);
  uint32_t above = (uint32_t)few(s);
  status = x3d_world_load(&both[1 - from], above, shot.at, shot.length, &saved);
  must(status == (above > boot ? X3D_DONE : X3D_BOOT_NOT_NEW) || status == X3D_RANGE);
  let_go(shot);
}

int LLVMFuzzerTestOneInput(const uint8_t *data, size_t size) {
  end_if_enough();
  struct schedule s = {data, size};
  struct x3d_world both[2] = {X3D_NONE, X3D_NONE};
  const char *scene = scenes[taken(&s, 1) % SCENES];
  int64_t time = 0;
  for (int i = 0; i < 2; i++)
    must(opened(&both[i], (const uint8_t *)scene, strlen(scene)) == X3D_DONE);
  for (int calls = 0; s.left && calls < 200; calls++) {
    uint8_t what = (uint8_t)taken(&s, 1);
    count_try();
    if (what < 160)
      input(both, &s, &time);
    else if (what < 230)
      ask(&both[what & 1], &s);
    else
      carry(both, &s);
  }
  struct bytes trace = trace_of(&both[0]), other = trace_of(&both[1]), shot = shot_of(&both[0], 1),
               same = shot_of(&both[1], 1);
  must(are_same(trace, other) && are_same(shot, same));
  let_go(trace);
  let_go(other);
  let_go(shot);
  let_go(same);
  x3d_world_close(&both[0]);
  x3d_world_close(&both[1]);
  return 0;
}
