/* Calls the library at random: 100,000 calls in any order on four handles, open or closed, with
 * random numbers and bytes. Ends with 0; a sanitizer or valgrind tells what else went wrong. */
#include "dice.h"

static const char *scenes[] = {
    DOOR,
    "#X3D V3.0 utf8\nGroup { children [ Shape { geometry Box {} } Switch { whichChoice 0 children "
    "[ TouchSensor {} ] } ] }\n",
    "#X3D V3.0 utf8\n",
    "#X3D V3.0 utf8\nGrup {}\n",
    "",
};

static const char *names[] = {"translation", "children", "set_fraction", "\xc3\xa9\xff", ""};

int main(int count, char **words) {
  struct x3d_world worlds[4] = {X3D_NONE, X3D_NONE, X3D_NONE, X3D_NONE};
  uint64_t next[4] = {1, 1, 1, 1};
  uint8_t bytes[4096], shots[4][4096];
  int64_t numbers[64];
  struct x3d_change changes[8];
  size_t wanted, lengths[4] = {0, 0, 0, 0};
  long calls = count > 1 ? atol(words[1]) : 100000, done = 0;
  for (long k = 0; k < calls; k++) {
    int w = (int)below(4);
    struct x3d_world *world = &worlds[w];
    struct x3d_work work;
    struct x3d_met met;
    struct x3d_saved saved;
    struct x3d_aim aim = {coordinate(), coordinate(), coordinate(),
                          coordinate(), coordinate(), coordinate()};
    uint32_t ordinal;
    uint64_t applied;
    uint16_t field;
    int status = 0;
    /* The next input mostly has the next number and a later time. */
    uint64_t n = below(4) ? next[w] : number();
    int64_t t = below(8) ? (int64_t)n * 400000 : (int64_t)any();
    switch (below(26)) {
    case 0:
    case 1: {
      const char *text = scenes[below(5)];
      size_t length = below(16) ? strlen(text) : below(strlen(text) + 1);
      status = x3d_world_open(world, (const uint8_t *)text, length, bytes, below(65), &wanted);
      if (status == X3D_DONE) next[w] = 1;
      break;
    }
    case 2:
      if (!below(4)) x3d_world_close(world);
      break;
    case 3: status = x3d_world_applied(world, &applied); break;
    case 4:
    case 5:
    case 6:
      status = x3d_world_clock(world, n, t, &work);
      next[w] += status == X3D_DONE;
      break;
    case 7:
    case 8:
    case 9:
      status = x3d_world_point(world, n, t, (uint8_t)number(), below(2), &aim, &work);
      next[w] += status == X3D_DONE;
      break;
    case 10: status = x3d_world_meet(world, &aim, &met); break;
    case 11: status = x3d_world_make_trace(world, number()); break;
    case 12: status = x3d_world_make_changes(world, number()); break;
    case 13: status = x3d_world_make_scene(world); break;
    case 14: status = x3d_world_make_type(world, (uint32_t)number()); break;
    case 15: status = x3d_world_make_label(world, (uint32_t)number()); break;
    case 16:
      status = x3d_world_make_field_name(world, (uint32_t)number(), (uint16_t)number());
      break;
    case 17: status = x3d_world_make_value(world, (uint32_t)number(), (uint16_t)number()); break;
    case 18:
      status = x3d_world_make_snapshot(world, (uint32_t)number());
      if (status == X3D_DONE &&
          x3d_world_copy_text(world, shots[w], sizeof shots[w], &wanted) == X3D_DONE)
        lengths[w] = wanted;
      break;
    case 19: status = x3d_world_copy_text(world, bytes, below(sizeof bytes), &wanted); break;
    case 20:
      status = x3d_world_list_roots(world) + x3d_world_list_children(world, (uint32_t)number());
      break;
    case 21: status = x3d_world_list_value(world, (uint32_t)number(), (uint16_t)number()); break;
    case 22:
      status = x3d_world_copy_numbers(world, numbers, below(64), &wanted) +
               x3d_world_field_count(world, (uint32_t)number(), &ordinal);
      break;
    case 24: {
      const char *name = names[below(5)];
      size_t length = below(4) ? strlen(name) : below(strlen(name) + 1);
      status =
          x3d_world_field_named(world, (uint32_t)number(), (const uint8_t *)name, length, &field);
      break;
    }
    case 25:
      if (!below(8)) status = x3d_world_forget_below(world, number());
      status += x3d_world_list_changed(world, number()) +
                x3d_world_copy_changed(world, changes, below(8), &wanted);
      break;
    case 23: {
      int from = (int)below(4);
      memcpy(bytes, shots[from], lengths[from]);
      if (lengths[from] && !below(3)) bytes[below(lengths[from])] ^= (uint8_t)(1 << below(8));
      size_t length = below(4) ? lengths[from] : below(lengths[from] + 1);
      status = x3d_world_load(world, (uint32_t)number(), bytes, length, &saved);
      if (status == X3D_DONE) next[w] = saved.applied + 1;
      break;
    }
    }
    done += status == X3D_DONE;
  }
  for (int w = 0; w < 4; w++) x3d_world_close(&worlds[w]);
  printf("%ld calls, %ld of them done\n", calls, done);
  return done == 0;
}
