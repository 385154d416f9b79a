/* What inputs changed, in a world and in a viewer. Two routes set one field in one clock: its line
 * has the value that was sent, the first, and what it holds is the second. The list of changed
 * fields has it once, with what it holds. */
#include "x3d.h"
#include <stdio.h>
#include <stdlib.h>
#include <string.h>

static const char scene[] =
    "#X3D V3.0 utf8\n"
    "DEF Motor TimeSensor { cycleInterval 2 }\n"
    "DEF Slide PositionInterpolator { key [ 0, 1 ] keyValue [ 0 0 0, 1 0 0 ] }\n"
    "DEF Lift PositionInterpolator { key [ 0, 1 ] keyValue [ 0 0 0, 0 5 0 ] }\n"
    "DEF Door Transform {}\n"
    "ROUTE Motor.fraction_changed TO Slide.set_fraction\n"
    "ROUTE Motor.fraction_changed TO Lift.set_fraction\n"
    "ROUTE Slide.value_changed TO Door.translation\n"
    "ROUTE Lift.value_changed TO Door.translation\n";

enum { DOOR = 3, SENT = 8 };

static void must(bool holds, const char *what) {
  if (holds) return;
  fprintf(stderr, "changed: %s\n", what);
  exit(1);
}

/* What the calls of a world and of a viewer have in common. */
#define CALLS(OF)                                                                                  \
  static void OF##_text(struct x3d_##OF *o, char *text, size_t room) {                             \
    size_t length = 0;                                                                             \
    must(x3d_##OF##_copy_text(o, (uint8_t *)text, room - 1, &length) == X3D_DONE, "a long text");  \
    text[length] = 0;                                                                              \
  }                                                                                                \
  static uint16_t OF##_field(struct x3d_##OF *o, uint32_t node, const char *name) {                \
    uint16_t field = 0;                                                                            \
    must(x3d_##OF##_field_named(o, node, (const uint8_t *)name, strlen(name), &field) == X3D_DONE, \
         "there is no such field");                                                                \
    return field;                                                                                  \
  }                                                                                                \
  static void OF##_draws(struct x3d_##OF *o) {                                                     \
    char text[4096], line[64];                                                                     \
    uint16_t translation = OF##_field(o, DOOR, "translation");                                     \
    must(x3d_##OF##_make_changes(o, 1) == X3D_DONE, "there are no lines");                         \
    OF##_text(o, text, sizeof text);                                                               \
    snprintf(line, sizeof line, "\n1 1 %d %d 0.5 0 0\n", DOOR, translation);                       \
    must(strstr(text, line) != NULL, "the line has another value");                                \
    must(x3d_##OF##_make_value(o, DOOR, translation) == X3D_DONE, "the door has no place");        \
    OF##_text(o, text, sizeof text);                                                               \
    must(strcmp(text, "0 2.5 0") == 0, "the scene has another value");                             \
    struct x3d_change changes[16];                                                                 \
    int64_t numbers[64];                                                                           \
    size_t count = 777, all = 777, found = 0;                                                      \
    must(x3d_##OF##_list_changed(o, 0) == X3D_DONE &&                                              \
             x3d_##OF##_copy_changed(o, changes, 0, &count) == X3D_ROOM && count == 1 &&           \
             x3d_##OF##_copy_changed(o, changes, 16, &count) == X3D_DONE &&                        \
             x3d_##OF##_copy_numbers(o, numbers, 64, &all) == X3D_DONE,                            \
         "no fields are listed");                                                                  \
    for (size_t k = 0; k < count; k++) {                                                           \
      const struct x3d_change *c = &changes[k];                                                    \
      must(c->first + c->count <= all, "numbers are missing");                                     \
      if (c->node != DOOR) continue;                                                               \
      found++;                                                                                     \
      must(c->field == translation && c->value_type == X3D_SFVEC3F && c->count == 3,               \
           "the door has another field");                                                          \
      must(numbers[c->first] == 0 && numbers[c->first + 1] == 2500000 &&                           \
               numbers[c->first + 2] == 0,                                                         \
           "the door is listed with the value that was sent");                                     \
    }                                                                                              \
    must(found == 1, "the door is not listed once");                                               \
    must(x3d_##OF##_list_changed(o, 1) == X3D_DONE &&                                              \
             x3d_##OF##_copy_changed(o, changes, 0, &count) == X3D_DONE && count == 0,             \
         "a field is listed that no later input set");                                             \
    must(x3d_##OF##_forget_below(o, 3) == X3D_RANGE &&                                             \
             x3d_##OF##_forget_below(o, 1) == X3D_DONE &&                                          \
             x3d_##OF##_list_changed(o, 0) == X3D_DONE &&                                          \
             x3d_##OF##_copy_changed(o, changes, 16, &count) == X3D_DONE && count == 1,            \
         "a line of an input is forgotten that isn't below");                                      \
    must(x3d_##OF##_forget_below(o, 2) == X3D_DONE && x3d_##OF##_make_trace(o, 0) == X3D_DONE &&   \
             x3d_##OF##_copy_text(o, NULL, 0, &count) == X3D_DONE && count == 0 &&                 \
             x3d_##OF##_list_changed(o, 0) == X3D_DONE &&                                          \
             x3d_##OF##_copy_changed(o, changes, 0, &count) == X3D_DONE && count == 0,             \
         "a line of an input below is left");                                                      \
    must(x3d_##OF##_make_value(o, DOOR, translation) == X3D_DONE, "the door has no place then");   \
    OF##_text(o, text, sizeof text);                                                               \
    must(strcmp(text, "0 2.5 0") == 0, "the scene is another without its lines");                  \
  }
CALLS(world)
CALLS(viewer)

int main(void) {
  struct x3d_world world = X3D_NONE;
  struct x3d_host host = X3D_NONE;
  struct x3d_viewer viewer = X3D_NONE;
  struct x3d_work work;
  struct x3d_taken taken;
  uint8_t line[64], packet[X3D_PACKET];
  uint64_t number;
  size_t wanted = 777;
  const uint8_t *text = (const uint8_t *)scene;
  must(x3d_world_open(&world, text, sizeof scene - 1, line, sizeof line, &wanted) == X3D_DONE &&
           x3d_world_clock(&world, 1, 1000000, &work) == X3D_DONE && work.sends == SENT,
       "there is no world");
  world_draws(&world);
  must(x3d_host_open(&host, text, sizeof scene - 1, 1) == X3D_DONE &&
           x3d_host_clock(&host, 1000000, &number) == X3D_DONE &&
           x3d_host_packet(&host, number, packet, sizeof packet, &wanted) == X3D_DONE,
       "there is no host");
  size_t length = wanted;
  must(x3d_viewer_open(&viewer, text, sizeof scene - 1, 0, 1, line, sizeof line, &wanted) ==
               X3D_DONE &&
           x3d_viewer_take(&viewer, packet, length, &taken) == X3D_DONE && taken.count == 1,
       "there is no viewer");
  viewer_draws(&viewer);
  x3d_world_close(&world);
  x3d_viewer_close(&viewer);
  x3d_host_close(&host);
  puts("a field that was set again is drawn where it is");
  return 0;
}
