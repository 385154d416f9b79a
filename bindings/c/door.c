/* Opens a door by a click: make library && cc -Iinclude bindings/c/door.c out/libx3d.a -o out/door
 * && out/door */
#include "x3d.h"
#include <stdio.h>
#include <stdlib.h>

static const char scene[] =
    "#X3D V3.0 utf8\n"
    "DEF Motor TimeSensor { cycleInterval 2 }\n"
    "DEF Slide PositionInterpolator { key [ 0, 1 ] keyValue [ 0 0 0, 1 0 0 ] }\n"
    "DEF Door Transform {\n"
    "  children [\n"
    "    DEF Knob TouchSensor {}\n"
    "    Shape { geometry Box { size 1 2 0.1 } }\n"
    "  ]\n"
    "}\n"
    "ROUTE Knob.touchTime TO Motor.startTime\n"
    "ROUTE Motor.fraction_changed TO Slide.set_fraction\n"
    "ROUTE Slide.value_changed TO Door.translation\n";

/* Prints the text that was made last. */
static void print_text(struct x3d_world *world) {
  size_t wanted = 0;
  x3d_world_copy_text(world, (uint8_t[1]){0}, 0, &wanted);
  uint8_t *text = malloc(wanted + 1);
  if (text && x3d_world_copy_text(world, text, wanted, &wanted) == X3D_DONE)
    fwrite(text, 1, wanted, stdout);
  free(text);
}

int main(void) {
  struct x3d_world world = X3D_NONE;
  struct x3d_aim aim = {0, 0, 10000000, 0, 0, -1000000};
  struct x3d_work work;
  uint8_t refusal[64];
  size_t wanted;
  if (x3d_world_open(&world, (const uint8_t *)scene, sizeof scene - 1, refusal, sizeof refusal,
                     &wanted) != X3D_DONE) {
    fprintf(stderr, "%.*s\n", (int)wanted, refusal);
    return 1;
  }
  x3d_world_point(&world, 1, 10000000, 0, true, &aim, &work);
  x3d_world_point(&world, 2, 10000001, 0, false, &aim, &work);
  x3d_world_clock(&world, 3, 11000001, &work);
  x3d_world_clock(&world, 4, 12000001, &work);
  if (x3d_world_make_trace(&world, 2) == X3D_DONE) print_text(&world);
  x3d_world_close(&world);
  return 0;
}
