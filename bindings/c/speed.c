/* Measures calls, in processor time: clocks with nothing to do on a world without nodes and on one
 * of 50,000, a field by its name, the lines and the fields of the last input after few lines and after
 * many, and what 1,000 small worlds take of time and memory. */
#include "x3d.h"
#include <stdio.h>
#include <stdlib.h>
#include <string.h>
#include <time.h>

static double now(void) {
  struct timespec t;
  clock_gettime(CLOCK_PROCESS_CPUTIME_ID, &t);
  return (double)t.tv_sec * 1e9 + (double)t.tv_nsec;
}

static long pages(void) {
  long size, resident = 0;
  FILE *file = fopen("/proc/self/statm", "r");
  if (file && fscanf(file, "%ld %ld", &size, &resident) != 2) resident = 0;
  if (file) fclose(file);
  return resident;
}

static int opened(struct x3d_world *world, const char *text) {
  uint8_t line[64];
  size_t wanted;
  return x3d_world_open(world, (const uint8_t *)text, strlen(text), line, sizeof line, &wanted) ==
         X3D_DONE;
}

static const char door[] = "#X3D V3.0 utf8\nDEF Motor TimeSensor { cycleInterval 2 }\nDEF Slide "
                           "PositionInterpolator { key [ 0, 1 ] keyValue [ 0 0 0, 1 0 0 ] }\n"
                           "DEF Door Transform { children [ DEF Knob TouchSensor {} Shape { "
                           "geometry Box { size 1 2 0.1 } } ] }\nROUTE Knob.touchTime TO "
                           "Motor.startTime\nROUTE Motor.fraction_changed TO "
                           "Slide.set_fraction\nROUTE Slide.value_changed TO Door.translation\n";

static const char running[] =
    "#X3D V3.0 utf8\nDEF Motor TimeSensor { cycleInterval 2 loop TRUE }\nDEF Slide "
    "PositionInterpolator { key [ 0, 1 ] keyValue [ 0 0 0, 1 0 "
    "0 ] }\nDEF Door Transform {}\nROUTE Motor.fraction_changed TO Slide.set_fraction\nROUTE "
    "Slide.value_changed TO Door.translation\n";

static void stop(const char *why) {
  fprintf(stderr, "speed: %s\n", why);
  exit(1);
}

/* Applies as many clocks, one a microsecond, and tells how long each took. */
static double clocks(struct x3d_world *world, uint32_t many) {
  struct x3d_work work;
  double begun = now();
  for (uint32_t n = 1; n <= many; n++)
    if (x3d_world_clock(world, n, n, &work) != X3D_DONE) stop("a clock was not applied");
  return (now() - begun) / many;
}

/* A world whose every clock gives six lines: how long a clock takes, and then to read the lines of
 * the last one. */
static void frames(uint32_t many) {
  struct x3d_world world = X3D_NONE;
  uint8_t out[1024];
  size_t wanted;
  if (!opened(&world, running)) stop("no world");
  double clock = clocks(&world, many), begun = now();
  int reads = 1000;
  for (int k = 0; k < reads; k++)
    if (x3d_world_make_changes(&world, many) != X3D_DONE ||
        x3d_world_copy_text(&world, out, sizeof out, &wanted) != X3D_DONE)
      stop("no lines");
  printf("%u clocks of six lines each: %.0f ns a clock, %.0f ns to read the lines of the last (%zu "
         "bytes)\n",
         many, clock, (now() - begun) / reads, wanted);
  begun = now();
  for (int k = 0; k < reads; k++)
    if (x3d_world_make_changes(&world, many + 1) != X3D_DONE) stop("no lines");
  printf("  %.0f ns to read that nothing came behind them\n", (now() - begun) / reads);
  struct x3d_change changes[8];
  int64_t numbers[8];
  begun = now();
  for (int k = 0; k < reads; k++)
    if (x3d_world_list_changed(&world, many - 1) != X3D_DONE ||
        x3d_world_copy_changed(&world, changes, 8, &wanted) != X3D_DONE ||
        x3d_world_copy_numbers(&world, numbers, 8, &wanted) != X3D_DONE)
      stop("no fields");
  printf("  %.0f ns to list and copy the fields that it set\n", (now() - begun) / reads);
  x3d_world_close(&world);
}

/* How long it takes to find a field by its name, and to read the numbers of its value. */
static void fields(void) {
  struct x3d_world world = X3D_NONE;
  const uint8_t name[] = "translation";
  int64_t numbers[3];
  size_t wanted;
  uint16_t field;
  const uint32_t node = 2;
  const int reads = 1000000;
  if (!opened(&world, running)) stop("no world");
  double begun = now();
  for (int k = 0; k < reads; k++)
    if (x3d_world_field_named(&world, node, name, sizeof name - 1, &field) != X3D_DONE)
      stop("no field");
  printf("a field by its name: %.0f ns, ", (now() - begun) / reads);
  begun = now();
  for (int k = 0; k < reads; k++)
    if (x3d_world_list_value(&world, node, field) != X3D_DONE ||
        x3d_world_copy_numbers(&world, numbers, 3, &wanted) != X3D_DONE)
      stop("no value");
  printf("the numbers of its value: %.0f ns\n", (now() - begun) / reads);
  x3d_world_close(&world);
}

static void many_worlds(void) {
  static struct x3d_world worlds[1000];
  struct x3d_work work;
  long before = pages();
  double begun = now();
  for (int k = 0; k < 1000; k++)
    if (!opened(&worlds[k], door)) stop("no world");
  printf("1,000 worlds of a door: %.0f us and %.1f KB each to open, ", (now() - begun) / 1e6,
         (double)(pages() - before) * 4 / 1000);
  begun = now();
  for (uint32_t n = 1; n <= 100; n++)
    for (int k = 0; k < 1000; k++)
      if (x3d_world_clock(&worlds[k], n, n, &work) != X3D_DONE) stop("a clock was not applied");
  printf("%.0f ns a clock, world after world\n", (now() - begun) / 1e5);
  for (int k = 0; k < 1000; k++) x3d_world_close(&worlds[k]);
}

int main(void) {
  struct x3d_work work;
  struct x3d_world big = X3D_NONE, none = X3D_NONE, bare = X3D_NONE;
  const uint32_t many = 1000000;
  /* First, since what was freed before would be taken again. */
  many_worlds();
  char *text = malloc(1 << 20), *end = text;
  end += sprintf(end, "#X3D V3.0 utf8\n");
  if (!opened(&bare, text)) stop("no world");
  for (int k = 0; k < 50000; k++) end += sprintf(end, "Group {}\n");
  if (!opened(&big, text)) stop("no world");
  printf("a clock with nothing to do: %.0f ns without a node, ", clocks(&bare, many));
  printf("%.0f ns with 50,000\n", clocks(&big, many));
  uint64_t count;
  double begun = now();
  for (uint32_t n = 1; n <= many; n++)
    if (x3d_world_clock(&none, n, n, &work) != X3D_CLOSED) stop("a closed handle was not told");
  printf("a call on a closed handle: %.0f ns, ", (now() - begun) / many);
  begun = now();
  for (uint32_t n = 1; n <= many; n++)
    if (x3d_world_applied(&big, &count) != X3D_DONE) stop("no number");
  printf("one that asks for a number: %.0f ns\n", (now() - begun) / many);
  fields();
  frames(1000);
  frames(200000);
  x3d_world_close(&big);
  x3d_world_close(&bare);
  free(text);
  return 0;
}
