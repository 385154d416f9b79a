/* Runs a plain job from standard input, and prints the trace and then the scene: what `x3d_share
 * run` prints. A plain job is lines of whole numbers, `clock NUMBER TIME` or `point NUMBER TIME
 * VIEWER DOWN OX OY OZ DX DY DZ`, a line `scene`, and the scene. Between the inputs it goes back
 * and forth by a snapshot where the word `again` is given. */
#include "x3d.h"
#include <inttypes.h>
#include <stdio.h>
#include <stdlib.h>
#include <string.h>

static uint8_t *read_all(size_t *length) {
  size_t room = 1 << 16;
  uint8_t *bytes = malloc(room);
  *length = 0;
  while (bytes) {
    *length += fread(bytes + *length, 1, room - 1 - *length, stdin);
    bytes[*length] = 0;
    if (*length < room - 1) break;
    bytes = realloc(bytes, room *= 2);
  }
  return bytes;
}

static int fail(const char *call, int status) {
  fprintf(stderr, "%s: %d\n", call, status);
  return 2;
}

static uint8_t *text_of(struct x3d_world *world, size_t *length) {
  uint8_t none[1];
  x3d_world_copy_text(world, none, 0, length);
  uint8_t *text = malloc(*length + 1);
  if (text && x3d_world_copy_text(world, text, *length, length) != X3D_DONE) *length = 0;
  return text;
}

static int print_text(struct x3d_world *world) {
  size_t length;
  uint8_t *text = text_of(world, &length);
  if (!text) return 1;
  fwrite(text, 1, length, stdout);
  free(text);
  return 0;
}

static int apply(struct x3d_world *world, const char *line) {
  struct x3d_aim a;
  struct x3d_work work;
  uint64_t number;
  int64_t time;
  unsigned viewer, down;
  if (sscanf(line, "clock %" SCNu64 " %" SCNd64, &number, &time) == 2)
    return x3d_world_clock(world, number, time, &work);
  if (sscanf(line,
             "point %" SCNu64 " %" SCNd64 " %u %u %" SCNd64 " %" SCNd64 " %" SCNd64 " %" SCNd64
             " %" SCNd64 " %" SCNd64,
             &number, &time, &viewer, &down, &a.origin_x, &a.origin_y, &a.origin_z, &a.direction_x,
             &a.direction_y, &a.direction_z) == 10)
    return x3d_world_point(world, number, time, (uint8_t)viewer, down == 1, &a, &work);
  return -1;
}

/* Saves the world and loads it again, as the next boot. */
static int again(struct x3d_world *world, uint32_t *boot) {
  struct x3d_saved saved;
  size_t length;
  int status = x3d_world_make_snapshot(world, *boot);
  if (status != X3D_DONE) return status;
  uint8_t *shot = text_of(world, &length);
  if (!shot) return X3D_MEMORY;
  status = x3d_world_load(world, ++*boot, shot, length, &saved);
  free(shot);
  return status;
}

int main(int count, char **words) {
  struct x3d_world world = X3D_NONE;
  size_t length, wanted;
  uint8_t refusal[64];
  uint32_t boot = 1;
  uint8_t *job = read_all(&length);
  if (!job) return 5;
  uint8_t *scene = job;
  while (scene < job + length && memcmp(scene, "scene\n", 6) != 0)
    scene = (uint8_t *)memchr(scene, '\n', job + length - scene) + 1;
  scene += 6;
  int status =
      x3d_world_open(&world, scene, job + length - scene, refusal, sizeof refusal, &wanted);
  if (status != X3D_DONE) {
    fprintf(stderr, "%.*s\n", (int)wanted, refusal);
    free(job);
    return status;
  }
  for (char *line = (char *)job, *end; (uint8_t *)line < scene - 6; line = end + 1) {
    /* (sscanf asks for the length of all that stands in front of a zero.) */
    *(end = strchr(line, '\n')) = 0;
    if ((status = apply(&world, line)) != X3D_DONE) return fail("apply", status);
    if (count > 1 && (status = again(&world, &boot)) != X3D_DONE) return fail("again", status);
  }
  if ((status = x3d_world_make_trace(&world, 0)) != X3D_DONE) return fail("make_trace", status);
  print_text(&world);
  if ((status = x3d_world_make_scene(&world)) != X3D_DONE) return fail("make_scene", status);
  print_text(&world);
  x3d_world_close(&world);
  free(job);
  return 0;
}
