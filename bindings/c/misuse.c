/* Wrong use is answered X3D_MISUSE, and changes nothing: null pointers, a handle of another kind,
 * the copy of a closed handle, a second thread in a handle. Reads of one handle run beside each
 * other. scripts/bindings also builds it for ThreadSanitizer. */
#include "x3d.h"
#include <pthread.h>
#include <stdio.h>
#include <stdlib.h>
#include <string.h>

static const char scene[] = "#X3D V3.0 utf8\nDEF Motor TimeSensor { loop TRUE }\n";

enum { THREADS = 4, TIMES = 20000 };

static void must(bool holds, const char *what) {
  if (holds) return;
  fprintf(stderr, "misuse: %s\n", what);
  exit(1);
}

static const uint8_t *text(void) { return (const uint8_t *)scene; }

static struct x3d_world opened(void) {
  struct x3d_world world = X3D_NONE;
  size_t wanted;
  must(x3d_world_open(&world, text(), sizeof scene - 1, NULL, 0, &wanted) == X3D_DONE, "no world");
  return world;
}

static void null_pointers(void) {
  struct x3d_world world = opened();
  struct x3d_work work = {7, 7, 7};
  size_t wanted = 7;
  uint64_t count = 7;
  must(x3d_world_applied(NULL, &count) == X3D_MISUSE, "a null handle is read");
  must(x3d_world_applied(&world, NULL) == X3D_MISUSE, "a null place is written");
  must(x3d_world_clock(&world, 1, 1, NULL) == X3D_MISUSE, "a null place is written");
  must(x3d_world_clock(NULL, 1, 1, &work) == X3D_MISUSE, "a null handle is called");
  must(x3d_world_point(&world, 1, 1, 0, true, NULL, &work) == X3D_MISUSE, "there is no ray");
  must(x3d_world_open(NULL, text(), 1, NULL, 0, &wanted) == X3D_MISUSE, "a null handle is opened");
  must(x3d_world_open(&world, NULL, 1, NULL, 0, &wanted) == X3D_MISUSE, "a null text is read");
  must(x3d_world_copy_text(&world, NULL, 1, &wanted) == X3D_MISUSE, "nothing has room for 1");
  must(x3d_datagram_read(text(), 1, NULL) == X3D_MISUSE, "a null place is written");
  must(x3d_world_open_part(&world, NULL, NULL, 0, &wanted) == X3D_MISUSE, "a null part is opened");
  must(wanted == 7 && count == 7 && work.sends == 7, "something was written");
  must(x3d_world_applied(&world, &count) == X3D_DONE && count == 0, "the world changed");
  must(x3d_world_copy_text(&world, NULL, 0, &wanted) == X3D_DONE && wanted == 0, "no room is wrong");
  must(x3d_world_load(&world, 1, NULL, 0, &(struct x3d_saved){0, 0}) == X3D_SHORT, "no bytes");
  x3d_world_close(&world);
  x3d_world_close(&world);
  x3d_world_close(NULL);
  x3d_host_close(NULL);
  x3d_viewer_close(NULL);
  x3d_part_close(NULL);
}

static void wrong_handles(void) {
  struct x3d_world world = opened();
  struct x3d_host host = X3D_NONE;
  uint64_t count = 7;
  uint32_t viewers = 7;
  must(x3d_host_open(&host, text(), sizeof scene - 1, 1) == X3D_DONE, "no host");
  struct x3d_world wrong = {host.at};
  struct x3d_viewer viewer = {world.at};
  must(x3d_world_applied(&wrong, &count) == X3D_MISUSE, "a host is read as a world");
  must(x3d_viewer_applied(&viewer, &count) == X3D_MISUSE, "a world is read as a viewer");
  size_t wanted = 7;
  must(x3d_world_open(&wrong, text(), sizeof scene - 1, NULL, 0, &wanted) == X3D_MISUSE,
       "a world is opened in a host");
  x3d_world_close(&wrong);
  must(x3d_host_viewers(&host, &viewers) == X3D_DONE && viewers == 1, "the host changed");
  struct x3d_world copy = world, moved = world;
  world.at = NULL;
  must(x3d_world_applied(&moved, &count) == X3D_DONE && count == 0, "a moved handle is wrong");
  x3d_world_close(&moved);
  must(x3d_world_applied(&moved, &count) == X3D_CLOSED, "a closed handle is open");
  must(x3d_world_applied(&copy, &count) == X3D_MISUSE, "the copy of a closed handle is open");
  x3d_world_close(&copy);
  x3d_host_close(&host);
}

struct turn {
  struct x3d_world *world;
  unsigned done, misused, others;
};

static void tally(struct turn *turn, int status) {
  turn->done += status == X3D_DONE;
  turn->misused += status == X3D_MISUSE;
  turn->others += status != X3D_DONE && status != X3D_MISUSE;
}

static void *reads(void *given) {
  struct turn *turn = given;
  for (int k = 0; k < TIMES; k++) {
    uint64_t count;
    size_t nodes;
    tally(turn, x3d_world_applied(turn->world, &count));
    tally(turn, x3d_world_node_count(turn->world, &nodes));
  }
  return NULL;
}

static void *clocks(void *given) {
  struct turn *turn = given;
  for (int k = 0; k < TIMES; k++) {
    struct x3d_work work;
    uint64_t count;
    if (x3d_world_applied(turn->world, &count) != X3D_DONE) continue;
    int status = x3d_world_clock(turn->world, count + 1, 1000 * (int64_t)(count + 1), &work);
    tally(turn, status == X3D_NOT_NEXT ? X3D_MISUSE : status);
  }
  return NULL;
}

static struct turn together(struct x3d_world *world, void *(*run)(void *)) {
  pthread_t threads[THREADS];
  struct turn turns[THREADS], all = {world, 0, 0, 0};
  for (int k = 0; k < THREADS; k++) {
    turns[k] = (struct turn){world, 0, 0, 0};
    must(pthread_create(&threads[k], NULL, run, &turns[k]) == 0, "no thread");
  }
  for (int k = 0; k < THREADS; k++) {
    pthread_join(threads[k], NULL);
    all.done += turns[k].done;
    all.misused += turns[k].misused;
    all.others += turns[k].others;
  }
  return all;
}

static void threads(void) {
  struct x3d_world world = opened();
  struct turn read = together(&world, reads);
  must(read.done == 2 * THREADS * TIMES, "a read beside another is refused");
  struct turn ticked = together(&world, clocks);
  uint64_t count = 0;
  must(x3d_world_applied(&world, &count) == X3D_DONE, "the world is gone");
  must(ticked.others == 0, "two threads are answered something else");
  must(ticked.done == count, "an input is applied without an answer, or the other way round");
  x3d_world_close(&world);
}

int main(void) {
  null_pointers();
  wrong_handles();
  threads();
  return 0;
}
