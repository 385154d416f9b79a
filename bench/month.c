/* A host and a viewer of a door that moves, for as many inputs as a month has at 38 a second. They
 * pass datagrams in memory, of which one in ten is lost. The viewer clicks, and forgets all lines
 * of its trace but the last ones; the host drops what the viewer has. A hundred times another
 * viewer joins by a snapshot of it in pieces, goes on with it for a while, and has to have the same
 * world. */
#define _POSIX_C_SOURCE 199309L
#include "x3d.h"
#include <stdio.h>
#include <stdlib.h>
#include <string.h>
#include <time.h>

static const char scene[] =
    "#X3D V3.0 utf8\nDEF Motor TimeSensor { cycleInterval 2 loop TRUE }\nDEF Slide "
    "PositionInterpolator { key [ 0, 1 ] keyValue [ 0 0 0, 1 0 0 ] }\n"
    "DEF Door Transform { children [ DEF Knob TouchSensor {} Shape { "
    "geometry Box { size 1 2 0.1 } } ] }\nROUTE Knob.touchTime TO Motor.startTime\n"
    "ROUTE Motor.fraction_changed TO Slide.set_fraction\nROUTE Slide.value_changed TO "
    "Door.translation\n";

enum { LINES = 1000, CLICKS = 500, ASKS = 16, STEP = 26000 };
enum { JOINS = 100, TOGETHER = 100, LOST = 10 };

static struct x3d_host host = X3D_NONE;
static uint64_t sent, lost, joins;
static uint32_t boots = 1;

static void stop(const char *why) {
  fprintf(stderr, "bench/month: %s\n", why);
  exit(1);
}

static void done(uint8_t status, const char *what) {
  if (status == X3D_DONE) return;
  fprintf(stderr, "bench/month: %s: %s\n", what, x3d_status_text(status));
  exit(1);
}

static double now(void) {
  struct timespec t;
  clock_gettime(CLOCK_MONOTONIC, &t);
  return (double)t.tv_sec + (double)t.tv_nsec / 1e9;
}

static double megabytes(void) {
  long size, resident = 0;
  FILE *file = fopen("/proc/self/statm", "r");
  if (!file || fscanf(file, "%ld %ld", &size, &resident) != 2) stop("no /proc/self/statm");
  fclose(file);
  return (double)resident * 4096 / 1e6;
}

/* Whether the next datagram arrives: nine of ten do, by numbers of a generator (xorshift). */
static int arrives(void) {
  static uint64_t state = 88172645463325252;
  state ^= state << 13, state ^= state >> 7, state ^= state << 17;
  int is_lost = state % LOST == 0;
  sent++, lost += (uint64_t)is_lost;
  return !is_lost;
}

static void open_viewer(struct x3d_viewer *viewer, uint8_t who) {
  uint8_t line[64];
  size_t wanted;
  done(x3d_viewer_open(viewer, (const uint8_t *)scene, sizeof scene - 1, who, ++boots, line,
                       sizeof line, &wanted),
       "a viewer");
}

static uint64_t applied_by(struct x3d_viewer *viewer) {
  uint64_t count;
  done(x3d_viewer_applied(viewer, &count), "how many inputs were applied");
  return count;
}

static void carry(struct x3d_viewer *viewer, uint64_t number) {
  uint8_t bytes[X3D_PACKET];
  size_t length;
  struct x3d_taken taken;
  done(x3d_host_packet(&host, number, bytes, sizeof bytes, &length), "an input's datagram");
  if (arrives()) done(x3d_viewer_take(viewer, bytes, length, &taken), "an input");
}

/* Asks for what is missing, and gets it, where nothing is lost. */
static void ask(struct x3d_viewer *viewer, uint8_t who) {
  uint8_t bytes[X3D_PACKET];
  size_t length;
  struct x3d_reply reply;
  struct x3d_taken taken;
  for (uint32_t k = 0; x3d_viewer_resend(viewer, k, bytes, sizeof bytes, &length) == X3D_DONE; k++)
    if (arrives()) done(x3d_host_take(&host, bytes, length, &reply), "an offer");
  done(x3d_host_ack(&host, who, bytes, sizeof bytes, &length), "an ack");
  if (arrives()) done(x3d_viewer_take(viewer, bytes, length, &taken), "an ack");
  done(x3d_viewer_ask(viewer, bytes, sizeof bytes, &length), "an ask");
  if (!arrives()) return;
  done(x3d_host_take(&host, bytes, length, &reply), "an ask");
  for (uint64_t k = 0; reply.kind == X3D_REPLY_ASKED && k < reply.count; k++)
    carry(viewer, reply.number + k);
}

static void meet(struct x3d_viewer *viewer, uint8_t who) {
  uint64_t count;
  do {
    ask(viewer, who);
    done(x3d_host_count(&host, &count), "the number of inputs");
  } while (applied_by(viewer) < count);
}

/* Numbers a clock. The viewer clicks now and then, and asks each 16 inputs. */
static void step(struct x3d_viewer *viewer, struct x3d_viewer *other) {
  static const struct x3d_aim aim = {0, 0, 10000000, 0, 0, -1000000};
  int64_t time;
  uint64_t number;
  uint32_t offer;
  done(x3d_host_time(&host, &time), "the time");
  done(x3d_host_clock(&host, time + STEP, &number), "a clock");
  carry(viewer, number);
  if (other) carry(other, number);
  if (number % CLICKS < 2)
    done(x3d_viewer_offer(viewer, number % CLICKS, &aim, &offer), "an offer");
  if (number % ASKS) return;
  ask(viewer, 0);
  if (other) ask(other, 1);
}

static uint8_t *world_of(struct x3d_viewer *viewer, uint64_t first, size_t *length) {
  size_t trace, rest;
  done(x3d_viewer_make_trace(viewer, first), "a trace");
  if (x3d_viewer_copy_text(viewer, NULL, 0, &trace) != X3D_ROOM && trace) stop("no trace");
  uint8_t *out = malloc(trace + (1 << 16));
  if (!out) stop("no memory");
  done(x3d_viewer_copy_text(viewer, out, trace, length), "a trace");
  done(x3d_viewer_make_scene(viewer), "a scene");
  done(x3d_viewer_copy_text(viewer, out + trace, 1 << 16, &rest), "a scene");
  *length = trace + rest;
  return out;
}

static void compare(struct x3d_viewer *viewer, struct x3d_viewer *other, uint64_t first) {
  size_t length, second;
  uint8_t *one = world_of(viewer, first, &length), *two = world_of(other, first, &second);
  if (length != second || memcmp(one, two, length)) stop("two worlds differ");
  free(one);
  free(two);
}

/* Another viewer joins. Gives the bytes of the snapshot, the milliseconds that it took to make, and
 * those until the other viewer had its world. */
static void join(struct x3d_viewer *viewer, size_t *length, double *made, double *joined) {
  struct x3d_viewer other = X3D_NONE;
  uint8_t bytes[X3D_PACKET];
  uint32_t count, gathered = X3D_GATHERED_NEW;
  size_t wanted;
  uint64_t applied;
  meet(viewer, 0);
  double start = now();
  done(x3d_viewer_make_snapshot(viewer), "a snapshot");
  (void)x3d_viewer_copy_text(viewer, NULL, 0, length);
  uint8_t *shot = malloc(*length);
  if (!shot) stop("no memory");
  done(x3d_viewer_copy_text(viewer, shot, *length, length), "a snapshot");
  *made = (now() - start) * 1e3;
  open_viewer(&other, 1);
  start = now();
  done(x3d_viewer_piece_count(viewer, shot, *length, &count), "pieces");
  while (gathered != X3D_GATHERED_WHOLE)
    for (uint32_t k = 0; k < count && gathered != X3D_GATHERED_WHOLE; k++) {
      done(x3d_viewer_piece(viewer, shot, *length, k, bytes, sizeof bytes, &wanted), "a piece");
      if (arrives()) done(x3d_viewer_gather(&other, bytes, wanted, &gathered), "a piece");
    }
  done(x3d_viewer_join(&other, ++boots, &applied), "a join");
  *joined = (now() - start) * 1e3;
  for (int k = 0; k < TOGETHER; k++) step(viewer, &other);
  meet(viewer, 0);
  meet(&other, 1);
  compare(viewer, &other, applied + 1);
  x3d_viewer_close(&other);
  free(shot);
  joins++;
}

/* The viewer keeps the lines of its last inputs, and the host the inputs that the viewer lacks. */
static void drop_old(struct x3d_viewer *viewer) {
  uint64_t applied = applied_by(viewer);
  done(x3d_viewer_forget_below(viewer, applied > LINES ? applied - LINES : 0), "old lines");
  done(x3d_host_drop_below(&host, applied + 1), "old inputs");
}

int main(int words, char **word) {
  uint64_t most = words > 1 ? strtoull(word[1], NULL, 10) : 100000000, count = 0, row = 10000;
  struct x3d_viewer viewer = X3D_NONE;
  size_t length = 0;
  double made = 0, joined = 0;
  if (most < 10000) stop("at least 10000 inputs");
  done(x3d_host_open(&host, (const uint8_t *)scene, sizeof scene - 1, 2), "a host");
  open_viewer(&viewer, 0);
  puts("| Inputs | Memory | A million inputs | Snapshot | Made | Joined |");
  puts("|---|---|---|---|---|---|");
  double start = now();
  for (uint64_t last = 0, next = most / JOINS; count < most;) {
    step(&viewer, NULL);
    done(x3d_host_count(&host, &count), "the number of inputs");
    if (count % LINES < 3) drop_old(&viewer);
    if (count < next && count < row) continue;
    double seconds = now() - start;
    join(&viewer, &length, &made, &joined);
    if (count >= next) next += most / JOINS;
    if (count >= row) {
      printf("| %llu | %.1f MB | %.2f s | %zu bytes | %.2f ms | %.2f ms |\n",
             (unsigned long long)row, megabytes(), seconds / (double)(count - last) * 1e6, length,
             made, joined);
      fflush(stdout);
      last = count, row *= 10, start = now();
    }
  }
  printf("%llu of %llu datagrams were lost, %llu viewers joined\n", (unsigned long long)lost,
         (unsigned long long)sent, (unsigned long long)joins);
  if (lost < sent / (LOST + 1)) stop("too few were lost");
  x3d_viewer_close(&viewer);
  x3d_host_close(&host);
  return 0;
}
