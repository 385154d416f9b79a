/* A host and two viewers of one scene, each with a UDP socket of its own on this machine. Every
 * fifth datagram is lost. Viewer 0 clicks on the door. A third viewer comes late, when the host has
 * dropped its first inputs: it gets a snapshot of viewer 0 in pieces. At the end all three have
 * applied the same inputs, and their worlds have the same bytes. */
#include "x3d.h"
#include <arpa/inet.h>
#include <stdio.h>
#include <stdlib.h>
#include <string.h>
#include <sys/socket.h>
#include <unistd.h>

static const char scene[] = "#X3D V3.0 utf8\nDEF Motor TimeSensor { cycleInterval 2 }\nDEF Slide "
                            "PositionInterpolator { key [ 0, 1 ] keyValue [ 0 0 0, 1 0 0 ] }\n"
                            "DEF Door Transform { children [ DEF Knob TouchSensor {} Shape { "
                            "geometry Box { size 1 2 0.1 } } ] }\nROUTE Knob.touchTime TO "
                            "Motor.startTime\nROUTE Motor.fraction_changed TO "
                            "Slide.set_fraction\nROUTE Slide.value_changed TO Door.translation\n";

enum { VIEWERS = 3, HOST = VIEWERS, CLOCKS = 60, LATE = 40, TURNS = 2000 };

static int ends[VIEWERS + 1];
static struct sockaddr_in addresses[VIEWERS + 1];
static long sent, lost;

static void stop(const char *why) {
  fprintf(stderr, "share: %s\n", why);
  exit(1);
}

static void open_sockets(void) {
  for (int k = 0; k <= VIEWERS; k++) {
    struct sockaddr_in at = {.sin_family = AF_INET, .sin_addr.s_addr = htonl(INADDR_LOOPBACK)};
    socklen_t length = sizeof at;
    ends[k] = socket(AF_INET, SOCK_DGRAM, 0);
    if (ends[k] < 0 || bind(ends[k], (struct sockaddr *)&at, sizeof at))
      stop("a port can't be bound");
    if (getsockname(ends[k], (struct sockaddr *)&at, &length)) stop("a port has no number");
    addresses[k] = at;
  }
}

/* Sends a datagram, but every fifth. */
static void carry(int from, int to, const uint8_t *bytes, size_t length) {
  if (++sent % 5 == 0) {
    lost++;
    return;
  }
  if (sendto(ends[from], bytes, length, 0, (struct sockaddr *)&addresses[to],
             sizeof addresses[to]) < 0)
    stop("sending failed");
}

/* The next datagram that came, and from whom; 0 where none did. */
static size_t come(int at, uint8_t *bytes, int *from) {
  struct sockaddr_in peer;
  socklen_t length = sizeof peer;
  ssize_t got =
      recvfrom(ends[at], bytes, X3D_PACKET, MSG_DONTWAIT, (struct sockaddr *)&peer, &length);
  if (got <= 0) return 0;
  for (*from = 0; *from <= VIEWERS; ++*from)
    if (addresses[*from].sin_port == peer.sin_port) return (size_t)got;
  return 0;
}

/* The host takes what came, and sends what belongs to it: the inputs that are asked for, or its
 * floor, and an ack. */
static void host_turn(struct x3d_host *host) {
  uint8_t bytes[X3D_PACKET], out[X3D_PACKET];
  size_t length, wanted;
  int from;
  while ((length = come(HOST, bytes, &from)) > 0) {
    struct x3d_reply reply;
    if (x3d_host_take(host, bytes, length, &reply) != X3D_DONE) continue;
    for (uint64_t k = 0; reply.kind == X3D_REPLY_ASKED && k < reply.count; k++)
      if (x3d_host_packet(host, reply.number + k, out, sizeof out, &wanted) == X3D_DONE)
        carry(HOST, from, out, wanted);
    if (reply.kind == X3D_REPLY_BELOW &&
        x3d_host_floor_packet(host, out, sizeof out, &wanted) == X3D_DONE)
      carry(HOST, from, out, wanted);
    if (x3d_host_ack(host, (uint8_t)from, out, sizeof out, &wanted) == X3D_DONE)
      carry(HOST, from, out, wanted);
  }
}

/* A viewer takes what came, sends its offers again, and asks for what it lacks. Tells whether it is
 * behind the floor. */
static int viewer_turn(struct x3d_viewer *viewer, int who) {
  uint8_t bytes[X3D_PACKET];
  size_t length, wanted;
  int from, behind = 0;
  while ((length = come(who, bytes, &from)) > 0) {
    struct x3d_taken taken;
    uint32_t gathered, boot;
    uint64_t applied;
    int status = x3d_viewer_take(viewer, bytes, length, &taken);
    if (status == X3D_DONE) behind |= taken.kind == X3D_TOOK_BEHIND;
    if (status == X3D_NOT_FOR_ME &&
        x3d_viewer_gather(viewer, bytes, length, &gathered) == X3D_DONE &&
        gathered == X3D_GATHERED_WHOLE)
      if (x3d_viewer_boot(viewer, &boot) != X3D_DONE ||
          x3d_viewer_join(viewer, boot + 1, &applied) != X3D_DONE)
        stop("a viewer did not join");
  }
  for (uint32_t place = 0;
       x3d_viewer_resend(viewer, place, bytes, sizeof bytes, &wanted) == X3D_DONE; place++)
    carry(who, HOST, bytes, wanted);
  if (x3d_viewer_ask(viewer, bytes, sizeof bytes, &wanted) == X3D_DONE)
    carry(who, HOST, bytes, wanted);
  return behind;
}

/* Sends the pieces of a viewer's snapshot, as it was made last, to another viewer. */
static void send_pieces(struct x3d_viewer *viewer, int who, int to, const uint8_t *shot,
                        size_t length) {
  uint8_t out[X3D_PACKET];
  size_t wanted;
  for (uint32_t k = 0;
       x3d_viewer_piece(viewer, shot, length, k, out, sizeof out, &wanted) == X3D_DONE; k++)
    carry(who, to, out, wanted);
}

static size_t world_of(struct x3d_viewer *viewer, uint8_t *out, size_t room) {
  size_t trace, scene_length;
  if (x3d_viewer_make_trace(viewer, 0) != X3D_DONE ||
      x3d_viewer_copy_text(viewer, out, room, &trace) != X3D_DONE)
    stop("there is no trace");
  if (x3d_viewer_make_scene(viewer) != X3D_DONE ||
      x3d_viewer_copy_text(viewer, out + trace, room - trace, &scene_length) != X3D_DONE)
    stop("there is no scene");
  return trace + scene_length;
}

int main(void) {
  static uint8_t shot[1 << 16], first[1 << 16], other[1 << 16];
  struct x3d_host host = X3D_NONE;
  struct x3d_viewer viewers[VIEWERS] = {X3D_NONE, X3D_NONE, X3D_NONE};
  struct x3d_aim aim = {0, 0, 10000000, 0, 0, -1000000};
  uint8_t line[64];
  size_t wanted, length = 0;
  uint64_t number, count, applied[VIEWERS];
  uint32_t offer;
  open_sockets();
  if (x3d_host_open(&host, (const uint8_t *)scene, sizeof scene - 1, VIEWERS) != X3D_DONE)
    stop("there is no host");
  int last = CLOCKS + TURNS, open = 2;
  for (int turn = 1; turn <= last; turn++) {
    if (turn == LATE) {
      /* Who comes now can't have all: the first inputs are dropped. */
      open = VIEWERS;
      if (x3d_viewer_applied(&viewers[0], &count) != X3D_DONE ||
          x3d_host_drop_below(&host, count + 1) != X3D_DONE)
        stop("inputs were not dropped");
      if (x3d_viewer_make_snapshot(&viewers[0]) != X3D_DONE ||
          x3d_viewer_copy_text(&viewers[0], shot, sizeof shot, &length) != X3D_DONE)
        stop("there is no snapshot");
    }
    for (int who = 0; who < open; who++)
      if (!viewers[who].at &&
          x3d_viewer_open(&viewers[who], (const uint8_t *)scene, sizeof scene - 1, (uint8_t)who, 1,
                          line, sizeof line, &wanted) != X3D_DONE)
        stop("there is no viewer");
    if (turn <= CLOCKS && x3d_host_clock(&host, 10000000 + turn * 50000, &number) != X3D_DONE)
      stop("no clock was numbered");
    if (turn == 5 || turn == 6)
      if (x3d_viewer_offer(&viewers[0], turn == 5, &aim, &offer) != X3D_DONE)
        stop("no point was offered");
    for (int who = 0; who < open; who++)
      if (viewer_turn(&viewers[who], who)) send_pieces(&viewers[0], 0, who, shot, length);
    host_turn(&host);
    int same = turn > CLOCKS;
    if (x3d_host_count(&host, &count) != X3D_DONE) stop("the host is gone");
    for (int who = 0; who < open; who++)
      if (x3d_viewer_applied(&viewers[who], &applied[who]) != X3D_DONE || applied[who] != count)
        same = 0;
    if (same) break;
    if (turn == last) stop("the viewers did not come to the end");
  }
  length = world_of(&viewers[0], first, sizeof first);
  for (int who = 1; who < VIEWERS; who++)
    if (world_of(&viewers[who], other, sizeof other) != length || memcmp(first, other, length) != 0)
      stop("two worlds differ");
  if (!strstr((const char *)first, "Door.translation 1 0 0\n")) stop("the door is not open");
  if (lost < sent / 5) stop("nothing was lost");
  printf("%llu inputs, %ld datagrams, %ld of them lost: three equal worlds of %zu bytes\n",
         (unsigned long long)count, sent, lost, length);
  x3d_host_close(&host);
  for (int who = 0; who < VIEWERS; who++) x3d_viewer_close(&viewers[who]);
  for (int k = 0; k <= VIEWERS; k++) close(ends[k]);
  return 0;
}
