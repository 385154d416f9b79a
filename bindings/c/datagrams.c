/* What datagrams say and who sends them; a host that takes from one viewer alone, that says what it
 * heard, and drops inputs by it; a snapshot that is too large for pieces. */
#include "x3d.h"
#include <stdio.h>
#include <stdlib.h>
#include <string.h>

static const uint8_t scene[] = "#X3D V3.0 utf8\nDEF Motor TimeSensor { loop TRUE }\n";

enum { CLOCKS = 10 };

static void must(bool holds, const char *what) {
  if (holds) return;
  fprintf(stderr, "datagrams: %s\n", what);
  exit(1);
}

static struct x3d_datagram read(const uint8_t *bytes, size_t length) {
  struct x3d_datagram datagram;
  memset(&datagram, 0x55, sizeof datagram);
  must(x3d_datagram_read(bytes, length, &datagram) == X3D_DONE, "a datagram isn't read");
  return datagram;
}

static void reads_what_a_host_sends(struct x3d_host *host) {
  uint8_t out[X3D_PACKET];
  size_t length;
  must(x3d_host_packet(host, 3, out, sizeof out, &length) == X3D_DONE, "there is no input 3");
  struct x3d_datagram d = read(out, length);
  must(d.tag == X3D_TAG_INPUT && d.who == X3D_NO_VIEWER && d.point == X3D_NO_POINT &&
           d.number == 3 && d.time == 3000000 && d.boot == 0,
       "a clock says something else");
  must(x3d_host_ack(host, 1, out, sizeof out, &length) == X3D_DONE, "there is no ack");
  d = read(out, length);
  must(d.tag == X3D_TAG_ACK && d.who == 1 && d.number == 0, "an ack says something else");
  must(x3d_host_floor_packet(host, out, sizeof out, &length) == X3D_DONE, "there is no floor");
  d = read(out, length);
  must(d.tag == X3D_TAG_FLOOR && d.who == X3D_NO_VIEWER && d.number == 1,
       "a floor says something else");
  out[0] ^= 1;
  struct x3d_datagram before = d;
  must(x3d_datagram_read(out, length, &d) == X3D_BAD_PACKET && d.number == before.number,
       "no datagram is read");
}

static size_t asked(struct x3d_viewer *viewer, uint8_t *out) {
  size_t length;
  must(x3d_viewer_ask(viewer, out, X3D_PACKET, &length) == X3D_DONE, "there is no ask");
  return length;
}

static void takes_from_one_alone(struct x3d_host *host, struct x3d_viewer *one) {
  uint8_t out[X3D_PACKET];
  struct x3d_aim aim = {1, -2, 3, 0, 0, -1000000};
  struct x3d_reply reply = {77, 77, 77};
  uint32_t offer;
  uint64_t before, after, heard = 77;
  size_t length;
  must(x3d_viewer_offer(one, true, &aim, &offer) == X3D_DONE &&
           x3d_viewer_resend(one, 0, out, sizeof out, &length) == X3D_DONE,
       "there is no offer");
  struct x3d_datagram d = read(out, length);
  must(d.tag == X3D_TAG_OFFER && d.who == 1 && d.boot == 7 && d.number == 1 &&
           d.point == X3D_POINT_DOWN && d.aim.origin_x == 1 && d.aim.origin_y == -2 &&
           d.aim.origin_z == 3 && d.aim.direction_z == -1000000,
       "an offer says something else");
  x3d_host_count(host, &before);
  must(x3d_host_take_from(host, 0, out, length, &reply) == X3D_BAD_VIEWER && reply.kind == 77,
       "another's offer is taken");
  x3d_host_count(host, &after);
  must(before == after, "another's offer is numbered");
  must(x3d_host_take_from(host, 1, out, length, &reply) == X3D_DONE &&
           reply.kind == X3D_REPLY_NUMBERED && reply.number == before + 1,
       "its own offer is refused");
  length = asked(one, out);
  d = read(out, length);
  must(d.tag == X3D_TAG_ASK && d.who == 1 && d.number == 1, "an ask says something else");
  must(x3d_host_take_from(host, 0, out, length, &reply) == X3D_BAD_VIEWER &&
           x3d_host_heard(host, 1, &heard) == X3D_DONE && heard == 0,
       "another's ask is heard");
  must(x3d_host_take_from(host, 1, out, length, &reply) == X3D_DONE &&
           x3d_host_heard(host, 1, &heard) == X3D_DONE && heard == 1,
       "its own ask isn't heard");
  must(x3d_host_heard(host, 2, &heard) == X3D_RANGE && heard == 1, "a third viewer is heard");
}

/* The viewer has the first n inputs, and asks. */
static void has(struct x3d_host *host, struct x3d_viewer *viewer, uint64_t n) {
  uint8_t out[X3D_PACKET];
  struct x3d_taken taken;
  struct x3d_reply reply;
  size_t length;
  for (uint64_t k = 1; k <= n; k++)
    must(x3d_host_packet(host, k, out, sizeof out, &length) == X3D_DONE &&
             x3d_viewer_take(viewer, out, length, &taken) == X3D_DONE,
         "an input isn't taken");
  length = asked(viewer, out);
  must(x3d_host_take(host, out, length, &reply) == X3D_DONE, "an ask isn't taken");
}

static void drops_what_all_have(struct x3d_host *host, struct x3d_viewer *zero,
                                struct x3d_viewer *one) {
  uint64_t floor, heard;
  must(x3d_host_keep(host, 0) == X3D_DONE && x3d_host_floor(host, &floor) == X3D_DONE && floor == 1,
       "inputs are dropped that a viewer asked for");
  has(host, one, 8);
  has(host, zero, 6);
  must(x3d_host_heard(host, 0, &heard) == X3D_DONE && heard == 7 &&
           x3d_host_heard(host, 1, &heard) == X3D_DONE && heard == 9,
       "the host heard something else");
  must(x3d_host_keep(host, 2) == X3D_DONE && x3d_host_floor(host, &floor) == X3D_DONE && floor == 5,
       "the last two that both have are not kept");
  must(x3d_host_keep(host, 100) == X3D_DONE && x3d_host_floor(host, &floor) == X3D_DONE &&
           floor == 5,
       "the floor goes back");
  must(x3d_host_keep(host, 0) == X3D_DONE && x3d_host_floor(host, &floor) == X3D_DONE && floor == 7,
       "inputs are kept that both have");
}

static void is_too_large_for_pieces(struct x3d_viewer *viewer) {
  size_t length, most = (size_t)1 << 26;
  uint32_t count = 77;
  uint8_t *bytes = calloc(1, most + 1);
  must(bytes && x3d_viewer_make_snapshot(viewer) == X3D_DONE &&
           x3d_viewer_copy_text(viewer, bytes, most, &length) == X3D_DONE,
       "there is no snapshot");
  must(x3d_viewer_piece_count(viewer, bytes, length, &count) == X3D_DONE && count > 0,
       "a snapshot has no pieces");
  must(x3d_viewer_piece_count(viewer, bytes, most, &count) == X3D_DONE && count == 349526,
       "2^26 bytes have other pieces");
  must(x3d_viewer_piece_count(viewer, bytes, most + 1, &count) == X3D_TOO_LARGE && count == 0,
       "2^26 + 1 bytes have pieces");
  bytes[0] ^= 1;
  must(x3d_viewer_piece_count(viewer, bytes, length, &count) == X3D_DONE && count == 0,
       "other bytes have pieces");
  free(bytes);
}

int main(void) {
  struct x3d_host host = X3D_NONE;
  struct x3d_viewer viewers[2] = {X3D_NONE, X3D_NONE};
  uint8_t line[64];
  uint64_t number;
  size_t wanted;
  must(x3d_host_open(&host, scene, sizeof scene - 1, 2) == X3D_DONE, "there is no host");
  for (uint8_t who = 0; who < 2; who++)
    must(x3d_viewer_open(&viewers[who], scene, sizeof scene - 1, who, 7, line, sizeof line,
                         &wanted) == X3D_DONE,
         "there is no viewer");
  for (int64_t k = 1; k <= CLOCKS; k++)
    must(x3d_host_clock(&host, k * 1000000, &number) == X3D_DONE, "there is no clock");
  reads_what_a_host_sends(&host);
  takes_from_one_alone(&host, &viewers[1]);
  drops_what_all_have(&host, &viewers[0], &viewers[1]);
  is_too_large_for_pieces(&viewers[0]);
  x3d_host_close(&host);
  must(x3d_host_keep(&host, 0) == X3D_CLOSED &&
           x3d_host_take_from(&host, 0, line, 0, &(struct x3d_reply){0}) == X3D_CLOSED,
       "a closed host answers");
  for (int who = 0; who < 2; who++) x3d_viewer_close(&viewers[who]);
  puts("datagrams say who sends them, and a host keeps what its viewers lack");
  return 0;
}
