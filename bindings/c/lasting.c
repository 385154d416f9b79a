/* A host whose log the program has: it shows what is stored alone, is resumed from its log, and
 * names what is wrong with one. Also the routes of a scene. */
#include "x3d.h"
#include <stdio.h>
#include <stdlib.h>
#include <string.h>

static const char *const text = "#X3D V3.0 utf8\n"
                                "DEF Motor TimeSensor { loop TRUE }\n"
                                "DEF Slide PositionInterpolator {}\n"
                                "DEF Door Transform {}\n"
                                "ROUTE Motor.fraction_changed TO Slide.set_fraction\n"
                                "ROUTE Slide.value_changed TO Door.translation\n";

/* A mark has 32 bytes, the line of a clock 17, and that of an offer 75. */
enum { MARK = 32, CLOCK = 17, OFFER = 75, MOST = 1024 };

struct log {
  uint8_t bytes[MOST];
  size_t length;
};

static void must(bool holds, const char *what) {
  if (holds)
    return;
  fprintf(stderr, "lasting: %s\n", what);
  exit(1);
}

static uint8_t resumed(struct x3d_host *host, const struct log *log, uint64_t *entry) {
  return x3d_host_resume(host, (const uint8_t *)text, strlen(text), 2, log->bytes, log->length,
                         entry);
}

/* Appends what waits to the log, and returns the append's token. */
static uint32_t append(struct x3d_host *host, struct log *log) {
  uint32_t token;
  size_t wanted;
  must(x3d_host_pending(host, &token, log->bytes + log->length, MOST - log->length, &wanted) ==
           X3D_DONE,
       "nothing is appended");
  log->length += wanted;
  return token;
}

static bool shows(struct x3d_host *host, uint64_t number) {
  uint8_t out[X3D_PACKET];
  size_t length;
  uint8_t status = x3d_host_packet(host, number, out, sizeof out, &length);
  must(status == X3D_DONE || status == X3D_NO_PACKET, "a packet is refused");
  return status == X3D_DONE;
}

/* How many offers of viewer 0 the host's ack tells of. */
static uint64_t acked(struct x3d_host *host) {
  uint8_t out[X3D_PACKET];
  size_t length;
  struct x3d_datagram read;
  must(x3d_host_ack(host, 0, out, sizeof out, &length) == X3D_DONE, "there is no ack");
  must(x3d_datagram_read(out, length, &read) == X3D_DONE, "an ack isn't read");
  return read.number;
}

static void offers(struct x3d_host *host, struct x3d_viewer *viewer) {
  uint8_t out[X3D_PACKET];
  size_t length;
  struct x3d_reply reply;
  must(x3d_viewer_resend(viewer, 0, out, sizeof out, &length) == X3D_DONE &&
           x3d_host_take_from(host, 0, out, length, &reply) == X3D_DONE,
       "an offer is refused");
}

static void shows_what_is_stored(struct x3d_host *host, struct x3d_viewer *viewer,
                                 struct log *log) {
  uint64_t entry = 77, number;
  uint32_t offer, token, again;
  size_t wanted;
  uint8_t small[MARK];
  struct x3d_aim aim = {1, -2, 3, 0, 0, -1000000};
  must(resumed(host, log, &entry) == X3D_DONE && entry == 77, "an empty log is no host");
  must(x3d_host_pending(host, &token, NULL, 0, &wanted) == X3D_DONE && wanted == 0,
       "bytes of nothing");
  must(x3d_host_clock(host, 5000000, &number) == X3D_DONE && number == 1, "no clock");
  must(x3d_viewer_offer(viewer, true, &aim, &offer) == X3D_DONE, "no offer");
  offers(host, viewer);
  int64_t time;
  must(x3d_host_count(host, &number) == X3D_DONE && number == 2, "two inputs aren't numbered");
  must(x3d_host_time(host, &time) == X3D_DONE && time == 5000001, "the time is another");
  must(!shows(host, 1) && !shows(host, 2) && acked(host) == 0, "what waits is shown");
  must(x3d_host_drop_below(host, 2) == X3D_FLOOR_AHEAD, "what waits is dropped");
  must(x3d_host_pending(host, &token, small, sizeof small, &wanted) == X3D_ROOM,
       "no room is wanted");
  must(wanted == MARK + CLOCK + OFFER, "an append has another length");
  must(append(host, log) == token, "an append has two tokens");
  must(x3d_host_clock(host, 6000000, &number) == X3D_DONE && number == 3, "no clock meanwhile");
  must(x3d_host_stored(host, token + 1, X3D_APPEND_STORED) == X3D_NOT_AWAITED && !shows(host, 1),
       "another token is taken");
  must(x3d_host_stored(host, token + 1, X3D_APPEND_TAKEN) == X3D_NOT_AWAITED &&
           x3d_host_count(host, &number) == X3D_DONE,
       "another token ends the host");
  must(x3d_host_stored(host, token, 3) == X3D_RANGE, "an answer that there isn't is taken");
  must(x3d_host_stored(host, token, X3D_APPEND_STORED) == X3D_DONE, "an append isn't stored");
  must(shows(host, 1) && shows(host, 2) && !shows(host, 3) && acked(host) == 1, "stored inputs");
  must(x3d_host_stored(host, token, X3D_APPEND_STORED) == X3D_NOT_AWAITED,
       "a token is taken twice");
  again = append(host, log);
  must(again != token && log->length == MARK + 2 * CLOCK + OFFER, "the second append");
}

/* It is killed while the second append is in doubt: all of it or nothing is in the log. */
static void goes_on(struct x3d_host *host, struct x3d_viewer *viewer, struct log *log) {
  uint64_t entry, number;
  uint32_t token;
  size_t wanted;
  must(x3d_host_pending(host, &token, NULL, 0, &wanted) == X3D_ROOM, "the append is forgotten");
  must(x3d_host_stored(host, token, X3D_APPEND_DOUBT) == X3D_DONE && !host->at,
       "a host in doubt goes on");
  must(x3d_host_count(host, &number) == X3D_CLOSED, "a host in doubt is asked");
  must(resumed(host, log, &entry) == X3D_DONE, "the log isn't read");
  must(x3d_host_count(host, &number) == X3D_DONE && number == 3, "not all is read");
  must(shows(host, 3) && acked(host) == 1, "another host goes on");
  offers(host, viewer);
  must(x3d_host_count(host, &number) == X3D_DONE && number == 3, "an offer is numbered twice");
  log->length -= CLOCK;
  must(resumed(host, log, &entry) == X3D_DONE && x3d_host_count(host, &number) == X3D_DONE &&
           number == 2,
       "a log without the second append is another");
  must(x3d_host_clock(host, 7000000, &number) == X3D_DONE && number == 3, "no clock after it");
  token = append(host, log);
  must(x3d_host_stored(host, token, X3D_APPEND_TAKEN) == X3D_DONE && !host->at,
       "a taken host goes on");
}

static uint8_t refused(const struct log *log, uint64_t *entry) {
  struct x3d_host host = X3D_NONE;
  *entry = 77;
  uint8_t status = resumed(&host, log, entry);
  must(status != X3D_DONE && !host.at, "a wrong log is a host");
  return status;
}

static void names_what_is_wrong(const struct log *log) {
  struct log other = *log;
  uint64_t entry;
  other.bytes[0] ^= 1;
  must(refused(&other, &entry) == X3D_WRONG_SCENE && entry == 77, "the log of another scene");
  other = *log;
  other.length = MARK / 2;
  must(refused(&other, &entry) == X3D_WRONG_SCENE, "half a mark");
  other = *log;
  other.length -= 1;
  must(refused(&other, &entry) == X3D_NOT_A_LOG && entry == 3, "a cut log");
  other = *log;
  memmove(other.bytes + MARK, other.bytes + MARK + CLOCK, other.length - MARK - CLOCK);
  other.length -= CLOCK;
  must(refused(&other, &entry) == X3D_LOG_GAP && entry == 1, "a log without its first entry");
  other = *log;
  memset(other.bytes + MARK + CLOCK + OFFER + 8, 0, 8);
  must(refused(&other, &entry) == X3D_NOT_A_LOG && entry == 3, "a clock at no time");
  other = *log;
  other.bytes[MARK + CLOCK + OFFER + 15] = 1;
  other.bytes[MARK + CLOCK + OFFER + 14] = other.bytes[MARK + CLOCK + OFFER + 13] = 0;
  must(refused(&other, &entry) == X3D_NOT_A_LOG && entry == 3, "a clock that isn't later");
}

static void lists_routes(void) {
  struct x3d_world world = X3D_NONE;
  size_t wanted;
  int64_t found[8];
  uint16_t fields[4];
  must(x3d_world_open(&world, (const uint8_t *)text, strlen(text), NULL, 0, &wanted) == X3D_DONE,
       "no world");
  const char *const names[] = {"fraction_changed", "set_fraction", "value_changed", "translation"};
  for (uint32_t k = 0; k < 4; k++)
    must(x3d_world_field_named(&world, (k + 1) / 2, (const uint8_t *)names[k], strlen(names[k]),
                               &fields[k]) == X3D_DONE,
         "no field");
  must(x3d_world_list_routes(&world) == X3D_DONE &&
           x3d_world_copy_numbers(&world, found, 8, &wanted) == X3D_DONE,
       "no routes");
  const int64_t routes[8] = {0, fields[0], 1, fields[1], 1, fields[2], 2, fields[3]};
  must(wanted == 8 && !memcmp(found, routes, sizeof routes), "other routes");
  x3d_world_close(&world);
}

int main(void) {
  struct x3d_host host = X3D_NONE, opened = X3D_NONE;
  struct x3d_viewer viewer = X3D_NONE;
  struct log log = {.length = 0};
  uint32_t token;
  size_t wanted;
  must(x3d_viewer_open(&viewer, (const uint8_t *)text, strlen(text), 0, 1, NULL, 0, &wanted) ==
           X3D_DONE,
       "no viewer");
  shows_what_is_stored(&host, &viewer, &log);
  goes_on(&host, &viewer, &log);
  names_what_is_wrong(&log);
  must(x3d_host_open(&opened, (const uint8_t *)text, strlen(text), 2) == X3D_DONE, "no host");
  must(x3d_host_pending(&opened, &token, NULL, 0, &wanted) == X3D_NOT_LASTING &&
           x3d_host_stored(&opened, 1, X3D_APPEND_STORED) == X3D_NOT_LASTING,
       "a host that was opened has a log");
  x3d_host_close(&opened);
  x3d_host_close(&host);
  x3d_viewer_close(&viewer);
  lists_routes();
  puts("lasting: good");
  return 0;
}
