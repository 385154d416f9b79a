/* A server and three clients over UDP on this machine, each a process. The server has the host: it
 * gives each address the viewer that its first datagram names, and refuses that viewer from another
 * address. The third client is started late, once the first inputs are dropped: it sends a `J`, the server
 * answers with a `B` and a boot to join under, asks the first client for its snapshot by a `G`, and
 * passes the pieces on. An `E` ends the clients; all of them have the same scene then. */
#include "x3d.h"
#include <arpa/inet.h>
#include <poll.h>
#include <stdio.h>
#include <stdlib.h>
#include <string.h>
#include <sys/socket.h>
#include <sys/wait.h>
#include <time.h>
#include <unistd.h>

static const uint8_t scene[] = "#X3D V3.0 utf8\n"
                               "DEF Motor TimeSensor { cycleInterval 2 }\n"
                               "DEF Slide PositionInterpolator {\n"
                               "  key [ 0, 1 ] keyValue [ 0 0 0, 1 0 0 ]\n"
                               "}\n"
                               "DEF Door Transform {\n"
                               "  children [\n"
                               "    DEF Knob TouchSensor {}\n"
                               "    Shape { geometry Box { size 1 2 0.1 } }\n"
                               "  ]\n"
                               "}\n"
                               "ROUTE Knob.touchTime TO Motor.startTime\n"
                               "ROUTE Motor.fraction_changed TO Slide.set_fraction\n"
                               "ROUTE Slide.value_changed TO Door.translation\n";

/* The clients end at CLOCKS inputs and two for the click; KEPT are kept of those that all have. */
enum { CLIENTS = 3, CLOCKS = 200, UNTIL = CLOCKS + 2, KEPT = 20, TICK_MS = 5 };
/* How many datagrams are taken in a turn and how many pieces are sent in a tick, after how many ticks
 * a client asks again to join, and how long all may take. */
enum { MOST = 64, PIECES = 16, AGAIN = 40, END_MS = 60000 };

static void stop(const char *why) {
  fprintf(stderr, "server: %s\n", why);
  exit(1);
}

static void must(bool holds, const char *what) {
  if (!holds) stop(what);
}

static int64_t now_ms(void) {
  struct timespec now;
  clock_gettime(CLOCK_MONOTONIC, &now);
  return (int64_t)now.tv_sec * 1000 + now.tv_nsec / 1000000;
}

static int socket_at(struct sockaddr_in *at) {
  socklen_t length = sizeof *at;
  int end = socket(AF_INET, SOCK_DGRAM, 0);
  *at = (struct sockaddr_in){.sin_family = AF_INET, .sin_addr.s_addr = htonl(INADDR_LOOPBACK)};
  must(end >= 0 && bind(end, (struct sockaddr *)at, sizeof *at) == 0 &&
           getsockname(end, (struct sockaddr *)at, &length) == 0,
       "there is no socket");
  return end;
}

static void send_to(int end, const struct sockaddr_in *to, const uint8_t *bytes, size_t length) {
  /* A datagram that can't be sent is one that is lost: each is sent again. */
  (void)!sendto(end, bytes, length, 0, (const struct sockaddr *)to, sizeof *to);
}

/* Waits for a datagram; 0 if none comes. */
static size_t receive(int end, uint8_t *bytes, struct sockaddr_in *from, int milliseconds) {
  struct pollfd waiting = {.fd = end, .events = POLLIN};
  socklen_t length = sizeof *from;
  if (poll(&waiting, 1, milliseconds) <= 0) return 0;
  ssize_t got = recvfrom(end, bytes, X3D_PACKET, 0, (struct sockaddr *)from, &length);
  return got < 0 ? 0 : (size_t)got;
}

/* ---- the server */

struct server {
  struct x3d_host host;
  int end;
  struct sockaddr_in clients[CLIENTS];
  bool known[CLIENTS], joining[CLIENTS];
  uint32_t boots;
};

/* The client at an address, or CLIENTS. */
static uint8_t client_at(const struct server *s, const struct sockaddr_in *at) {
  uint8_t who = 0;
  while (who < CLIENTS && !(s->known[who] && s->clients[who].sin_port == at->sin_port)) who++;
  return who;
}

/* An address that is new is the client's that its first offer or ask names, unless another has it. */
static uint8_t admitted(struct server *s, const struct sockaddr_in *at, const uint8_t *bytes,
                        size_t length) {
  struct x3d_datagram d;
  uint8_t who = client_at(s, at);
  if (who < CLIENTS) return who;
  if (x3d_datagram_read(bytes, length, &d) != X3D_DONE) return CLIENTS;
  if (d.tag != X3D_TAG_OFFER && d.tag != X3D_TAG_ASK) return CLIENTS;
  if (d.who >= CLIENTS || s->known[d.who]) return CLIENTS;
  s->known[d.who] = true;
  s->clients[d.who] = *at;
  return d.who;
}

/* Tells the first client to give its snapshot, and who joins under which boot. */
static void begin_join(struct server *s, uint8_t who) {
  if (!s->joining[who]) s->boots++;
  s->joining[who] = true;
  uint8_t boot[2] = {'B', (uint8_t)s->boots};
  send_to(s->end, &s->clients[who], boot, sizeof boot);
  send_to(s->end, &s->clients[0], (const uint8_t *)"G", 1);
}

static void answer(struct server *s, uint8_t who, const struct x3d_reply *reply) {
  uint8_t out[X3D_PACKET];
  size_t length;
  for (uint64_t k = 0; reply->kind == X3D_REPLY_ASKED && k < reply->count; k++)
    if (x3d_host_packet(&s->host, reply->number + k, out, sizeof out, &length) == X3D_DONE)
      send_to(s->end, &s->clients[who], out, length);
  if (reply->kind == X3D_REPLY_BELOW &&
      x3d_host_floor_packet(&s->host, out, sizeof out, &length) == X3D_DONE)
    send_to(s->end, &s->clients[who], out, length);
  if (x3d_host_ack(&s->host, who, out, sizeof out, &length) == X3D_DONE)
    send_to(s->end, &s->clients[who], out, length);
}

static void take(struct server *s, const struct sockaddr_in *from, const uint8_t *bytes,
                 size_t length) {
  struct x3d_reply reply;
  struct x3d_datagram d;
  uint8_t who = admitted(s, from, bytes, length);
  if (who == CLIENTS) return;
  if (length == 1 && bytes[0] == 'J') {
    begin_join(s, who);
    return;
  }
  if (x3d_datagram_read(bytes, length, &d) != X3D_DONE) return;
  if (d.tag == X3D_TAG_PIECE) {
    for (uint8_t other = 0; other < CLIENTS; other++)
      if (s->joining[other]) send_to(s->end, &s->clients[other], bytes, length);
    return;
  }
  if (x3d_host_take_from(&s->host, who, bytes, length, &reply) != X3D_DONE) return;
  if (d.tag == X3D_TAG_ASK && d.number > 1) s->joining[who] = false;
  answer(s, who, &reply);
}

/* The number that a client asked from last; 0 if it hasn't asked. Only clients that have asked hold
 * the floor back, so the first clock waits for two of them. */
static uint64_t heard(struct server *s, uint8_t who) {
  uint64_t asked;
  must(x3d_host_heard(&s->host, who, &asked) == X3D_DONE, "the host is closed");
  return asked;
}

/* Whether the host has heard that all clients have everything. */
static bool all_have(struct server *s) {
  for (uint8_t who = 0; who < CLIENTS; who++)
    if (heard(s, who) <= UNTIL) return false;
  return true;
}

static void start(uint8_t who);

static void serve(int end) {
  struct server s = {.host = X3D_NONE, .end = end, .boots = 1};
  struct sockaddr_in from;
  uint8_t bytes[X3D_PACKET];
  uint64_t number, floor;
  size_t length;
  must(x3d_host_open(&s.host, scene, sizeof scene - 1, CLIENTS) == X3D_DONE, "there is no host");
  int clocks = 0;
  bool is_late = true;
  int64_t end_ms = now_ms() + END_MS;
  while (!all_have(&s)) {
    must(now_ms() < end_ms, "the clients don't end");
    for (int k = 0; k < MOST && (length = receive(end, bytes, &from, k ? 0 : TICK_MS)) > 0; k++)
      take(&s, &from, bytes, length);
    if (clocks < CLOCKS && heard(&s, 0) && heard(&s, 1))
      must(x3d_host_clock(&s.host, 10000000 + ++clocks * 20000, &number) == X3D_DONE,
           "a clock is refused");
    must(x3d_host_keep(&s.host, KEPT) == X3D_DONE &&
             x3d_host_floor(&s.host, &floor) == X3D_DONE,
         "the host is closed");
    if (is_late && floor > 1) start(CLIENTS - 1);
    is_late = is_late && floor == 1;
  }
  for (int k = 0; k < 20; k++)
    for (int who = 0; who < CLIENTS; who++)
      send_to(end, &s.clients[who], (const uint8_t *)"E", 1);
  printf("%d inputs at %d clients, floor %u\n", UNTIL, CLIENTS, (unsigned)floor);
  x3d_host_close(&s.host);
}

/* ---- a client */

struct client {
  struct x3d_viewer viewer;
  int end;
  struct sockaddr_in server;
  uint8_t who, boot;
  bool is_behind, is_over;
  uint64_t drawn;
  uint32_t joins, tick;
  /* The snapshot that is given, the number of its pieces, and the next one. */
  uint8_t shot[1 << 20];
  size_t size;
  uint32_t pieces, next;
};

static void begin_giving(struct client *c) {
  must(x3d_viewer_make_snapshot(&c->viewer) == X3D_DONE &&
           x3d_viewer_copy_text(&c->viewer, c->shot, sizeof c->shot, &c->size) == X3D_DONE &&
           x3d_viewer_piece_count(&c->viewer, c->shot, c->size, &c->pieces) == X3D_DONE,
       "there are no pieces");
  c->next = 0;
}

/* Sends some pieces of the snapshot: all at once would be more than a socket holds. */
static void give(struct client *c) {
  uint8_t out[X3D_PACKET];
  size_t length;
  for (int k = 0; k < PIECES && c->next < c->pieces; k++, c->next++)
    if (x3d_viewer_piece(&c->viewer, c->shot, c->size, c->next, out, sizeof out, &length) ==
        X3D_DONE)
      send_to(c->end, &c->server, out, length);
}

static void gather(struct client *c, const uint8_t *bytes, size_t length) {
  uint32_t gathered;
  uint64_t applied;
  if (x3d_viewer_gather(&c->viewer, bytes, length, &gathered) != X3D_DONE) return;
  /* It is of a newer snapshot than the one that was begun, some of whose pieces were lost. */
  if (gathered == X3D_GATHERED_OTHER) {
    x3d_viewer_forget(&c->viewer);
    x3d_viewer_gather(&c->viewer, bytes, length, &gathered);
  }
  if (gathered != X3D_GATHERED_WHOLE) return;
  must(x3d_viewer_join(&c->viewer, c->boot, &applied) == X3D_DONE, "a client can't join");
  c->is_behind = false;
  c->joins++;
}

static void come(struct client *c, const uint8_t *bytes, size_t length) {
  struct x3d_taken taken;
  if (length == 1 && bytes[0] == 'G') {
    if (c->next == c->pieces) begin_giving(c);
  } else if (length == 1 && bytes[0] == 'E') {
    c->is_over = true;
  } else if (length == 2 && bytes[0] == 'B') {
    c->boot = bytes[1];
  } else {
    uint8_t status = x3d_viewer_take(&c->viewer, bytes, length, &taken);
    if (status == X3D_DONE && taken.kind == X3D_TOOK_BEHIND) c->is_behind = true;
    if (status == X3D_NOT_FOR_ME && c->is_behind && c->boot) gather(c, bytes, length);
  }
}

static void speak(struct client *c) {
  uint8_t out[X3D_PACKET];
  size_t length;
  give(c);
  if (c->is_behind) {
    if (c->tick++ % AGAIN == 0) send_to(c->end, &c->server, (const uint8_t *)"J", 1);
    return;
  }
  for (uint32_t place = 0;
       x3d_viewer_resend(&c->viewer, place, out, sizeof out, &length) == X3D_DONE; place++)
    send_to(c->end, &c->server, out, length);
  if (x3d_viewer_ask(&c->viewer, out, sizeof out, &length) == X3D_DONE)
    send_to(c->end, &c->server, out, length);
}

/* How many fields there are to draw. */
static size_t draw(struct client *c) {
  struct x3d_change changes[64];
  size_t count = 0;
  must(x3d_viewer_list_changed(&c->viewer, c->drawn) == X3D_DONE &&
           x3d_viewer_copy_changed(&c->viewer, changes, 64, &count) == X3D_DONE &&
           x3d_viewer_applied(&c->viewer, &c->drawn) == X3D_DONE,
       "nothing can be drawn");
  return count;
}

static void follow(struct sockaddr_in server, uint8_t who, int told) {
  static struct client c;
  c = (struct client){.viewer = X3D_NONE, .server = server, .who = who};
  const struct x3d_aim aim = {0, 0, 10000000, 0, 0, -1000000};
  struct sockaddr_in own, from;
  uint8_t bytes[X3D_PACKET], line[64];
  uint32_t number;
  size_t length, wanted, fields = 0;
  c.end = socket_at(&own);
  must(x3d_viewer_open(&c.viewer, scene, sizeof scene - 1, who, 1, line, sizeof line, &wanted) ==
           X3D_DONE,
       "there is no viewer");
  if (who == 0)
    must(x3d_viewer_offer(&c.viewer, true, &aim, &number) == X3D_DONE &&
             x3d_viewer_offer(&c.viewer, false, &aim, &number) == X3D_DONE,
         "a click is refused");
  int64_t end_ms = now_ms() + END_MS, next_ms = 0;
  while (!c.is_over) {
    int64_t now = now_ms();
    must(now < end_ms, "a client doesn't end");
    /* An ask is answered at once: it speaks once a tick, not after each answer. */
    if (now >= next_ms) {
      speak(&c);
      next_ms = now + TICK_MS;
    }
    for (int k = 0; k < MOST && (length = receive(c.end, bytes, &from, k ? 0 : TICK_MS)) > 0; k++)
      come(&c, bytes, length);
    fields += draw(&c);
  }
  must(x3d_viewer_make_scene(&c.viewer) == X3D_DONE, "there is no scene");
  uint8_t text[2048];
  must(x3d_viewer_copy_text(&c.viewer, text, sizeof text, &wanted) == X3D_DONE, "a long scene");
  must(c.drawn == UNTIL && fields > 0 && c.joins == (who == CLIENTS - 1), "the late client alone joins");
  must(write(told, text, wanted) == (ssize_t)wanted, "a scene isn't told");
  x3d_viewer_close(&c.viewer);
}

/* ---- all of them */

static struct sockaddr_in server;
static int pipes[CLIENTS][2];

static void start(uint8_t who) {
  must(pipe(pipes[who]) == 0, "there is no pipe");
  if (fork() == 0) {
    follow(server, who, pipes[who][1]);
    exit(0);
  }
  close(pipes[who][1]);
}

static size_t told_by(int end, uint8_t *text, size_t room) {
  size_t size = 0;
  ssize_t got;
  while ((got = read(end, text + size, room - size)) > 0) size += (size_t)got;
  return size;
}

int main(void) {
  static uint8_t first[4096], other[4096];
  int end = socket_at(&server);
  for (uint8_t who = 0; who < CLIENTS - 1; who++) start(who);
  serve(end);
  int status, failed = 0;
  while (wait(&status) > 0) failed += status != 0;
  must(failed == 0, "a client failed");
  size_t size = told_by(pipes[0][0], first, sizeof first);
  for (int who = 1; who < CLIENTS; who++)
    must(size > 0 && told_by(pipes[who][0], other, sizeof other) == size &&
             memcmp(first, other, size) == 0,
         "two clients have other scenes");
  puts("all clients have the same scene");
  return 0;
}
