/* Calls hosts and viewers at random: 100,000 calls in any order on two hosts and four viewers, open
 * or closed, with random numbers, and with datagrams that were made before, some of them altered.
 * Ends with 0; a sanitizer or valgrind tells what else went wrong. */
#include "dice.h"

static const char *scenes[] = {
    DOOR,
    "#X3D V3.0 utf8\n",
    "#X3D V3.0 utf8\nGrup {}\n",
};

enum { KEPT = 64 };

static uint8_t kept[KEPT][X3D_PACKET];
static size_t lengths[KEPT];
static int place;

/* Keeps a datagram that was made. */
static int keep(int status, const uint8_t *bytes, size_t length) {
  if (status == X3D_DONE && length <= X3D_PACKET) {
    memcpy(kept[place], bytes, length);
    lengths[place] = length;
    place = (place + 1) % KEPT;
  }
  return status;
}

/* One of them, perhaps with a bit flipped or cut off. */
static size_t some(uint8_t *bytes) {
  int which = (int)below(KEPT);
  size_t length = lengths[which];
  memcpy(bytes, kept[which], length);
  if (length && !below(8)) bytes[below(length)] ^= (uint8_t)(1 << below(8));
  return below(8) ? length : below(length + 1);
}

int main(int count, char **words) {
  struct x3d_host hosts[2] = {X3D_NONE, X3D_NONE};
  struct x3d_viewer viewers[4] = {X3D_NONE, X3D_NONE, X3D_NONE, X3D_NONE};
  static uint8_t shot[1 << 16], log[1 << 16];
  uint8_t out[512], bytes[X3D_PACKET], text[4096];
  int64_t numbers[64];
  struct x3d_change changes[8];
  struct x3d_datagram datagram;
  size_t wanted, shot_length = 0, log_length = 0, length, n;
  uint32_t told, token = 0;
  uint64_t input;
  uint16_t field;
  int64_t time = 0;
  long calls = count > 1 ? atol(words[1]) : 100000, done = 0;
  for (long k = 0; k < calls; k++) {
    struct x3d_host *host = &hosts[below(2)];
    int who = (int)below(4);
    struct x3d_viewer *viewer = &viewers[who];
    struct x3d_reply reply;
    struct x3d_taken taken;
    struct x3d_met met;
    struct x3d_aim aim = {coordinate(), coordinate(), coordinate(),
                          coordinate(), coordinate(), coordinate()};
    /* Mostly there is room for all. */
    size_t room = below(8) ? sizeof out : below(sizeof out);
    const char *scene = scenes[below(12) ? 0 : below(3)];
    int status = 0;
    switch (below(42)) {
    case 0:
      if (!below(8))
        status = x3d_host_open(host, (const uint8_t *)scene, strlen(scene), (uint8_t)below(66));
      break;
    case 1:
      if (!below(64)) x3d_host_close(host);
      break;
    case 2:
    case 3:
      time += below(8) ? (int64_t)below(100000) : -5;
      status = x3d_host_clock(host, below(16) ? time : (int64_t)any(), &input);
      break;
    case 4:
    case 5:
    case 6:
      length = some(bytes);
      status = x3d_host_take(host, bytes, length, &reply);
      if (status == X3D_DONE && reply.kind == X3D_REPLY_ASKED)
        for (uint64_t i = 0; i < reply.count; i++)
          keep(x3d_host_packet(host, reply.number + i, out, sizeof out, &wanted), out, wanted);
      break;
    case 7:
      status = x3d_host_packet(host, number(), out, room, &wanted);
      keep(status, out, wanted);
      break;
    case 8:
      status = x3d_host_ack(host, (uint8_t)number(), out, room, &wanted);
      keep(status, out, wanted);
      break;
    case 9:
      status = x3d_host_floor(host, &input) + x3d_host_count(host, &input) +
               x3d_host_viewers(host, &told);
      break;
    case 10:
      status = x3d_host_floor_packet(host, out, room, &wanted);
      keep(status, out, wanted);
      break;
    case 11:
      if (!below(16)) status = x3d_host_drop_below(host, number());
      break;
    case 12:
      if (!below(4) || !viewer->at)
        status = x3d_viewer_open(viewer, (const uint8_t *)scene, strlen(scene), (uint8_t)number(),
                                 (uint32_t)number(), text, below(65), &wanted);
      break;
    case 13:
      if (!below(64)) x3d_viewer_close(viewer);
      break;
    case 14:
      status = x3d_viewer_applied(viewer, &input) + x3d_viewer_boot(viewer, &told) +
               x3d_viewer_waiting(viewer, &told);
      break;
    case 15:
    case 16:
    case 17:
    case 18:
      length = some(bytes);
      status = x3d_viewer_take(viewer, bytes, length, &taken);
      break;
    case 19:
    case 20: status = x3d_viewer_offer(viewer, below(2), &aim, &told); break;
    case 21:
      status = x3d_viewer_resend(viewer, (uint32_t)number(), out, room, &wanted);
      keep(status, out, wanted);
      break;
    case 22:
    case 23:
      status = x3d_viewer_ask(viewer, out, room, &wanted);
      keep(status, out, wanted);
      break;
    case 24:
      status = x3d_viewer_make_snapshot(viewer);
      if (status == X3D_DONE &&
          x3d_viewer_copy_text(viewer, shot, sizeof shot, &wanted) == X3D_DONE)
        shot_length = wanted;
      break;
    case 25:
      status = x3d_viewer_rewind(viewer, (uint32_t)number(), shot,
                                 below(4) ? shot_length : below(shot_length + 1), &input);
      break;
    case 26:
      status = x3d_viewer_piece_count(viewer, shot, shot_length, &told);
      for (uint32_t i = 0; status == X3D_DONE && i < told; i++)
        keep(x3d_viewer_piece(viewer, shot, shot_length, i, out, sizeof out, &wanted), out, wanted);
      break;
    case 27:
      status = x3d_viewer_piece(viewer, shot, below(shot_length + 1), (uint32_t)number(), out, room,
                                &wanted);
      keep(status, out, wanted);
      break;
    case 28:
      length = some(bytes);
      status = x3d_viewer_gather(viewer, bytes, length, &told);
      break;
    case 29: status = x3d_viewer_join(viewer, (uint32_t)number(), &input); break;
    case 30:
      if (!below(8)) status = x3d_viewer_forget(viewer);
      break;
    case 31:
      status = x3d_viewer_make_trace(viewer, number()) + x3d_viewer_make_changes(viewer, number()) +
               x3d_viewer_make_scene(viewer);
      status += x3d_viewer_make_type(viewer, (uint32_t)number()) +
                x3d_viewer_make_label(viewer, (uint32_t)number());
      break;
    case 32:
      status = x3d_viewer_make_value(viewer, (uint32_t)number(), (uint16_t)number()) +
               x3d_viewer_make_field_name(viewer, (uint32_t)number(), (uint16_t)number());
      status += x3d_viewer_copy_text(viewer, text, below(sizeof text), &wanted) +
                x3d_viewer_field_count(viewer, (uint32_t)number(), &told);
      status += x3d_viewer_field_named(viewer, (uint32_t)number(),
                                       (const uint8_t *)"fraction_changed", below(17), &field);
      break;
    case 33:
      status = x3d_viewer_list_roots(viewer) +
               x3d_viewer_list_children(viewer, (uint32_t)number()) +
               x3d_viewer_list_value(viewer, (uint32_t)number(), (uint16_t)number());
      status += x3d_viewer_meet(viewer, &aim, &met) +
                x3d_viewer_copy_numbers(viewer, numbers, below(64), &wanted) +
                x3d_viewer_node_count(viewer, &n);
      break;
    case 34:
      if (!below(8)) status = x3d_viewer_forget_below(viewer, number());
      status += x3d_viewer_list_changed(viewer, number()) +
                x3d_viewer_copy_changed(viewer, changes, below(8), &wanted);
      break;
    case 35:
      length = some(bytes);
      status = x3d_datagram_read(bytes, length, &datagram);
      break;
    case 36:
      length = some(bytes);
      status = x3d_host_take_from(host, (uint8_t)below(5), bytes, length, &reply);
      break;
    case 37:
      status = x3d_host_heard(host, (uint8_t)below(66), &input);
      if (!below(16)) status += x3d_host_keep(host, number());
      break;
    case 38:
      if (below(8) && host->at) break;
      if (!below(4) && log_length) log[below(log_length)] ^= (uint8_t)(1 << below(8));
      status = x3d_host_resume(host, (const uint8_t *)scene, strlen(scene), (uint8_t)below(66), log,
                               below(2) ? log_length : below(log_length + 1), &input);
      if (status != X3D_DONE) log_length = 0;
      break;
    case 39:
    case 40:
      n = sizeof log - log_length;
      status = x3d_host_pending(host, &token, log + log_length, below(8) ? n : below(n + 1), &wanted);
      if (status == X3D_DONE && below(4) &&
          x3d_host_stored(host, token, (uint8_t)(below(8) ? 0 : below(4))) == X3D_DONE)
        log_length += wanted;
      break;
    case 41:
      status = x3d_host_stored(host, below(2) ? token : (uint32_t)number(), (uint8_t)below(4));
      int64_t last;
      status += x3d_host_time(host, &last);
      break;
    }
    done += status == X3D_DONE;
  }
  for (int k = 0; k < 2; k++) x3d_host_close(&hosts[k]);
  for (int k = 0; k < 4; k++) x3d_viewer_close(&viewers[k]);
  printf("%ld calls, %ld of them done\n", calls, done);
  return done == 0;
}
