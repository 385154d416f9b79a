/* Datagrams come to a host and to two viewers of one scene, both of number 0: some bytes as they
 * are, or behind the head that a datagram of the scene has, and the inputs that the host has
 * numbered. One viewer gets each twice, and is the same at the end. What the host refuses changes
 * nothing. */
#include "common.h"

enum { HEAD = 38, TAG = 5 };

struct shared {
  struct x3d_host host;
  struct x3d_viewer viewers[2];
  int64_t time;
};

static void begin(struct shared *s, const char *scene) {
  const uint8_t *text = (const uint8_t *)scene;
  size_t wanted;
  must(x3d_host_open(&s->host, text, strlen(scene), 2) == X3D_DONE);
  for (int k = 0; k < 2; k++)
    must(x3d_viewer_open(&s->viewers[k], text, strlen(scene), 0, 1, refusal, sizeof refusal,
                         &wanted) == X3D_DONE);
}

/* What a viewer makes of a datagram. A snapshot whose pieces are whole is joined, if it is one. */
static void take(struct x3d_viewer *viewer, const uint8_t *bytes, size_t length) {
  struct x3d_taken taken;
  uint32_t gathered, boot;
  uint64_t applied, before, after;
  must(x3d_viewer_applied(viewer, &before) == X3D_DONE);
  uint8_t status = x3d_viewer_take(viewer, bytes, length, &taken);
  must(status != X3D_MEMORY && status != X3D_CLOSED);
  must(x3d_viewer_applied(viewer, &after) == X3D_DONE);
  if (status == X3D_DONE && taken.kind == X3D_TOOK_APPLIED) must(after == before + taken.count);
  if (status != X3D_NOT_FOR_ME) return;
  must(after == before);
  if (x3d_viewer_gather(viewer, bytes, length, &gathered) == X3D_DONE &&
      gathered == X3D_GATHERED_WHOLE) {
    must(x3d_viewer_boot(viewer, &boot) == X3D_DONE);
    status = x3d_viewer_join(viewer, boot + 1, &applied);
    if (status != X3D_DONE) must(x3d_viewer_forget(viewer) == X3D_DONE);
  }
}

static void all_take(struct shared *s, const uint8_t *bytes, size_t length) {
  take(&s->viewers[0], bytes, length);
  take(&s->viewers[1], bytes, length);
  take(&s->viewers[1], bytes, length);
}

/* What the host makes of it, and what it sends then. */
static void host_takes(struct shared *s, const uint8_t *bytes, size_t length) {
  uint8_t out[X3D_PACKET];
  size_t wanted;
  uint64_t count, floor, new_count, new_floor;
  struct x3d_reply reply;
  must(x3d_host_count(&s->host, &count) == X3D_DONE &&
       x3d_host_floor(&s->host, &floor) == X3D_DONE);
  uint8_t status = x3d_host_take(&s->host, bytes, length, &reply);
  must(x3d_host_count(&s->host, &new_count) == X3D_DONE &&
       x3d_host_floor(&s->host, &new_floor) == X3D_DONE);
  must(new_floor == floor &&
       new_count == count + (status == X3D_DONE && reply.kind == X3D_REPLY_NUMBERED));
  if (status != X3D_DONE) return;
  if (reply.kind == X3D_REPLY_ASKED) must(reply.count <= 64);
  for (uint64_t k = 0; reply.kind == X3D_REPLY_ASKED && k < reply.count; k++) {
    must(x3d_host_packet(&s->host, reply.number + k, out, sizeof out, &wanted) == X3D_DONE);
    all_take(s, out, wanted);
  }
  must(x3d_host_ack(&s->host, 0, out, sizeof out, &wanted) == X3D_DONE);
  all_take(s, out, wanted);
}

/* The host goes on by a clock, drops what is below a number, or a viewer asks. */
static void goes_on(struct shared *s, uint8_t how, uint8_t much) {
  uint8_t out[X3D_PACKET];
  size_t wanted;
  uint64_t number;
  if (how & 1) {
    s->time += 1 + much * 50000;
    x3d_host_clock(&s->host, s->time, &number);
  } else if (how & 2) {
    x3d_host_drop_below(&s->host, much);
  } else {
    must(x3d_viewer_ask(&s->viewers[how >> 2 & 1], out, sizeof out, &wanted) == X3D_DONE);
    host_takes(s, out, wanted);
  }
}

static struct bytes told(struct x3d_viewer *viewer) {
  struct bytes b = {NULL, 0};
  uint8_t none[1];
  must(x3d_viewer_make_trace(viewer, 0) == X3D_DONE);
  x3d_viewer_copy_text(viewer, none, 0, &b.length);
  b.at = malloc(b.length + 1);
  must(b.at != NULL);
  must(x3d_viewer_copy_text(viewer, b.at, b.length, &b.length) == X3D_DONE);
  return b;
}

/* A byte that says how, one that says how many, and so many bytes. */
static void goes_through(struct shared *s, const uint8_t *data, size_t size) {
  uint8_t packet[HEAD + 256];
  size_t wanted;
  must(x3d_viewer_ask(&s->viewers[0], packet, X3D_PACKET, &wanted) == X3D_DONE && wanted > HEAD);
  for (int steps = 0; size >= 2 && steps < 200; steps++) {
    uint8_t how = data[0], much = data[1];
    data += 2, size -= 2;
    if (how >= 224) {
      goes_on(s, how, much);
      continue;
    }
    size_t length = much < size ? much : size;
    packet[TAG] = how & 15;
    memcpy(packet + HEAD, data, length);
    const uint8_t *sent = how & 128 ? packet + HEAD : packet;
    size_t sent_length = how & 128 ? length : HEAD + length;
    count_try();
    host_takes(s, sent, sent_length);
    all_take(s, sent, sent_length);
    data += length, size -= length;
  }
}

int LLVMFuzzerTestOneInput(const uint8_t *data, size_t size) {
  end_if_enough();
  if (size == 0) return 0;
  struct shared s = {X3D_NONE, {X3D_NONE, X3D_NONE}, 0};
  begin(&s, scenes[data[0] % SCENES]);
  goes_through(&s, data + 1, size - 1);
  struct bytes once = told(&s.viewers[0]), twice = told(&s.viewers[1]);
  must(are_same(once, twice));
  let_go(once);
  let_go(twice);
  x3d_host_close(&s.host);
  x3d_viewer_close(&s.viewers[0]);
  x3d_viewer_close(&s.viewers[1]);
  return 0;
}
