/* A host and two viewers run a door, once for each call of malloc and realloc: that one fails.
 * Every answer is then done, refused memory or spoiled; a host goes on where it was, a viewer comes
 * back by a snapshot, and closing frees all. */
#include "refusing.h"

/* A viewer gets what it lacks, as long as it takes it. */
static int exchange(struct x3d_host *host, struct x3d_viewer *viewer) {
  uint8_t bytes[X3D_PACKET];
  size_t wanted;
  struct x3d_reply reply;
  struct x3d_taken taken;
  for (uint32_t place = 0;
       x3d_viewer_resend(viewer, place, bytes, sizeof bytes, &wanted) == X3D_DONE; place++)
    if (!told(x3d_host_take(host, bytes, wanted, &reply))) return 1;
  if (x3d_host_ack(host, 0, bytes, sizeof bytes, &wanted) != X3D_DONE) return 2;
  int status = x3d_viewer_take(viewer, bytes, wanted, &taken);
  if (!told(status) && status != X3D_NOT_FOR_ME) return 3;
  if (x3d_viewer_ask(viewer, bytes, sizeof bytes, &wanted) != X3D_DONE) return 4;
  if (!told(x3d_host_take(host, bytes, wanted, &reply))) return 5;
  for (uint64_t k = 0; reply.kind == X3D_REPLY_ASKED && k < reply.count; k++) {
    if (x3d_host_packet(host, reply.number + k, bytes, sizeof bytes, &wanted) != X3D_DONE) return 6;
    if (!told(x3d_viewer_take(viewer, bytes, wanted, &taken))) return 7;
  }
  return 0;
}

static int run(void) {
  struct x3d_host host = X3D_NONE;
  struct x3d_viewer viewers[2] = {X3D_NONE, X3D_NONE};
  struct x3d_aim aim = {0, 0, 10000000, 0, 0, -1000000};
  uint8_t line[64], bytes[X3D_PACKET];
  static uint8_t shot[8192];
  size_t wanted, length = 0;
  uint64_t number, count, before, applied;
  uint32_t offer, gathered;
  int wrong = 0, status = x3d_host_open(&host, (const uint8_t *)scene, sizeof scene - 1, 2);
  if (!told(status)) return 20;
  if (status != X3D_DONE) return host.at ? 21 : 0;
  for (uint8_t who = 0; who < 2 && !wrong; who++) {
    status = x3d_viewer_open(&viewers[who], (const uint8_t *)scene, sizeof scene - 1, who, 1, line,
                             sizeof line, &wanted);
    if (!told(status)) wrong = 22;
    if (status == X3D_MEMORY &&
        (viewers[who].at || wanted != 14 || memcmp(line, "refused Memory", 14) != 0))
      wrong = 23;
  }
  for (int k = 1; k <= 4 && !wrong; k++) {
    if (x3d_host_count(&host, &before) != X3D_DONE) wrong = 24;
    status = x3d_host_clock(&host, 10000000 + k * 500000, &number);
    if (!told(status)) wrong = 25;
    if (x3d_host_count(&host, &count) != X3D_DONE || count != before + (status == X3D_DONE))
      wrong = 26;
    if (viewers[0].at && k < 3 && !told(x3d_viewer_offer(&viewers[0], k == 1, &aim, &offer)))
      wrong = 27;
    for (int who = 0; who < 2 && !wrong; who++)
      if (viewers[who].at) wrong = exchange(&host, &viewers[who]);
  }
  if (!wrong && viewers[0].at) {
    status = x3d_viewer_make_snapshot(&viewers[0]);
    if (!told(status)) wrong = 30;
    if (status == X3D_DONE &&
        x3d_viewer_copy_text(&viewers[0], shot, sizeof shot, &length) != X3D_DONE)
      wrong = 31;
    if (!told(x3d_viewer_make_trace(&viewers[0], 0)) || !told(x3d_viewer_make_scene(&viewers[0])) ||
        !told(x3d_viewer_list_roots(&viewers[0])) || !told(x3d_viewer_list_changed(&viewers[0], 0)))
      wrong = 32;
  }
  if (!wrong && viewers[1].at && length) {
    /* The other viewer, spoiled or not, gathers it and begins again in it. A first piece that was
     * refused comes again. */
    for (uint32_t k = 0;
         x3d_viewer_piece(&viewers[1], shot, length, k, bytes, sizeof bytes, &wanted) == X3D_DONE;
         k++)
      if (!told(x3d_viewer_gather(&viewers[1], bytes, wanted, &gathered))) wrong = 33;
    for (uint32_t k = 0;
         x3d_viewer_piece(&viewers[1], shot, length, k, bytes, sizeof bytes, &wanted) == X3D_DONE;
         k++)
      if (!told(x3d_viewer_gather(&viewers[1], bytes, wanted, &gathered))) wrong = 34;
    status = x3d_viewer_join(&viewers[1], 2, &applied);
    if (!told(status)) wrong = 35;
    fail_at = -1;
    if (!wrong && status != X3D_DONE && x3d_viewer_join(&viewers[1], 2, &applied) != X3D_DONE)
      wrong = 36;
    if (!wrong) wrong = exchange(&host, &viewers[1]);
    if (!wrong && (x3d_viewer_applied(&viewers[1], &applied) != X3D_DONE ||
                   x3d_host_count(&host, &count) != X3D_DONE || applied != count))
      wrong = 37;
  }
  fail_at = -1;
  x3d_host_close(&host);
  for (int who = 0; who < 2; who++) x3d_viewer_close(&viewers[who]);
  return wrong;
}

int main(void) { return refuse_each(run); }
