/* A host that is resumed from its log, once for each call of malloc and realloc: that one fails.
 * Every answer is then done or refused memory, the host goes on where it was, a call that is made
 * again is done, the log is the same in the end, and closing frees all. */
#include "refusing.h"

enum { MOST = 4096, CLOCKS = 40, LENGTH = 32 + 17 * CLOCKS };

static uint8_t bytes[MOST];

/* Whether a call is done, if it is made a second time after memory was refused. */
static int again(int (*call)(struct x3d_host *, void *), struct x3d_host *host, void *with) {
  int status = call(host, with);
  if (status == X3D_MEMORY && told(status)) status = call(host, with);
  return status == X3D_DONE;
}

static int resumes(struct x3d_host *host, void *length) {
  uint64_t entry = 7;
  int status = x3d_host_resume(host, (const uint8_t *)scene, sizeof scene - 1, 2, bytes,
                               *(size_t *)length, &entry);
  return entry == 7 && !host->at == (status != X3D_DONE) ? status : 255;
}

static int clocks(struct x3d_host *host, void *time) {
  uint64_t number, before, after;
  int status = x3d_host_count(host, &before);
  status += x3d_host_clock(host, *(int64_t *)time, &number) + x3d_host_count(host, &after);
  return after == before + (status == X3D_DONE) ? status : 255;
}

struct append {
  uint32_t token;
  size_t at, wanted;
};

static int appends(struct x3d_host *host, void *given) {
  struct append *append = given;
  return x3d_host_pending(host, &append->token, bytes + append->at, MOST - append->at,
                          &append->wanted);
}

static int run(void) {
  struct x3d_host host = X3D_NONE;
  struct append append = {0, 0, 0};
  uint64_t count;
  int wrong = 0;
  if (!again(resumes, &host, &append.at)) wrong = 1;
  for (int64_t k = 1; k <= CLOCKS && !wrong; k++) {
    int64_t time = k * 1000;
    if (!again(clocks, &host, &time)) wrong = 2;
    if (wrong || k % 8) continue;
    if (!again(appends, &host, &append)) wrong = 3;
    if (!wrong && x3d_host_stored(&host, append.token, X3D_APPEND_STORED) != X3D_DONE) wrong = 4;
    append.at += append.wanted;
  }
  if (!wrong && append.at != LENGTH) wrong = 5;
  if (!wrong && !again(resumes, &host, &append.at)) wrong = 6;
  if (!wrong && (x3d_host_count(&host, &count) != X3D_DONE || count != CLOCKS)) wrong = 7;
  fail_at = -1;
  x3d_host_close(&host);
  return wrong;
}

int main(void) { return refuse_each(run); }
