/* A host over the log of a file, once for each call of malloc and realloc: that one fails. Each
 * answer is done or refused memory, or the append is in doubt; a call that is made again is done,
 * the log opened again has what was stored, and closing frees all. */
#include "refusing.h"
#include <unistd.h>

enum { MOST = 4096, CLOCKS = 12 };

static uint8_t bytes[MOST];
static char path[64];

static int opens(struct x3d_log *log) {
  uint64_t place;
  for (int k = 0; k < 2; k++) {
    int status = x3d_log_open(log, (uint8_t *)path, strlen(path), (const uint8_t *)scene,
                              sizeof scene - 1, 2, &place);
    if (!told(status)) return 0;
    if (status == X3D_DONE) return 1;
  }
  return 0;
}

static int makes(struct x3d_log *log) {
  for (int k = 0; k < 2; k++) {
    int status = x3d_log_make(log, (uint8_t *)path, strlen(path), (const uint8_t *)scene,
                              sizeof scene - 1, 2);
    if (status == X3D_DONE) return 1;
    if (status == X3D_NOT_EMPTY || !told(status)) return status == X3D_NOT_EMPTY && opens(log);
  }
  return 0;
}

static int resumes(struct x3d_host *host, struct x3d_log *log) {
  uint64_t entry;
  size_t wanted;
  for (int k = 0; k < 3; k++) {
    int status = x3d_log_read(log, bytes, MOST, &wanted);
    if (status == X3D_DONE)
      status = x3d_host_resume(host, (const uint8_t *)scene, sizeof scene - 1, 2, bytes, wanted,
                               &entry);
    if (!told(status)) return 0;
    if (status == X3D_DONE) return 1;
  }
  return 0;
}

/* Numbers a clock and stores it. */
static int stores(struct x3d_host *host, struct x3d_log *log, int64_t time) {
  uint64_t number;
  uint32_t token;
  size_t wanted;
  int status = x3d_host_clock(host, time, &number);
  if (status == X3D_MEMORY && told(status)) status = x3d_host_clock(host, time, &number);
  if (status != X3D_DONE) return 0;
  status = x3d_host_pending(host, &token, bytes, MOST, &wanted);
  if (status == X3D_MEMORY && told(status))
    status = x3d_host_pending(host, &token, bytes, MOST, &wanted);
  if (status != X3D_DONE) return 0;
  status = x3d_log_append(log, bytes, wanted);
  if (status == X3D_MEMORY && told(status)) status = x3d_log_append(log, bytes, wanted);
  if (status == X3D_DONE) return x3d_host_stored(host, token, X3D_APPEND_STORED) == X3D_DONE;
  refused = 1;
  return status == X3D_IN_DOUBT && x3d_host_stored(host, token, X3D_APPEND_DOUBT) == X3D_DONE &&
         opens(log) && resumes(host, log);
}

static int run(void) {
  struct x3d_log log = X3D_NONE;
  struct x3d_host host = X3D_NONE;
  uint64_t count, before;
  int wrong = 0;
  unlink(path);
  if (!makes(&log) || !resumes(&host, &log)) wrong = 1;
  for (int64_t k = 1; k <= CLOCKS && !wrong; k++) {
    if (!stores(&host, &log, k * 1000)) wrong = 2;
  }
  if (!wrong && (x3d_log_count(&log, &before) || before < CLOCKS - 1)) wrong = 3;
  if (!wrong && (!opens(&log) || x3d_log_count(&log, &count) || count != before)) wrong = 4;
  /* Room for later writes may be refused without an answer. */
  if (calls >= fail_at) refused = 1;
  fail_at = -1;
  x3d_log_close(&log);
  x3d_host_close(&host);
  unlink(path);
  return wrong;
}

int main(void) {
  snprintf(path, sizeof path, "/tmp/x3d-growths-%d", (int)getpid());
  return refuse_each(run);
}
