/* The log of a host in a file: made, appended to and read, locked, opened again; and how each wrong
 * call and file is refused. Given the words `hold PATH` it only opens a log, says so, and waits for
 * its input to end: scripts/log_calls runs it beside the program. */
#include "x3d.h"
#include <signal.h>
#include <stdio.h>
#include <stdlib.h>
#include <string.h>
#include <sys/resource.h>
#include <sys/stat.h>
#include <sys/wait.h>
#include <unistd.h>

static const char text[] = "#X3D V3.0 utf8\nGroup {}\n";
static const char other[] = "#X3D V3.0 utf8\nTransform {}\n";

enum { MARK = 32, CLOCK = 17, RUN = 16, MOST = 1 << 16 };

static char path[4096];
static uint8_t bytes[MOST];

static void must(bool holds, const char *what) {
  if (holds) return;
  fprintf(stderr, "logs: %s\n", what);
  unlink(path);
  exit(1);
}

static uint8_t make(struct x3d_log *log, uint8_t viewers) {
  return x3d_log_make(log, (const uint8_t *)path, strlen(path), (const uint8_t *)text,
                      sizeof text - 1, viewers);
}

static uint8_t open_as(struct x3d_log *log, const char *scene, uint8_t viewers, uint64_t *place) {
  return x3d_log_open(log, (const uint8_t *)path, strlen(path), (const uint8_t *)scene,
                      strlen(scene), viewers, place);
}

static uint64_t count_of(struct x3d_log *log) {
  uint64_t count;
  must(x3d_log_count(log, &count) == X3D_DONE, "a log isn't counted");
  return count;
}

static size_t read_all(struct x3d_log *log) {
  size_t wanted;
  must(x3d_log_read(log, bytes, MOST, &wanted) == X3D_DONE, "a log isn't read");
  return wanted;
}

static uint8_t resume(struct x3d_host *host, struct x3d_log *log) {
  uint64_t entry;
  size_t length = read_all(log);
  return x3d_host_resume(host, (const uint8_t *)text, sizeof text - 1, 2, bytes, length, &entry);
}

/* Numbers clocks and stores them. */
static void store(struct x3d_host *host, struct x3d_log *log, int64_t first, int clocks) {
  uint64_t number;
  uint32_t token;
  size_t wanted;
  for (int k = 0; k < clocks; k++)
    must(x3d_host_clock(host, first + k, &number) == X3D_DONE, "no clock");
  must(x3d_host_pending(host, &token, bytes, MOST, &wanted) == X3D_DONE, "nothing waits");
  must(x3d_log_append(log, bytes, wanted) == X3D_DONE, "an append fails");
  must(x3d_host_stored(host, token, X3D_APPEND_STORED) == X3D_DONE, "nothing is stored");
}

static void is_made(void) {
  struct x3d_log log = X3D_NONE, second = X3D_NONE;
  uint32_t viewers;
  uint64_t count, place = 7;
  size_t wanted;
  uint8_t run[RUN], none[RUN] = {0};
  struct stat found;
  must(open_as(&log, text, 0, &place) == X3D_NO_LOG && !log.at && place == 7, "a missing log");
  must(make(&log, 0) == X3D_RANGE && make(&log, 65) == X3D_RANGE, "a log of no viewers");
  must(access(path, F_OK) != 0, "a refused log has a file");
  must(make(&log, 2) == X3D_DONE && log.at, "no log is made");
  must(stat(path, &found) == 0 && (found.st_mode & 0777) == 0600, "others may read it");
  must(make(&second, 2) == X3D_LOG_BUSY && !second.at, "a log is made twice at once");
  must(open_as(&second, text, 0, &place) == X3D_LOG_BUSY && !second.at, "a log is opened twice");
  must(count_of(&log) == 0 && read_all(&log) == 0, "a new log has entries");
  must(x3d_log_viewers(&log, &viewers) == X3D_DONE && viewers == 2, "other viewers");
  must(x3d_log_copy_run(&log, run, RUN - 1, &wanted) == X3D_ROOM && wanted == RUN, "a short run");
  must(x3d_log_copy_run(&log, run, RUN, &wanted) == X3D_DONE && memcmp(run, none, RUN), "no run");
  must(x3d_log_append(&log, NULL, 0) == X3D_DONE && count_of(&log) == 0, "no bytes are entries");
  x3d_log_close(&log);
  must(x3d_log_count(&log, &count) == X3D_CLOSED, "a closed log is open");
  must(make(&log, 2) == X3D_NOT_EMPTY && !log.at, "a log is made over another");
}

static void takes_the_next(void) {
  struct x3d_log log = X3D_NONE;
  struct x3d_host host = X3D_NONE;
  uint64_t place = 7;
  size_t wanted;
  must(open_as(&log, text, 2, &place) == X3D_DONE && place == 0, "a log isn't opened");
  must(resume(&host, &log) == X3D_DONE, "no host");
  store(&host, &log, 1000, 3);
  must(count_of(&log) == 3 && read_all(&log) == MARK + 3 * CLOCK, "three clocks");
  must(x3d_log_read(&log, bytes, MARK, &wanted) == X3D_ROOM && wanted == MARK + 3 * CLOCK, "room");
  must(x3d_log_append(&log, bytes, MARK + CLOCK) == X3D_NOT_ENTRIES, "the first entry again");
  must(x3d_log_append(&log, bytes + MARK + 2 * CLOCK, CLOCK) == X3D_NOT_ENTRIES, "a number twice");
  bytes[MARK + 7] = 5;
  must(x3d_log_append(&log, bytes + MARK, CLOCK) == X3D_NOT_ENTRIES, "a number is left out");
  bytes[MARK + 7] = 4;
  must(x3d_log_append(&log, bytes + MARK, CLOCK - 1) == X3D_NOT_ENTRIES, "half an entry");
  must(count_of(&log) == 3, "a refused append is there");
  store(&host, &log, 5000, 2000); /* several frames */
  must(count_of(&log) == 2003, "not all is appended");
  x3d_log_close(&log);
  must(open_as(&log, text, 0, &place) == X3D_DONE && count_of(&log) == 2003, "not all is there");
  must(resume(&host, &log) == X3D_DONE, "no host again");
  store(&host, &log, 9000, 1);
  must(count_of(&log) == 2004, "it doesn't go on");
  x3d_log_close(&log);
  x3d_host_close(&host);
}

static void wants_its_mark(void) {
  struct x3d_log log = X3D_NONE;
  struct x3d_host host = X3D_NONE;
  uint32_t token;
  uint64_t number;
  size_t wanted;
  unlink(path);
  must(make(&log, 2) == X3D_DONE && resume(&host, &log) == X3D_DONE, "no second log");
  must(x3d_host_clock(&host, 1, &number) == X3D_DONE, "no clock");
  must(x3d_host_pending(&host, &token, bytes, MOST, &wanted) == X3D_DONE, "nothing waits");
  must(x3d_log_append(&log, bytes + MARK, CLOCK) == X3D_NOT_ENTRIES, "no mark");
  must(x3d_log_append(&log, bytes, MARK) == X3D_NOT_ENTRIES, "a mark alone");
  bytes[0] ^= 1;
  must(x3d_log_append(&log, bytes, wanted) == X3D_NOT_ENTRIES, "another mark");
  bytes[0] ^= 1;
  must(x3d_log_append(&log, bytes, wanted) == X3D_DONE && count_of(&log) == 1, "the mark");
  x3d_log_close(&log);
  x3d_host_close(&host);
}

/* Changes a byte of the file. Some are random, so each bit is flipped, whatever it is. */
static void flip_at(long at) {
  FILE *file = fopen(path, "r+b");
  must(file && fseek(file, at, SEEK_SET) == 0, "the file isn't read");
  int byte = fgetc(file);
  must(byte != EOF && fseek(file, at, SEEK_SET) == 0, "the file isn't read");
  must(fputc(byte ^ 0xff, file) != EOF && fclose(file) == 0, "the file isn't written");
}

static void names_what_is_wrong(void) {
  struct x3d_log log = X3D_NONE;
  uint64_t place = 7;
  must(open_as(&log, other, 0, &place) == X3D_WRONG_SCENE, "another scene's log");
  must(open_as(&log, text, 3, &place) == X3D_WRONG_SEATS && place == 7, "other viewers' log");
  FILE *file = fopen(path, "ab");
  must(file && fwrite("\0\21half", 1, 6, file) == 6 && fclose(file) == 0, "no half append");
  must(open_as(&log, text, 2, &place) == X3D_DONE && place == 6 && count_of(&log) == 1, "not cut");
  x3d_log_close(&log);
  flip_at(100);
  must(open_as(&log, text, 2, &place) == X3D_LOG_DAMAGED && place == 1 && !log.at, "a wrong chain");
  flip_at(8);
  must(open_as(&log, text, 2, &place) == X3D_BAD_HEAD && !log.at, "a wrong head");
  unlink(path);
  must(mkdir(path, 0700) == 0, "no folder");
  must(make(&log, 2) == X3D_DEVICE && open_as(&log, text, 0, &place) == X3D_DEVICE, "a folder");
  must(rmdir(path) == 0 && mkfifo(path, 0600) == 0, "no pipe");
  must(make(&log, 2) == X3D_DEVICE && open_as(&log, text, 0, &place) == X3D_DEVICE, "a pipe");
  unlink(path);
  size_t length = strlen(path);
  strcpy(path + length, "/none/log");
  must(make(&log, 2) == X3D_NO_LOG && open_as(&log, text, 0, &place) == X3D_NO_LOG, "no folder");
  path[length] = 0;
}

/* A process that is killed gives up its lock, and leaves what it appended. */
static void is_left_by_the_dead(void) {
  struct x3d_log log = X3D_NONE;
  uint64_t place;
  int told[2];
  must(pipe(told) == 0, "no pipe");
  pid_t child = fork();
  must(child >= 0, "no process");
  if (!child) {
    struct x3d_host host = X3D_NONE;
    must(make(&log, 2) == X3D_DONE && resume(&host, &log) == X3D_DONE, "no log of the child");
    store(&host, &log, 1, 10);
    if (write(told[1], "!", 1) != 1) _exit(1);
    pause();
  }
  char done;
  must(read(told[0], &done, 1) == 1, "the child says nothing");
  must(open_as(&log, text, 0, &place) == X3D_LOG_BUSY, "the child's log is free");
  kill(child, SIGKILL);
  waitpid(child, NULL, 0);
  must(open_as(&log, text, 0, &place) == X3D_DONE && count_of(&log) == 10, "the child's entries");
  x3d_log_close(&log);
  unlink(path);
}

/* Where files may have no more than some bytes, an append is in doubt, and the log is as before. */
static void has_no_room(void) {
  pid_t child = fork();
  must(child >= 0, "no process");
  if (!child) {
    struct x3d_log log = X3D_NONE;
    struct x3d_host host = X3D_NONE;
    uint32_t token;
    uint64_t number, place;
    size_t wanted;
    must(make(&log, 2) == X3D_DONE && resume(&host, &log) == X3D_DONE, "no log without room");
    store(&host, &log, 1, 3);
    struct rlimit most = {200, 400};
    signal(SIGXFSZ, SIG_IGN);
    must(setrlimit(RLIMIT_FSIZE, &most) == 0, "no limit");
    for (int64_t time = 10; time < 40; time++)
      must(x3d_host_clock(&host, time, &number) == X3D_DONE, "no clock");
    must(x3d_host_pending(&host, &token, bytes, MOST, &wanted) == X3D_DONE, "nothing waits");
    must(x3d_log_append(&log, bytes, wanted) == X3D_IN_DOUBT, "there is room");
    must(x3d_log_append(&log, bytes, wanted) == X3D_IN_DOUBT, "it is forgotten");
    must(count_of(&log) == 3 && read_all(&log) == MARK + 3 * CLOCK, "what was known");
    must(x3d_host_stored(&host, token, X3D_APPEND_DOUBT) == X3D_DONE, "the host goes on");
    must(open_as(&log, text, 0, &place) == X3D_DONE && count_of(&log) == 3, "what is there");
    must(resume(&host, &log) == X3D_DONE, "no host after it");
    store(&host, &log, 50, 1);
    x3d_log_close(&log);
    x3d_host_close(&host);
    _exit(0);
  }
  int status;
  must(waitpid(child, &status, 0) == child && status == 0, "without room");
  unlink(path);
}

static void is_no_other_handle(void) {
  struct x3d_log log = X3D_NONE;
  size_t wanted = 7;
  uint64_t count = 7, place = 7;
  must(make(&log, 2) == X3D_DONE, "no log of misuse");
  struct x3d_host host = {log.at};
  must(x3d_host_count(&host, &count) == X3D_MISUSE, "a log is read as a host");
  must(x3d_log_count(NULL, &count) == X3D_MISUSE, "a null log");
  must(x3d_log_count(&log, NULL) == X3D_MISUSE, "a null count");
  must(x3d_log_append(&log, NULL, 1) == X3D_MISUSE, "null bytes");
  must(x3d_log_read(&log, NULL, 1, &wanted) == X3D_MISUSE && wanted == 7, "a null place");
  must(x3d_log_make(&log, NULL, 1, NULL, 0, 2) == X3D_MISUSE, "a null path");
  must(x3d_log_open(&log, NULL, 0, NULL, 0, 2, NULL) == X3D_MISUSE, "a null place of open");
  must(x3d_log_open(&log, NULL, 0, NULL, 0, 0, &place) == X3D_NO_LOG && !log.at, "no path");
  x3d_log_close(&log);
  x3d_log_close(NULL);
  unlink(path);
}

static int hold(const char *at) {
  struct x3d_log log = X3D_NONE;
  uint64_t place;
  strcpy(path, at);
  printf("%d\n", open_as(&log, text, 0, &place));
  fflush(stdout);
  while (getchar() != EOF) {}
  x3d_log_close(&log);
  return 0;
}

int main(int words, char **word) {
  if (words == 3 && !strcmp(word[1], "hold")) return hold(word[2]);
  snprintf(path, sizeof path, "/tmp/x3d-logs-%d", (int)getpid());
  is_made();
  takes_the_next();
  wants_its_mark();
  names_what_is_wrong();
  is_left_by_the_dead();
  has_no_room();
  is_no_other_handle();
  puts("logs: good");
  return 0;
}
