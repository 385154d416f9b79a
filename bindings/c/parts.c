/* Prints the part of the text on standard input, and on standard error what was left out: what
 * `x3d_share part` prints. With the word `check` it opens the text itself, and prints of a text that
 * is refused the lines that `x3d_share check` prints. It ends with 2 if the part's world isn't the
 * one of the part's text, or if numbers and lines differ. */
#include "x3d.h"
#include <stdio.h>
#include <stdlib.h>
#include <string.h>

static void must(bool holds, const char *what) {
  if (holds) return;
  fprintf(stderr, "parts: %s\n", what);
  exit(2);
}

static uint8_t *read_all(size_t *length) {
  size_t room = 1 << 16;
  uint8_t *bytes = malloc(room);
  *length = 0;
  while (bytes) {
    *length += fread(bytes + *length, 1, room - *length, stdin);
    if (*length < room) break;
    bytes = realloc(bytes, room *= 2);
  }
  must(bytes, "no memory");
  return bytes;
}

/* All that a call copies, with a zero byte after it. */
#define COPIED(NAME, OBJECT, CALL)                                                                 \
  static uint8_t *NAME(OBJECT, size_t *length) {                                                   \
    uint8_t none[1];                                                                               \
    CALL(of, none, 0, length);                                                                     \
    uint8_t *text = malloc(*length + 1);                                                           \
    must(text && CALL(of, text, *length, length) == X3D_DONE, "nothing is copied");                \
    text[*length] = 0;                                                                             \
    return text;                                                                                   \
  }
COPIED(text_of, struct x3d_part *of, x3d_part_copy_text)
COPIED(notes_of, struct x3d_part *of, x3d_part_copy_notes)
COPIED(made_of, struct x3d_world *of, x3d_world_copy_text)

static int refused(int status, const uint8_t *line, size_t wanted) {
  fprintf(stderr, "%.*s\n", (int)wanted, (const char *)line);
  return status;
}

static int check(const uint8_t *text, size_t length) {
  struct x3d_world world = X3D_NONE;
  uint8_t line[64];
  size_t wanted;
  uint32_t instance = 77;
  int status = x3d_world_open(&world, text, length, line, sizeof line, &wanted);
  must(x3d_text_instance(text, length, &instance) == X3D_DONE, "no instance is told");
  must(instance == 0 || status == X3D_SCENE, "a good text has an instance");
  x3d_world_close(&world);
  if (status == X3D_DONE) return 0;
  refused(status, line, wanted);
  if (instance) fprintf(stderr, "in the instance on line %u\n", (unsigned)instance);
  return status;
}

/* The numbers have the line of each line of the notes but the last, and a kind. */
static void check_numbers(struct x3d_part *part, const char *notes) {
  size_t count;
  int64_t none[1];
  x3d_part_copy_numbers(part, none, 0, &count);
  int64_t *numbers = malloc((count + 1) * sizeof *numbers);
  must(numbers && x3d_part_copy_numbers(part, numbers, count, &count) == X3D_DONE, "no numbers");
  must(count % 2 == 0, "the numbers are no pairs");
  for (size_t k = 0; k < count; k += 2) {
    char before[64];
    snprintf(before, sizeof before, "line %lld: ", (long long)numbers[k]);
    must(strncmp(notes, before, strlen(before)) == 0, "a line has another number");
    must(numbers[k + 1] >= X3D_LEFT_NODE && numbers[k + 1] <= X3D_LEFT_DECLARATION, "what kind?");
    must((numbers[k + 1] == X3D_LEFT_NODE) ==
             (strncmp(notes + strlen(before), "node ", 5) == 0 &&
              strstr(notes, " left out") < strchr(notes, '\n') && strstr(notes, " left out")),
         "a line is of another kind");
    notes = strchr(notes, '\n') + 1;
  }
  must(strstr(notes, " read as groups\n") && strchr(notes, '\n')[1] == 0, "the last line differs");
  free(numbers);
}

/* The world of the part is that of the part's text. */
static void check_world(struct x3d_part *part, const uint8_t *text, size_t length) {
  struct x3d_world one = X3D_NONE, other = X3D_NONE;
  uint8_t line[64];
  size_t wanted, size, same;
  int status = x3d_world_open(&one, text, length, line, sizeof line, &wanted);
  must(x3d_world_open_part(&other, part, line, sizeof line, &wanted) == status, "another status");
  if (status == X3D_DONE) {
    must(x3d_world_make_snapshot(&one, 1) == X3D_DONE, "no snapshot of the text");
    must(x3d_world_make_snapshot(&other, 1) == X3D_DONE, "no snapshot of the part");
    uint8_t *first = made_of(&one, &size), *second = made_of(&other, &same);
    must(size == same && memcmp(first, second, size) == 0, "another world");
    free(first);
    free(second);
  }
  x3d_world_close(&one);
  x3d_world_close(&other);
}

static void check_closed(struct x3d_part *part) {
  struct x3d_world world = X3D_NONE;
  uint8_t out[1];
  size_t wanted = 5;
  x3d_part_close(part);
  x3d_part_close(part);
  must(x3d_part_copy_text(part, out, 1, &wanted) == X3D_CLOSED, "a closed part has a text");
  must(x3d_part_copy_notes(part, out, 1, &wanted) == X3D_CLOSED, "a closed part has notes");
  must(x3d_world_open_part(&world, part, out, 1, &wanted) == X3D_CLOSED, "it has a world");
  must(wanted == 5 && world.at == NULL, "something changed");
}

int main(int count, char **words) {
  struct x3d_part part = X3D_NONE;
  uint8_t line[64];
  size_t length, wanted, size, told;
  uint8_t *given = read_all(&length);
  if (count > 1 && strcmp(words[1], "check") == 0) {
    int status = check(given, length);
    free(given);
    return status;
  }
  int status = x3d_part_open(&part, given, length, line, sizeof line, &wanted);
  free(given);
  if (status != X3D_DONE) return refused(status, line, wanted);
  uint8_t *text = text_of(&part, &size), *notes = notes_of(&part, &told);
  fwrite(text, 1, size, stdout);
  fwrite(notes, 1, told, stderr);
  if (strlen((char *)notes) == told) check_numbers(&part, (const char *)notes);
  check_world(&part, text, size);
  check_closed(&part);
  free(text);
  free(notes);
  return 0;
}
