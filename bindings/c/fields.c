/* Finds fields by their names, in a world and in a viewer: each field of each node under its own
 * name, those that a Script declares behind those of its type, and no others. Then it reads values
 * by name. */
#include "x3d.h"
#include <stdio.h>
#include <stdlib.h>
#include <string.h>

static const char scene[] = "#X3D V3.0 utf8\n"
                            "DEF Door Transform { translation 0 1.5 0 }\n"
                            "DEF Count Script {\n"
                            "  url \"x3dshare:counter\"\n"
                            "  inputOnly SFBool tick\n"
                            "  initializeOnly SFInt32 start 5\n"
                            "  initializeOnly SFInt32 step 2\n"
                            "  outputOnly SFInt32 count\n"
                            "}\n";

enum { DOOR, COUNT, OWN_FIELDS_OF_A_SCRIPT = 4 };

static void must(bool holds, const char *what) {
  if (holds) return;
  fprintf(stderr, "fields: %s\n", what);
  exit(1);
}

/* What the calls of a world and of a viewer have in common. */
struct calls {
  void *object;
  uint8_t (*named)(void *object, uint32_t node, const uint8_t *name, size_t length,
                   uint16_t *field);
  uint8_t (*name)(void *object, uint32_t node, uint16_t field);
  uint8_t (*value)(void *object, uint32_t node, uint16_t field);
  uint8_t (*copy)(void *object, uint8_t *out, size_t room, size_t *wanted);
  uint8_t (*count)(void *object, uint32_t node, uint32_t *count);
};

#define CALLS(OF)                                                                                  \
  static uint8_t OF##_named(void *o, uint32_t n, const uint8_t *name, size_t length,               \
                            uint16_t *field) {                                                     \
    return x3d_##OF##_field_named(o, n, name, length, field);                                      \
  }                                                                                                \
  static uint8_t OF##_name(void *o, uint32_t n, uint16_t f) {                                      \
    return x3d_##OF##_make_field_name(o, n, f);                                                    \
  }                                                                                                \
  static uint8_t OF##_value(void *o, uint32_t n, uint16_t f) {                                     \
    return x3d_##OF##_make_value(o, n, f);                                                         \
  }                                                                                                \
  static uint8_t OF##_copy(void *o, uint8_t *out, size_t r, size_t *w) {                           \
    return x3d_##OF##_copy_text(o, out, r, w);                                                     \
  }                                                                                                \
  static uint8_t OF##_count(void *o, uint32_t n, uint32_t *c) {                                    \
    return x3d_##OF##_field_count(o, n, c);                                                        \
  }
CALLS(world)
CALLS(viewer)

/* The number of a field, or -1 with the number as it was. */
static int found(const struct calls *c, uint32_t node, const char *name, size_t length) {
  uint16_t field = 777;
  uint8_t status = c->named(c->object, node, (const uint8_t *)name, length, &field);
  if (status == X3D_DONE) return field;
  must(status == X3D_NO_SUCH_FIELD && field == 777, "a refusal is another, or told a number");
  return -1;
}

static void has(const struct calls *c, uint32_t node, const char *name, const char *value) {
  uint8_t text[64];
  size_t length;
  int field = found(c, node, name, strlen(name));
  must(field >= 0 && c->value(c->object, node, (uint16_t)field) == X3D_DONE,
       "a field has no value");
  must(c->copy(c->object, text, sizeof text, &length) == X3D_DONE, "a value is too long");
  must(length == strlen(value) && memcmp(text, value, length) == 0, "a value is another");
}

static void all(const struct calls *c) {
  uint8_t name[64];
  size_t length;
  uint32_t fields;
  for (uint32_t node = DOOR; node <= COUNT; node++) {
    must(c->count(c->object, node, &fields) == X3D_DONE && fields > 0, "a node has no fields");
    for (uint16_t field = 0; field < fields; field++) {
      must(c->name(c->object, node, field) == X3D_DONE, "a field has no name");
      must(c->copy(c->object, name, sizeof name, &length) == X3D_DONE, "a name is too long");
      must(found(c, node, (const char *)name, length) == field,
           "a field is not found under its name");
    }
  }
  /* A Script has metadata, url, directOutput and mustEvaluate, and behind them what it declares. */
  must(fields == OWN_FIELDS_OF_A_SCRIPT + 4, "the Script has other fields");
  must(found(c, COUNT, "url", 3) == 1 && found(c, COUNT, "tick", 4) == 4 &&
           found(c, COUNT, "count", 5) == 7,
       "another number");
  must(found(c, DOOR, "count", 5) < 0, "the Transform has the field of the Script");
  must(found(c, DOOR, "set_translation", 15) < 0, "an alias is no name of its own");
  must(found(c, DOOR, "translation\0", 12) < 0 && found(c, DOOR, "\xff", 1) < 0 &&
           found(c, DOOR, "", 0) < 0,
       "no name is one");
  must(found(c, COUNT + 1, "url", 3) < 0 && found(c, UINT32_MAX, "url", 3) < 0,
       "there is no such node");
  has(c, DOOR, "translation", "0 1.5 0");
  has(c, COUNT, "start", "5");
  has(c, COUNT, "step", "2");
}

int main(void) {
  struct x3d_world world = X3D_NONE;
  struct x3d_viewer viewer = X3D_NONE;
  const struct calls of_world = {&world,      world_named, world_name,
                                 world_value, world_copy,  world_count};
  const struct calls of_viewer = {&viewer,      viewer_named, viewer_name,
                                  viewer_value, viewer_copy,  viewer_count};
  uint8_t line[64];
  size_t wanted;
  uint16_t field = 777;
  const uint8_t *text = (const uint8_t *)scene;
  must(x3d_world_open(&world, text, sizeof scene - 1, line, sizeof line, &wanted) == X3D_DONE,
       "there is no world");
  must(x3d_viewer_open(&viewer, text, sizeof scene - 1, 0, 1, line, sizeof line, &wanted) ==
           X3D_DONE,
       "there is no viewer");
  all(&of_world);
  all(&of_viewer);
  x3d_world_close(&world);
  x3d_viewer_close(&viewer);
  must(x3d_world_field_named(&world, 0, text, 3, &field) == X3D_CLOSED, "a closed world answers");
  must(x3d_viewer_field_named(&viewer, 0, text, 3, &field) == X3D_CLOSED,
       "a closed viewer answers");
  must(field == 777, "a closed handle told a number");
  puts("each field is found under its name, and no other");
  return 0;
}
