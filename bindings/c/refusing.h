/* Refuses memory to the library: the call of malloc or realloc number `fail_at` fails. */
#ifndef REFUSING_H
#define REFUSING_H
#include "x3d.h"
#include <stdio.h>
#include <stdlib.h>
#include <string.h>

extern void *__libc_malloc(size_t), *__libc_realloc(void *, size_t);
static long fail_at = -1, calls;

void *malloc(size_t n) { return ++calls == fail_at ? NULL : __libc_malloc(n); }
void *realloc(void *p, size_t n) { return ++calls == fail_at ? NULL : __libc_realloc(p, n); }

/* A door that a press of its knob opens. */
static const char scene[] = "#X3D V3.0 utf8\nDEF Motor TimeSensor { cycleInterval 2 }\nDEF Slide "
                            "PositionInterpolator { key [ 0, 1 ] keyValue [ 0 0 0, 1 0 0 ] }\n"
                            "DEF Door Transform { children [ DEF Knob TouchSensor {} Shape { "
                            "geometry Box { size 1 2 0.1 } } ] }\nROUTE Knob.touchTime TO "
                            "Motor.startTime\nROUTE Motor.fraction_changed TO "
                            "Slide.set_fraction\nROUTE Slide.value_changed TO Door.translation\n";

static int refused;

/* Reports whether this may be answered if memory may be refused, and notes a refusal. */
static int told(int status) {
  if (status == X3D_MEMORY || status == X3D_SPOILED) refused = 1;
  return status == X3D_DONE || status == X3D_MEMORY || status == X3D_SPOILED;
}

/* Runs `run` once for each growth, which is refused, until none is. `run` returns 0, or where it
 * went wrong. Returns the program's status. */
static int refuse_each(int (*run)(void)) {
  for (long n = 1; n < 100000; n++) {
    calls = 0;
    fail_at = n;
    refused = 0;
    int wrong = run();
    fail_at = -1;
    if (wrong) {
      printf("growth %ld refused: wrong at %d\n", n, wrong);
      return 1;
    }
    if (!refused) {
      printf("%ld growths refused, each in turn\n", n - 1);
      return n < 20;
    }
  }
  return 2;
}
#endif
