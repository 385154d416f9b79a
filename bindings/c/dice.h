/* Random numbers from a fixed seed, and a scene for random calls. */
#ifndef DICE_H
#define DICE_H
#include "x3d.h"
#include <stdio.h>
#include <stdlib.h>
#include <string.h>

/* A door that its motor slides again and again. */
#define DOOR                                                                                       \
  "#X3D V3.0 utf8\nDEF Motor TimeSensor { cycleInterval 2 loop TRUE }\nDEF Slide "                 \
  "PositionInterpolator { key [ 0, 1 ] keyValue [ 0 0 0, 1 0 0 ] }\nDEF Door Transform { "         \
  "children [ DEF Knob TouchSensor {} Shape { geometry Box { size 1 2 0.1 } } ] }\nROUTE "         \
  "Knob.touchTime TO Motor.startTime\nROUTE Motor.fraction_changed TO Slide.set_fraction\nROUTE "  \
  "Slide.value_changed TO Door.translation\n"

static uint64_t state = 88172645463325252u;

static uint64_t any(void) {
  state ^= state << 13;
  state ^= state >> 7;
  state ^= state << 17;
  return state;
}

static uint64_t below(uint64_t limit) { return any() % limit; }

/* Mostly small, and sometimes any number. */
static uint64_t number(void) { return below(4) ? below(12) : any(); }

static int64_t coordinate(void) {
  return below(8) ? (int64_t)below(4000001) - 2000000 : (int64_t)any();
}
#endif
