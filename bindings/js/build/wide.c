/* Products and quotients of 128 bits, which the compiler has no instructions for. */
#include "types.h"

typedef unsigned __int128 wide;

enum { HALF = 64, QUARTER = 32 };

static wide of_halves(uint64_t high, uint64_t low) { return (wide)high << HALF | low; }

static uint64_t high_half(wide number) { return (uint64_t)(number >> HALF); }

/* The product of two numbers of 64 bits, by their quarters. */
static wide product(uint64_t a, uint64_t b) {
  uint64_t a_low = (uint32_t)a, a_high = a >> QUARTER, b_low = (uint32_t)b, b_high = b >> QUARTER;
  uint64_t low = a_low * b_low;
  uint64_t middle = a_high * b_low + (low >> QUARTER);
  uint64_t other = a_low * b_high + (uint32_t)middle;
  uint64_t high = a_high * b_high + (middle >> QUARTER) + (other >> QUARTER);
  return of_halves(high, other << QUARTER | (uint32_t)low);
}

wide __multi3(wide a, wide b) {
  uint64_t crossed = high_half(a) * (uint64_t)b + (uint64_t)a * high_half(b);
  return product((uint64_t)a, (uint64_t)b) + of_halves(crossed, 0);
}

/* The quotient bit by bit: each bit that it may have, times the divisor, from the highest down. */
wide __udivti3(wide number, wide divisor) {
  if (divisor == 0) __builtin_trap();
  if (divisor > number) return 0;
  if (high_half(number) == 0) return (uint64_t)number / (uint64_t)divisor;
  wide quotient = 0, bit = 1;
  for (; divisor <= number - divisor; divisor <<= 1) bit <<= 1;
  for (; bit != 0; bit >>= 1, divisor >>= 1) {
    if (divisor > number) continue;
    number -= divisor;
    quotient |= bit;
  }
  return quotient;
}
