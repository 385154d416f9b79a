// Numbers that are passed to calls, which would otherwise be taken modulo a power of two.
import { Fault, RANGE } from "./faults.js";

/** An unsigned whole number of n bits, n at most 32. */
export function fits(number, bits) {
  if (typeof number !== "number") throw new TypeError("a number is wanted");
  if (!Number.isInteger(number) || number < 0 || number >= 2 ** bits) throw new Fault(RANGE);
  return number;
}

/** The number of an input, or of inputs, as C passes it: a whole number that is exact. */
export function ordinal(number) {
  if (typeof number !== "number") throw new TypeError("a number is wanted");
  if (!Number.isSafeInteger(number) || number < 0) throw new Fault(RANGE);
  return BigInt(number);
}

/** A whole number of 64 bits with a sign: a BigInt, or a number that is exact. */
export function signed(number) {
  if (typeof number !== "bigint" && typeof number !== "number") throw new TypeError("a number or a BigInt is wanted");
  if (typeof number === "number" && !Number.isSafeInteger(number)) throw new Fault(RANGE);
  const whole = BigInt(number);
  if (BigInt.asIntN(64, whole) !== whole) throw new Fault(RANGE);
  return whole;
}

/** True or false, as C passes it. */
export function truth(value) {
  if (typeof value !== "boolean") throw new TypeError("true or false is wanted");
  return value ? 1 : 0;
}
