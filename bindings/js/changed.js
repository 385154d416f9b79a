// The fields that inputs set, with their current values.

/** The names of types, by their numbers in include/x3d.h. */
const TYPES = (
  "SFBool SFInt32 SFFloat SFTime SFString SFVec2f SFVec3f SFColor SFNode " +
  "MFBool MFInt32 MFFloat MFTime MFString MFVec2f MFVec3f MFColor MFNode SFRotation"
).split(" ");

/** The name of a type. */
export function typeOf(number) {
  return TYPES[number] ?? `Type${number}`;
}

/** The number of bytes of a struct x3d_change. */
export const CHANGE_SIZE = 16;

/** The fields of these bytes, each with its part of the numbers. */
export function changedOf(bytes, numbers) {
  const data = new DataView(bytes.buffer, bytes.byteOffset, bytes.byteLength);
  return Array.from({ length: bytes.length / CHANGE_SIZE }, (_, k) => {
    const at = CHANGE_SIZE * k;
    const first = data.getUint32(at + 8, true);
    return {
      node: data.getUint32(at, true),
      field: data.getUint16(at + 4, true),
      type: typeOf(data.getUint8(at + 6)),
      numbers: numbers.subarray(first, first + data.getUint32(at + 12, true)),
    };
  });
}
