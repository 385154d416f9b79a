// What a datagram says.
import { DONE, Fault } from "./faults.js";

const KINDS = ["", "Input", "Offer", "Ask", "Ack", "Floor", "Piece"];
const NO_VIEWER = 255;
const DOWN = 2;
/** The number of bytes of a struct x3d_datagram, and where its ray is. */
const SIZE = 72;
const AIM = 24;

function datagramOf(data) {
  const [who, point] = [data.getUint8(1), data.getUint8(2)];
  const side = (place) => data.getBigInt64(AIM + 8 * place, true);
  return {
    kind: KINDS[data.getUint8(0)],
    who: who === NO_VIEWER ? null : who,
    boot: data.getUint32(4, true),
    number: Number(data.getBigUint64(8, true)),
    time: data.getBigInt64(16, true),
    down: point === DOWN,
    aim: point === 0 ? null : { origin: [side(0), side(1), side(2)], direction: [side(3), side(4), side(5)] },
  };
}

export function datagram(library, bytes) {
  return library.lend(bytes, (...lent) => {
    const status = library.calls.datagram.read(...lent, library.short);
    if (status !== DONE) throw new Fault(status);
    return datagramOf(new DataView(library.copy(library.short, SIZE).buffer));
  });
}
