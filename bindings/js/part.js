// The part of a text that the core can run.
import { bytesOf, Held } from "./reading.js";

const KINDS = [
  ...["Node", "Grouped", "Field", "Turned", "Use", "Route", "Proto", "Refused"],
  ...["ExternProto", "Import", "Export", "Unit", "Declaration"],
];
const decoder = new TextDecoder();

export class Part extends Held {
  constructor(library, text) {
    super(library, "part");
    this._open(bytesOf(text));
  }

  text() {
    return this._packet("copy_text");
  }

  notes() {
    return decoder.decode(this._packet("copy_notes"));
  }

  leftOut() {
    const numbers = Array.from(this._numbers(), Number);
    const words = this.notes().split("\n");
    return words.slice(0, numbers.length / 2).map((line, k) => ({
      line: numbers[2 * k],
      kind: KINDS[numbers[2 * k + 1]] ?? `Left${numbers[2 * k + 1]}`,
      words: line.slice(line.indexOf(": ") + 2),
    }));
  }
}
