// The lines of changes, by the numbers of nodes and fields.

/** The lines, which end at a line feed that stands in no string. */
function* lines(text) {
  let start = 0;
  let quoted = false;
  for (let place = 0; place < text.length; place++) {
    const letter = text[place];
    if (letter === "\\" && quoted) place++;
    else if (letter === '"') quoted = !quoted;
    else if (letter === "\n" && !quoted) {
      yield text.slice(start, place);
      start = place + 1;
    }
  }
}

function microseconds(seconds) {
  const [whole, part = ""] = seconds.split(".");
  return BigInt(whole) * 1_000_000n + BigInt(part.padEnd(6, "0"));
}

/** `<input> <seconds> <node> <field> <value>` */
const CHANGE = /^(\d+) ([\d.]+) (\d+) (\d+) (.*)$/s;

export function changesOf(text) {
  return Array.from(lines(text), (line) => {
    const [, input, seconds, node, field, value] = CHANGE.exec(line);
    return { input: +input, time: microseconds(seconds), node: +node, field: +field, value };
  });
}
