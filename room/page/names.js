/* A viewer's world as the page takes it: every node, with what its fields hold now. The server tells so of the viewers
   that run there (scene.py). */

/* A line of the trace, as `3 3 Door.translation 1 0 0`: its number, its output, the label, the field, the value. */
export const LINE = /^(\d+) \S+ ((\S+)\.(\S+)) (.*)$/s;

/* The lines of a trace; in a string a line goes on. */
export const linesOf = (trace) => trace.match(/(?:[^"\n]|"(?:[^"\\]|\\.)*")+/gs) || [];

/* Of a value of these types its text is told, of all others the numbers. */
const STRINGS = ["SFString", "MFString"];

/* The text of what a field holds, or the list of its nodes; null of what holds nothing. */
function held(world, node, field) {
  try {
    return world.value(node, field) || Array.from(world.numbers(node, field), Number);
  } catch (error) {
    if (error.name !== "Fault") throw error;
    return null;
  }
}

/* The names of a scene's nodes and fields. They are the same in each world of the scene. */
export class Names {
  constructor(world) {
    // Scripts have fields of their own; all else has those of its type.
    const known = new Map();
    this.nodes = Array.from({ length: world.nodeCount() }, (_, node) => {
      const kind = world.nodeType(node), key = kind === "Script" ? node : kind;
      if (!known.has(key)) {
        known.set(key, Array.from({ length: world.fieldCount(node) }, (__, field) => world.fieldName(node, field)));
      }
      return { kind, label: world.label(node), fields: known.get(key) };
    });
  }

  /* The roots of the scene, and each node: its type, its label, its fields. */
  scene(world) {
    const nodes = this.nodes.map(({ kind, label, fields }, node) => ({
      kind, label, fields: Object.fromEntries(fields.map((name, field) => [name, held(world, node, field)])),
    }));
    return { roots: world.roots(), nodes };
  }

  /* What inputs after that number set: of each field its node, its name, the type and the value as it is now. By these
     the page draws; the trace is for lanes alone, since the last line of a field needn't be its value. */
  news(world, since) {
    const now = world.changed(since).map(({ node, field, type, numbers }) => {
      const told = STRINGS.includes(type) ? world.value(node, field) : Array.from(numbers, Number);
      return [node, this.nodes[node].fields[field], type, told];
    });
    return { trace: world.trace(since + 1), now };
  }
}
