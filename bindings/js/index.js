// A shared X3D world in a page or in node: the library `x3d` as WebAssembly. index.d.ts says what each call does.
export { datagram } from "./datagram.js";
export { Fault, Refusal } from "./faults.js";
export { Host } from "./host.js";
export { load } from "./library.js";
export { Part } from "./part.js";
export { Viewer } from "./viewer.js";
export { World } from "./world.js";
