// A shared X3D world in a page or in node.
//
// Times are whole microseconds up to 10^18, which a number cannot hold exactly: what is returned is a bigint, and a
// bigint or a number that is a safe integer is taken. Coordinates are whole millionths of a unit, up to 10^15 in size.
// Numbers of inputs, nodes, fields, viewers and boots are numbers.
//
// A call that is refused throws a Fault. Nothing has changed then, except that after `Memory` at an input, or while a
// snapshot is loaded, the world is spoiled: every call that reads its state throws `Spoiled` until a snapshot brings it
// back.

/** What `load` gives: the compiled library with its memory. Objects of one library share the memory. */
export interface Library {
  readonly calls: unknown;
}

/** Where x3d.wasm is: a response for it, its bytes, or the module compiled from them. */
export type Source = Response | BufferSource | WebAssembly.Module;

/** Loads the library: `await load(fetch("x3d.wasm"))` in a page, `await load(readFile("x3d.wasm"))` in node. */
export function load(source: Source | Promise<Source>): Promise<Library>;

/** A scene's text in the Classic encoding, or its bytes. */
export type Scene = string | Uint8Array;

/** A whole number of up to 64 bits: a bigint, or a number that is a safe integer. */
export type Whole = number | bigint;

/** What a viewer points with, in millionths of a unit: of at most 10^15 in size, the direction not 0 0 0. */
export interface Aim {
  origin: readonly [Whole, Whole, Whole];
  direction: readonly [Whole, Whole, Whole];
}

/** What a ray would hit: where it enters, at `entry[0] / entry[1]` of the way along its direction, and the sensors that
 * the hit concerns. */
export interface Meeting {
  entry: [bigint, bigint];
  sensors: number[];
}

/** An event that was sent: what a field of a node became, at which input, at which time in microseconds. */
export interface Change {
  input: number;
  time: bigint;
  node: number;
  field: number;
  value: string;
}

/** A field that was set, with the type and the numbers of its current value; a text has no numbers. */
export interface Changed {
  node: number;
  field: number;
  type: string;
  numbers: BigInt64Array;
}

/** The type of a field's values, such as `SFVec3f`, and its access. */
export interface FieldType {
  type: string;
  access: "inputOnly" | "outputOnly" | "inputOutput" | "initializeOnly";
}

/** A script that the scene runs: its node and its kind. */
export interface Script {
  node: number;
  kind: "counter" | "gate" | "adder" | "batch" | "mover" | "meter";
}

/** A route: the node and the field that send, and those that take. */
export interface Route {
  source: [number, number];
  target: [number, number];
}

/** What a datagram says:
 * - `Input`, of the host: its number and time; with a pointer also who pointed, and `aim`;
 * - `Offer`, of viewer `who`: its number in its boot, and `aim`;
 * - `Ask`, of viewer `who`: the number of the first input that it lacks;
 * - `Ack`, of the host: the number of offers of viewer `who` in that boot that are numbered;
 * - `Floor`, of the host: the floor;
 * - `Piece`, of a viewer: the boot of the snapshot, and the number of inputs that its world has had. */
export interface Datagram {
  kind: "Input" | "Offer" | "Ask" | "Ack" | "Floor" | "Piece";
  who: number | null;
  boot: number;
  number: number;
  time: bigint;
  down: boolean;
  aim: Aim | null;
}

/** Reads a datagram; the scene's mark is not looked at. Faults: `BadPacket`, `BadVersion`, `BadTag`, `BadRange`,
 * `ZeroRay`. */
export function datagram(library: Library, bytes: Uint8Array): Datagram;

/** What an input led to: the number of outputs that sent, of routes that were followed, and of scripts that settled. */
export interface Work {
  sends: number;
  deliveries: number;
  settles: number;
}

/** The boot that a snapshot was taken as, and the number of inputs that its world had applied. */
export interface Saved {
  boot: number;
  applied: number;
}

/** What a host did with a datagram:
 * - `Asked`: a viewer asked for `count` inputs from `number` on; `Host.packets` has them;
 * - `Numbered`: the offer is now input `number`;
 * - `Repeat`: the offer has been numbered before;
 * - `Ahead`: an earlier offer of that viewer has not come yet;
 * - `OldBoot`: the offer is of an earlier boot of that viewer;
 * - `Below`: a viewer asked for inputs below the floor `number`;
 * - `NothingToDo`. */
export interface Reply {
  kind: "Asked" | "Numbered" | "Repeat" | "Ahead" | "OldBoot" | "Below" | "NothingToDo";
  number: number;
  count: number;
}

/** What a host that was resumed wants stored: bytes for its log's end, and the token by which `Host.stored` is told of
 * it. Without bytes nothing waits. */
export interface Append {
  token: number;
  bytes: Uint8Array;
}

/** What a viewer did with a datagram:
 * - `Applied`: `count` inputs were applied;
 * - `Kept`: the input is kept until the ones before it have come;
 * - `Old`: the input has been applied before;
 * - `Beyond`: the input is more than 64 ahead and is not kept;
 * - `Noted`: a report on the viewer's offers, or the host's floor, was noted;
 * - `Behind`: the host no longer has the next input: only a snapshot helps (`Viewer.gather` and `Viewer.join`). */
export interface Taken {
  kind: "Applied" | "Kept" | "Old" | "Beyond" | "Noted" | "Behind";
  count: number;
}

/** Why a scene's text is no world. `line` is the one that the program prints, such as `refused UnknownNode line 3`.
 * `instance` is the line of the instance whose braces hold the refused value, or null; the message has both. */
export class Refusal extends Error {
  readonly status: 1;
  readonly line: string;
  readonly instance: number | null;
}

/** Why a call is refused: the status of include/x3d.h, and its name, such as `NotNext`. */
export class Fault extends Error {
  constructor(status: number, entry?: number);
  readonly status: number;
  readonly reason: string;
  /** The number of the first wrong entry of a log (`Host.resume`), or null. */
  readonly entry: number | null;
}

/** What the library's memory holds, until `close`. (What is dropped without it is freed some time later, or never.) */
declare abstract class Held {
  /** Frees it. Closing twice is allowed; every other call on it then throws `Closed`. */
  close(): void;
}

/** What is read of a world, of a World and of a Viewer. */
declare abstract class Readable extends Held {
  /** The number of inputs that were applied. The next input has that number plus 1. */
  applied(): number;
  /** What a ray would hit; the world is unchanged. */
  meet(aim: Aim): Meeting | null;
  /** The lines of the trace of inputs from number `first` on: `<input> <seconds> <label>.<field> <value>`. From 0 on it
   * is the whole trace. Then forgets the lines below that number (see `keepLines`). */
  trace(first?: number): string;
  /** The lines that `trace` gives, with the numbers of nodes and fields. Then forgets those below that number, like
   * `trace`. */
  changes(first?: number): Change[];
  /** The fields that inputs after number `since` set, each once, with their current values. `since` is 0, or what
   * `applied` was when the world was drawn last. A field that only sends holds no value and is left out. Then forgets
   * the lines of inputs up to `since` (see `keepLines`). */
  changed(since?: number): Changed[];
  /** Whether lines stay that were read. If not, as at first, `trace`, `changes` and `changed` forget the lines below the
   * number they read from, since a program that reads on has read those: so its memory doesn't grow. */
  keepLines: boolean;
  /** Forgets the lines of the trace of inputs below number `below`, which is at most that of the next input: `trace`,
   * `changes` and `changed` tell only of lines that are left, and so does a snapshot. Nothing else changes. Faults:
   * `Spoiled`, `Range`. */
  forgetBelow(below: number): void;
  /** The current scene, in the Classic encoding. */
  scene(): string;
  /** The number of nodes, which are numbered from 0. */
  nodeCount(): number;
  /** The roots of the scene. */
  roots(): number[];
  /** The nodes in the field `children` of a node; none if it has no such field. */
  children(node: number): number[];
  /** The word for a node's type, such as `Transform`. */
  nodeType(node: number): string;
  /** The label of a node, which no other node has: its DEF name if that is unique, or else `N` and its number. */
  label(node: number): string;
  /** The number of fields of a node, which are numbered from 0; 0 if there is no such node. */
  fieldCount(node: number): number;
  /** The name of a field, such as `translation`. */
  fieldName(node: number, field: number): string;
  /** The number of the field with this name: a field of the node's type, or one that a Script declares. */
  fieldNamed(node: number, name: string): number;
  /** The type and the access of a field of a node. A field that is `inputOnly` or `outputOnly` holds no value. */
  fieldType(node: number, field: number): FieldType;
  /** The number of the node with this DEF name, if one node alone has it, or null. */
  nodeNamed(name: string): number | null;
  /** The time of the last input in microseconds, or 0 before the first. */
  time(): bigint;
  /** The number of scripts that the scene runs. */
  scriptCount(): number;
  /** The node and the kind of each script, in the order of their numbers. */
  scripts(): Script[];
  /** The routes of the scene, in the order of the text; one that the text repeats is listed once. */
  routes(): Route[];
  /** Replaces a script, numbered from 0, with a new one of its kind, which goes on in its state. Faults: `Range`,
   * `NoSuchScript`, `KindDiffers`, `Memory`. */
  replaceScript(script: number, kind: Script["kind"]): void;
  /** The text of the current value of a field, such as `0 1.5 0`; that of a node is empty. */
  value(node: number, field: number): string;
  /** The numbers of that value: truths as 1 and 0, integers, millionths and microseconds unchanged, vectors and colors
   * part by part, nodes as their numbers; a text has none. */
  numbers(node: number, field: number): BigInt64Array;
}

/** What was left out of a text: its line, what it is, and the words on it, such as `node Teapot left out (field
 * geometry)`. The kinds are `Node`, `Grouped` (a node that became a group), `Field`, `Turned` (a rotation that turns),
 * `Use`, `Route`, `Proto`, `Refused` (by a fault of its line), `ExternProto`, `Import`, `Export`, `Unit` and
 * `Declaration`. */
export interface LeftOut {
  line: number;
  kind: string;
  words: string;
}

/** The part of a text that the core can run: without the nodes, fields and statements that it doesn't know. Open worlds,
 * hosts and viewers of its text. Throws a Refusal if the text has no part. */
export class Part extends Held {
  constructor(library: Library, text: Scene);
  /** The text of the part. */
  text(): Uint8Array;
  /** A line for each thing that was left out, and a last line of counts, as `x3d_share part` prints them. */
  notes(): string;
  /** What was left out, in the order of those lines. */
  leftOut(): LeftOut[];
}

/** The world of a scene's text, or of a part, before any input. Throws a Refusal if the text is refused. */
export class World extends Readable {
  constructor(library: Library, scene: Scene | Part);
  /** Applies a clock: `number` is 1 to 2^48 - 1 and the next one, `time` is 1 to 10^18 microseconds and above the last. */
  clock(number: number, time: Whole): Work;
  /** Applies the pointer of viewer `viewer`, 0 to 63, whose button is down or not. */
  point(number: number, time: Whole, viewer: number, down: boolean, aim: Aim): Work;
  /** The snapshot of the world, taken as boot `boot`. */
  snapshot(boot: number): Uint8Array;
  /** Replaces the world, even a spoiled one, with that of a snapshot of this scene, of a boot below `boot`. */
  load(boot: number, snapshot: Uint8Array): Saved;
}

/** The host of a scene for 1 to 64 viewers, numbered from 0: it numbers what happens, and gives it to the viewers. It
 * keeps only the mark of the text, and does not look at the scene.
 *
 * Its life is: `take` each datagram that comes, send back `packets(reply)` and, for the viewer that offered or asked,
 * `ack(who)`; and number a `clock` as often as the world should move on. A datagram has at most 256 bytes. */
export class Host extends Held {
  constructor(library: Library, scene: Scene, viewers: number);
  /** Numbers a clock at a time of 1 to 10^18 microseconds, above that of the last input, and returns its number.
   * Faults: `WorldFull`, `TimeNotLater`, `TimeRange`, `Memory`. */
  clock(time: Whole): number;
  /** Takes a datagram of a viewer: an offer is numbered 1 microsecond after the last input. Faults: `BadPacket`,
   * `BadVersion`, `BadTag`, `BadRange`, `ZeroRay` (the bytes are not a datagram), `WrongScene`, `BadViewer`, and for an
   * offer those of `clock`. */
  take(datagram: Uint8Array): Reply;
  /** Takes a datagram that came from viewer `who`, like `take`. An offer or an ask of another viewer is refused with
   * `BadViewer`, and nothing changes. */
  takeFrom(who: number, datagram: Uint8Array): Reply;
  /** The highest number that viewer `who` has asked from: it has all inputs below. null if it has not asked. */
  heard(who: number): number | null;
  /** Drops the inputs that every viewer that asked has, except the last `count` of them. */
  keep(count: number): void;
  /** The datagram of input `number`; null below the floor, or if that input is not numbered yet. */
  packet(number: number): Uint8Array | null;
  /** What a reply asks to be sent: the inputs that were asked for, at most 64, or the floor if they are below it. */
  packets(reply: Reply): Uint8Array[];
  /** The datagram that says how many offers of viewer `who` are numbered. */
  ack(who: number): Uint8Array;
  /** The floor: inputs below it have no datagrams. It is 1 at first. */
  floor(): number;
  /** The datagram that says the floor. */
  floorPacket(): Uint8Array;
  /** Drops the inputs below `number`, which becomes the floor. Faults: `FloorBack`, `FloorAhead`. */
  dropBelow(number: number): void;
  /** The number of inputs that are numbered: at most 2^48 - 1. */
  count(): number;
  /** The number of viewers. */
  viewers(): number;
  /** The host of a scene that the bytes of its log make: all of them, and none at first. What it numbers then waits
   * until it is stored (`append`), and only after that it shows it. Faults: `Range` (another number of viewers),
   * `WrongScene`; `LogGap` and `NotALog`, with the number of the first wrong entry; `Memory`. */
  static resume(library: Library, scene: Scene, viewers: number, log?: Uint8Array): Host;
  /** The append that is under way, or else a new one of all entries that wait. Store its bytes at the log's end,
   * durably, and then call `stored`. Faults: `NotLasting` (the host was not resumed), `Memory`. */
  append(): Append;
  /** Says what the log answered to the append with this token: `Stored`, for good, and the host shows its inputs from
   * now on; or `Taken` (the log has other entries there) or `InDoubt`: each further call throws `Closed`. Read the log,
   * and resume. Faults: `NotLasting`, `NotAwaited`. */
  stored(token: number, answer?: "Stored" | "Taken" | "InDoubt"): void;
  /** The time of the last input that is numbered, in microseconds, or 0 before the first. */
  time(): bigint;
}

/** A viewer of a scene, as boot `boot` (1 to 2^32 - 1) of viewer `who` (0 to 63): it holds the world, offers what it
 * points at, and applies the host's inputs in order. Throws a Refusal if the text is refused.
 *
 * Its life is: `offer` what is pointed at; send `resend()` and `ask()` to the host again and again, since datagrams may
 * be lost; `take` each datagram that comes. */
export class Viewer extends Readable {
  constructor(library: Library, scene: Scene, who: number, boot: number);
  /** The viewer's boot. */
  boot(): number;
  /** Takes a datagram of the host. Faults: `Spoiled`; `BadPacket`, `BadVersion`, `BadTag`, `BadRange`, `ZeroRay` (the
   * bytes are not a datagram); `WrongScene`; `NotForMe`; `TimeNotLater`: the input is dropped; `Memory`: the viewer is
   * spoiled. */
  take(datagram: Uint8Array): Taken;
  /** Offers what the viewer points at, with the button down or not, and returns the offer's number in this boot, from 1.
   * Faults: `Spoiled`, `ZeroRay`, `PointRange`, `OfferFull` (64 wait), `OffersSpent`. */
  offer(down: boolean, aim: Aim): number;
  /** The number of offers that wait: at most 64. */
  waiting(): number;
  /** The datagrams of all offers that wait, in order. */
  resend(): Uint8Array[];
  /** The datagram that asks for the inputs from the first that the viewer lacks. */
  ask(): Uint8Array;
  /** The snapshot of the viewer's world, taken as its boot. */
  snapshot(): Uint8Array;
  /** Begins again in the world of a snapshot, as a boot above its own and the snapshot's, and returns the number of
   * inputs that the world has had. Then no offer waits, and offers are numbered from 1. */
  rewind(snapshot: Uint8Array, boot: number): number;
  /** The datagrams of a snapshot, or of its own as it is now, for another viewer that is `Behind`; none if the bytes do
   * not begin as a snapshot. Fault `TooLarge` for more than 2^26 bytes. */
  pieces(snapshot?: Uint8Array): Uint8Array[];
  /** Gathers a piece of a snapshot: `New`; `Again`: it had come before; `Whole`: none is missing now, so `join`;
   * `Other`: it is of another snapshot than the one that was begun, which `forget` drops. */
  gather(datagram: Uint8Array): "New" | "Again" | "Whole" | "Other";
  /** Begins again in the snapshot that was gathered, as `rewind` does. Faults: `NotWhole`, then as `rewind`. */
  join(boot: number): number;
  /** Drops what was gathered. */
  forget(): void;
}
