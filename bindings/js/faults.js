// Why a call is refused.

/** The statuses of include/x3d.h that the code here looks at. */
export const DONE = 0;
export const SCENE = 1;
export const MEMORY = 5;
export const CLOSED = 10;
export const RANGE = 11;
export const ROOM = 12;
export const NO_SUCH_NODE = 23;
export const NO_PACKET = 25;

const REASONS = {
  5: "Memory",
  10: "Closed",
  11: "Range",
  13: "Misuse",
  20: "Spoiled",
  21: "NotNext",
  22: "TimeNotLater",
  23: "NoSuchNode",
  24: "NoSuchField",
  25: "NoPacket",
  26: "NoSuchScript",
  27: "KindDiffers",
  28: "NoValue",
  30: "Short",
  31: "BadMagic",
  32: "BadVersion",
  33: "WrongScene",
  34: "BadDigest",
  35: "NotCanonical",
  36: "BootNotNew",
  37: "ScriptState",
  40: "BadPacket",
  41: "BadTag",
  42: "BadRange",
  43: "ZeroRay",
  44: "BadViewer",
  45: "WorldFull",
  46: "TimeRange",
  47: "FloorBack",
  48: "FloorAhead",
  50: "NotForMe",
  51: "PointRange",
  52: "OfferFull",
  53: "OffersSpent",
  54: "NotPiece",
  55: "NotWhole",
  56: "TooLarge",
  60: "NotALog",
  61: "LogGap",
  62: "NotLasting",
  63: "NotAwaited",
  70: "NoLog",
  71: "LogBusy",
  72: "Device",
  73: "NotEmpty",
  74: "BadHead",
  75: "WrongSeats",
  76: "LogDamaged",
  77: "NotEntries",
  78: "LogFull",
  79: "InDoubt",
  80: "HasBase",
};

export class Refusal extends Error {
  constructor(line, instance = 0) {
    super(instance === 0 ? line : `${line}, in the instance on line ${instance}`);
    this.name = "Refusal";
    this.status = SCENE;
    this.line = line;
    this.instance = instance || null;
  }
}

export class Fault extends Error {
  constructor(status, entry = 0) {
    const reason = REASONS[status] ?? `Status${status}`;
    super(entry === 0 ? reason : `${reason}, entry ${entry}`);
    this.name = "Fault";
    this.reason = reason;
    this.status = status;
    this.entry = entry || null;
  }
}
