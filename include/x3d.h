/* A shared X3D world inside another program: the library `x3d`. docs/EMBEDDING.md explains how to
 * use it. scripts/header compares the declarations below with the sources.
 *
 * Words:
 * - A world is a scene after some inputs. Inputs are numbered from 1; each is a clock, which moves
 *   time on, or a pointer: the ray of a viewer, and whether its button is down.
 * - An output is a field by which a node sends events. A script settles when it is called after the
 *   events of an input. The trace is the list of all events that were sent.
 * - A host numbers the inputs of a shared world. A viewer holds the world and applies the inputs in
 *   order. It offers what it points at, until an ack of the host says that the offer is an input.
 *   It asks for the inputs that it lacks. The floor is the lowest input that the host still has,
 *   or the next one if it has dropped all.
 * - A datagram is one message of a host or a viewer. It has the mark of its scene: the SHA-256 of
 *   the scene's text.
 * - A snapshot is a world as bytes, and a piece is a part of it in a datagram of its own. A boot is
 *   a number that rises with each start of a viewer.
 * - Times are microseconds. Coordinates and other floats are millionths (of a unit). */
#ifndef X3D_H
#define X3D_H

#include <stdbool.h>
#include <stddef.h>
#include <stdint.h>

#ifdef __cplusplus
extern "C" {
#endif

/* Rules that the caller must keep:
 * - A handle begins as null: `struct x3d_world world = X3D_NONE;`. Do not read or write its
 *   contents. Its bytes may be moved, if the old place is not used again.
 * - Make one call at a time on a handle. A call that may change it returns X3D_MISUSE while another
 *   call on it runs; a closing call does nothing then. A call that only reads (its handle is const)
 *   waits for the other.
 * - Each pointer points to at least as much memory as its type, or the length argument after it,
 *   requires. Memory that a call writes overlaps nothing else that the call is given. A pointer may
 *   be null if the length or the room after it is 0.
 * - Close every handle that you open. You may close twice, close null, and open again. Every other
 *   call on a closed handle returns X3D_CLOSED, or X3D_RANGE if a number is out of its range and
 *   the call tests that first.
 * A call returns X3D_MISUSE, and changes nothing, for: any other null pointer; a handle of another
 * kind; a copy of a closed handle, until another handle reuses its memory; a second call at the
 * same time that may change the handle. The library cannot check the other rules, nor every copy.
 * A calling thread needs a stack of at least 512 KB. */

/* Handles. Each holds a heap object (a world, a host, a viewer, a log, the part of a text), or
 * nothing. */
struct x3d_world { void *at; };
struct x3d_host { void *at; };
struct x3d_viewer { void *at; };
struct x3d_log { void *at; };
struct x3d_part { void *at; };
#ifdef __cplusplus
#define X3D_NONE {nullptr}
#else
#define X3D_NONE {0}
#endif

/* The status that a call returns, if its result is a uint8_t. After any status but X3D_DONE nothing
 * has changed, except where the status or the call says so. */
enum x3d_status {
  X3D_DONE = 0,            /* the call succeeded */
  X3D_SCENE = 1,           /* the scene or its scripts are refused; the refusal's line says why */
  X3D_MEMORY = 5,          /* memory ran out; at an input or a load this spoils the world */
  X3D_CLOSED = 10,         /* the handle holds nothing */
  X3D_RANGE = 11,          /* a number that was passed is not one that the call allows */
  X3D_ROOM = 12,           /* `room` is too small: nothing is copied, `wanted` is the room needed */
  X3D_MISUSE = 13,         /* a null pointer, a wrong handle, or a second call at the same time */
  X3D_SPOILED = 20,        /* memory ran out before: only a snapshot brings the world back */
  X3D_NOT_NEXT = 21,       /* the input's number is not the next one */
  X3D_TIME_NOT_LATER = 22, /* the input's time is not above that of the last one */
  X3D_NO_SUCH_NODE = 23,   /* there is no such node */
  X3D_NO_SUCH_FIELD = 24,  /* the node has no field with that number or name */
  X3D_NO_PACKET = 25,      /* there is no such datagram: no such input, offer or piece */
  X3D_NO_SUCH_SCRIPT = 26, /* there is no script with that number */
  X3D_KIND_DIFFERS = 27,   /* x3d_world_replace_script: the script is of another kind */
  X3D_NO_VALUE = 28,       /* no value: the field only sends or takes events, or is a rotation */
  X3D_SHORT = 30,          /* the snapshot has fewer than 85 bytes */
  X3D_BAD_MAGIC = 31,      /* not a snapshot */
  X3D_BAD_VERSION = 32,    /* a snapshot's version is not 1 to 3; a datagram's version is not 1 */
  X3D_WRONG_SCENE = 33,    /* the snapshot, the datagram or the log is of another scene */
  X3D_BAD_DIGEST = 34,     /* the snapshot was altered */
  X3D_NOT_CANONICAL = 35,  /* the snapshot is not of a world of this scene */
  X3D_BOOT_NOT_NEW = 36,   /* the boot is not above the snapshot's, or the viewer's own */
  X3D_SCRIPT_STATE = 37,   /* the state of a script does not fit */
  X3D_BAD_PACKET = 40,     /* not a datagram: too short, wrong magic, or wrong length */
  X3D_BAD_TAG = 41,        /* the datagram's tag is unknown */
  X3D_BAD_RANGE = 42,      /* a field of the datagram is out of its range */
  X3D_ZERO_RAY = 43,       /* the direction is 0 0 0 */
  X3D_BAD_VIEWER = 44,     /* the host has no such viewer, or the datagram is another viewer's */
  X3D_WORLD_FULL = 45,     /* the host has numbered 2^48 - 1 inputs */
  X3D_TIME_RANGE = 46,     /* the time is above 10^18 microseconds */
  X3D_FLOOR_BACK = 47,     /* the floor may not move back */
  X3D_FLOOR_AHEAD = 48,    /* the floor may not be above the number of the next input */
  X3D_NOT_FOR_ME = 50,     /* not for this viewer: an offer, an ask, a piece, another's ack */
  X3D_POINT_RANGE = 51,    /* a coordinate is above 10^15 millionths in absolute value */
  X3D_OFFER_FULL = 52,     /* 64 offers wait already */
  X3D_OFFERS_SPENT = 53,   /* 2^32 - 1 offers were made in this boot */
  X3D_NOT_PIECE = 54,      /* the datagram is not a piece of a snapshot */
  X3D_NOT_WHOLE = 55,      /* pieces of the snapshot are missing */
  X3D_TOO_LARGE = 56,      /* the snapshot is too large to be sent in pieces */
  X3D_NOT_A_LOG = 60,      /* an entry has bytes that no host for that many viewers writes */
  X3D_LOG_GAP = 61,        /* an entry of the log is missing, or is in the wrong place */
  X3D_NOT_LASTING = 62,    /* the host was opened, not resumed: it has no log */
  X3D_NOT_AWAITED = 63,    /* no append with this number (token) is under way */
  X3D_NO_LOG = 70,         /* there is no file of this name, or no folder for one */
  X3D_LOG_BUSY = 71,       /* another handle or program has the log open */
  X3D_DEVICE = 72,         /* the system refused a call on the log's file, or on its folder */
  X3D_NOT_EMPTY = 73,      /* a log is to be made in a file that has other bytes */
  X3D_BAD_HEAD = 74,       /* the file does not begin as a log does, with its head */
  X3D_WRONG_SEATS = 75,    /* the log is of another number of viewers */
  X3D_LOG_DAMAGED = 76,    /* a frame (entries stored together) was altered, or is misplaced */
  X3D_NOT_ENTRIES = 77,    /* the bytes are not the next entries of this log */
  X3D_LOG_FULL = 78,       /* the log would have more than 2^48 - 1 entries */
  X3D_IN_DOUBT = 79,       /* an append failed, and may be stored: close the log, open it again */
  X3D_HAS_BASE = 80        /* the log has no entries up to a number: `serve --base` dropped them */
};

/* What an input led to: how many outputs sent, how many routes were followed, and how many scripts
 * settled. */
struct x3d_work {
  size_t sends;
  size_t deliveries;
  size_t settles;
};

/* The ray that a viewer points with, in millionths of a unit: each coordinate of origin and
 * direction is at most 10^15 in absolute value, and the direction is not 0 0 0. */
struct x3d_aim {
  int64_t origin_x;
  int64_t origin_y;
  int64_t origin_z;
  int64_t direction_x;
  int64_t direction_y;
  int64_t direction_z;
};

/* Where a ray would enter the Box that it hits first: at the point origin + (n / m) * direction. If
 * it hits none, m is 0. */
struct x3d_met {
  uint64_t n;
  uint64_t m;
};

/* The types of values. No field has a value of type X3D_SFROTATION yet. */
enum x3d_type {
  X3D_SFBOOL = 0,
  X3D_SFINT32 = 1,
  X3D_SFFLOAT = 2,
  X3D_SFTIME = 3,
  X3D_SFSTRING = 4,
  X3D_SFVEC2F = 5,
  X3D_SFVEC3F = 6,
  X3D_SFCOLOR = 7,
  X3D_SFNODE = 8,
  X3D_MFBOOL = 9,
  X3D_MFINT32 = 10,
  X3D_MFFLOAT = 11,
  X3D_MFTIME = 12,
  X3D_MFSTRING = 13,
  X3D_MFVEC2F = 14,
  X3D_MFVEC3F = 15,
  X3D_MFCOLOR = 16,
  X3D_MFNODE = 17,
  X3D_SFROTATION = 18
};

/* How a field may be used. X3D_INPUT_ONLY fields, X3D_OUTPUT_ONLY fields and rotations hold no
 * value. */
enum x3d_access {
  X3D_INPUT_ONLY = 0,     /* takes events */
  X3D_OUTPUT_ONLY = 1,    /* sends events */
  X3D_INPUT_OUTPUT = 2,   /* holds a value, which events set, and sends it on */
  X3D_INITIALIZE_ONLY = 3 /* holds the value that the scene gives */
};

/* The type of a field's values (an x3d_type), and its access (an x3d_access). */
struct x3d_field {
  uint8_t value_type;
  uint8_t access;
};

/* A field that was set. Its value is of type `value_type` (an x3d_type), and has `count` numbers.
 * x3d_world_copy_numbers copies them; they begin at place `first`. */
struct x3d_change {
  uint32_t node;
  uint16_t field;
  uint8_t value_type;
  uint32_t first;
  uint32_t count;
};

/* The number of inputs that the world of a snapshot has applied, and the boot that is stored in the
 * snapshot. */
struct x3d_saved {
  uint64_t applied;
  uint32_t boot;
};

/* A tag says which of six kinds a datagram is. For each: who sends it, what `number` means. */
enum x3d_tag {
  X3D_TAG_INPUT = 1, /* from the host: the input's number */
  X3D_TAG_OFFER = 2, /* from a viewer: the offer's number in that boot, from 1 */
  X3D_TAG_ASK = 3,   /* from a viewer: the number of the first input that it lacks */
  X3D_TAG_ACK = 4,   /* from the host: how many offers of that boot are numbered */
  X3D_TAG_FLOOR = 5, /* from the host: the floor */
  X3D_TAG_PIECE = 6  /* from a viewer: how many inputs the snapshot's world has applied */
};

/* No viewer has this number. */
#define X3D_NO_VIEWER 255

/* Whether a datagram has a pointer, and the state of its button. */
enum x3d_button {
  X3D_NO_POINT = 0,
  X3D_POINT_UP = 1,
  X3D_POINT_DOWN = 2
};

/* What a datagram says. `who` is the viewer that offers, that asks, that an ack is for, or that
 * pointed in an input. It is X3D_NO_VIEWER for a clock, a floor or a piece. `boot` is that of an
 * offer, an ack or a piece, and `time` that of an input. `aim` is set if `point` (an x3d_button) is
 * not X3D_NO_POINT. Any other field that the tag does not use is 0. */
struct x3d_datagram {
  uint8_t tag;
  uint8_t who;
  uint8_t point;
  uint32_t boot;
  uint64_t number;
  int64_t time;
  struct x3d_aim aim;
};

/* What a host did with a datagram. On X3D_REPLY_ASKED, send the datagrams of the `count` inputs
 * from `number` on, at most 64. On X3D_REPLY_BELOW, send the datagram of the floor. On any other,
 * send no input and no floor. X3D_REPLY_NOTHING_TO_DO answers an ask for an input that is not
 * numbered yet, and a datagram that is neither an offer nor an ask. */
enum x3d_replied {
  X3D_REPLY_ASKED = 0,        /* a viewer asked for `count` inputs from `number` on */
  X3D_REPLY_NUMBERED = 1,     /* the offer is now input `number` */
  X3D_REPLY_REPEAT = 2,       /* the offer has been numbered before */
  X3D_REPLY_AHEAD = 3,        /* an earlier offer of that viewer has not come yet */
  X3D_REPLY_OLD_BOOT = 4,     /* the offer is of an earlier boot of that viewer */
  X3D_REPLY_BELOW = 5,        /* a viewer asked for inputs below the floor `number` */
  X3D_REPLY_NOTHING_TO_DO = 6
};
struct x3d_reply {
  uint64_t number;
  uint64_t count;
  uint32_t kind;
};

/* What the log of a host answers to an append of entries (x3d_host_stored). */
enum x3d_append {
  X3D_APPEND_STORED = 0, /* the log has the entries, for good */
  X3D_APPEND_TAKEN = 1,  /* the log has other entries there, of another host, and none of these */
  X3D_APPEND_DOUBT = 2   /* the log has none, the first few or all: read it */
};

/* What a viewer did with a datagram. */
enum x3d_took {
  X3D_TOOK_OLD = 0,     /* the input has been applied before */
  X3D_TOOK_BEYOND = 1,  /* the input is more than 64 ahead and is not kept */
  X3D_TOOK_KEPT = 2,    /* the input is kept until the ones before it have come */
  X3D_TOOK_APPLIED = 3, /* `count` inputs were applied */
  X3D_TOOK_NOTED = 4,   /* an ack of the viewer's offers, or the host's floor, was noted */
  X3D_TOOK_BEHIND = 5   /* the host no longer has the next input: only a snapshot helps */
};
struct x3d_taken {
  uint64_t count;
  uint32_t kind;
};

/* What a viewer did with a piece of a snapshot. X3D_GATHERED_NEW: kept, others are missing.
 * X3D_GATHERED_AGAIN: it had come before. X3D_GATHERED_WHOLE: kept, none is missing now.
 * X3D_GATHERED_OTHER: it is of another snapshot than the one that was begun, and is not kept. */
enum x3d_gathered {
  X3D_GATHERED_NEW = 0,
  X3D_GATHERED_AGAIN = 1,
  X3D_GATHERED_WHOLE = 2,
  X3D_GATHERED_OTHER = 3
};

/* The kinds of scripts. */
enum x3d_kind {
  X3D_COUNTER = 0,
  X3D_GATE = 1,
  X3D_ADDER = 2,
  X3D_BATCH = 3,
  X3D_MOVER = 4,
  X3D_METER = 5
};

/* What a part leaves out of the text that it is made of. */
enum x3d_left {
  X3D_LEFT_NODE = 0,        /* a node */
  X3D_LEFT_GROUPED = 1,     /* the node's type: it became a Group or a Transform */
  X3D_LEFT_FIELD = 2,       /* a field */
  X3D_LEFT_TURNED = 3,      /* a rotation by an angle other than 0 */
  X3D_LEFT_USE = 4,         /* a USE of a name that no node of the part has */
  X3D_LEFT_ROUTE = 5,       /* a ROUTE with an end that no node of the part has */
  X3D_LEFT_PROTO = 6,       /* a PROTO without a node in its body */
  X3D_LEFT_REFUSED = 7,     /* what x3d_world_open refuses at this line */
  X3D_LEFT_EXTERNPROTO = 8, /* an EXTERNPROTO */
  X3D_LEFT_IMPORT = 9,      /* an IMPORT */
  X3D_LEFT_EXPORT = 10,     /* an EXPORT */
  X3D_LEFT_UNIT = 11,       /* a UNIT */
  X3D_LEFT_DECLARATION = 12 /* the declaration of a field whose type is not read */
};

/* The most bytes that a datagram has: a buffer of this size always has room for one. */
#define X3D_PACKET 256

/* The number of this binary interface, the last part of the library's SONAME. It rises with each
 * change after which a compiled program has to be compiled again. */
#define X3D_ABI 1

/* ---- the library itself. Each text is a constant of the library; do not free it. */

/* Returns the library's version, such as `0.3.0`, or `0.3.0-unproved` if it was built without a
 * proof. */
const char *x3d_version(void);
/* Returns the X3D_ABI that the library was built with. */
uint32_t x3d_abi(void);
/* Returns what a status means: the words beside it in x3d_status. Any other number has the text
 * `unknown status`. */
const char *x3d_status_text(uint8_t status);

/* ---- datagrams */

/* Writes what a datagram says. Any program that carries datagrams may call it: it looks at no
 * handle, and not at the mark of the datagram's scene. May return X3D_BAD_PACKET, X3D_BAD_VERSION,
 * X3D_BAD_TAG, X3D_BAD_RANGE or X3D_ZERO_RAY if the bytes are not a datagram. */
uint8_t x3d_datagram_read(const uint8_t *bytes, size_t length, struct x3d_datagram *datagram);

/* ---- texts */

/* Writes the line on which the instance of a prototype begins, if the text is refused for a value
 * that the instance gives in its braces; for any other text 0. (The refusal itself has the line of
 * the field in the prototype's body.) May return: X3D_MEMORY. */
uint8_t x3d_text_instance(const uint8_t *text, size_t length, uint32_t *line);

/* ---- the part of a text: what stays of it without the nodes, fields and statements that the core
 * doesn't know. docs/SCENES.md says what stays. */

/* Makes the part of a text (Classic encoding). It replaces the one that the handle had. The part
 * is itself a text: open worlds, a host and viewers with its bytes (x3d_part_copy_text). May
 * return: X3D_SCENE if the text has no part, or X3D_MEMORY. Then the handle is empty, and the line
 * of the refusal is copied, as x3d_world_open describes. */
uint8_t x3d_part_open(struct x3d_part *part, const uint8_t *text, size_t length, uint8_t *refusal,
                      size_t room, size_t *wanted);
/* Frees the part. Does nothing if the handle holds none. */
void x3d_part_close(struct x3d_part *part);
/* Copies the text of the part, and writes its number of bytes to `wanted`. May return: X3D_ROOM if
 * `room` bytes are not enough; nothing is copied then. */
uint8_t x3d_part_copy_text(const struct x3d_part *part, uint8_t *out, size_t room, size_t *wanted);
/* Copies, like x3d_part_copy_text, a line for each thing that was left out, such as `line 12: node
 * Teapot left out (field geometry)`, and a last line of counts. */
uint8_t x3d_part_copy_notes(const struct x3d_part *part, uint8_t *out, size_t room, size_t *wanted);
/* Copies two numbers for each thing that was left out: its line of the text, and what it is (an
 * x3d_left). `room` and `wanted` count numbers. May return: X3D_ROOM. */
uint8_t x3d_part_copy_numbers(const struct x3d_part *part, int64_t *out, size_t room,
                              size_t *wanted);

/* ---- a world */

/* Opens the world of a scene's text (Classic encoding). It replaces the one that the handle had.
 * May return: X3D_SCENE or X3D_MEMORY. Then the handle is empty, and the line of the refusal
 * (`refused NAME`, mostly with ` line N`; at most 64 bytes) is copied to `refusal` if `room` bytes
 * are enough. Its length is written to `wanted`. */
uint8_t x3d_world_open(struct x3d_world *world, const uint8_t *text, size_t length,
                       uint8_t *refusal, size_t room, size_t *wanted);
/* Opens the world of a part's text, like x3d_world_open. May also return: X3D_CLOSED if `part` is
 * closed; the world is then what it was. */
uint8_t x3d_world_open_part(struct x3d_world *world, struct x3d_part *part, uint8_t *refusal,
                            size_t room, size_t *wanted);
/* Frees the world. Does nothing if the handle holds none. */
void x3d_world_close(struct x3d_world *world);
/* Writes the number of inputs that were applied. The next input has that number plus 1. */
uint8_t x3d_world_applied(const struct x3d_world *world, uint64_t *count);

/* ---- inputs, numbered from 1 to 2^48 - 1, at times of 1 to 10^18 microseconds, each above the last
 *
 * A call that applies an input may return, in this order: X3D_RANGE if the number, the time or the
 * pointer is out of its range, X3D_SPOILED, X3D_NOT_NEXT, X3D_TIME_NOT_LATER, or X3D_MEMORY, which
 * spoils the world. */

/* Applies a clock at `time` microseconds, and writes what it led to. */
uint8_t x3d_world_clock(struct x3d_world *world, uint64_t number, int64_t time,
                        struct x3d_work *work);
/* Applies the pointer of viewer `viewer`, 0 to 63, whose button is down or not, at `time`
 * microseconds, and writes what it led to. */
uint8_t x3d_world_point(struct x3d_world *world, uint64_t number, int64_t time, uint8_t viewer,
                        bool down, const struct x3d_aim *aim, struct x3d_work *work);
/* Writes where a ray would enter the Box that it hits first, and lists the sensors that a pointer
 * with this ray is over (x3d_world_copy_numbers copies their nodes). These are the enabled
 * pointing sensors next to the Box's Shape, in the same `children` field or among the roots. If
 * none is there, the sensors next to the node that holds the Shape are listed, and so on upwards.
 * Sensors among the children of a Switch do not count. The world is unchanged. May return, in this
 * order: X3D_RANGE if the ray is out of its range (the list is kept), X3D_SPOILED, or
 * X3D_MEMORY. */
uint8_t x3d_world_meet(struct x3d_world *world, const struct x3d_aim *aim, struct x3d_met *met);

/* ---- texts: a call makes a text, then x3d_world_copy_text copies it
 *
 * A call that makes a text drops the one before. If it fails, the text is empty and the world is
 * unchanged. It may return X3D_MEMORY; also X3D_SPOILED, unless it is x3d_world_make_type,
 * x3d_world_make_label or x3d_world_make_field_name. */

/* Makes the lines of the trace of inputs from number `first` on: `<input> <seconds> <label>.<field>
 * <value>`. From 0 on it is the whole trace. */
uint8_t x3d_world_make_trace(struct x3d_world *world, uint64_t first);
/* Makes the same lines with numbers: `<input> <seconds> <node> <field> <value>`. A line has the
 * value that was sent. Do not draw it: an output sends once in an input, and its field may be set
 * again after that. x3d_world_list_changed has the fields with their current values. */
uint8_t x3d_world_make_changes(struct x3d_world *world, uint64_t first);
/* Makes the current scene, in the Classic encoding. */
uint8_t x3d_world_make_scene(struct x3d_world *world);
/* Makes the word for a node's type, such as `Transform`. May return: X3D_NO_SUCH_NODE. */
uint8_t x3d_world_make_type(struct x3d_world *world, uint32_t node);
/* Makes a node's label: its DEF name, if no other node has it and it is not `N` and digits; else
 * `N` and the node's number. No two labels are equal. May return: X3D_NO_SUCH_NODE. */
uint8_t x3d_world_make_label(struct x3d_world *world, uint32_t node);
/* Makes the name of a field of a node, such as `translation`. May return: X3D_NO_SUCH_FIELD if
 * there is no such node or field. */
uint8_t x3d_world_make_field_name(struct x3d_world *world, uint32_t node, uint16_t field);
/* Makes the text of the current value of a field, such as `0 1.5 0`. For a field of nodes it is
 * empty. May return: X3D_NO_SUCH_FIELD, or X3D_NO_VALUE if the field holds no value. */
uint8_t x3d_world_make_value(struct x3d_world *world, uint32_t node, uint16_t field);
/* Makes the snapshot of the world, with `boot` as the boot number stored in it. */
uint8_t x3d_world_make_snapshot(struct x3d_world *world, uint32_t boot);
/* Copies the text or the snapshot that was made last, and writes its number of bytes to `wanted`.
 * May return: X3D_ROOM if `room` bytes are not enough; nothing is copied then. */
uint8_t x3d_world_copy_text(const struct x3d_world *world, uint8_t *out, size_t room,
                            size_t *wanted);

/* ---- numbers: a call lists them, then x3d_world_copy_numbers copies them
 *
 * A call that lists numbers drops the ones before. If it fails, the list is empty and the world
 * unchanged. It may return X3D_MEMORY. */

/* Writes the number of nodes in the scene. They are numbered from 0. */
uint8_t x3d_world_node_count(const struct x3d_world *world, size_t *count);
/* Writes the number of fields of a node, which are numbered from 0, or 0 if there is no such
 * node. */
uint8_t x3d_world_field_count(const struct x3d_world *world, uint32_t node, uint32_t *count);
/* Writes the number of the field of a node with this name, such as `translation`: a field of its
 * type, or one that a Script declares. Other calls take a field by this number. May return:
 * X3D_NO_SUCH_FIELD if there is no such node or field. */
uint8_t x3d_world_field_named(const struct x3d_world *world, uint32_t node, const uint8_t *name,
                              size_t length, uint16_t *field);
/* Writes the type and the access of a field of a node. May return: X3D_NO_SUCH_FIELD if there is no
 * such node or field. */
uint8_t x3d_world_field_type(const struct x3d_world *world, uint32_t node, uint16_t field,
                             struct x3d_field *told);
/* Writes the number of the node with this DEF name, if the name is the node's label. May return:
 * X3D_NO_SUCH_NODE if there is none. */
uint8_t x3d_world_node_named(const struct x3d_world *world, const uint8_t *name, size_t length,
                             uint32_t *node);
/* Writes the time of the last input in microseconds, or 0 before the first. May return:
 * X3D_SPOILED. */
uint8_t x3d_world_time(const struct x3d_world *world, int64_t *time);
/* Lists the roots of the scene by their numbers. */
uint8_t x3d_world_list_roots(struct x3d_world *world);
/* Lists the nodes in the field `children` of a node, and nothing if it has no such field. May
 * return: X3D_NO_SUCH_NODE. */
uint8_t x3d_world_list_children(struct x3d_world *world, uint32_t node);
/* Lists the numbers of the current value of a field: booleans as 1 and 0, integers, millionths and
 * microseconds unchanged, vectors and colors part by part, nodes as their numbers. A string field
 * has none. May return, in this order: X3D_SPOILED, X3D_NO_SUCH_FIELD if there is no such field, or
 * X3D_NO_VALUE if it holds no value. */
uint8_t x3d_world_list_value(struct x3d_world *world, uint32_t node, uint16_t field);
/* Copies the numbers that were listed last, and writes how many there are to `wanted`. May return:
 * X3D_ROOM if there is no room for `wanted` numbers; nothing is copied then. */
uint8_t x3d_world_copy_numbers(const struct x3d_world *world, int64_t *out, size_t room,
                               size_t *wanted);

/* ---- changes: a call lists them, then x3d_world_copy_changed copies them, and
 * x3d_world_copy_numbers their numbers */

/* Lists the fields that inputs after number `since` set: each field once, with its current value,
 * in the order in which each was first set. `since` is 0, or the number of inputs that were applied
 * when the program drew the world last. A field is listed even if it was set to the value that it
 * had. A field that holds no value is not listed. The call also lists the numbers of
 * these values; a string has none. If the call fails, both lists are empty. May return:
 * X3D_SPOILED, or X3D_MEMORY (also for more than 2^32 - 1 numbers). */
uint8_t x3d_world_list_changed(struct x3d_world *world, uint64_t since);
/* Copies the fields that were listed last, and writes how many there are to `wanted`. May return:
 * X3D_ROOM if there is no room for `wanted` of them; nothing is copied then. */
uint8_t x3d_world_copy_changed(const struct x3d_world *world, struct x3d_change *out, size_t room,
                               size_t *wanted);

/* ---- old lines of the trace: a world has a line for each output that ever sent, until it is told to
 * forget it */

/* Forgets the lines of the trace of inputs below number `below`; their memory is used again. Forget
 * what was read: x3d_world_make_trace, x3d_world_make_changes and x3d_world_list_changed tell only
 * of lines that are left, and so does a snapshot. Nothing else changes: further inputs do what they
 * would do to the whole world. May return, in this order: X3D_SPOILED, or X3D_RANGE if `below` is
 * above the next input's number. */
uint8_t x3d_world_forget_below(struct x3d_world *world, uint64_t below);

/* ---- snapshots */

/* Replaces the world, even a spoiled one, with that of a snapshot of this scene, and writes the
 * snapshot's boot and its number of applied inputs. `boot` has to be above the boot number stored
 * in the snapshot. May return, in this order: X3D_SHORT, X3D_BAD_MAGIC, X3D_BAD_VERSION,
 * X3D_WRONG_SCENE, X3D_BAD_DIGEST, X3D_NOT_CANONICAL, X3D_BOOT_NOT_NEW, or X3D_SCRIPT_STATE: the
 * world is then what it was. It may also return X3D_MEMORY, which spoils the world. */
uint8_t x3d_world_load(struct x3d_world *world, uint32_t boot, const uint8_t *bytes, size_t length,
                       struct x3d_saved *saved);

/* ---- scripts of a world */

/* Writes the number of scripts that the scene runs. They are numbered from 0. */
uint8_t x3d_world_script_count(const struct x3d_world *world, size_t *count);
/* Lists two numbers for each script, in their order: its node, and its kind (an x3d_kind). */
uint8_t x3d_world_list_scripts(struct x3d_world *world);
/* Lists four numbers for each route, in the order of the text: the node and the field of its
 * source, and those of its target. A route that the text repeats is listed once. */
uint8_t x3d_world_list_routes(struct x3d_world *world);
/* Replaces the object that runs script number `k` (from 0). The new object has kind `kind` (an
 * x3d_kind) and takes over the script's state. The world never changes. Only tests need this call.
 * May return: X3D_RANGE for an unknown kind, X3D_SPOILED, X3D_NO_SUCH_SCRIPT, X3D_KIND_DIFFERS, or
 * X3D_MEMORY. */
uint8_t x3d_world_replace_script(struct x3d_world *world, size_t k, uint8_t kind);

/* ---- the host of a shared world: it numbers what happens, and gives it to the viewers. A host and
 * its viewers exchange datagrams of at most X3D_PACKET bytes, which the program carries. Datagrams
 * may be lost, repeated and come in any order, but must arrive unaltered. No datagram of an earlier
 * or another host, or of its viewers, may arrive, unless both hosts share a log. A call that copies
 * a datagram writes its length to `wanted`. It may return: X3D_NO_PACKET if there is no such
 * datagram, or X3D_ROOM if `room` bytes are not enough. */

/* Opens the host of a scene's text for 1 to 64 viewers, numbered from 0. It replaces the one that
 * the handle had. The host keeps only the text's SHA-256 (its mark), and does not look at the
 * scene. May return: X3D_RANGE for another number of viewers, or X3D_MEMORY, which leaves the
 * handle empty. */
uint8_t x3d_host_open(struct x3d_host *host, const uint8_t *text, size_t length, uint8_t viewers);
/* Frees the host. Does nothing if the handle holds none. */
void x3d_host_close(struct x3d_host *host);
/* Numbers a clock at a time of 1 to 10^18 microseconds, above that of the last input, and writes
 * its number. May return, in this order: X3D_WORLD_FULL, X3D_TIME_NOT_LATER, or X3D_TIME_RANGE;
 * X3D_MEMORY at any time. */
uint8_t x3d_host_clock(struct x3d_host *host, int64_t time, uint64_t *number);
/* Takes a datagram of a viewer, and writes what the host did with it. May return, in this order:
 * one of X3D_BAD_PACKET, X3D_BAD_VERSION, X3D_BAD_TAG, X3D_BAD_RANGE and X3D_ZERO_RAY if the bytes
 * are not a datagram, X3D_WRONG_SCENE, X3D_BAD_VIEWER if there is no such viewer, or a status of
 * x3d_host_clock if an offer cannot be numbered; X3D_MEMORY at any time. */
uint8_t x3d_host_take(struct x3d_host *host, const uint8_t *bytes, size_t length,
                      struct x3d_reply *reply);
/* Takes a datagram that came from viewer `who`, like x3d_host_take: an offer or an ask of another
 * viewer is refused with X3D_BAD_VIEWER, after X3D_WRONG_SCENE, and nothing changes. */
uint8_t x3d_host_take_from(struct x3d_host *host, uint8_t who, const uint8_t *bytes, size_t length,
                           struct x3d_reply *reply);
/* Copies the datagram of input `number`. There is none (X3D_NO_PACKET) below the floor, or if that
 * input is not numbered yet. */
uint8_t x3d_host_packet(const struct x3d_host *host, uint64_t number, uint8_t *out, size_t room,
                        size_t *wanted);
/* Copies the ack of viewer `who`: the datagram that says how many of its offers are numbered. May
 * return: X3D_RANGE if there is no such viewer. */
uint8_t x3d_host_ack(const struct x3d_host *host, uint8_t who, uint8_t *out, size_t room,
                     size_t *wanted);
/* Writes the highest number that viewer `who` has asked from, or 0 if it has not asked. It had all
 * inputs below that number then. After a restart from an older snapshot it may lack some. May
 * return: X3D_RANGE if there is no such viewer. */
uint8_t x3d_host_heard(const struct x3d_host *host, uint8_t who, uint64_t *asked);
/* Drops the inputs that all viewers have asked past, except the last `count` of these. A viewer
 * that has not asked does not count. If none has asked, drops nothing. */
uint8_t x3d_host_keep(struct x3d_host *host, uint64_t count);
/* Writes the floor: inputs below it have no datagrams. It is 1 at first. */
uint8_t x3d_host_floor(const struct x3d_host *host, uint64_t *number);
/* Copies the datagram that reports the floor. */
uint8_t x3d_host_floor_packet(const struct x3d_host *host, uint8_t *out, size_t room,
                              size_t *wanted);
/* Drops the inputs below `number`, which becomes the floor; their memory is used again or freed.
 * May return: X3D_FLOOR_BACK if `number` is below the floor, or X3D_FLOOR_AHEAD if it is above the
 * next input's number (of a resumed host: the first unstored input's). */
uint8_t x3d_host_drop_below(struct x3d_host *host, uint64_t number);
/* Writes the number of inputs that are numbered. */
uint8_t x3d_host_count(const struct x3d_host *host, uint64_t *count);
/* Writes the number of viewers. */
uint8_t x3d_host_viewers(const struct x3d_host *host, uint32_t *count);
/* Writes the time of the last input that is numbered, in microseconds, or 0 before the first. */
uint8_t x3d_host_time(const struct x3d_host *host, int64_t *time);

/* ---- a host that can be resumed: the program stores what the host numbers, in the program's log
 *
 * A log is bytes that only grow at their end. Resume such a host from all bytes of its log; at its
 * first start, from none. What it numbers then waits until the program has stored it. Only then is
 * it shown: packets, acks and answers to asks speak only of stored inputs, and x3d_host_drop_below
 * and x3d_host_keep drop only these. x3d_host_count and x3d_host_time speak of all. So a host that
 * is killed and resumed from its log is the host that its viewers know. */

/* Resumes the host of a scene's text, for 1 to 64 viewers, from the `log_length` bytes of its log.
 * It replaces the one that the handle had. The host has all inputs of the log, and its floor is 1.
 * May return, in this order: X3D_RANGE for another number of viewers; X3D_WRONG_SCENE if the bytes
 * do not begin with this scene's mark; X3D_LOG_GAP or X3D_NOT_A_LOG, by the first wrong entry,
 * whose number (from 1) is then written to `entry`; X3D_MEMORY at any time. After any of these the
 * handle is empty. */
uint8_t x3d_host_resume(struct x3d_host *host, const uint8_t *text, size_t length, uint8_t viewers,
                        const uint8_t *log, size_t log_length, uint64_t *entry);
/* Copies the bytes of the append that is under way, and writes its token (a number that names this
 * append) and its number of bytes.
 * If none is under way, it first begins one with all entries that wait; if none wait, there are 0
 * bytes. Store the bytes at the log's end, durably, and then call x3d_host_stored. Until then each
 * call gives the same bytes and token, and what is numbered meanwhile waits for the next append.
 * May return: X3D_NOT_LASTING, X3D_ROOM if `room` bytes are not enough, or X3D_MEMORY. X3D_ROOM and
 * X3D_MEMORY leave the append begun: call again. */
uint8_t x3d_host_pending(struct x3d_host *host, uint32_t *token, uint8_t *out, size_t room,
                         size_t *wanted);
/* Says what the log answered to the append with this token (an x3d_append). After
 * X3D_APPEND_STORED the host shows its inputs. After X3D_APPEND_TAKEN and X3D_APPEND_DOUBT the host
 * is ahead of its log: it is freed, and the handle is empty. Read the log again, and resume. May
 * return: X3D_RANGE if `answer` is no x3d_append, X3D_NOT_LASTING, or X3D_NOT_AWAITED. */
uint8_t x3d_host_stored(struct x3d_host *host, uint32_t token, uint8_t answer);

/* ---- a log in a file: the stored bytes of a host that can be resumed
 *
 * The file is that of `x3d_share host --log`: either resumes from the other's. Each
 * handle locks its file, from x3d_log_make or x3d_log_open to x3d_log_close: a second one, of any
 * program, is refused with X3D_LOG_BUSY. The lock ends with the process too, however it ends; a
 * process that was forked off meanwhile shares it. Nothing else may write the file.
 *
 * An append is on the disk (fdatasync) when the call returns X3D_DONE. If the process is killed or
 * the power is cut, all entries of earlier appends stay; of this append none, the first few or all
 * stay. The next x3d_log_open cuts what was not finished. If the disk is full or fails, the append
 * is in doubt: none of its entries, the first few or all are stored. Altered bytes
 * are mostly noticed (X3D_BAD_HEAD, X3D_LOG_DAMAGED), but not if someone means to hide the change.
 *
 * A path has `path_length` bytes, at most 4,095, none of them 0; no 0 need follow them. A
 * link is followed. The calls write no memory beyond what they are given, and may take as long as
 * the disk takes. */

/* Makes a log of a scene's text for 1 to 64 viewers. It replaces the one that the handle had, which
 * is closed first. A file that is missing is made, for its owner alone (mode 0600). The log gets a
 * name at random, its run. May return, in this order: X3D_RANGE for another number of viewers,
 * X3D_NO_LOG if there is no such folder, X3D_LOG_BUSY, or X3D_NOT_EMPTY unless the file is empty or
 * the making of a log was cut off in it; X3D_DEVICE or X3D_MEMORY at any time. Then the handle is
 * empty, and after X3D_NOT_EMPTY the file is unchanged. */
uint8_t x3d_log_make(struct x3d_log *log, const uint8_t *path, size_t path_length,
                     const uint8_t *text, size_t length, uint8_t viewers);
/* Opens the log of a scene's text, of this number of viewers, or of any if it is 0. It replaces the
 * one that the handle had, which is closed first. Bytes after the last entry, of an append that was
 * not finished, are cut; `place` becomes their number. May return, in this order: X3D_NO_LOG,
 * X3D_LOG_BUSY, X3D_BAD_HEAD, X3D_WRONG_SCENE, X3D_WRONG_SEATS, X3D_LOG_DAMAGED (`place` becomes
 * the number of the damaged frame; the head is 0), X3D_HAS_BASE if its first entries are not in the
 * file, or X3D_LOG_FULL if it has more entries than a world; X3D_DEVICE or X3D_MEMORY at any time.
 * Then the handle is empty; only after X3D_HAS_BASE, X3D_LOG_FULL, X3D_DEVICE or X3D_MEMORY may
 * bytes be cut. */
uint8_t x3d_log_open(struct x3d_log *log, const uint8_t *path, size_t path_length,
                     const uint8_t *text, size_t length, uint8_t viewers, uint64_t *place);
/* Closes the log, and gives up its lock. Does nothing if the handle holds none. */
void x3d_log_close(struct x3d_log *log);
/* Appends the bytes of an append of a host (x3d_host_pending), durably; 0 bytes append nothing.
 * Only the next entries of the log are taken; whether a host wrote them is not tested
 * (x3d_host_resume does that). May return X3D_MEMORY at any time, and, in this order: X3D_IN_DOUBT
 * if an earlier append returned it; X3D_NOT_ENTRIES unless the bytes are entries with the next
 * numbers, after the scene's mark if the log has no entries; X3D_LOG_FULL; or X3D_IN_DOUBT: the log
 * has none of these entries, the first few or all. After that it takes no append: call
 * x3d_host_stored with X3D_APPEND_DOUBT, close the log, open it again, and resume the host from it.
 * */
uint8_t x3d_log_append(struct x3d_log *log, const uint8_t *bytes, size_t length);
/* Copies the bytes of all entries (as x3d_host_resume takes them: the scene's mark and then the
 * entries, or nothing), and writes their number of bytes to `wanted`. After X3D_IN_DOUBT these are
 * the entries that are known to be stored. May return: X3D_ROOM if `room` bytes are not enough, or
 * X3D_MEMORY. */
uint8_t x3d_log_read(const struct x3d_log *log, uint8_t *out, size_t room, size_t *wanted);
/* Writes the number of entries, one for each input. */
uint8_t x3d_log_count(const struct x3d_log *log, uint64_t *count);
/* Writes the number of viewers that the log was made for. */
uint8_t x3d_log_viewers(const struct x3d_log *log, uint32_t *count);
/* Copies the log's run, 16 bytes, which no other log has, and writes 16 to `wanted`. May return:
 * X3D_ROOM. */
uint8_t x3d_log_copy_run(const struct x3d_log *log, uint8_t *out, size_t room, size_t *wanted);

/* ---- a viewer of a shared world: it holds the world, offers what it points at, and applies the
 * host's inputs in order. Calls that copy a datagram return the same statuses as a host's. */

/* Opens viewer `who`, 0 to 63, of a scene's text, with boot number `boot`, 1 to 2^32 - 1. It
 * replaces the one that the handle had. May return: X3D_RANGE for another `who` or `boot`: then the
 * handle keeps what it had. May also return X3D_SCENE or X3D_MEMORY: then the handle is empty, and
 * the line of the refusal is copied, as x3d_world_open describes. */
uint8_t x3d_viewer_open(struct x3d_viewer *viewer, const uint8_t *text, size_t length, uint8_t who,
                        uint32_t boot, uint8_t *refusal, size_t room, size_t *wanted);
/* Frees the viewer. Does nothing if the handle holds none. */
void x3d_viewer_close(struct x3d_viewer *viewer);
/* Writes the number of applied inputs; of a spoiled viewer, those applied before memory ran out. */
uint8_t x3d_viewer_applied(const struct x3d_viewer *viewer, uint64_t *count);
/* Writes the viewer's boot. */
uint8_t x3d_viewer_boot(const struct x3d_viewer *viewer, uint32_t *boot);
/* Writes the number of offers that wait: at most 64. */
uint8_t x3d_viewer_waiting(const struct x3d_viewer *viewer, uint32_t *count);
/* Takes a datagram of the host, and writes what the viewer did with it. May return, in this order:
 * X3D_SPOILED, the statuses of x3d_host_take if the bytes are not a datagram, X3D_WRONG_SCENE,
 * X3D_NOT_FOR_ME for an offer, an ask, a piece or another viewer's ack, X3D_TIME_NOT_LATER (the
 * input is dropped; inputs before it stay applied), or X3D_MEMORY (the viewer is spoiled, and only
 * x3d_viewer_rewind and x3d_viewer_join bring it back). */
uint8_t x3d_viewer_take(struct x3d_viewer *viewer, const uint8_t *bytes, size_t length,
                        struct x3d_taken *taken);
/* Offers what the viewer points at, with the button down or not, and writes the offer's number in
 * this boot, from 1. May return, in this order: X3D_SPOILED, X3D_ZERO_RAY, X3D_POINT_RANGE,
 * X3D_OFFER_FULL, or X3D_OFFERS_SPENT. */
uint8_t x3d_viewer_offer(struct x3d_viewer *viewer, bool down, const struct x3d_aim *aim,
                         uint32_t *number);
/* Copies the datagram of the waiting offer at `place`; 0 is the oldest. */
uint8_t x3d_viewer_resend(const struct x3d_viewer *viewer, uint32_t place, uint8_t *out,
                          size_t room, size_t *wanted);
/* Copies the datagram that asks for inputs, beginning with the first that the viewer lacks. */
uint8_t x3d_viewer_ask(const struct x3d_viewer *viewer, uint8_t *out, size_t room, size_t *wanted);
/* Makes the snapshot of the viewer's world, with the viewer's boot number in it.
 * x3d_viewer_copy_text copies it. May return: X3D_SPOILED or X3D_MEMORY. */
uint8_t x3d_viewer_make_snapshot(struct x3d_viewer *viewer);
/* Restarts the viewer from a snapshot, under a new boot number, even if the viewer is spoiled, and
 * writes how many inputs the world has applied. After X3D_DONE no offer waits, and offers are
 * numbered from 1. May return, in this order: X3D_BOOT_NOT_NEW if `boot` is not above the viewer's,
 * or the statuses of x3d_world_load. X3D_MEMORY spoils the viewer. */
uint8_t x3d_viewer_rewind(struct x3d_viewer *viewer, uint32_t boot, const uint8_t *bytes,
                          size_t length, uint64_t *applied);
/* Writes how many pieces these bytes have, or 0 if they do not begin like a snapshot. The snapshot
 * may be of any world or viewer of the scene. May return: X3D_TOO_LARGE for more than 2^26 bytes;
 * `count` is then 0. */
uint8_t x3d_viewer_piece_count(const struct x3d_viewer *viewer, const uint8_t *bytes, size_t length,
                               uint32_t *count);
/* Copies the datagram of piece `index`, from 0, of these bytes, for other viewers of the same
 * scene. Of `viewer` only the scene's mark is used. */
uint8_t x3d_viewer_piece(const struct x3d_viewer *viewer, const uint8_t *bytes, size_t length,
                         uint32_t index, uint8_t *out, size_t room, size_t *wanted);
/* Gathers a datagram that is a piece, even if the viewer is spoiled, and writes what was done with
 * it (an x3d_gathered). May return, in this order: the statuses of x3d_host_take if the bytes are
 * not a datagram, X3D_WRONG_SCENE, X3D_NOT_PIECE, or X3D_MEMORY (at the first piece only). */
uint8_t x3d_viewer_gather(struct x3d_viewer *viewer, const uint8_t *bytes, size_t length,
                          uint32_t *gathered);
/* Restarts the viewer from the snapshot that was gathered, under a new boot number, as
 * x3d_viewer_rewind does. After X3D_DONE the pieces are dropped; after any other status they are
 * kept. May return, in this order: X3D_NOT_WHOLE if pieces are missing, or the statuses of
 * x3d_viewer_rewind. */
uint8_t x3d_viewer_join(struct x3d_viewer *viewer, uint32_t boot, uint64_t *applied);
/* Drops what was gathered. */
uint8_t x3d_viewer_forget(struct x3d_viewer *viewer);

/* Reads the viewer's world, or forgets lines of its trace: these calls do what those of an x3d_world
 * do, and return the same statuses. */
uint8_t x3d_viewer_make_trace(struct x3d_viewer *viewer, uint64_t first);
uint8_t x3d_viewer_make_changes(struct x3d_viewer *viewer, uint64_t first);
uint8_t x3d_viewer_make_scene(struct x3d_viewer *viewer);
uint8_t x3d_viewer_make_type(struct x3d_viewer *viewer, uint32_t node);
uint8_t x3d_viewer_make_label(struct x3d_viewer *viewer, uint32_t node);
uint8_t x3d_viewer_make_field_name(struct x3d_viewer *viewer, uint32_t node, uint16_t field);
uint8_t x3d_viewer_make_value(struct x3d_viewer *viewer, uint32_t node, uint16_t field);
uint8_t x3d_viewer_copy_text(const struct x3d_viewer *viewer, uint8_t *out, size_t room,
                             size_t *wanted);
uint8_t x3d_viewer_node_count(const struct x3d_viewer *viewer, size_t *count);
uint8_t x3d_viewer_field_count(const struct x3d_viewer *viewer, uint32_t node, uint32_t *count);
uint8_t x3d_viewer_field_named(const struct x3d_viewer *viewer, uint32_t node, const uint8_t *name,
                               size_t length, uint16_t *field);
uint8_t x3d_viewer_field_type(const struct x3d_viewer *viewer, uint32_t node, uint16_t field,
                              struct x3d_field *told);
uint8_t x3d_viewer_node_named(const struct x3d_viewer *viewer, const uint8_t *name, size_t length,
                              uint32_t *node);
uint8_t x3d_viewer_time(const struct x3d_viewer *viewer, int64_t *time);
uint8_t x3d_viewer_list_roots(struct x3d_viewer *viewer);
uint8_t x3d_viewer_list_children(struct x3d_viewer *viewer, uint32_t node);
uint8_t x3d_viewer_list_value(struct x3d_viewer *viewer, uint32_t node, uint16_t field);
uint8_t x3d_viewer_copy_numbers(const struct x3d_viewer *viewer, int64_t *out, size_t room,
                                size_t *wanted);
uint8_t x3d_viewer_forget_below(struct x3d_viewer *viewer, uint64_t below);
uint8_t x3d_viewer_list_changed(struct x3d_viewer *viewer, uint64_t since);
uint8_t x3d_viewer_copy_changed(const struct x3d_viewer *viewer, struct x3d_change *out,
                                size_t room, size_t *wanted);
uint8_t x3d_viewer_script_count(const struct x3d_viewer *viewer, size_t *count);
uint8_t x3d_viewer_list_scripts(struct x3d_viewer *viewer);
uint8_t x3d_viewer_list_routes(struct x3d_viewer *viewer);
uint8_t x3d_viewer_replace_script(struct x3d_viewer *viewer, size_t k, uint8_t kind);
uint8_t x3d_viewer_meet(struct x3d_viewer *viewer, const struct x3d_aim *aim, struct x3d_met *met);

#ifdef __cplusplus
}
#endif

#endif
