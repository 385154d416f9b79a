/* A scene read and written again in C, as good as C can be, to measure x3d_share beside: one pass over the text, nodes
 * and numbers in arenas, names left where they stand and found by a table, text through 64 KiB. A job without steps is
 * read from standard input, and what is written is what `run` writes. It knows the node types of bench/make_job. */
#include "arena.h"

enum { NUMBERS, LIST, TRUTH, NODE, NODES, IN, OUT };
/* A field, in the order in which fields are written; one that has its default is left out. */
typedef struct { const char *name; int size, kind, count; int64_t by_default[3]; } Field;
#define FIELD(name, ...) { name, sizeof name - 1, __VA_ARGS__ }
typedef struct { const char *name; int size; Field fields[5]; } Type;
#define TYPE(name, ...) { name, sizeof name - 1, { __VA_ARGS__ } }
static const Type types[] = {
    TYPE("Transform", FIELD("children", NODES, 0, { 0 }), FIELD("translation", NUMBERS, 3, { 0 })),
    TYPE("Shape", FIELD("geometry", NODE, 0, { 0 })),
    TYPE("Box", FIELD("size", NUMBERS, 3, { 2 * MILLION, 2 * MILLION, 2 * MILLION })),
    TYPE("BooleanFilter", FIELD("set_boolean", IN, 0, { 0 }), FIELD("inputTrue", OUT, 0, { 0 })),
    TYPE("BooleanTrigger", FIELD("set_triggerTime", IN, 0, { 0 }), FIELD("triggerTrue", OUT, 0, { 0 })),
    TYPE("TimeSensor", FIELD("cycleInterval", NUMBERS, 1, { MILLION }), FIELD("loop", TRUTH, 1, { 0 }),
         FIELD("startTime", NUMBERS, 1, { 0 }), FIELD("cycleTime", OUT, 0, { 0 })),
    TYPE("IndexedFaceSet", FIELD("coord", NODE, 0, { 0 })),
    TYPE("Coordinate", FIELD("point", LIST, 3, { 0 })),
    TYPE("Group", FIELD("children", NODES, 0, { 0 })),
    TYPE("Script", { 0 }),
};
#define MANY_TYPES (sizeof types / sizeof *types)

typedef struct { const char *at; uint32_t size; } Word;
/* What a node has of a field: its numbers, or its first child and the last. */
typedef struct { uint32_t first, count; } Held;
typedef struct { Word name; const Type *type; Held held[4]; uint32_t next, declared, declared_count; } Node;
typedef struct { Word node, field; } End;

static char *text; static const char *at;
static Node *nodes; static uint32_t node_count; static int64_t *numbers; static uint32_t number_count;
static Word *declared; static uint32_t declared_count; static End *routes; static uint32_t route_count;
static const char *header; static uint32_t header_size;

static void wrong(const char *what) { fprintf(stderr, "scenes: %s at byte %zd\n", what, at - text); exit(1); }

/* Names of nodes, and of a Script's own fields: a slot has the number of a node, or of a declared field. */
typedef struct { Word word; uint32_t of, found; } Slot;
static Slot *table; static uint32_t table_room = 1 << 10, table_used;
static Slot *slot_of(Word w, uint32_t of) {
    uint64_t hash = 1469598103934665603u ^ of;
    for (uint32_t i = 0; i < w.size; i++) hash = (hash ^ (uint8_t)w.at[i]) * 1099511628211u;
    for (uint32_t i = hash >> 20;; i++) {
        Slot *s = &table[i & (table_room - 1)];
        if (!s->word.size || (s->of == of && s->word.size == w.size && !memcmp(s->word.at, w.at, w.size))) return s;
    }
}
static void name(Word w, uint32_t of, uint32_t found) {
    if (2 * ++table_used > table_room) {
        Slot *old = table; uint32_t room_before = table_room;
        table = calloc(table_room *= 2, sizeof *table);
        for (uint32_t i = 0; i < room_before; i++) if (old[i].word.size) *slot_of(old[i].word, old[i].of) = old[i];
        free(old);
    }
    Slot *s = slot_of(w, of);
    if (!s->word.size) *s = (Slot){ w, of, found };
}

static void skip(void) { while (*at == ' ' || *at == '\n' || *at == '\t' || *at == '\r' || *at == ',') at++; }
static int next_is(char c) { skip(); if (*at != c) return 0; at++; return 1; }
static int in_word(char c) {
    return (c >= 'a' && c <= 'z') || (c >= 'A' && c <= 'Z') || (c >= '0' && c <= '9') || c == '_';
}
static Word word(void) {
    skip();
    Word w = { at, 0 };
    while (in_word(*at)) at++;
    w.size = at - w.at;
    if (!w.size) wrong("no word");
    return w;
}
static int is(Word w, const char *name, uint32_t size) { return w.size == size && !memcmp(w.at, name, size); }
#define IS(w, name) is(w, name, sizeof name - 1)

static int64_t number(void) {
    skip();
    int minus = *at == '-'; at += minus;
    if (*at < '0' || *at > '9') wrong("no number");
    int64_t n = 0, part = MILLION;
    while (*at >= '0' && *at <= '9') n = 10 * n + (*at++ - '0');
    n *= MILLION;
    if (*at == '.') for (at++; *at >= '0' && *at <= '9'; ) n += (part /= 10) * (*at++ - '0');
    return minus ? -n : n;
}
static uint32_t node(Word w);
static void field(Node *n, Word w) {
    const Field *f = n->type->fields; int i = 0;
    while (f[i].name && !is(w, f[i].name, f[i].size)) i++;
    if (!f[i].name || f[i].kind >= IN) wrong("no field");
    Held *h = &n->held[i];
    h->first = number_count;
    if (f[i].kind == TRUTH) numbers[number_count++] = IS(word(), "TRUE");
    else if (f[i].kind == NUMBERS) for (int k = 0; k < f[i].count; k++) numbers[number_count++] = number();
    else if (f[i].kind == LIST) {
        if (!next_is('[')) wrong("no list");
        while (!next_is(']')) numbers[number_count++] = number();
    } else if (!next_is('[')) { h->first = node(word()); h->count = 1; return; }
    else {
        for (uint32_t last = 0; !next_is(']'); h->count++) {
            uint32_t child = node(word());
            if (last) nodes[last].next = child; else h->first = child;
            last = child;
        }
        return;
    }
    h->count = number_count - h->first;
}
static uint32_t node(Word w) {
    uint32_t number_of_it = ++node_count; Node *n = &nodes[number_of_it];
    if (IS(w, "DEF")) { n->name = word(); name(n->name, 0, number_of_it); w = word(); }
    for (n->type = types; n->type < types + MANY_TYPES && !is(w, n->type->name, n->type->size); n->type++);
    if (n->type == types + MANY_TYPES || !next_is('{')) wrong("no node");
    for (n->declared = declared_count; !next_is('}'); ) {
        w = word();
        if (!IS(w, "inputOnly")) { field(n, w); continue; }
        if (!IS(word(), "SFBool")) wrong("no type");
        declared[declared_count++] = w = word();
        name(w, number_of_it, declared_count);
        n->declared_count++;
    }
    return number_of_it;
}
static void end(End *e, int kind) {
    e->node = word(); if (!next_is('.')) wrong("no end"); e->field = word();
    uint32_t n = slot_of(e->node, 0)->found;
    if (!n) wrong("no such name");
    const Field *f = nodes[n].type->fields;
    while (f->name && !is(e->field, f->name, f->size)) f++;
    if (f->name ? f->kind != kind : !slot_of(e->field, n)->found) wrong("no such end");
}

static void put_word(Word w) { room(w.size + 128); put(w.at, w.size); }
static void put_name(const char *name, int size) { put_word((Word){ name, size }); }
static void put_spaces(int many) { room(many + 128); memset(out + len, ' ', many); len += many; }
static void put_numbers(const Field *f, const Held *h) {
    if (f->kind == TRUTH) { if (numbers[h->first]) put("TRUE", 4); else put("FALSE", 5); return; }
    if (f->kind == LIST) put("[", 1);
    for (uint32_t k = 0; k < h->count; k++) { room(64); if (k) put(" ", 1); millionths(numbers[h->first + k]); }
    if (f->kind == LIST) put("]", 1);
}
static void put_node(const Node *n, int deep);
static void put_children(const Field *f, uint32_t child, int deep) {
    if (f->kind == NODE) { put_node(&nodes[child], deep); return; }
    put("[\n", 2);
    for (; child; child = nodes[child].next) { put_spaces(deep + 2); put_node(&nodes[child], deep + 2); put("\n", 1); }
    put_spaces(deep); put("]", 1);
}
static void put_node(const Node *n, int deep) {
    int lines = 0;
    if (n->name.size) { room(8); put("DEF ", 4); put_word(n->name); put(" ", 1); }
    put_name(n->type->name, n->type->size); put(" {", 2);
    for (int i = 0; n->type->fields[i].name && n->type->fields[i].kind < IN; i++) {
        const Field *f = &n->type->fields[i]; const Held *h = &n->held[i];
        int as_default = f->kind < NODE && h->count <= 3 && !memcmp(numbers + h->first, f->by_default, 8 * h->count);
        if (!h->count || as_default) continue;
        put("\n", 1); put_spaces(deep + 2); put_name(f->name, f->size); put(" ", 1); lines++;
        if (f->kind < NODE) put_numbers(f, h); else put_children(f, h->first, deep + 2);
    }
    for (uint32_t i = 0; i < n->declared_count; i++, lines++) {
        put("\n", 1); put_spaces(deep + 2); put("inputOnly SFBool ", 17); put_word(declared[n->declared + i]);
    }
    if (lines) { put("\n", 1); put_spaces(deep); }
    put("}", 1);
}

int main(void) {
    text = arena(); nodes = arena(); numbers = arena(); declared = arena(); routes = arena();
    uint32_t *roots = arena(), root_count = 0;
    table = calloc(table_room, sizeof *table);
    for (ssize_t size = 0, many; (many = read(0, text + size, 1 << 20)) > 0; ) size += many;
    at = text;
    if (!IS(word(), "scene") || *at++ != '\n') wrong("no line `scene`");
    for (header = at; *at != '\n'; at++);
    header_size = at - header + 1;
    for (skip(); *at; skip()) {
        Word w = word();
        if (!IS(w, "ROUTE")) { roots[root_count++] = node(w); continue; }
        End *r = &routes[2 * route_count++];
        end(r, OUT); if (!IS(word(), "TO")) wrong("no TO"); end(r + 1, IN);
    }
    put(header, header_size);
    for (uint32_t i = 0; i < root_count; i++) { put_node(&nodes[roots[i]], 0); put("\n", 1); }
    for (uint32_t i = 0; i < route_count; i++) {
        End *r = &routes[2 * i];
        room(8); put("ROUTE ", 6); put_word(r[0].node); put(".", 1); put_word(r[0].field);
        put(" TO ", 4); put_word(r[1].node); put(".", 1); put_word(r[1].field); put("\n", 1);
    }
    flush();
    return 0;
}
