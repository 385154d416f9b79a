/* malloc, realloc and free over the memory of a WebAssembly module, which nothing else grows.
 *
 * The heap is a row of blocks from the end of the module's data on. A free block is in the list of
 * its class, and never beside another free block. A class has the sizes between two quarters of a
 * power of two, and a request takes the first block of a class whose blocks are all large enough:
 * it takes the same time however many blocks there are. */
#include "types.h"

struct block {
  size_t before; /* the size of the block before it; 0 for the first */
  size_t size;   /* its own size with the header; its lowest bit is set while it is in use */
  struct block *next, *last; /* its neighbours in the list, while it is free */
};

enum { HEADER = 16, LEAST = sizeof(struct block), GRAIN = 16, CLASSES = 160 };
enum { PAGE = 65536, FEWEST = 16 }; /* a page of memory, and how many are added at least */
static const size_t IN_USE = 1, MOST = (size_t)1 << 40;

static_assert(sizeof(size_t) == 8 && LEAST == 32, "blocks of 64-bit words");

extern unsigned char __heap_base;
static struct block *lists[CLASSES];
static uint64_t filled[(CLASSES + 63) / 64]; /* a bit for each list that has a block */
static struct block *end;                    /* the header after the last block */

static size_t size_of(const struct block *block) { return block->size & ~IN_USE; }

static struct block *after(struct block *block) {
  return (struct block *)((char *)block + size_of(block));
}

static struct block *block_of(void *bytes) { return (struct block *)((char *)bytes - HEADER); }

static void *bytes_of(struct block *block) { return (char *)block + HEADER; }

/* The class of a free block of this size. */
static int class_of(size_t size) {
  int shift = 61 - __builtin_clzll(size);
  return 4 * shift + (int)(size >> shift) - 4;
}

static void insert(struct block *block) {
  int class = class_of(block->size);
  block->last = nullptr;
  block->next = lists[class];
  if (block->next) block->next->last = block;
  lists[class] = block;
  filled[class / 64] |= (uint64_t)1 << class % 64;
}

static void take_out(struct block *block) {
  int class = class_of(block->size);
  if (block->next) block->next->last = block->last;
  if (block->last) block->last->next = block->next;
  else lists[class] = block->next;
  if (!lists[class]) filled[class / 64] &= ~((uint64_t)1 << class % 64);
}

static void set_size(struct block *block, size_t size) {
  block->size = size;
  after(block)->before = size;
}

/* Makes a block of a free one and the free blocks beside it, and lists it. */
static void release(struct block *block) {
  struct block *next = after(block);
  if (!(next->size & IN_USE)) {
    take_out(next);
    set_size(block, block->size + next->size);
  }
  struct block *before = (struct block *)((char *)block - block->before);
  if (block->before && !(before->size & IN_USE)) {
    take_out(before);
    set_size(before, before->size + block->size);
    block = before;
  }
  insert(block);
}

/* Marks a block that is in no list as used, and releases what it has beyond `size`. */
static void use(struct block *block, size_t size) {
  size_t had = size_of(block), rest = had - size;
  block->size = had | IN_USE;
  if (rest < LEAST) return;
  set_size(block, size);
  block->size |= IN_USE;
  struct block *more = after(block);
  set_size(more, rest);
  release(more);
}

/* Adds a free block of at least this size at the end of the heap. */
static bool grow(size_t size) {
  size_t pages = (size + HEADER + PAGE - 1) / PAGE, had = __builtin_wasm_memory_size(0);
  if (pages < FEWEST) pages = FEWEST;
  /* (A 32-bit memory reports a failure as 2^32 - 1, and has no more than 2^16 pages.) */
  if ((uint32_t)__builtin_wasm_memory_grow(0, pages) == (uint32_t)-1) return false;
  struct block *block = end;
  size_t before = end ? end->before : 0, from = (size_t)end;
  if (!end) {
    from = ((size_t)&__heap_base + GRAIN - 1) & ~(size_t)(GRAIN - 1);
    block = (struct block *)from;
  }
  end = (struct block *)((had + pages) * PAGE - HEADER);
  end->size = IN_USE;
  block->before = before;
  set_size(block, (size_t)end - from);
  release(block);
  return true;
}

/* Takes a free block of at least this size out of its list. */
static struct block *find(size_t size) {
  /* From this class on every block is large enough. */
  int class = class_of(size - 1) + 1;
  uint64_t mask = ~(uint64_t)0 << class % 64;
  for (int word = class / 64; word < (int)(sizeof filled / sizeof *filled); word++) {
    if (filled[word] & mask) {
      struct block *block = lists[64 * word + __builtin_ctzll(filled[word] & mask)];
      take_out(block);
      return block;
    }
    mask = ~(uint64_t)0;
  }
  return nullptr;
}

/* The size of a block that holds n bytes, its header included. */
static size_t block_size(size_t bytes) {
  size_t size = (bytes + HEADER + GRAIN - 1) & ~(size_t)(GRAIN - 1);
  return size < LEAST ? LEAST : size;
}

/* A block in use that holds n bytes, or null. */
static struct block *take(size_t bytes) {
  if (bytes > MOST) return nullptr;
  size_t size = block_size(bytes);
  struct block *block = find(size);
  /* A quarter more, so that the new block's class is large enough. */
  if (!block && grow(size + size / 4)) block = find(size);
  if (block) use(block, size);
  return block;
}

static void give_back(struct block *block) {
  block->size &= ~IN_USE;
  release(block);
}

void *malloc(size_t bytes) {
  struct block *block = take(bytes);
  return block ? bytes_of(block) : nullptr;
}

void free(void *bytes) {
  if (bytes) give_back(block_of(bytes));
}

void *realloc(void *bytes, size_t wanted) {
  if (!bytes) return malloc(wanted);
  if (wanted > MOST) return nullptr;
  struct block *block = block_of(bytes), *next = after(block);
  size_t size = block_size(wanted), had = size_of(block);
  if (size > had && !(next->size & IN_USE) && had + next->size >= size) {
    take_out(next);
    set_size(block, had + next->size);
  }
  if (size <= size_of(block)) {
    use(block, size);
    return bytes;
  }
  struct block *larger = take(wanted);
  if (!larger) return nullptr;
  __builtin_memcpy(bytes_of(larger), bytes, had - HEADER);
  give_back(block);
  return bytes_of(larger);
}
