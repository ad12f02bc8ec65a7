// The heap of a module in a page. A block has a power of two of bytes, and before it the power. What is given back is listed by its power and serves
// blocks of that size alone; nothing is merged.
typedef unsigned long size_t;

extern unsigned char __heap_base;

#define POWERS 48
#define PAGE 65536ul

struct tried { _Bool done; void *at; };
struct block { struct block *next; };

static struct block *given[POWERS];
static size_t top;

// Room for so many bytes more at the end of the memory, whether there is.
static _Bool grow(size_t end) {
  size_t have = __builtin_wasm_memory_size(0) * PAGE;
  if (end <= have) return 1;
  size_t least = (end - have + PAGE - 1) / PAGE, half = have / PAGE / 2;
  if (half > least && __builtin_wasm_memory_grow(0, half) != (size_t)-1) return 1;
  return __builtin_wasm_memory_grow(0, least) != (size_t)-1;
}

static void *take(size_t count) {
  if (count > (size_t)1 << 40) return 0;
  int power = 4;
  while ((size_t)1 << power < count) power++;
  struct block *old = given[power];
  if (old) {
    given[power] = old->next;
    return old;
  }
  if (!top) top = ((size_t)&__heap_base + 15) & ~(size_t)15;
  size_t end = top + 16 + ((size_t)1 << power);
  if (!grow(end)) return 0;
  size_t *at = (size_t *)top;
  at[0] = power;
  top = end;
  return at + 2;
}

static size_t power_of(void *at) { return ((size_t *)at)[-2]; }

static void give(void *at) {
  struct block *block = at;
  size_t power = power_of(at);
  block->next = given[power];
  given[power] = block;
}

// Where there is no memory the address is some address, and never null.
static struct tried tried(void *at) { return (struct tried){at != 0, at ? at : &__heap_base}; }

struct tried rattle_alloc(size_t count, size_t align) { return tried(take(count)); }

void rattle_dealloc(void *at) { give(at); }

struct tried rattle_realloc(void *at, size_t kept, size_t count, size_t align) {
  if (count <= (size_t)1 << power_of(at)) return tried(at);
  void *more = take(count);
  if (more) {
    __builtin_memcpy(more, at, kept < count ? kept : count);
    give(at);
  }
  return tried(more);
}
