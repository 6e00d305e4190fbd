// The heap of the WebAssembly module, and room for its host.
//
// The program takes memory by the three functions rattle_alloc, rattle_realloc and rattle_dealloc, which stand over malloc,
// realloc and free where there is a C library. The module has none: it grows its memory by itself, and where the host refuses
// more it answers that there is none, which the program takes as such.
//
// A block has a head of 16 bytes, which names its class. The classes are the multiples of 16 up to 256, and from there on four
// sizes from each power of two to the next. A block that is freed goes into the list of its class, and is given out again from
// there; the block at the end of what is given out goes back to the rest, and grows in its place. An instance makes one call and
// goes, so nothing else is ever put together.
typedef __UINT64_TYPE__ uint64_t;
typedef __UINT8_TYPE__ uint8_t;

#define HEAD 16
#define PAGE 65536
#define STEP 64 // pages that are asked for at a time at least, where the host gives them
#define SMALL_CLASSES 16
#define CLASSES 160
#define MOST (1ull << 40)

// What an allocation answers: whether there was memory, and where it is. Addresses have 64 bits, as the program was made for.
typedef struct {
    uint64_t is_there;
    uint64_t place;
} Taken;

typedef struct Block {
    uint64_t class;
    struct Block *next; // behind the head, where the block is free
} Block;

extern uint8_t __heap_base; // where the data ends, by the linker

static Block *freed[CLASSES];
static uint64_t top;    // where the next new block begins
static uint64_t end;    // the end of the memory; 0 before the first block
static uint8_t nothing; // where no bytes are

static uint64_t size_of(uint64_t class) {
    if (class < SMALL_CLASSES) return 16 * (class + 1);
    uint64_t doublings = (class - SMALL_CLASSES) / 4, quarters = (class - SMALL_CLASSES) % 4;
    return (64ull << doublings) * (5 + quarters);
}

// The least class that holds so many bytes.
static uint64_t class_of(uint64_t count) {
    if (count <= 256) return count ? (count + 15) / 16 - 1 : 0;
    uint64_t doublings = 55 - __builtin_clzll(count - 1); // 256 << doublings < count <= 512 << doublings
    uint64_t quarter = 64ull << doublings;
    return SMALL_CLASSES + 4 * doublings + (count - 4 * quarter + quarter - 1) / quarter - 1;
}

static _Bool grow_by(uint64_t pages) {
    if (__builtin_wasm_memory_grow(0, pages) == (uint64_t)-1) return 0;
    end += pages * PAGE;
    return 1;
}

// Makes the memory reach so far.
static _Bool reach(uint64_t to) {
    if (to <= end) return 1;
    uint64_t pages = (to - end + PAGE - 1) / PAGE;
    return (pages < STEP && grow_by(STEP)) || grow_by(pages);
}

static void begin(void) {
    end = __builtin_wasm_memory_size(0) * PAGE;
    top = ((uint64_t)&__heap_base + 15) & ~15ull;
}

static void *take(uint64_t count) {
    if (count > MOST) return 0;
    uint64_t class = class_of(count);
    Block *block = freed[class];
    if (block) {
        freed[class] = block->next;
        return (uint8_t *)block + HEAD;
    }
    if (!end) begin();
    if (!reach(top + HEAD + size_of(class))) return 0;
    block = (Block *)top;
    block->class = class;
    top += HEAD + size_of(class);
    return (uint8_t *)block + HEAD;
}

static _Bool is_last(const Block *block) { return (uint64_t)block + HEAD + size_of(block->class) == top; }

static void give_back(void *place) {
    Block *block = (Block *)((uint8_t *)place - HEAD);
    if (is_last(block)) {
        top = (uint64_t)block;
        return;
    }
    block->next = freed[block->class];
    freed[block->class] = block;
}

static Taken taken(void *place) {
    Taken answer = {place != 0, (uint64_t)(place ? place : &nothing)};
    return answer;
}

// Of no bytes, as many as their alignment are taken. Blocks stand at multiples of 16, which serves every alignment.
Taken rattle_alloc(uint64_t count, uint64_t alignment) { return taken(take(count ? count : alignment)); }

Taken rattle_realloc(void *place, uint64_t kept, uint64_t count, uint64_t alignment) {
    if (!count) count = alignment;
    Block *block = (Block *)((uint8_t *)place - HEAD);
    uint64_t room = size_of(block->class), class = class_of(count);
    // a block stays where it is while it isn't twice as large as it has to be
    if (count <= room && class + 4 >= block->class) return taken(place);
    if (count > room && count <= MOST && is_last(block)) {
        uint64_t to = (uint64_t)place + size_of(class);
        if (!reach(to)) return taken(0);
        top = to;
        block->class = class;
        return taken(place);
    }
    void *other = take(count);
    if (!other) return taken(0);
    __builtin_memcpy(other, place, kept < count ? kept : count);
    give_back(place);
    return taken(other);
}

void rattle_dealloc(void *place) { give_back(place); }

// Room for what the host hands over or takes; 0 where there is none.
__attribute__((export_name("host_room"))) void *host_room(uint64_t count) { return take(count ? count : 1); }
