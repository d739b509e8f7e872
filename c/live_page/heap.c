/* The heap of the WebAssembly module, in the place of malloc. No proof covers it.
 *
 * It defines the three functions that the kit's c/liblibc_c.a defines over malloc, and three for the page. A block has HEAD bytes before
 * it, in which its class is noted. The classes are sizes, four from one power of two to the next. A block that is given back goes on the
 * list of its class, and the next one of that class is taken from there. Where there is none, it is cut off the memory's unused end, which
 * grows as it is needed. No block is split or joined: a call of goi.h gives back all that it took, and when nothing is out any more, the
 * whole memory is unused again.
 */
typedef unsigned long long size;
typedef unsigned char byte;

/* What the three functions answer: whether there was memory, and the block. The module's code reads it as two numbers of 64 bits. */
typedef struct {
    size ok;
    byte *block;
} Tried;

enum { HEAD = 16, CLASSES = 256, PAGE = 65536 };

extern byte __heap_base; /* where the linker's own part of the memory ends */
static byte nothing;     /* the block of an answer that says that there was no memory */

#define MOST ((size)1 << 30)

static size most = MOST; /* no more memory than this is asked of the browser */
static size unused;      /* where the unused end begins; 0 where nothing is out */
static size blocks_out;
static byte *given_back[CLASSES]; /* of each class a list: a block on it has the next one in its first bytes */

/* The least class whose blocks have so many bytes, and how many they have: a multiple of HEAD, so that each block lies at one. */
static size class_of(size wanted, size *has) {
    size power = 4 * HEAD, class = 4;
    if (wanted <= power) {
        class = (wanted + HEAD - 1) / HEAD; /* 1 to 4 */
        *has = class * HEAD;
        return class;
    }
    while (wanted > 2 * power) {
        power *= 2;
        class += 4;
    }
    /* power < wanted <= 2 * power */
    size step = power / 4, steps = (wanted - power + step - 1) / step; /* 1 to 4 */
    *has = power + steps * step;
    return class + steps;
}

/* Whether the memory has so many bytes, or has grown to have them. */
static int reaches(size wanted) {
    size has = __builtin_wasm_memory_size(0) * (size)PAGE;
    if (wanted <= has) return 1;
    if (wanted > most) return 0;
    size pages = (wanted - has + PAGE - 1) / PAGE, more = has / PAGE / 8;
    /* an eighth at once is better than a page at a time, where the browser gives so much */
    if (more > pages && has + more * PAGE <= most && __builtin_wasm_memory_grow(0, more) != (size)-1) return 1;
    return __builtin_wasm_memory_grow(0, pages) != (size)-1;
}

/* A block of so many bytes at the least, which aren't 0; null where there is no memory for it. */
static byte *take(size wanted) {
    if (wanted > most) return 0;
    size has, class = class_of(wanted, &has);
    byte *block = given_back[class];
    if (block) {
        given_back[class] = *(byte **)block;
    } else {
        size begin = unused ? unused : ((size)&__heap_base + HEAD - 1) / HEAD * HEAD;
        if (!reaches(begin + HEAD + has)) return 0;
        block = (byte *)begin + HEAD;
        unused = begin + HEAD + has;
    }
    *(size *)(block - HEAD) = class;
    blocks_out++;
    return block;
}

static void give_back(byte *block) {
    blocks_out--;
    if (blocks_out == 0) {
        for (size class = 0; class < CLASSES; class++) given_back[class] = 0;
        unused = 0;
        return;
    }
    size class = *(size *)(block - HEAD);
    *(byte **)block = given_back[class];
    given_back[class] = block;
}

static Tried answer(byte *block) { return (Tried){block != 0, block ? block : &nothing}; }

/* As malloc does, a block of no bytes takes some. The alignment is at most 16. */
Tried rattle_alloc(size wanted, size align) { return answer(take(wanted ? wanted : align)); }

void rattle_dealloc(byte *block) { give_back(block); }

/* `used` bytes at the most are to be kept. */
Tried rattle_realloc(byte *block, size used, size wanted, size align) {
    size has;
    if (!wanted) wanted = align;
    if (wanted <= most && class_of(wanted, &has) == *(size *)(block - HEAD)) return answer(block);
    byte *moved = take(wanted);
    if (moved) {
        __builtin_memcpy(moved, block, used < wanted ? used : wanted);
        give_back(block);
    }
    return answer(moved);
}

/* For the page: room for a text that it hands in or gets back, or null; and that room back. */
__attribute__((export_name("goi_room"))) byte *goi_room(size wanted) { return take(wanted ? wanted : 1); }
__attribute__((export_name("goi_room_back"))) void goi_room_back(byte *block) { give_back(block); }

/* From now on the memory has so many bytes at the most. */
__attribute__((export_name("goi_room_most"))) void goi_room_most(size bytes) { most = bytes < MOST ? bytes : MOST; }
