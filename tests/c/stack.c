/*
 * How much stack each call takes, in the forms with one block of work. It runs on a stack of its own, which is painted
 * before; what has lost its paint was used. That includes what the caller itself needs for the call, its arguments and
 * the answer.
 *
 * Prints the most bytes that each call took over all that is tried, in one line, and what went wrong, if anything did: a
 * call that takes more than docs/CALLS.md says, or inputs that no longer lead everywhere. It is C99, and of the C library it needs
 * printf alone, which it declares: so it can be compiled for the other kind of machine too, without that one's headers.
 */
#include "flatcarol.h"

int printf(const char *format, ...);

enum { STACK = 32 * 1024, PAINT = 0xA5, ENTRIES = 3 * FLATCAROL_MOST_TRIANGLES };

/* ---- a call on a stack of its own */

static uint64_t stack[STACK / 8];

/* Makes a call with the stack pointer at an address, and puts it back afterwards. Meanwhile it is kept in a register that
   every function leaves as it was. */
static void switch_and_call(void *top, void (*make)(void))
{
#if defined(__x86_64__)
    __asm__ volatile("movq %%rsp, %%rbx\n\tmovq %0, %%rsp\n\tcall *%1\n\tmovq %%rbx, %%rsp"
                     :
                     : "r"(top), "r"(make)
                     : "rax", "rbx", "rcx", "rdx", "rsi", "rdi", "r8", "r9", "r10", "r11", "xmm0", "xmm1", "xmm2",
                       "xmm3", "xmm4", "xmm5", "xmm6", "xmm7", "xmm8", "xmm9", "xmm10", "xmm11", "xmm12", "xmm13",
                       "xmm14", "xmm15", "memory", "cc");
#else
    __asm__ volatile("mov x19, sp\n\tmov sp, %0\n\tblr %1\n\tmov sp, x19"
                     :
                     : "r"(top), "r"(make)
                     : "x0", "x1", "x2", "x3", "x4", "x5", "x6", "x7", "x8", "x9", "x10", "x11", "x12", "x13", "x14",
                       "x15", "x16", "x17", "x18", "x19", "x30", "v0", "v1", "v2", "v3", "v4", "v5", "v6", "v7", "v8",
                       "v9", "v10", "v11", "v12", "v13", "v14", "v15", "v16", "v17", "v18", "v19", "v20", "v21", "v22",
                       "v23", "v24", "v25", "v26", "v27", "v28", "v29", "v30", "v31", "memory", "cc");
#endif
}

/* Compilers do not see that a function is called in there, nor what it writes. Of one behind this pointer they must
   expect anything. */
static void (*volatile const call_on)(void *, void (*)(void)) = switch_and_call;

/* How many bytes of its stack a call uses. The stack grows downwards. */
static size_t stack_of(void (*make)(void))
{
    unsigned char *const bytes = (unsigned char *)stack;
    for (size_t i = 0; i < STACK; i++) {
        bytes[i] = PAINT;
    }
    call_on(bytes + (STACK - (uintptr_t)bytes % 16), make); /* both kinds ask for a multiple of 16 */
    size_t unused = 0;
    while (unused < STACK && bytes[unused] == PAINT) {
        unused++;
    }
    return STACK - unused;
}

/* ---- the calls, of the mesh that is tried */

static uint64_t vertices;
static uint16_t list[ENTRIES];
static size_t entries;
static uint64_t asked;

static uint16_t out[ENTRIES];
static uint16_t vertex_map[FLATCAROL_MOST_VERTICES];
static uint16_t triangle_map[FLATCAROL_MOST_TRIANGLES];
static uint16_t work[FLATCAROL_UNDO_SEVERAL_BUFFERS * (FLATCAROL_MOST_VERTICES + ENTRIES)];
static uint8_t text[21 * FLATCAROL_MOST_TRIANGLES];
static size_t text_len;

static flatcarol_answer split;
static flatcarol_one_answer one;
static flatcarol_several_answer several;
static flatcarol_frames_answer frames;
static flatcarol_text_answer written;

static void make_split(void)
{
    split = flatcarol_split_in(
        vertices, list, entries, out, ENTRIES, work, flatcarol_split_work(vertices, entries / 3));
}

static void make_undo_one(void)
{
    one = flatcarol_undo_one_in(
        vertices, list, entries, asked, out, ENTRIES, vertex_map, FLATCAROL_MOST_VERTICES, triangle_map,
        FLATCAROL_MOST_TRIANGLES, work, flatcarol_undo_one_work(vertices, entries / 3));
}

static void make_undo_several(void)
{
    several = flatcarol_undo_several_in(
        vertices, list, entries, asked, out, ENTRIES, work, flatcarol_undo_several_work(vertices, entries / 3));
}

static void make_write_frames(void)
{
    frames = flatcarol_write_frames(vertices, list, entries, text, sizeof text);
}

static void make_read_frames(void)
{
    frames = flatcarol_read_frames(text, text_len, out, ENTRIES);
}

static void make_write_index(void)
{
    written = flatcarol_write_index(vertices, list, entries, text, sizeof text);
}

static void make_read_index(void)
{
    frames = flatcarol_read_index(vertices, text, text_len, out, ENTRIES);
}

/* What docs/CALLS.md says that each takes at most, and what it took. */
typedef struct call {
    const char *name;
    void (*make)(void);
    size_t most;
    size_t took;
} call;

enum { SPLIT, UNDO_ONE, UNDO_SEVERAL, WRITE_FRAMES, READ_FRAMES, WRITE_INDEX, READ_INDEX, CALLS };

static call calls[CALLS] = {
    {"split", make_split, 1024, 0},
    {"undo one", make_undo_one, 2048, 0},
    {"undo several", make_undo_several, 8192, 0},
    {"write frames", make_write_frames, 512, 0},
    {"read frames", make_read_frames, 1024, 0},
    {"write index", make_write_index, 512, 0},
    {"read index", make_read_index, 512, 0},
};

static void try_call(size_t which)
{
    const size_t took = stack_of(calls[which].make);
    if (took > calls[which].took) {
        calls[which].took = took;
    }
}

/* ---- inputs that lead everywhere */

static unsigned answered = 0; /* a bit for each refusal that undo one and the readers gave, and for acceptance */
static uint64_t most_levels = 0;

static void try_reader(size_t which)
{
    try_call(which);
    answered |= 1u << frames.refusal;
}

/* Tries to read a text of so many bytes, without its last ones too, and with a byte that is wrong in every text. */
static void try_text(size_t reader, size_t len)
{
    text_len = len;
    try_reader(reader);
    text_len = len - 3;
    try_reader(reader);
    text_len = len;
    text[len / 2] = '?';
    try_reader(reader);
}

/* Tries all calls. Split comes last, so that its result stays in `out`. */
static void try_mesh(void)
{
    for (asked = 0; asked <= FLATCAROL_ANY_ROLE; asked++) {
        try_call(UNDO_ONE);
        answered |= 1u << one.refusal;
    }
    asked = FLATCAROL_MOST_LEVELS;
    try_call(UNDO_SEVERAL);
    most_levels = several.levels > most_levels ? several.levels : most_levels;
    try_call(WRITE_FRAMES);
    try_text(READ_FRAMES, 11 + 5 * entries);
    try_call(WRITE_INDEX);
    try_text(READ_INDEX, written.bytes);
    try_call(SPLIT);
}

/* The mesh becomes its splitting, if split accepted it. */
static int take_splitting(void)
{
    if (split.refusal != FLATCAROL_ACCEPTED) {
        return 0;
    }
    vertices = split.vertices;
    entries *= 4;
    for (size_t i = 0; i < entries; i++) {
        list[i] = out[i];
    }
    return 1;
}

static void add_triangle(uint64_t a, uint64_t b, uint64_t c)
{
    list[entries++] = (uint16_t)a;
    list[entries++] = (uint16_t)b;
    list[entries++] = (uint16_t)c;
}

static void take_triangle(void)
{
    vertices = 3;
    entries = 0;
    add_triangle(0, 1, 2);
}

/* A number below another, by a rule that gives the same numbers each time. */
static uint16_t any_below(size_t count)
{
    static uint32_t state = 1;
    state = state * 1664525u + 1013904223u;
    return (uint16_t)((state >> 16) % count);
}

/* Glues triangles to edges, one in two of them with a new vertex. Of eight meshes one gets a wrong corner, one a vertex
   too many, and one a triangle that touches the others only at a vertex. */
static void take_any(void)
{
    take_triangle();
    for (size_t more = any_below(6); more > 0; more--) {
        const size_t first = any_below(entries);
        const size_t second = first % 3 == 2 ? first - 2 : first + 1;
        add_triangle(list[first], list[second], any_below(2) ? vertices++ : any_below(vertices));
    }
    switch (any_below(8)) {
    case 0: list[any_below(entries)] = any_below(vertices + 1); break;
    case 1: vertices++; break;
    case 2:
        add_triangle(any_below(vertices), vertices, vertices + 1);
        vertices += 2;
        break;
    default: break;
    }
}

static void turn_one(void)
{
    const size_t corner = any_below(entries) / 3 * 3;
    const uint16_t second = list[corner + 1];
    list[corner + 1] = list[corner + 2];
    list[corner + 2] = second;
}

static void try_meshes(void)
{
    for (size_t i = 0; i < 200; i++) {
        take_any();
        try_mesh();
        if (take_splitting()) {
            try_mesh();
            turn_one();
            try_mesh();
        }
    }
    take_triangle();
    do {
        try_mesh();
    } while (take_splitting());
}

int main(void)
{
    int wrong = 0;
    take_triangle();
    for (size_t i = 0; i < CALLS; i++) {
        calls[i].make(); /* the first use of memset may go through the dynamic linker, which is not to be counted */
    }
    try_meshes();
    for (size_t i = 0; i < CALLS; i++) {
        printf("%s%s %zu", i == 0 ? "" : ", ", calls[i].name, calls[i].took);
    }
    printf("\n");
    for (size_t i = 0; i < CALLS; i++) {
        if (calls[i].took > calls[i].most) {
            wrong = 1;
            printf("wrong: %s takes %zu, docs/CALLS.md says at most %zu\n", calls[i].name, calls[i].took, calls[i].most);
        }
    }
    /* 0, 6 to 12, 14 and 15; 1 to 5 are given before a mesh is looked at */
    if (answered != (1u | 0x7Fu << 6 | 3u << 14) || most_levels != FLATCAROL_MOST_LEVELS) {
        wrong = 1;
        printf("wrong: the refusals had the bits %x and the meshes up to %u levels\n", answered, (unsigned)most_levels);
    }
    return wrong;
}
