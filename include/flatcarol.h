/*
 * Flatcarol: splits a triangle mesh, and recognises and undoes such a split, one level or several.
 *
 * The seven calls of libflatcarol.a, for C99 and later and C++11 and later, on x86-64 Linux and on 64-bit Arm Linux. In
 * the repository docs/CALLS.md has a page on each with an example, and examples/c/ a whole program. What the archive's
 * functions promise is proved; this header is outside of every proof, and is tested.
 *
 * A mesh is a number of vertices V and a list of 3F entries: triangle k has the corners list[3k], list[3k + 1] and
 * list[3k + 2], each a vertex number below V. There are no positions. The order of the corners is the winding:
 * (a, b, c), (b, c, a) and (c, a, b) go the same way round, and (a, c, b) the other. An undo asks that a triangle goes
 * round as the other three of its split do; refusal 8 takes both ways for the same triangle.
 *
 * Rules that hold for every call:
 *
 * - Every input gets an answer: bad input is refused with a number and a place. All that a caller has to see to is in
 *   the next three rules.
 * - A buffer is a pointer and a length. Lengths are in entries, and of frames and index texts in bytes. Entries are
 *   16-bit and aligned so. There must be as many entries as the length says.
 * - Buffers must not overlap, the list that is read included.
 * - An empty buffer still needs a pointer that is not null and is aligned. (The calls that end in _in, below, take a
 *   null pointer for an empty buffer.)
 * - After a refusal the output buffers hold what they held before. After an acceptance the entries behind the result
 *   do.
 * - Work buffers may hold anything before a call, and are zero after it, over all of their length.
 * - Nothing is allocated, and there is no global state: calls may run at the same time in several threads, each with
 *   buffers of its own. A list or bytes that are only read may be shared. A call takes at most 8 KiB of stack, as
 *   measured; docs/CALLS.md has what each takes.
 */
#ifndef FLATCAROL_H
#define FLATCAROL_H

#include <stddef.h>
#include <stdint.h>

/* Elsewhere the archive does not link, or would be called by another convention than its own. */
#if !defined(__linux__) || !defined(__LP64__) || !(defined(__x86_64__) || defined(__AARCH64EL__))
#error "libflatcarol.a is compiled for Linux with 64-bit pointers on x86-64 and little-endian Arm, and for nothing else"
#endif

#ifdef __cplusplus
extern "C" {
#endif

/* ---- answers */

/* What split answers. In a refusal, here and below, all but the first two numbers are 0. */
typedef struct flatcarol_answer {
    uint64_t refusal;        /* 0 when accepted, else one of enum flatcarol_refusal */
    uint64_t place;          /* where it was refused, as the refusal says; else 0 */
    uint64_t vertices;       /* of the resulting mesh */
    uint64_t triangles;      /* of the resulting mesh */
    uint64_t edges;          /* of the resulting mesh: the pairs of vertices that some triangle has */
    uint64_t boundary_edges; /* of these, the ones that exactly one triangle has: with none there is no hole */
} flatcarol_answer;

/* What undo one answers. */
typedef struct flatcarol_one_answer {
    uint64_t refusal;
    uint64_t place;
    uint64_t vertices;
    uint64_t triangles;
    uint64_t edges;
    uint64_t boundary_edges;
    uint64_t role; /* that triangle 0 has in the reading returned, 0 to 3 */
} flatcarol_one_answer;

/* What undo several answers. Compare field by field: the byte behind the roles is padding and holds anything. */
typedef struct flatcarol_several_answer {
    uint64_t refusal;
    uint64_t place;
    uint64_t vertices;
    uint64_t triangles;
    uint64_t edges;
    uint64_t boundary_edges;
    uint64_t levels;  /* how many were undone */
    uint8_t roles[7]; /* the role taken at each level, first undone first; 0 in the places behind */
} flatcarol_several_answer;

/* What read frames, write frames and read index answer. They do not judge the corners, and so count no edges. */
typedef struct flatcarol_frames_answer {
    uint64_t refusal;
    uint64_t place;
    uint64_t vertices;  /* of the mesh that was read or written */
    uint64_t triangles; /* of the mesh that was read or written */
} flatcarol_frames_answer;

/* What write index answers. */
typedef struct flatcarol_text_answer {
    uint64_t refusal;
    uint64_t place;
    uint64_t vertices;
    uint64_t triangles;
    uint64_t bytes; /* how many were written */
} flatcarol_text_answer;

/* Refusals are checked in the order of their numbers, over the whole list: a 6 at the last triangle comes before a 7
   at the first. The calls that read alone differ, see there, and 15 stands in the place of 11. The place is 0 where
   none is named. */
enum flatcarol_refusal {
    FLATCAROL_ACCEPTED = 0,
    FLATCAROL_ASKED_TOO_MUCH = 1,   /* asked above 4 (undo one) or above 7 (undo several) */
    FLATCAROL_NOT_THREES = 2,       /* list length not a multiple of 3 */
    FLATCAROL_NO_TRIANGLE = 3,      /* no triangle */
    FLATCAROL_TOO_LARGE = 4,        /* F above 16,384 (split: above 4,096) or V above 32,767 */
    FLATCAROL_TOO_SHORT = 5,        /* a lent buffer shorter than needed */
    FLATCAROL_CORNER_NOT_BELOW = 6, /* a corner not below V; place: least triangle */
    FLATCAROL_EQUAL_CORNERS = 7,    /* two equal corners; place: least triangle */
    FLATCAROL_SAME_AS_EARLIER = 8,  /* same as an earlier triangle; place: least later one */
    FLATCAROL_IN_NO_TRIANGLE = 9,   /* a vertex in no triangle; place: least vertex */
    FLATCAROL_NOT_CONNECTED = 10,   /* not connected to triangle 0; place: least triangle */
    FLATCAROL_NO_READING = 11,      /* no reading in the role asked (asked 4: in any) */
    FLATCAROL_WRONG_FRAME = 12,     /* a frame not as required; place: least such line, from 0 */
    FLATCAROL_INPUT_TOO_LONG = 13,  /* program input above 16,396 bytes: given by the program unsplit, by no call */
    FLATCAROL_WRONG_TEXT = 14,      /* text not of this form, a corner above 65,535 or a face not of three corners;
                                       place: first byte of the first run at fault, or the text's length if corners
                                       are missing */
    FLATCAROL_INSIDE_OUT = 15       /* in place of 11: a role asked has a reading if winding is ignored, and none asked
                                       has one with it; place: least triangle that goes the other way round than the
                                       splitting has it, in the least such role */
};

/* The same words as text, for a message. */
static inline const char *flatcarol_refusal_text(uint64_t refusal)
{
    switch (refusal) {
    case FLATCAROL_ACCEPTED: return "accepted";
    case FLATCAROL_ASKED_TOO_MUCH: return "asked above 4 (undo one) or above 7 (undo several)";
    case FLATCAROL_NOT_THREES: return "list length not a multiple of 3";
    case FLATCAROL_NO_TRIANGLE: return "no triangle";
    case FLATCAROL_TOO_LARGE: return "F above 16,384 (split: above 4,096) or V above 32,767";
    case FLATCAROL_TOO_SHORT: return "a lent buffer shorter than needed";
    case FLATCAROL_CORNER_NOT_BELOW: return "a corner not below V";
    case FLATCAROL_EQUAL_CORNERS: return "two equal corners";
    case FLATCAROL_SAME_AS_EARLIER: return "same as an earlier triangle";
    case FLATCAROL_IN_NO_TRIANGLE: return "a vertex in no triangle";
    case FLATCAROL_NOT_CONNECTED: return "not connected to triangle 0";
    case FLATCAROL_NO_READING: return "no reading in the role asked (asked 4: in any)";
    case FLATCAROL_WRONG_FRAME: return "a frame not as required";
    case FLATCAROL_INPUT_TOO_LONG: return "program input above 16,396 bytes";
    case FLATCAROL_WRONG_TEXT: return "text not of this form, a corner above 65,535 or a face not of three corners";
    case FLATCAROL_INSIDE_OUT: return "a triangle inside out: a reading only if winding is ignored";
    default: return "no refusal has this number";
    }
}

/* ---- limits */

#define FLATCAROL_MOST_TRIANGLES 16384
#define FLATCAROL_MOST_SPLIT_TRIANGLES 4096 /* of a mesh that is split */
#define FLATCAROL_MOST_VERTICES 32767
#define FLATCAROL_MOST_LEVELS 7
#define FLATCAROL_ANY_ROLE 4 /* asked of undo one: the least role that has a reading */

/* ---- room for work */

/* How many work buffers each call is lent. */
#define FLATCAROL_SPLIT_BUFFERS 5
#define FLATCAROL_UNDO_ONE_BUFFERS 9
#define FLATCAROL_UNDO_SEVERAL_BUFFERS 10

/* The entries that each work buffer of a call needs: V + 3F. A mesh above the limits is refused 4 whatever is lent, so
   it needs no more than one at the limits, and the sum cannot overflow. */
static inline size_t flatcarol_work_each(uint64_t vertices, uint64_t triangles)
{
    const uint64_t v = vertices < FLATCAROL_MOST_VERTICES ? vertices : FLATCAROL_MOST_VERTICES;
    const uint64_t f = triangles < FLATCAROL_MOST_TRIANGLES ? triangles : FLATCAROL_MOST_TRIANGLES;
    return v + 3 * f;
}

/* The entries that all work buffers of a call need together: what to allocate for the calls that end in _in. At most
   819,190 entries, 1,600 KiB. */
static inline size_t flatcarol_split_work(uint64_t vertices, uint64_t triangles)
{
    return FLATCAROL_SPLIT_BUFFERS * flatcarol_work_each(vertices, triangles);
}

static inline size_t flatcarol_undo_one_work(uint64_t vertices, uint64_t triangles)
{
    return FLATCAROL_UNDO_ONE_BUFFERS * flatcarol_work_each(vertices, triangles);
}

static inline size_t flatcarol_undo_several_work(uint64_t vertices, uint64_t triangles)
{
    return FLATCAROL_UNDO_SEVERAL_BUFFERS * flatcarol_work_each(vertices, triangles);
}

/* ---- room for index texts

   Of a mesh above the limits no more than of one at the limits, as it is refused 4 whatever is lent. */

/* The entries that read index needs at most for a text of so many bytes. A face takes at least the nine bytes of
   "0 1 2 -1" and a separator, but the last one only the five of "0 1 2". */
static inline size_t flatcarol_read_index_most(size_t text_len)
{
    const size_t faces = text_len / 9 + (text_len % 9 >= 5 ? 1 : 0);
    return 3 * (faces < FLATCAROL_MOST_TRIANGLES ? faces : FLATCAROL_MOST_TRIANGLES);
}

/* The bytes that write index needs at most: for each triangle three corners of five digits and -1, with a blank after
   each of the four. */
static inline size_t flatcarol_write_index_most(uint64_t triangles)
{
    return 21 * (triangles < FLATCAROL_MOST_TRIANGLES ? triangles : FLATCAROL_MOST_TRIANGLES);
}

/* ---- the calls, as the archive has them */

/* Splits every triangle in four. The result goes to the first entries of out, which needs 12F. Refusals 2 to 10. */
flatcarol_answer flatcarol_split(
    uint64_t vertices,
    const uint16_t *list, size_t list_len,
    uint16_t *out, size_t out_len,
    uint16_t *work1, size_t work1_len,
    uint16_t *work2, size_t work2_len,
    uint16_t *work3, size_t work3_len,
    uint16_t *work4, size_t work4_len,
    uint16_t *work5, size_t work5_len);

/* Undoes one split, in the role asked of triangle 0 (0 to 3) or in the least role that has a reading (4). Each triangle
   must go round as the splitting has it; with which of its corners it begins plays no part. The coarse mesh goes to the
   first entries of mesh, which needs 3 times (F divided by 4, rounded down); to those of the maps, which need V and F,
   goes the number that each vertex and each triangle has in the splitting of that mesh. Refusals 1 to 11 and 15. */
flatcarol_one_answer flatcarol_undo_one(
    uint64_t vertices,
    const uint16_t *list, size_t list_len,
    uint64_t asked,
    uint16_t *mesh, size_t mesh_len,
    uint16_t *vertex_map, size_t vertex_map_len,
    uint16_t *triangle_map, size_t triangle_map_len,
    uint16_t *work1, size_t work1_len,
    uint16_t *work2, size_t work2_len,
    uint16_t *work3, size_t work3_len,
    uint16_t *work4, size_t work4_len,
    uint16_t *work5, size_t work5_len,
    uint16_t *work6, size_t work6_len,
    uint16_t *work7, size_t work7_len,
    uint16_t *work8, size_t work8_len,
    uint16_t *work9, size_t work9_len);

/* Undoes up to so many splits as asked, 0 to 7, each in the least role that has a reading. It stops where no role has
   one, where undo one would give 11 or 15: that is no refusal. The mesh that is left goes to the first entries of out,
   which needs 3F. Asked 0, that is the list as it came, and the answer has its counts. Refusals 1 to 10. */
flatcarol_several_answer flatcarol_undo_several(
    uint64_t vertices,
    const uint16_t *list, size_t list_len,
    uint64_t asked,
    uint16_t *out, size_t out_len,
    uint16_t *work1, size_t work1_len,
    uint16_t *work2, size_t work2_len,
    uint16_t *work3, size_t work3_len,
    uint16_t *work4, size_t work4_len,
    uint16_t *work5, size_t work5_len,
    uint16_t *work6, size_t work6_len,
    uint16_t *work7, size_t work7_len,
    uint16_t *work8, size_t work8_len,
    uint16_t *work9, size_t work9_len,
    uint16_t *work10, size_t work10_len);

/* Reads a mesh from its frames. Digits may be of either case, and each line may end in LF or CR LF. The corners, which
   are not judged, go to the first entries of out, which needs 3F with the F of the first line. Refusals 12 for the first
   line, then 4 and 5, then 12 for later lines. */
flatcarol_frames_answer flatcarol_read_frames(
    const uint8_t *bytes, size_t bytes_len,
    uint16_t *out, size_t out_len);

/* Writes a mesh, which may have no triangle and whose corners are not judged, as frames, in upper case and with LF. They
   go to the first bytes of out, which needs 11 + 15F. Refusals 2, 4 and 5. */
flatcarol_frames_answer flatcarol_write_frames(
    uint64_t vertices,
    const uint16_t *list, size_t list_len,
    uint8_t *out, size_t out_len);

/* Reads a mesh of so many vertices from its index text, the coordIndex of an IndexedFaceSet in VRML97: decimal numbers
   with blanks, tabs, CR, LF or commas between them, -1 after each face, where the last may be missing, and comments
   from # to the end of the line. The corners, which are not judged against the number of vertices, go to the first
   entries of out, which needs 3F. Refusals 14 for the whole text, then 4 and 5. */
flatcarol_frames_answer flatcarol_read_index(
    uint64_t vertices,
    const uint8_t *text, size_t text_len,
    uint16_t *out, size_t out_len);

/* Writes a mesh, which may have no triangle and whose corners are not judged, as an index text: 0 1 2 -1 0 2 3 -1. It
   goes to the first bytes of out, which needs as many as are written, with no zero byte after them. Refusals 2, 4 and
   5. */
flatcarol_text_answer flatcarol_write_index(
    uint64_t vertices,
    const uint16_t *list, size_t list_len,
    uint8_t *out, size_t out_len);

/* ---- the calls with one block of work

   The same calls, which cut one block into the work buffers. A block shorter than flatcarol_.._work says is refused 5;
   whatever its length, it is zero after the call. As all of it is cleared, lend a small mesh no more than it needs.
   Here a null pointer stands for an empty buffer, whatever length comes with it, as of an empty std::vector or where
   malloc failed. */

static inline flatcarol_answer flatcarol_split_in(
    uint64_t vertices,
    const uint16_t *list, size_t list_len,
    uint16_t *out, size_t out_len,
    uint16_t *work, size_t work_len)
{
    uint16_t none[1] = {0};
    const size_t whole = work ? work_len : 0;
    /* The last buffer gets what the division leaves. No product is more than the block's own length. */
    const size_t each = whole / FLATCAROL_SPLIT_BUFFERS;
    const size_t last = whole - 4 * each;
    uint16_t *const first = work ? work : none;
    return flatcarol_split(
        vertices,
        list ? list : none, list ? list_len : 0,
        out ? out : none, out ? out_len : 0,
        first, each,
        first + each, each,
        first + 2 * each, each,
        first + 3 * each, each,
        first + 4 * each, last);
}

static inline flatcarol_one_answer flatcarol_undo_one_in(
    uint64_t vertices,
    const uint16_t *list, size_t list_len,
    uint64_t asked,
    uint16_t *mesh, size_t mesh_len,
    uint16_t *vertex_map, size_t vertex_map_len,
    uint16_t *triangle_map, size_t triangle_map_len,
    uint16_t *work, size_t work_len)
{
    uint16_t none[1] = {0};
    const size_t whole = work ? work_len : 0;
    const size_t each = whole / FLATCAROL_UNDO_ONE_BUFFERS;
    const size_t last = whole - 8 * each;
    uint16_t *const first = work ? work : none;
    return flatcarol_undo_one(
        vertices,
        list ? list : none, list ? list_len : 0,
        asked,
        mesh ? mesh : none, mesh ? mesh_len : 0,
        vertex_map ? vertex_map : none, vertex_map ? vertex_map_len : 0,
        triangle_map ? triangle_map : none, triangle_map ? triangle_map_len : 0,
        first, each,
        first + each, each,
        first + 2 * each, each,
        first + 3 * each, each,
        first + 4 * each, each,
        first + 5 * each, each,
        first + 6 * each, each,
        first + 7 * each, each,
        first + 8 * each, last);
}

static inline flatcarol_several_answer flatcarol_undo_several_in(
    uint64_t vertices,
    const uint16_t *list, size_t list_len,
    uint64_t asked,
    uint16_t *out, size_t out_len,
    uint16_t *work, size_t work_len)
{
    uint16_t none[1] = {0};
    const size_t whole = work ? work_len : 0;
    const size_t each = whole / FLATCAROL_UNDO_SEVERAL_BUFFERS;
    const size_t last = whole - 9 * each;
    uint16_t *const first = work ? work : none;
    return flatcarol_undo_several(
        vertices,
        list ? list : none, list ? list_len : 0,
        asked,
        out ? out : none, out ? out_len : 0,
        first, each,
        first + each, each,
        first + 2 * each, each,
        first + 3 * each, each,
        first + 4 * each, each,
        first + 5 * each, each,
        first + 6 * each, each,
        first + 7 * each, each,
        first + 8 * each, each,
        first + 9 * each, last);
}

#ifdef __cplusplus
}
#endif

/* ---- the layout that the archive was compiled with */

#if defined(__cplusplus)
#define FLATCAROL_HOLDS(name, condition) static_assert(condition, #name)
#elif __STDC_VERSION__ >= 201112L
#define FLATCAROL_HOLDS(name, condition) _Static_assert(condition, #name)
#else /* C99 has no such statement, but no array of a negative length either */
#define FLATCAROL_HOLDS(name, condition) typedef char flatcarol_##name[(condition) ? 1 : -1]
#endif

FLATCAROL_HOLDS(size_is_64_bit, sizeof(size_t) == 8);

FLATCAROL_HOLDS(answer_size, sizeof(flatcarol_answer) == 48);
FLATCAROL_HOLDS(answer_refusal, offsetof(flatcarol_answer, refusal) == 0);
FLATCAROL_HOLDS(answer_place, offsetof(flatcarol_answer, place) == 8);
FLATCAROL_HOLDS(answer_vertices, offsetof(flatcarol_answer, vertices) == 16);
FLATCAROL_HOLDS(answer_triangles, offsetof(flatcarol_answer, triangles) == 24);
FLATCAROL_HOLDS(answer_edges, offsetof(flatcarol_answer, edges) == 32);
FLATCAROL_HOLDS(answer_boundary_edges, offsetof(flatcarol_answer, boundary_edges) == 40);

FLATCAROL_HOLDS(one_answer_size, sizeof(flatcarol_one_answer) == 56);
FLATCAROL_HOLDS(one_answer_refusal, offsetof(flatcarol_one_answer, refusal) == 0);
FLATCAROL_HOLDS(one_answer_place, offsetof(flatcarol_one_answer, place) == 8);
FLATCAROL_HOLDS(one_answer_vertices, offsetof(flatcarol_one_answer, vertices) == 16);
FLATCAROL_HOLDS(one_answer_triangles, offsetof(flatcarol_one_answer, triangles) == 24);
FLATCAROL_HOLDS(one_answer_edges, offsetof(flatcarol_one_answer, edges) == 32);
FLATCAROL_HOLDS(one_answer_boundary_edges, offsetof(flatcarol_one_answer, boundary_edges) == 40);
FLATCAROL_HOLDS(one_answer_role, offsetof(flatcarol_one_answer, role) == 48);

FLATCAROL_HOLDS(several_answer_size, sizeof(flatcarol_several_answer) == 64);
FLATCAROL_HOLDS(several_answer_refusal, offsetof(flatcarol_several_answer, refusal) == 0);
FLATCAROL_HOLDS(several_answer_place, offsetof(flatcarol_several_answer, place) == 8);
FLATCAROL_HOLDS(several_answer_vertices, offsetof(flatcarol_several_answer, vertices) == 16);
FLATCAROL_HOLDS(several_answer_triangles, offsetof(flatcarol_several_answer, triangles) == 24);
FLATCAROL_HOLDS(several_answer_edges, offsetof(flatcarol_several_answer, edges) == 32);
FLATCAROL_HOLDS(several_answer_boundary_edges, offsetof(flatcarol_several_answer, boundary_edges) == 40);
FLATCAROL_HOLDS(several_answer_levels, offsetof(flatcarol_several_answer, levels) == 48);
FLATCAROL_HOLDS(several_answer_roles, offsetof(flatcarol_several_answer, roles) == 56);

FLATCAROL_HOLDS(frames_answer_size, sizeof(flatcarol_frames_answer) == 32);
FLATCAROL_HOLDS(frames_answer_refusal, offsetof(flatcarol_frames_answer, refusal) == 0);
FLATCAROL_HOLDS(frames_answer_place, offsetof(flatcarol_frames_answer, place) == 8);
FLATCAROL_HOLDS(frames_answer_vertices, offsetof(flatcarol_frames_answer, vertices) == 16);
FLATCAROL_HOLDS(frames_answer_triangles, offsetof(flatcarol_frames_answer, triangles) == 24);

FLATCAROL_HOLDS(text_answer_size, sizeof(flatcarol_text_answer) == 40);
FLATCAROL_HOLDS(text_answer_refusal, offsetof(flatcarol_text_answer, refusal) == 0);
FLATCAROL_HOLDS(text_answer_place, offsetof(flatcarol_text_answer, place) == 8);
FLATCAROL_HOLDS(text_answer_vertices, offsetof(flatcarol_text_answer, vertices) == 16);
FLATCAROL_HOLDS(text_answer_triangles, offsetof(flatcarol_text_answer, triangles) == 24);
FLATCAROL_HOLDS(text_answer_bytes, offsetof(flatcarol_text_answer, bytes) == 32);

#undef FLATCAROL_HOLDS

#endif
