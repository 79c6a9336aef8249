/*
 * Tries what flatcarol.h adds to the archive: that the declarations fit the archive's functions, argument by argument
 * and field by field, the lengths of work and texts, the cutting of one block, and calls in two threads. What the calls
 * themselves do is proved, and is tried here only where it shows that nothing was mixed up on the way.
 *
 * Prints what went wrong, and nothing where nothing did. It is C99 and C++17.
 */
#include <inttypes.h>
#include <pthread.h>
#include <stdio.h>
#include <stdlib.h>
#include <string.h>

#include "flatcarol.h"

static int wrong = 0;

static void expect(int holds, const char *what, size_t which)
{
    if (!holds) {
        wrong++;
        printf("wrong: %s (%zu)\n", what, which);
    }
}

/* Whether the entries from one place up to another all hold a value. */
static int all(const uint16_t *entries, size_t from, size_t to, uint16_t value)
{
    for (size_t i = from; i < to; i++) {
        if (entries[i] != value) {
            return 0;
        }
    }
    return 1;
}

static int same(const uint16_t *a, const uint16_t *b, size_t count)
{
    return memcmp(a, b, count * sizeof(uint16_t)) == 0;
}

/* ---- meshes, all from document 01 */

static const uint16_t triangle[3] = {0, 1, 2};
static const uint16_t triangle_split[12] = {3, 4, 5, 0, 3, 5, 1, 4, 3, 2, 5, 4};

/* The program's input, whose least role is 1: 6 vertices and 4 triangles, so that a work buffer needs 18 entries. */
static const uint16_t sample[12] = {5, 0, 3, 4, 1, 0, 3, 0, 1, 2, 3, 1};
static const uint16_t sample_mesh[3] = {0, 2, 1};
static const uint16_t sample_vertices[6] = {4, 5, 0, 3, 1, 2};
static const uint16_t sample_triangles[4] = {2, 3, 0, 1};

/* Three triangles on one edge. */
static const uint16_t fin[9] = {0, 1, 2, 0, 1, 3, 0, 1, 4};

/* The same, split, where the triangle (2, 7, 6) comes first and begins with its last corner: its second corner is then
   kept, role 2. */
static const uint16_t fin_rotated[36] = {
    6, 2, 7, 5, 6, 7, 0, 5, 7, 1, 6, 5, 5, 8, 9, 0, 5, 9, 1, 8, 5, 3, 9, 8, 5, 10, 11, 0, 5, 11, 1, 10, 5, 4, 11, 10};

/* ---- the archive's own functions: each buffer in its place, with its own length */

/* A buffer of which so many entries are lent. All hold 7 at first, also those behind. */
typedef struct lent {
    uint16_t entries[64];
    size_t len;
} lent;

static lent lend(size_t len)
{
    lent buffer;
    for (size_t i = 0; i < 64; i++) {
        buffer.entries[i] = 7;
    }
    buffer.len = len;
    return buffer;
}

/* Lends buffers of these lengths, each to a call's own argument. Buffer number `shorter`, counted from 1, has one entry
   less, which is refused 5; 0 is none. */
static void lend_all(lent *buffers, const size_t *lengths, size_t count, size_t shorter)
{
    for (size_t i = 0; i < count; i++) {
        buffers[i] = lend(i + 1 == shorter ? lengths[i] - 1 : lengths[i]);
    }
}

static void expect_output(const lent *buffer, const uint16_t *result, size_t count, uint64_t refusal, size_t which)
{
    const size_t written = refusal == FLATCAROL_ACCEPTED ? count : 0;
    expect(same(buffer->entries, result, written), "the output has the result", which);
    expect(all(buffer->entries, written, 64, 7), "the output is as it was behind the result", which);
}

static void expect_work(const lent *buffers, size_t count, size_t which)
{
    for (size_t i = 0; i < count; i++) {
        expect(all(buffers[i].entries, 0, buffers[i].len, 0), "work is zero", which);
        expect(all(buffers[i].entries, buffers[i].len, 64, 7), "what lies behind work is as it was", which);
    }
}

static void try_split(size_t shorter)
{
    const size_t lengths[6] = {12, 6, 6, 6, 6, 6};
    lent b[6];
    lend_all(b, lengths, 6, shorter);
    const flatcarol_answer a = flatcarol_split(
        3, triangle, 3, b[0].entries, b[0].len, b[1].entries, b[1].len, b[2].entries, b[2].len, b[3].entries, b[3].len,
        b[4].entries, b[4].len, b[5].entries, b[5].len);
    const int refused = shorter != 0;
    expect(a.refusal == (refused ? 5u : 0u) && a.place == 0, "split is refused 5 or accepted", shorter);
    expect(a.vertices == (refused ? 0u : 6u) && a.triangles == (refused ? 0u : 4u), "split's counts", shorter);
    expect(a.edges == (refused ? 0u : 9u) && a.boundary_edges == (refused ? 0u : 6u), "split's edges", shorter);
    expect_output(&b[0], triangle_split, 12, a.refusal, shorter);
    expect_work(b + 1, 5, shorter);
}

static void try_undo_one(size_t shorter)
{
    const size_t lengths[12] = {3, 6, 4, 18, 18, 18, 18, 18, 18, 18, 18, 18};
    lent b[12];
    lend_all(b, lengths, 12, shorter);
    const flatcarol_one_answer a = flatcarol_undo_one(
        6, sample, 12, FLATCAROL_ANY_ROLE, b[0].entries, b[0].len, b[1].entries, b[1].len, b[2].entries, b[2].len,
        b[3].entries, b[3].len, b[4].entries, b[4].len, b[5].entries, b[5].len, b[6].entries, b[6].len, b[7].entries,
        b[7].len, b[8].entries, b[8].len, b[9].entries, b[9].len, b[10].entries, b[10].len, b[11].entries, b[11].len);
    const int refused = shorter != 0;
    expect(a.refusal == (refused ? 5u : 0u) && a.place == 0, "undo one is refused 5 or accepted", shorter);
    expect(a.vertices == (refused ? 0u : 3u) && a.triangles == (refused ? 0u : 1u), "undo one's counts", shorter);
    expect(a.edges == (refused ? 0u : 3u) && a.boundary_edges == (refused ? 0u : 3u), "undo one's edges", shorter);
    expect(a.role == (refused ? 0u : 1u), "undo one's role", shorter);
    expect_output(&b[0], sample_mesh, 3, a.refusal, shorter);
    expect_output(&b[1], sample_vertices, 6, a.refusal, shorter);
    expect_output(&b[2], sample_triangles, 4, a.refusal, shorter);
    expect_work(b + 3, 9, shorter);
}

static void try_undo_several(size_t shorter)
{
    const size_t lengths[11] = {12, 18, 18, 18, 18, 18, 18, 18, 18, 18, 18};
    lent b[11];
    lend_all(b, lengths, 11, shorter);
    const flatcarol_several_answer a = flatcarol_undo_several(
        6, sample, 12, 7, b[0].entries, b[0].len, b[1].entries, b[1].len, b[2].entries, b[2].len, b[3].entries,
        b[3].len, b[4].entries, b[4].len, b[5].entries, b[5].len, b[6].entries, b[6].len, b[7].entries, b[7].len,
        b[8].entries, b[8].len, b[9].entries, b[9].len, b[10].entries, b[10].len);
    const uint8_t roles[2][7] = {{1, 0, 0, 0, 0, 0, 0}, {0, 0, 0, 0, 0, 0, 0}};
    const int refused = shorter != 0;
    expect(a.refusal == (refused ? 5u : 0u) && a.place == 0, "undo several is refused 5 or accepted", shorter);
    expect(a.vertices == (refused ? 0u : 3u) && a.triangles == (refused ? 0u : 1u), "undo several's counts", shorter);
    expect(a.edges == (refused ? 0u : 3u) && a.boundary_edges == (refused ? 0u : 3u), "undo several's edges", shorter);
    expect(a.levels == (refused ? 0u : 1u), "undo several's levels", shorter);
    expect(memcmp(a.roles, roles[refused], 7) == 0, "undo several's roles", shorter);
    expect_output(&b[0], sample_mesh, 3, a.refusal, shorter);
    expect_work(b + 1, 10, shorter);
}

static void try_frames(void)
{
    const char *const text = "4D00060004\n46000500000003\n46000400010000\n46000300000001\n46000200030001\n";
    uint8_t bytes[72];
    memset(bytes, '7', sizeof bytes);
    lent out = lend(12);

    flatcarol_frames_answer a = flatcarol_write_frames(6, sample, 12, bytes, 70);
    expect(a.refusal == 5 && a.place == 0 && a.vertices == 0 && a.triangles == 0, "70 bytes are too short", 0);
    expect(bytes[0] == '7', "a refusal writes no byte", 0);
    a = flatcarol_write_frames(6, sample, 12, bytes, 72);
    expect(a.refusal == 0 && a.place == 0 && a.vertices == 6 && a.triangles == 4, "frames are written", 0);
    expect(memcmp(bytes, text, 71) == 0 && bytes[71] == '7', "the frames are document 01's", 0);

    a = flatcarol_read_frames(bytes, 72, out.entries, out.len);
    expect(a.refusal == 12 && a.place == 5 && a.vertices == 0 && a.triangles == 0, "a byte too many is refused", 0);
    a = flatcarol_read_frames(bytes, 71, out.entries, 11);
    expect(a.refusal == 5 && a.place == 0, "11 entries are too short", 0);
    expect(all(out.entries, 0, 64, 7), "a refusal writes no entry", 0);
    a = flatcarol_read_frames(bytes, 71, out.entries, out.len);
    expect(a.refusal == 0 && a.place == 0 && a.vertices == 6 && a.triangles == 4, "frames are read", 0);
    expect_output(&out, sample, 12, a.refusal, 0);

    a = flatcarol_write_frames(0, sample, 0, bytes, 11);
    expect(a.refusal == 0 && memcmp(bytes, "4D00000000\n", 11) == 0, "no triangle is written", 0);
    a = flatcarol_write_frames(UINT64_MAX, sample, 12, bytes, 72);
    expect(a.refusal == 4, "too many vertices are not written", 0);
}

/* Document 02's request 105. */
static void try_spellings(void)
{
    const char *const text = "4d00060004\r\n46000500000003\n46000400010000\r\n46000300000001\n46000200030001\r\n";
    const char *const letters = "4D00Ef0001\r\n46000a00Bc00dE\n";
    const uint16_t corners[3] = {0x0A, 0xBC, 0xDE};
    uint8_t bytes[27];
    memset(bytes, '7', sizeof bytes);

    lent out = lend(12);
    flatcarol_frames_answer a = flatcarol_read_frames((const uint8_t *)text, strlen(text), out.entries, out.len);
    expect(a.refusal == 0 && a.place == 0 && a.vertices == 6 && a.triangles == 4, "either end is read", 0);
    expect_output(&out, sample, 12, a.refusal, 0);

    out = lend(3);
    a = flatcarol_read_frames((const uint8_t *)letters, strlen(letters), out.entries, out.len);
    expect(a.refusal == 0 && a.vertices == 0xEF && a.triangles == 1, "either case is read", 0);
    expect_output(&out, corners, 3, a.refusal, 0);
    a = flatcarol_write_frames(a.vertices, corners, 3, bytes, sizeof bytes);
    expect(a.refusal == 0 && memcmp(bytes, "4D00EF0001\n46000A00BC00DE\n7", 27) == 0, "the normal spelling is written", 0);

    out = lend(3);
    a = flatcarol_read_frames((const uint8_t *)letters, strlen(letters) - 1, out.entries, out.len);
    expect(a.refusal == 12 && a.place == 1, "the last line has no end", 0);
    a = flatcarol_read_frames((const uint8_t *)"4D00000000\r", 11, out.entries, out.len);
    expect(a.refusal == 12 && a.place == 0, "a CR alone is no end", 0);
    a = flatcarol_read_frames((const uint8_t *)"4D00000000\n\r", 12, out.entries, out.len);
    expect(a.refusal == 12 && a.place == 1, "a CR after the last end is refused", 0);
    expect(all(out.entries, 0, 64, 7), "a refusal writes no entry", 0);
}

/* Document 02's request 101. */
static void try_index(void)
{
    const uint16_t list[6] = {0, 1, 2, 10, 65535, 3};
    const char *const text = "0 1 2 -1 10 65535 3 -1";
    uint8_t bytes[23];
    memset(bytes, '7', sizeof bytes);
    lent out = lend(6);

    flatcarol_text_answer w = flatcarol_write_index(9, list, 6, bytes, 21);
    expect(w.refusal == 5 && w.place == 0 && w.vertices == 0 && w.triangles == 0, "21 bytes are too short", 0);
    expect(w.bytes == 0 && bytes[0] == '7', "a refusal writes no byte", 1);
    w = flatcarol_write_index(9, list, 6, bytes, 22);
    expect(w.refusal == 0 && w.place == 0 && w.vertices == 9 && w.triangles == 2, "an index text is written", 0);
    expect(w.bytes == 22 && memcmp(bytes, text, 22) == 0 && bytes[22] == '7', "the text is the request's", 0);
    w = flatcarol_write_index(9, list, 0, bytes, 0);
    expect(w.refusal == 0 && w.vertices == 9 && w.triangles == 0 && w.bytes == 0, "no face is written", 0);
    w = flatcarol_write_index(9, list, 5, bytes, 23);
    expect(w.refusal == 2 && w.bytes == 0, "5 entries are not written", 0);
    w = flatcarol_write_index(65545, list, 6, bytes, 23);
    expect(w.refusal == 4 && w.bytes == 0, "V is 9 modulo 2^16", 3);

    flatcarol_frames_answer r = flatcarol_read_index(9, bytes, 23, out.entries, out.len);
    expect(r.refusal == 14 && r.place == 20 && r.vertices == 0 && r.triangles == 0, "-17 closes no face", 0);
    r = flatcarol_read_index(9, bytes, 15, out.entries, out.len);
    expect(r.refusal == 14 && r.place == 15, "two corners are missing", 0);
    r = flatcarol_read_index(UINT64_MAX, bytes, 22, out.entries, out.len);
    expect(r.refusal == 4 && r.place == 0, "V is 2^64 - 1", 3);
    r = flatcarol_read_index(9, bytes, 22, out.entries, 5);
    expect(r.refusal == 5 && r.place == 0, "5 entries are too short", 0);
    expect(all(out.entries, 0, 64, 7), "a refusal writes no entry", 1);
    r = flatcarol_read_index(9, bytes, 22, out.entries, out.len);
    expect(r.refusal == 0 && r.place == 0 && r.vertices == 9 && r.triangles == 2, "an index text is read", 0);
    expect_output(&out, list, 6, r.refusal, 1);
}

/* Six splits of the sample, undone: the sample's own role, 1, is the last of seven. */
static void try_last_role(void)
{
    static uint16_t lists[2][3 * FLATCAROL_MOST_TRIANGLES];
    static uint16_t work[10 * (FLATCAROL_MOST_VERTICES + 3 * FLATCAROL_MOST_TRIANGLES)];
    const uint8_t roles[7] = {0, 0, 0, 0, 0, 0, 1};
    const size_t most = sizeof work / sizeof work[0];
    uint64_t vertices = 6;
    uint64_t triangles = 4;
    expect(most == flatcarol_undo_several_work(UINT64_MAX, UINT64_MAX), "the most work", most);
    memcpy(lists[0], sample, sizeof sample);
    for (size_t i = 0; i < 6; i++) {
        const flatcarol_answer a = flatcarol_split_in(
            vertices, lists[i % 2], 3 * triangles, lists[(i + 1) % 2], 3 * FLATCAROL_MOST_TRIANGLES, work, most);
        expect(a.refusal == 0, "the sample is split", i);
        vertices = a.vertices;
        triangles = a.triangles;
        /* A triangle in n rows: n(n + 1)/2 small ones stand as it does, and each edge is on just one of these. */
        const uint64_t n = (uint64_t)4 << i;
        expect(a.edges == 3 * n * (n + 1) / 2 && a.boundary_edges == 3 * n, "the edges of n rows", n);
    }
    const flatcarol_several_answer a = flatcarol_undo_several_in(
        vertices, lists[0], 3 * triangles, 7, lists[1], 3 * FLATCAROL_MOST_TRIANGLES, work, most);
    expect(triangles == FLATCAROL_MOST_TRIANGLES && a.refusal == 0 && a.levels == 7, "seven levels are undone", 0);
    expect(memcmp(a.roles, roles, 7) == 0, "the seventh role is the sample's", 0);
    expect(a.vertices == 3 && a.triangles == 1 && same(lists[1], sample_mesh, 3), "the sample's mesh is left", 0);
    expect(a.edges == 3 && a.boundary_edges == 3, "the edges of the sample's mesh", 0);
}

/* ---- edges and boundary edges, document 02's request 102 */

/* In each of these answers no two numbers but zeros are the same, so that fields in each other's place are seen. */
static void try_fields(void)
{
    uint16_t out[48];
    uint16_t vertex_map[12];
    uint16_t triangle_map[12];
    uint16_t work[10 * 48];
    /* The sample, 4 triangles with 9 edges, split. */
    const flatcarol_answer s = flatcarol_split_in(6, sample, 12, out, 48, work, 10 * 48);
    expect(s.refusal == 0 && s.place == 0 && s.vertices == 15 && s.triangles == 16, "the sample, split", 0);
    expect(s.edges == 30 && s.boundary_edges == 12, "the edges of the sample, split", 0);

    const flatcarol_one_answer o = flatcarol_undo_one_in(
        12, fin_rotated, 36, FLATCAROL_ANY_ROLE, out, 48, vertex_map, 12, triangle_map, 12, work, 10 * 48);
    expect(o.refusal == 0 && o.place == 0 && o.vertices == 5 && o.triangles == 3, "the fin, undone once", 0);
    expect(o.edges == 7 && o.boundary_edges == 6 && o.role == 2, "the fin's edges and role", 0);

    const uint8_t roles[7] = {2, 0, 0, 0, 0, 0, 0};
    const flatcarol_several_answer l = flatcarol_undo_several_in(12, fin_rotated, 36, 7, out, 48, work, 10 * 48);
    expect(l.refusal == 0 && l.place == 0 && l.vertices == 5 && l.triangles == 3, "the fin, undone as it goes", 0);
    expect(l.edges == 7 && l.boundary_edges == 6 && l.levels == 1, "the fin's edges and levels", 0);
    expect(memcmp(l.roles, roles, 7) == 0 && same(out, fin, 9), "the fin's roles, and the fin", 0);
}

/* The request's examples that are not tried elsewhere. */
static void try_edges(void)
{
    /* Edges as document 01 calls them: the fin's edge 0-1, with three triangles, is no boundary edge, nor are its
       halves. So 12 of the 23 edges of its splitting are. */
    uint16_t out[216];
    uint16_t work[10 * (36 + 216)];
    const flatcarol_answer s = flatcarol_split_in(5, fin, 9, out, 36, work, flatcarol_split_work(5, 3));
    expect(s.vertices == 12 && s.triangles == 12 && s.edges == 23 && s.boundary_edges == 12, "the fin, split", 0);

    /* Asked 0, undo several counts the mesh that it is given. */
    flatcarol_several_answer l = flatcarol_undo_several_in(3, triangle, 3, 0, out, 3, work, 10 * 6);
    expect(l.vertices == 3 && l.triangles == 1 && l.edges == 3 && l.boundary_edges == 3, "one triangle", 0);
    expect(l.refusal == 0 && l.levels == 0, "no level", 0);
    l = flatcarol_undo_several_in(5, fin, 9, 0, out, 9, work, 10 * 14);
    expect(l.vertices == 5 && l.triangles == 3 && l.edges == 7 && l.boundary_edges == 6, "the fin", 0);

    /* The regular torus, 6 by 6: no boundary edge, in the coarse mesh as little as in the fine one. */
    uint16_t torus[216];
    uint16_t vertex_map[36];
    uint16_t triangle_map[72];
    for (size_t x = 0; x < 6; x++) {
        for (size_t y = 0; y < 6; y++) {
            const size_t right = (x + 1) % 6;
            const size_t up = (y + 1) % 6;
            const size_t corners[6] = {6 * x + y, 6 * right + y, 6 * right + up, 6 * x + y, 6 * right + up, 6 * x + up};
            for (size_t i = 0; i < 6; i++) {
                torus[6 * (6 * x + y) + i] = (uint16_t)corners[i];
            }
        }
    }
    const flatcarol_one_answer o = flatcarol_undo_one_in(
        36, torus, 216, 0, out, 54, vertex_map, 36, triangle_map, 72, work, flatcarol_undo_one_work(36, 72));
    expect(o.refusal == 0 && o.vertices == 9 && o.triangles == 18, "the torus in role 0", 0);
    expect(o.edges == 27 && o.boundary_edges == 0 && o.role == 0, "the torus's edges", 0);
    l = flatcarol_undo_several_in(36, torus, 216, 0, out, 216, work, flatcarol_undo_several_work(36, 72));
    expect(l.refusal == 0 && l.edges == 108 && l.boundary_edges == 0, "the torus as it is", 0);
}

/* ---- triangles inside out, document 02's request 103 */

/* Undo one on a split triangle, and undo several, which answers 0 in any case. */
static void expect_undone(const uint16_t *list, uint64_t asked, uint64_t refusal, uint64_t place, size_t which)
{
    lent mesh = lend(3);
    lent vertex_map = lend(6);
    lent triangle_map = lend(4);
    lent out = lend(12);
    uint16_t work[10 * 18];
    const flatcarol_one_answer o = flatcarol_undo_one_in(
        6, list, 12, asked, mesh.entries, 3, vertex_map.entries, 6, triangle_map.entries, 4, work, 9 * 18);
    const uint64_t coarse = refusal == 0 ? 3 : 0;
    expect(o.refusal == refusal && o.place == place && o.role == 0, "a split triangle with windings", which);
    expect(o.vertices == coarse && o.edges == coarse && o.boundary_edges == coarse, "its counts", which);
    expect(refusal == 0 || all(mesh.entries, 0, 64, 7), "a refusal writes no mesh", which);
    expect(refusal == 0 || all(vertex_map.entries, 0, 64, 7), "a refusal writes no vertex map", which);
    expect(refusal == 0 || all(triangle_map.entries, 0, 64, 7), "a refusal writes no triangle map", which);

    const flatcarol_several_answer l = flatcarol_undo_several_in(6, list, 12, 7, out.entries, 12, work, 10 * 18);
    expect(l.refusal == 0 && l.place == 0, "undo several stops and does not refuse", which);
    expect(l.levels == (refusal == FLATCAROL_INSIDE_OUT ? 0u : 1u), "and stops before a triangle inside out", which);
    expect(l.levels == 1 || (l.triangles == 4 && same(out.entries, list, 12)), "which leaves the mesh", which);
}

static void try_inside_out(void)
{
    const uint16_t one_turned[12] = {3, 4, 5, 0, 5, 3, 1, 4, 3, 2, 5, 4};
    const uint16_t last_turned[12] = {3, 4, 5, 0, 3, 5, 1, 4, 3, 2, 4, 5};
    const uint16_t centre_turned[12] = {3, 5, 4, 0, 3, 5, 1, 4, 3, 2, 5, 4};
    const uint16_t all_turned[12] = {5, 4, 3, 5, 3, 0, 3, 4, 1, 4, 5, 2};
    expect_undone(one_turned, 0, FLATCAROL_INSIDE_OUT, 1, 0);
    expect_undone(one_turned, FLATCAROL_ANY_ROLE, FLATCAROL_INSIDE_OUT, 1, 1);
    expect_undone(last_turned, 0, FLATCAROL_INSIDE_OUT, 3, 2);
    /* The coarse triangle goes round as the centre does, and so the corner triangles are those that disagree. */
    expect_undone(centre_turned, 0, FLATCAROL_INSIDE_OUT, 1, 3);
    expect_undone(all_turned, 0, FLATCAROL_ACCEPTED, 0, 4);

    /* In role 1 there is no reading by either rule. */
    uint16_t mesh[3];
    uint16_t vertex_map[6];
    uint16_t triangle_map[4];
    uint16_t work[9 * 18];
    const flatcarol_one_answer o = flatcarol_undo_one_in(
        6, one_turned, 12, 1, mesh, 3, vertex_map, 6, triangle_map, 4, work, 9 * 18);
    expect(o.refusal == FLATCAROL_NO_READING && o.place == 0, "no reading in role 1", 0);
}

/* ---- lengths of work */

static void try_lengths(void)
{
    expect(flatcarol_work_each(0, 0) == 0, "V + 3F", 0);
    expect(flatcarol_work_each(6, 4) == 18, "V + 3F", 1);
    expect(flatcarol_split_work(6, 4) == 5 * 18, "five for split", 0);
    expect(flatcarol_undo_one_work(6, 4) == 9 * 18, "nine for undo one", 0);
    expect(flatcarol_undo_several_work(6, 4) == 10 * 18, "ten for undo several", 0);

    /* The largest meshes of docs/ROOM.md. */
    expect(flatcarol_split_work(32767, 4096) == 225275, "the most for split", 0);
    expect(flatcarol_undo_one_work(32767, 16384) == 737271, "the most for undo one", 0);
    expect(flatcarol_undo_several_work(32767, 16384) == 819190, "the most for undo several", 0);

    /* Above the limits nothing is added, and nothing overflows. */
    const uint64_t absurd[5] = {32768, 65536, UINT64_MAX / 3, UINT64_MAX / 2 + 1, UINT64_MAX};
    for (size_t i = 0; i < 5; i++) {
        expect(flatcarol_work_each(absurd[i], 0) == 32767, "so many vertices", i);
        expect(flatcarol_work_each(0, absurd[i]) == 49152, "so many triangles", i);
        expect(flatcarol_undo_several_work(absurd[i], absurd[i]) == 819190, "so many of both", i);
    }
}

/* ---- lengths of index texts */

static void try_index_lengths(void)
{
    /* The shortest text of so many faces, and one byte less. */
    for (size_t faces = 1; faces <= FLATCAROL_MOST_TRIANGLES; faces++) {
        expect(flatcarol_read_index_most(9 * faces - 4) == 3 * faces, "so many faces", faces);
        expect(flatcarol_read_index_most(9 * faces - 5) == 3 * (faces - 1), "a face less", faces);
    }
    expect(flatcarol_read_index_most(0) == 0, "no text", 0);
    expect(flatcarol_read_index_most(SIZE_MAX) == 49152, "the longest text", 0);

    expect(flatcarol_write_index_most(0) == 0, "no triangle", 0);
    expect(flatcarol_write_index_most(2) == 42, "two triangles", 0);
    expect(flatcarol_write_index_most(16384) == 344064, "the most triangles", 0);
    expect(flatcarol_write_index_most(UINT64_MAX) == 344064, "so many triangles", 0);
}

/* ---- one block of work, cut */

typedef enum call { SPLIT, UNDO_ONE, UNDO_SEVERAL } call;

static const call calls[3] = {SPLIT, UNDO_ONE, UNDO_SEVERAL};
static const size_t needed[3] = {5 * 18, 9 * 18, 10 * 18};

/* The number of a refusal, in which all numbers after the place are 0. */
static uint64_t split_refusal(flatcarol_answer a)
{
    const int zeros = a.vertices == 0 && a.triangles == 0 && a.edges == 0 && a.boundary_edges == 0;
    expect(a.refusal == 0 || zeros, "a refusal of split has zeros", a.refusal);
    return a.refusal;
}

static uint64_t one_refusal(flatcarol_one_answer a)
{
    const int zeros = a.vertices == 0 && a.triangles == 0 && a.edges == 0 && a.boundary_edges == 0 && a.role == 0;
    expect(a.refusal == 0 || zeros, "a refusal of undo one has zeros", a.refusal);
    return a.refusal;
}

static uint64_t several_refusal(flatcarol_several_answer a)
{
    const uint8_t none[7] = {0, 0, 0, 0, 0, 0, 0};
    const int zeros = a.vertices == 0 && a.triangles == 0 && a.edges == 0 && a.boundary_edges == 0 && a.levels == 0;
    const int no_roles = memcmp(a.roles, none, 7) == 0;
    expect(a.refusal == 0 || (zeros && no_roles), "a refusal of undo several has zeros", a.refusal);
    return a.refusal;
}

/* Makes one of the calls on a mesh with enough room for the output, in a block. Answers the refusal. */
static uint64_t refusal_in(
    call which, uint64_t vertices, const uint16_t *list, size_t list_len, uint64_t asked, uint16_t *work,
    size_t work_len)
{
    uint16_t out[48];
    uint16_t vertex_map[6];
    uint16_t triangle_map[4];
    switch (which) {
    case SPLIT: return split_refusal(flatcarol_split_in(vertices, list, list_len, out, 48, work, work_len));
    case UNDO_ONE:
        return one_refusal(flatcarol_undo_one_in(
            vertices, list, list_len, asked, out, 48, vertex_map, 6, triangle_map, 4, work, work_len));
    case UNDO_SEVERAL:
    default:
        return several_refusal(flatcarol_undo_several_in(vertices, list, list_len, asked, out, 48, work, work_len));
    }
}

/* A block of every length, in memory of just that length, so that a checked build sees a pointer that leaves it. That
   all of it is zero afterwards says that the buffers cover it: their lengths add up to its own, so none overlap. */
static void try_blocks(void)
{
    for (size_t c = 0; c < 3; c++) {
        for (size_t len = 0; len < needed[c] + 40; len++) {
            uint16_t *const work = (uint16_t *)malloc(len * sizeof(uint16_t));
            for (size_t i = 0; work && i < len; i++) {
                work[i] = 0xFFFF;
            }
            const uint64_t refusal = refusal_in(calls[c], 6, sample, 12, 1, work, len);
            expect(refusal == (len < needed[c] ? 5u : 0u), "a short block is refused 5, and no other", len);
            expect(all(work, 0, work ? len : 0, 0), "all of the block is zero", len);
            free(work);
        }
    }
}

static void try_null(void)
{
    uint16_t work[10 * 18];
    for (size_t i = 0; i < 3; i++) {
        expect(refusal_in(calls[i], 6, sample, 12, 1, NULL, 0) == 5, "no block", i);
        expect(refusal_in(calls[i], 6, sample, 12, 1, NULL, SIZE_MAX) == 5, "no block, where malloc failed", i);
        expect(refusal_in(calls[i], 0, NULL, 0, 1, work, 10 * 18) == 3, "no list", i);
        expect(refusal_in(calls[i], 0, NULL, 12, 1, work, 10 * 18) == 3, "no list, with a length", i);
        expect(refusal_in(calls[i], 0, NULL, 0, 1, NULL, 0) == 3, "no list and no block", i);
    }
    expect(split_refusal(flatcarol_split_in(6, sample, 12, NULL, 48, work, 10 * 18)) == 5, "no output", 0);
    expect(several_refusal(flatcarol_undo_several_in(6, sample, 12, 1, NULL, 12, work, 10 * 18)) == 5, "no output", 1);
    uint16_t mesh[3];
    uint16_t map[6];
    uint16_t other[4];
    flatcarol_one_answer one = flatcarol_undo_one_in(6, sample, 12, 1, NULL, 3, map, 6, other, 4, work, 10 * 18);
    expect(one_refusal(one) == 5, "no mesh", 0);
    one = flatcarol_undo_one_in(6, sample, 12, 1, mesh, 3, NULL, 6, other, 4, work, 10 * 18);
    expect(one_refusal(one) == 5, "no vertex map", 0);
    one = flatcarol_undo_one_in(6, sample, 12, 1, mesh, 3, map, 6, NULL, 4, work, 10 * 18);
    expect(one_refusal(one) == 5, "no triangle map", 0);
    /* One triangle needs no entry for the coarse mesh, and so no pointer. */
    one = flatcarol_undo_one_in(3, triangle, 3, 4, NULL, 0, map, 3, other, 1, work, 10 * 18);
    expect(one_refusal(one) == 11, "no mesh where none is needed", 0);
}

/* Document 01's meshes that are refused 6 to 10. */
static void try_improper(void)
{
    const uint16_t lists[5][6] = {{0, 1, 2}, {0, 0, 1}, {0, 1, 2, 0, 2, 1}, {0, 1, 2}, {0, 1, 2, 0, 3, 4}};
    const size_t lengths[5] = {3, 3, 6, 3, 6};
    const uint64_t vertices[5] = {2, 2, 3, 4, 5};
    uint16_t work[10 * 18];
    for (size_t c = 0; c < 3; c++) {
        for (size_t i = 0; i < 5; i++) {
            const uint64_t refusal = refusal_in(calls[c], vertices[i], lists[i], lengths[i], 4, work, 10 * 18);
            expect(refusal == 6 + i, "an improper mesh", i);
        }
    }
}

static void try_absurd(void)
{
    uint16_t work[10 * 18];
    for (size_t c = 0; c < 3; c++) {
        expect(refusal_in(calls[c], UINT64_MAX, sample, 12, 1, work, 10 * 18) == 4, "V is 2^64 - 1", c);
        expect(refusal_in(calls[c], UINT64_MAX - 17, sample, 12, 1, work, 10 * 18) == 4, "V + 3F is 0 modulo 2^64", c);
        expect(refusal_in(calls[c], UINT64_MAX, sample, 12, 1, NULL, 0) == 4, "V is 2^64 - 1, without work", c);
        expect(refusal_in(calls[c], 65542, sample, 12, 1, work, 10 * 18) == 4, "V is 6 modulo 2^16", c);
        expect(refusal_in(calls[c], 6, sample, 11, 1, work, 10 * 18) == 2, "11 entries", c);
        if (calls[c] != SPLIT) {
            expect(refusal_in(calls[c], 6, sample, 12, UINT64_MAX, work, 10 * 18) == 1, "asked 2^64 - 1", c);
            expect(refusal_in(calls[c], 6, sample, 12, 256, work, 10 * 18) == 1, "asked 0 modulo 2^8", c);
        }
    }
}

/* At the header's limits the calls get as far as 5, as no work is lent; one above they refuse 4 or 1. */
static void try_limits(void)
{
    static const uint16_t list[3 * (FLATCAROL_MOST_TRIANGLES + 1)] = {0};
    const uint64_t v = FLATCAROL_MOST_VERTICES;
    const size_t triangles[3] = {FLATCAROL_MOST_SPLIT_TRIANGLES, FLATCAROL_MOST_TRIANGLES, FLATCAROL_MOST_TRIANGLES};
    const uint64_t asked[3] = {0, FLATCAROL_ANY_ROLE, FLATCAROL_MOST_LEVELS};
    for (size_t c = 0; c < 3; c++) {
        const size_t len = 3 * triangles[c];
        expect(refusal_in(calls[c], v, list, len, asked[c], NULL, 0) == 5, "at the limits", c);
        expect(refusal_in(calls[c], v + 1, list, len, asked[c], NULL, 0) == 4, "a vertex too many", c);
        expect(refusal_in(calls[c], v, list, len + 3, asked[c], NULL, 0) == 4, "a triangle too many", c);
        if (calls[c] != SPLIT) {
            expect(refusal_in(calls[c], v, list, len, asked[c] + 1, NULL, 0) == 1, "asked one too much", c);
        }
    }
}

static void try_texts(void)
{
    for (uint64_t number = 0; number < 16; number++) {
        for (uint64_t other = number + 1; other < 17; other++) {
            expect(
                strcmp(flatcarol_refusal_text(number), flatcarol_refusal_text(other)) != 0,
                "each refusal has a text of its own", number);
        }
    }
    expect(strcmp(flatcarol_refusal_text(16), flatcarol_refusal_text(UINT64_MAX)) == 0, "other numbers have none", 0);
}

/* ---- two threads, each with buffers of its own */

/* The mesh that a thread splits three times and undoes, again and again. */
typedef struct task {
    const uint16_t *list;
    uint64_t vertices;
    uint64_t triangles;
    int right; /* how many rounds gave the mesh back */
} task;

enum { ROUNDS = 300, LEVELS = 3, MOST = 3 * 64 * 3 };

static int round_trip(const task *mine)
{
    uint16_t lists[2][MOST];
    uint16_t work[10 * (200 + MOST)];
    uint64_t vertices = mine->vertices;
    uint64_t triangles = mine->triangles;
    memcpy(lists[0], mine->list, 3 * triangles * sizeof(uint16_t));
    for (size_t i = 0; i < LEVELS; i++) {
        const flatcarol_answer a = flatcarol_split_in(
            vertices, lists[i % 2], 3 * triangles, lists[(i + 1) % 2], MOST, work,
            flatcarol_split_work(vertices, triangles));
        if (a.refusal != 0) {
            return 0;
        }
        vertices = a.vertices;
        triangles = a.triangles;
    }
    const flatcarol_several_answer a = flatcarol_undo_several_in(
        vertices, lists[LEVELS % 2], 3 * triangles, LEVELS, lists[(LEVELS + 1) % 2], MOST, work,
        flatcarol_undo_several_work(vertices, triangles));
    return a.refusal == 0 && a.levels == LEVELS && a.vertices == mine->vertices && a.triangles == mine->triangles
        && same(lists[(LEVELS + 1) % 2], mine->list, 3 * mine->triangles);
}

static void *run(void *given)
{
    task *const mine = (task *)given;
    for (int i = 0; i < ROUNDS; i++) {
        mine->right += round_trip(mine);
    }
    return NULL;
}

static void try_threads(void)
{
    task tasks[2] = {{triangle, 3, 1, 0}, {fin, 5, 3, 0}};
    pthread_t threads[2];
    for (size_t i = 0; i < 2; i++) {
        if (pthread_create(&threads[i], NULL, run, &tasks[i]) != 0) {
            printf("no thread could be made\n");
            exit(1);
        }
    }
    for (size_t i = 0; i < 2; i++) {
        pthread_join(threads[i], NULL);
        expect(tasks[i].right == ROUNDS, "every round of a thread gave its mesh back", i);
    }
}

int main(void)
{
    for (size_t shorter = 0; shorter <= 6; shorter++) {
        try_split(shorter);
    }
    for (size_t shorter = 0; shorter <= 12; shorter++) {
        try_undo_one(shorter);
    }
    for (size_t shorter = 0; shorter <= 11; shorter++) {
        try_undo_several(shorter);
    }
    try_frames();
    try_spellings();
    try_index();
    try_last_role();
    try_fields();
    try_edges();
    try_inside_out();
    try_lengths();
    try_index_lengths();
    try_blocks();
    try_null();
    try_improper();
    try_absurd();
    try_limits();
    try_texts();
    try_threads();
    return wrong == 0 ? 0 : 1;
}
