/*
 * A figure leaves for an app as a fine mesh and comes back: the seven calls of Flatcarol, one after the other.
 *
 *     ./build-for-apps
 *     cc examples/c/figure.c -Itarget/app/include -Ltarget/app/lib/$(uname -m) -lflatcarol -o target/figure
 *     target/figure
 *
 * It prints figure.out. It is C99 and C++17.
 */
#include <inttypes.h>
#include <stdio.h>
#include <stdlib.h>
#include <string.h>

#include "flatcarol.h"

/* ---- printing */

static void print_triangles(const uint16_t *list, uint64_t triangles)
{
    for (uint64_t k = 0; k < triangles; k++) {
        printf("  (%d, %d, %d)\n", list[3 * k], list[3 * k + 1], list[3 * k + 2]);
    }
}

static void print_numbers(const char *name, const uint16_t *numbers, uint64_t count)
{
    printf("  %s:", name);
    for (uint64_t i = 0; i < count; i++) {
        printf(" %d", numbers[i]);
    }
    printf("\n");
}

/* What split and the undos count of the mesh that they give. */
static void print_counts(uint64_t vertices, uint64_t triangles, uint64_t edges, uint64_t boundary_edges)
{
    printf("  %" PRIu64 " vertices, %" PRIu64 " triangles, ", vertices, triangles);
    printf("%" PRIu64 " edges, %" PRIu64 " of them boundary edges\n", edges, boundary_edges);
}

static void print_refusal(uint64_t refusal, uint64_t place)
{
    printf("  refused %" PRIu64 " at %" PRIu64 ": %s\n", refusal, place, flatcarol_refusal_text(refusal));
}

/* Of what is right by construction: should it be refused after all, the program says so and ends. */
static void must_be_accepted(uint64_t refusal, uint64_t place)
{
    if (refusal != FLATCAROL_ACCEPTED) {
        print_refusal(refusal, place);
        exit(1);
    }
}

/* ---- one split and back

   For meshes whose size is known beforehand, arrays will do. The block of work is cut by the call: here 5 buffers of
   V + 3F = 6 entries for split, and 9 of 18 for undo one. */

static void one_split_and_back(void)
{
    const uint16_t triangle[3] = {0, 1, 2};
    uint16_t fine[12];
    uint16_t work[9 * 18];

    printf("one triangle, split\n");
    const flatcarol_answer split = flatcarol_split_in(3, triangle, 3, fine, 12, work, flatcarol_split_work(3, 1));
    must_be_accepted(split.refusal, split.place);
    print_counts(split.vertices, split.triangles, split.edges, split.boundary_edges);
    print_triangles(fine, split.triangles);

    /* In role 0 triangle 0 is a centre, the middle one of four, as it is in every splitting that comes out of
       flatcarol_split. So the mesh comes back with the numbers that it had, and each map sends each number to
       itself. */
    uint16_t coarse[3];
    uint16_t vertex_map[6];
    uint16_t triangle_map[4];
    printf("undone in role 0\n");
    const flatcarol_one_answer undone = flatcarol_undo_one_in(
        split.vertices, fine, 12, 0, coarse, 3, vertex_map, 6, triangle_map, 4, work, flatcarol_undo_one_work(6, 4));
    must_be_accepted(undone.refusal, undone.place);
    print_counts(undone.vertices, undone.triangles, undone.edges, undone.boundary_edges);
    print_triangles(coarse, undone.triangles);
    print_numbers("vertex map", vertex_map, split.vertices);
    print_numbers("triangle map", triangle_map, split.triangles);
}

/* ---- several levels

   For meshes of any size, room for the largest is allocated once. Each call is lent only as much of the work as its
   mesh needs, since it clears all that it is lent. */

static void seven_splits_and_back(void)
{
    const size_t most_entries = 3 * FLATCAROL_MOST_TRIANGLES;
    const size_t most_work = flatcarol_undo_several_work(FLATCAROL_MOST_VERTICES, FLATCAROL_MOST_TRIANGLES);
    uint16_t *mesh = (uint16_t *)malloc(most_entries * sizeof(uint16_t));
    uint16_t *other = (uint16_t *)malloc(most_entries * sizeof(uint16_t));
    uint16_t *work = (uint16_t *)malloc(most_work * sizeof(uint16_t));
    if (!mesh || !other || !work) {
        printf("  no memory\n");
        exit(1);
    }

    uint64_t vertices = 3;
    uint64_t triangles = 1;
    mesh[0] = 0;
    mesh[1] = 1;
    mesh[2] = 2;
    printf("one triangle, split seven times\n");
    for (int level = 0; level < FLATCAROL_MOST_LEVELS; level++) {
        const flatcarol_answer split = flatcarol_split_in(
            vertices, mesh, 3 * triangles, other, most_entries, work, flatcarol_split_work(vertices, triangles));
        must_be_accepted(split.refusal, split.place);
        vertices = split.vertices;
        triangles = split.triangles;
        print_counts(vertices, triangles, split.edges, split.boundary_edges);
        /* The result becomes the next call's list: buffers change places, as they must not overlap. */
        uint16_t *const result = other;
        other = mesh;
        mesh = result;
    }

    printf("undone as often as it goes\n");
    const flatcarol_several_answer undone = flatcarol_undo_several_in(
        vertices, mesh, 3 * triangles, FLATCAROL_MOST_LEVELS, other, most_entries, work, most_work);
    must_be_accepted(undone.refusal, undone.place);
    printf("  %" PRIu64 " levels, in the roles", undone.levels);
    for (uint64_t level = 0; level < undone.levels; level++) {
        printf(" %d", undone.roles[level]);
    }
    printf("\n");
    print_counts(undone.vertices, undone.triangles, undone.edges, undone.boundary_edges);
    print_triangles(other, undone.triangles);

    free(work);
    free(other);
    free(mesh);
}

/* ---- holes

   A boundary edge has one triangle only: there the mesh ends, at its rim or at a hole. A mesh without any has neither.
   Undo several, asked for 0 levels, gives a mesh back as it is, with its counts. */

static void look_for_a_hole(const uint16_t *list, uint64_t triangles)
{
    uint16_t out[12];
    uint16_t work[10 * 16];
    const flatcarol_several_answer counted = flatcarol_undo_several_in(
        4, list, 3 * triangles, 0, out, 12, work, flatcarol_undo_several_work(4, triangles));
    must_be_accepted(counted.refusal, counted.place);
    print_counts(counted.vertices, counted.triangles, counted.edges, counted.boundary_edges);
    printf("  %s\n", counted.boundary_edges == 0 ? "no boundary edge: no hole" : "a hole");
}

static void with_and_without_a_hole(void)
{
    const uint16_t tetrahedron[12] = {0, 1, 2, 0, 3, 1, 1, 3, 2, 2, 3, 0};
    printf("a tetrahedron\n");
    look_for_a_hole(tetrahedron, 4);
    printf("without its last triangle\n");
    look_for_a_hole(tetrahedron, 3);
}

/* ---- frames

   A mesh that another app has renumbered, as it came: read, undone and written. */

static void frames_read_and_written(void)
{
    const char *const text = "4D00060004\n"
                             "46000500000003\n"
                             "46000400010000\n"
                             "46000300000001\n"
                             "46000200030001\n";
    uint8_t bytes[11 + 15 * 4];
    memcpy(bytes, text, sizeof bytes);

    uint16_t fine[12];
    printf("frames, read\n");
    const flatcarol_frames_answer read = flatcarol_read_frames(bytes, sizeof bytes, fine, 12);
    must_be_accepted(read.refusal, read.place);
    printf("  %" PRIu64 " vertices, %" PRIu64 " triangles\n", read.vertices, read.triangles);
    print_triangles(fine, read.triangles);

    /* Which role triangle 0 has in a mesh that comes from elsewhere is not known: the least that has a reading. */
    uint16_t coarse[3];
    uint16_t vertex_map[6];
    uint16_t triangle_map[4];
    uint16_t work[9 * 18];
    const flatcarol_one_answer undone = flatcarol_undo_one_in(
        read.vertices, fine, 12, FLATCAROL_ANY_ROLE, coarse, 3, vertex_map, 6, triangle_map, 4, work, 9 * 18);
    must_be_accepted(undone.refusal, undone.place);
    printf("undone in role %" PRIu64 "\n", undone.role);
    print_triangles(coarse, undone.triangles);
    print_numbers("vertex map", vertex_map, read.vertices);
    print_numbers("triangle map", triangle_map, read.triangles);

    uint8_t out[11 + 15];
    printf("and written\n");
    const flatcarol_frames_answer written = flatcarol_write_frames(undone.vertices, coarse, 3, out, sizeof out);
    must_be_accepted(written.refusal, written.place);
    /* Each line ends in a line feed; there is no zero byte behind the last. */
    fwrite(out, 1, sizeof out, stdout);

    /* A partner app writes lower case and CR LF. That is read as well, and written in the one normal spelling, by which
       two files of the same mesh are the same bytes. */
    const char *const partner = "4d000b0001\r\n46000a00000001\r\n";
    const flatcarol_frames_answer theirs = flatcarol_read_frames((const uint8_t *)partner, strlen(partner), coarse, 3);
    must_be_accepted(theirs.refusal, theirs.place);
    const flatcarol_frames_answer ours = flatcarol_write_frames(theirs.vertices, coarse, 3, out, sizeof out);
    must_be_accepted(ours.refusal, ours.place);
    printf("a partner's file, written again\n");
    fwrite(out, 1, sizeof out, stdout);

    /* The third line, which is line 2 as lines are counted from 0, gets a wrong kind. */
    bytes[11 + 15 + 1] = '7';
    printf("and with a wrong third line\n");
    const flatcarol_frames_answer wrong = flatcarol_read_frames(bytes, sizeof bytes, fine, 12);
    print_refusal(wrong.refusal, wrong.place);
}

/* ---- index texts

   A square as an exporter writes it, two triangles with commas and a comment: read, split and written. The text does
   not tell the number of vertices, 4. */

static flatcarol_frames_answer read_square(const char *text, uint16_t *out, size_t out_len)
{
    return flatcarol_read_index(4, (const uint8_t *)text, strlen(text), out, out_len);
}

static void index_text_read_and_written(void)
{
    uint16_t square[6];
    printf("an index text, read\n");
    const flatcarol_frames_answer read = read_square("0, 1, 2, -1, # the lower half\n0, 2, 3", square, 6);
    must_be_accepted(read.refusal, read.place);
    printf("  %" PRIu64 " vertices, %" PRIu64 " triangles\n", read.vertices, read.triangles);
    print_triangles(square, read.triangles);

    uint16_t fine[24];
    uint16_t work[5 * 10];
    const flatcarol_answer split = flatcarol_split_in(4, square, 6, fine, 24, work, flatcarol_split_work(4, 2));
    must_be_accepted(split.refusal, split.place);

    /* How long the text is depends on its numbers: the answer tells. */
    uint8_t out[21 * 8];
    printf("split, and written\n");
    const flatcarol_text_answer written = flatcarol_write_index(split.vertices, fine, 24, out, sizeof out);
    must_be_accepted(written.refusal, written.place);
    fwrite(out, 1, written.bytes, stdout);

    printf("\nand with a corner less\n");
    const flatcarol_frames_answer wrong = read_square("0, 1, 2, -1, 0, 2, -1", square, 6);
    print_refusal(wrong.refusal, wrong.place);
}

/* ---- refusals

   None of these writes to the output, and none needs to be checked for before the call. */

static void refusals(void)
{
    const uint16_t touching[6] = {0, 1, 2, 0, 3, 4};
    uint16_t out[24];
    uint16_t work[5 * 11];
    flatcarol_answer answer;

    printf("two triangles that touch at a point\n");
    answer = flatcarol_split_in(5, touching, 6, out, 24, work, 5 * 11);
    print_refusal(answer.refusal, answer.place);

    printf("a block of work that is one entry too short\n");
    answer = flatcarol_split_in(5, touching, 6, out, 24, work, 5 * 11 - 1);
    print_refusal(answer.refusal, answer.place);

    printf("a number of vertices that cannot be\n");
    answer = flatcarol_split_in(UINT64_MAX, touching, 6, out, 24, work, 5 * 11);
    print_refusal(answer.refusal, answer.place);
}

/* ---- windings

   A figure that comes back with a triangle inside out. The place is that triangle, or, had a centre been turned, the
   least of the three around it: here it is known which, and turned back. */

static void inside_out_and_repaired(void)
{
    /* The first triangle is the centre. That at corner 0 should be (0, 3, 5). */
    uint16_t fine[12] = {3, 4, 5, 0, 5, 3, 1, 4, 3, 2, 5, 4};
    uint16_t coarse[3];
    uint16_t vertex_map[6];
    uint16_t triangle_map[4];
    uint16_t work[9 * 18];

    printf("a split triangle with a triangle inside out\n");
    const flatcarol_one_answer refused = flatcarol_undo_one_in(
        6, fine, 12, FLATCAROL_ANY_ROLE, coarse, 3, vertex_map, 6, triangle_map, 4, work, 9 * 18);
    print_refusal(refused.refusal, refused.place);

    uint16_t *const corners = fine + 3 * refused.place;
    const uint16_t second = corners[1];
    corners[1] = corners[2];
    corners[2] = second;
    printf("and with that triangle turned back\n");
    const flatcarol_one_answer undone = flatcarol_undo_one_in(
        6, fine, 12, FLATCAROL_ANY_ROLE, coarse, 3, vertex_map, 6, triangle_map, 4, work, 9 * 18);
    must_be_accepted(undone.refusal, undone.place);
    print_triangles(coarse, undone.triangles);
}

int main(void)
{
    one_split_and_back();
    seven_splits_and_back();
    with_and_without_a_hole();
    frames_read_and_written();
    index_text_read_and_written();
    refusals();
    inside_out_and_repaired();
    return 0;
}
