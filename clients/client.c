/* A client in C, and the test of the library from C: each call on the triangle of docs/FORMAT.md, with numbers that
 * no pattern has, with null for lists of no entries, then on inputs that no file has; meshes, whole and in
 * pieces. It is run in the repository, since it reads samples. The calls run in threads with small stacks.
 * Prints nothing but what fails; exit status 0 if nothing does. Compiled with another number for LOOKUPS it
 * must fail; tests/run sees to that. */
#include "wuzsanget.h"

#include <pthread.h>
#include <stdio.h>
#include <string.h>

/* The lookups of the triangle's opening: one for each use, and one that finds none. */
#ifndef LOOKUPS
#define LOOKUPS 4
#endif

static int failures;

static void expect(int fine, const char *what)
{
    if (!fine) {
        printf("client.c: %s\n", what);
        failures++;
    }
}

/* Whether an answer has these numbers; the fourth value is 0 today. */
static int is(wuzsanget_answer a, size_t outcome, size_t number, size_t first, size_t second,
              size_t third)
{
    return a.outcome == outcome && a.number == number && a.first == first && a.second == second &&
           a.third == third && a.fourth == 0;
}

#define EXPECT(call, ...) expect(is(call, __VA_ARGS__), #call " is not " #__VA_ARGS__)

/* ---- a pattern file */

static uint8_t *put(uint8_t *at, uint64_t number, int bytes)
{
    for (int k = 0; k < bytes; k++)
        *at++ = (uint8_t)(number >> 8 * k);
    return at;
}

static const uint64_t ONE = UINT64_C(0x3ff0000000000000);
static const uint64_t HALF = UINT64_C(0x3fe0000000000000);

/* The triangle with a fourth point that nothing uses: edges 0 to 1, 1 to 2, 2 to 0 with spans 0 to 1,
 * outline 0+ 1+ 2+, one face, listed once. Returns the length. */
static size_t triangle(uint8_t *file)
{
    static const uint32_t counts[7] = {4, 3, 3, 1, 1, 1, 1};
    static const uint32_t sizes[7] = {4, 20, 2, 2, 4, 2, 2};
    uint8_t *at = file;
    uint32_t offset = 56;
    for (int body = 0; body < 7; body++) {
        at = put(put(at, offset, 4), counts[body], 4);
        offset += counts[body] * sizes[body];
    }
    for (int point = 0; point < 4; point++)
        at = put(at, 7000 + point, 4);
    for (int edge = 0; edge < 3; edge++)
        at = put(put(put(put(at, edge, 2), (edge + 1) % 3, 2), 0, 8), ONE, 8);
    for (int use = 0; use < 3; use++)
        at = put(at, use, 2);
    at = put(at, 3, 2);            /* the wire's uses */
    at = put(put(at, 1, 2), 5, 2); /* the face's wires, its surface */
    at = put(at, 1, 2);            /* the shell's listings */
    at = put(at, 0, 2);            /* the listing */
    return (size_t)(at - file);
}

/* ---- lists that are lent, each entry with a mark that a call may not change without a reason */

static uint8_t out[WUZSANGET_FILE];
static uint8_t text[WUZSANGET_REPORT];
static uint16_t uses[WUZSANGET_POINTS], lengths[WUZSANGET_POINTS], counts[WUZSANGET_BODIES];

static void lend(void)
{
    memset(out, 0xa5, sizeof out);
    memset(counts, 0xa5, sizeof counts);
    memset(uses, 0xa5, sizeof uses);
    memset(lengths, 0xa5, sizeof lengths);
}

/* Whether every entry from the n-th on, in bytes, is as it was lent. */
static int kept(const void *list, size_t bytes, size_t n)
{
    for (; n < bytes; n++)
        if (((const uint8_t *)list)[n] != 0xa5)
            return 0;
    return 1;
}

static int all_kept(void)
{
    return kept(out, sizeof out, 0) && kept(uses, sizeof uses, 0) &&
           kept(lengths, sizeof lengths, 0) && kept(counts, sizeof counts, 0);
}

/* Whether the first n bytes of `text` are these. */
static int says(size_t n, const char *said)
{
    return n == strlen(said) && memcmp(text, said, n) == 0;
}

/* ---- the calls on the triangle */

static void reports(const uint8_t *file, size_t n)
{
    static const uint16_t own[WUZSANGET_BODIES] = {4, 3, 3, 1, 1, 1, 1};
    EXPECT(wuzsanget_read(file, n), WUZSANGET_DONE, 0, 0, 0, 0);
    EXPECT(wuzsanget_counts(file, n, counts), WUZSANGET_DONE, 0, 0, 0, 0);
    expect(memcmp(counts, own, sizeof own) == 0, "the counts");
    EXPECT(wuzsanget_outline(file, n, 0), WUZSANGET_DONE, 0, 0, 3, 0);
    EXPECT(wuzsanget_outline(file, n, 1), WUZSANGET_REFUSED, 3, 0, 0, 0);
    expect(says(wuzsanget_report(file, n, text),
                "shell 0\ncondition Oriented\nconnected yes\nopening 0+ 1+ 2+\nlookups 4\n"
                "component 0+\nsolid refused 12 shell 0\n"),
           "the report");
    expect(says(wuzsanget_show(file, n, text),
                "point 0 label 7000\npoint 1 label 7001\npoint 2 label 7002\npoint 3 label 7003\n"
                "edge 0 from 0 to 1 span 0 1\nedge 1 from 1 to 2 span 0 1\n"
                "edge 2 from 2 to 0 span 0 1\nface 0 surface 5 wire 0+ 1+ 2+\nshell 0 faces 0+\n"),
           "the pattern as text");
    EXPECT(wuzsanget_shell_condition(file, n, 0), WUZSANGET_DONE, 0, 2, 0, 0);
    EXPECT(wuzsanget_shell_condition(file, n, 1), WUZSANGET_REFUSED, 3, 0, 0, 0);
    EXPECT(wuzsanget_is_connected(file, n, 0), WUZSANGET_DONE, 0, 1, 0, 0);
    EXPECT(wuzsanget_solid(file, n), WUZSANGET_REFUSED, WUZSANGET_NOT_CLOSED_SHELL, 0, 0, 0);

    lend();
    EXPECT(wuzsanget_extract_boundaries(file, n, 0, uses, lengths), WUZSANGET_DONE, 0, 1, 3, LOOKUPS);
    expect(uses[0] == 0 && uses[1] == 1 && uses[2] == 2 && lengths[0] == 3, "the opening");
    expect(kept(uses, sizeof uses, 6) && kept(lengths, sizeof lengths, 2), "entries past it");
    lend();
    EXPECT(wuzsanget_connected_components(file, n, 0, uses, lengths), WUZSANGET_DONE, 0, 1, 1, 0);
    expect(uses[0] == 0 && lengths[0] == 1, "the component");
    lend();
    EXPECT(wuzsanget_singular_vertices(file, n, 0, uses), WUZSANGET_DONE, 0, 0, 0, 0);
    expect(all_kept(), "no singular point");
}

static void edits(const uint8_t *file, size_t n)
{
    static const uint16_t there_and_back[2] = {3, 3 | WUZSANGET_REVERSED};
    static const uint16_t edge[1] = {0};
    static uint8_t edited[WUZSANGET_FILE];
    wuzsanget_answer a;

    lend();
    EXPECT(wuzsanget_write(file, n, out, n - 1), WUZSANGET_REFUSED, 17, n, 0, 0);
    expect(all_kept(), "a list that is too short");
    EXPECT(wuzsanget_write(file, n, out, sizeof out), WUZSANGET_DONE, 0, n, 0, 0);
    expect(memcmp(out, file, n) == 0 && kept(out, sizeof out, n), "the file written anew");

    /* A cut: two edges and one use more. The same cut again is 14. */
    lend();
    EXPECT(wuzsanget_cut_edge(file, n, 0, 0, 3, WUZSANGET_NOWHERE, out, sizeof out),
           WUZSANGET_REFUSED, 16, 0, 0, 0);
    expect(all_kept(), "a refused cut");
    EXPECT(wuzsanget_cut_edge(file, n, 0, 0, 3, HALF, out, n + 41), WUZSANGET_REFUSED, 17, n + 42, 0,
           0);
    expect(all_kept(), "a cut without room for its file");
    a = wuzsanget_cut_edge(file, n, 0, 0, 3, HALF, out, sizeof out);
    expect(is(a, WUZSANGET_DONE, 0, 3, 4, n + 42), "a cut");
    expect(kept(out, sizeof out, a.third), "entries past the edited file");
    memcpy(edited, out, a.third);
    EXPECT(wuzsanget_read(edited, a.third), WUZSANGET_DONE, 0, 0, 0, 0);
    EXPECT(wuzsanget_cut_edge(edited, a.third, 0, 0, 3, HALF, out, sizeof out), WUZSANGET_REFUSED, 14,
           0, 0, 0);

    /* The point removed again: one edge more, one use less. */
    EXPECT(wuzsanget_remove_vertex(edited, a.third, 0, 3, out, sizeof out), WUZSANGET_DONE, 0, 5, 0,
           a.third + 18);
    EXPECT(wuzsanget_remove_vertex(file, n, 0, 3, out, sizeof out), WUZSANGET_REFUSED, 23, 0, 0, 0);
    EXPECT(wuzsanget_concat(file, n, 0, 1, out, sizeof out), WUZSANGET_DONE, 0, 3, 0, n + 20);
    EXPECT(wuzsanget_concat(file, n, 0, 2, out, sizeof out), WUZSANGET_REFUSED, 29, 0, 0, 0);

    /* A fresh point, and a cut at it. */
    lend();
    EXPECT(wuzsanget_add_vertex(file, n, (size_t)1 << 32, out, sizeof out), WUZSANGET_REFUSED, 3, 0, 0, 0);
    EXPECT(wuzsanget_add_vertex(file, n, 7004, out, n + 3), WUZSANGET_REFUSED, 17, n + 4, 0, 0);
    expect(all_kept(), "a refused point");
    EXPECT(wuzsanget_add_vertex(file, n, UINT32_MAX, out, sizeof out), WUZSANGET_DONE, 0, 4, 0, n + 4);
    expect(out[0] == 56 && out[4] == 5 && out[8] == 76, "five points");
    expect(memcmp(out + 72, "\xff\xff\xff\xff", 4) == 0, "the label of the fifth");
    expect(memcmp(out + 76, file + 72, n - 72) == 0 && kept(out, sizeof out, n + 4), "all else");
    memcpy(edited, out, n + 4);
    EXPECT(wuzsanget_cut_edge(edited, n + 4, 0, 0, 4, HALF, out, sizeof out), WUZSANGET_DONE, 0, 3, 4,
           n + 46);

    /* The face cut along edge 0, which runs along its outline. */
    lend();
    EXPECT(wuzsanget_cut_by_wire(file, n, 0, edge, 1, uses, 5, lengths, 1), WUZSANGET_REFUSED, 17, 0,
           0, 0);
    expect(all_kept(), "lists that are too short");
    EXPECT(wuzsanget_cut_by_wire(file, n, 0, edge, 1, uses, 5, lengths, 2), WUZSANGET_DONE, 0, 5, 2,
           0);
    expect(uses[0] == 1 && uses[1] == 2 && uses[2] == 0 && uses[3] == 0 &&
               uses[4] == WUZSANGET_REVERSED && lengths[0] == 3 && lengths[1] == 2,
           "the two outlines");
    expect(kept(uses, sizeof uses, 10) && kept(lengths, sizeof lengths, 4), "entries past them");
    EXPECT(wuzsanget_cut_by_edge(file, n, 0, 0, uses, 5, lengths, 2), WUZSANGET_DONE, 0, 5, 2, 0);
    EXPECT(wuzsanget_add_boundary(file, n, 0, there_and_back, 2, uses, 9, lengths, 9),
           WUZSANGET_REFUSED, 3, 0, 0, 0);
    EXPECT(wuzsanget_add_boundary(file, n, 0, there_and_back, 0, uses, 9, lengths, 9),
           WUZSANGET_REFUSED, 6, 0, 0, 0);
    EXPECT(wuzsanget_glue(file, n, 0, 0, uses, 9, lengths, 9), WUZSANGET_DONE, 0, 3, 1, 0);
    EXPECT(wuzsanget_glue(file, n, 0, WUZSANGET_REVERSED, uses, 9, lengths, 9), WUZSANGET_REFUSED, 20,
           0, 0, 0);
}

/* Whether a text is refused with this number, line and word, and this sentence. */
static int drafted(const char *given, size_t number, size_t line, size_t word, const char *sentence)
{
    static uint8_t said[WUZSANGET_SAID + 1];
    size_t m = strlen(sentence);
    memset(said, 0xa5, sizeof said);
    return is(wuzsanget_draft((const uint8_t *)given, strlen(given), out, said), WUZSANGET_REFUSED,
              number, line, word, m) &&
           memcmp(said, sentence, m) == 0 && kept(said, sizeof said, m);
}

/* Texts, as `draft` takes them. */
static void texts(void)
{
    static const char nothing[] =
        "says nothing: no point, edge, face or shell (a line \"empty\" makes an empty pattern)\n";
    static uint8_t said[WUZSANGET_SAID];
    lend();
    expect(drafted("", 0, 0, 0, nothing), "a text without lines");
    expect(drafted("empty x\n", 0, 1, 2, "line 1: word 2 of empty\n"), "a word too many");
    expect(drafted("\npoint 1 label 7\n", 0, 2, 0, "line 2: point 0 is expected\n"), "a number that skips");
    expect(drafted("edge 0 from 0 to 1 span 0 1\n", 3, 1, 0,
                   "line 1: refused 3: a number that names nothing\n"),
           "an edge without points");
    expect(is(wuzsanget_draft(NULL, 0, out, said), WUZSANGET_REFUSED, 0, 0, 0, strlen(nothing)), "no text");
    expect(all_kept(), "texts that make no file");
    EXPECT(wuzsanget_draft((const uint8_t *)"point 0 label 258", 17, out, said), WUZSANGET_DONE, 0, 60, 0, 0);
    expect(out[0] == 56 && out[4] == 1 && out[8] == 60 && memcmp(out + 56, "\x02\x01\0\0", 4) == 0 &&
               kept(out, sizeof out, 60),
           "a file of one point");
}

/* Whether a job answers with this line, and with an edited file of so many bytes. */
static int answers(const char *line, const uint8_t *file, size_t n, const char *said, size_t bytes)
{
    wuzsanget_job j = wuzsanget_edit((const uint8_t *)line, strlen(line), file, n, out, text);
    return says(j.text, said) && j.file == bytes;
}

/* The jobs of `edit`. */
static void jobs(const uint8_t *file, size_t n)
{
    static uint8_t edited[WUZSANGET_FILE];
    lend();
    expect(answers("cut 0 65536 3 0.5", file, n, "refused 3\n", 0), "a job that names nothing");
    expect(answers("cutface 0+ 0+\r", file, n, "done wire 1+ 2+ 0+ wire 0+ 0-\n", 0), "a face cut");
    expect(answers("glue 0+ 0+", file, n, "done wire 0+ 1+ 2+\n", 0), "faces glued");
    expect(answers("cut 0", file, n, "no job: word 3 of cut SHELL EDGE POINT PARAMETER\n", 0),
           "a job without its words");
    expect(answers("cut 0 0 3 0.5", file, 55, "refused 1 body 0 record 0\n", 0), "a job on no file");
    expect(answers("cut 0 0 3 0.5", NULL, 0, "refused 1 body 0 record 0\n", 0), "a job on null");
    expect(says(wuzsanget_edit(NULL, 0, NULL, 0, out, text).text,
                "no job: begin with cut, remove, concat, point, add, cutface or glue\n"),
           "no line");
    expect(all_kept(), "jobs that give no file");
    wuzsanget_cut_edge(file, n, 0, 0, 3, HALF, edited, sizeof edited);
    expect(answers("point 9", file, n, "done point 4\n", n + 4), "a point as a job");
    lend();
    expect(answers("cut 0 0 3 0.5", file, n, "done edges 3 4\n", n + 42), "a cut as a job");
    expect(memcmp(out, edited, n + 42) == 0 && kept(out, sizeof out, n + 42), "its file");
}

/* ---- the rooms for edits of a face: the largest result fills them, and lists of one entry less are refused.
 * The face has 1,023 wires, each along an edge of its own and back; the last edge, along and back, is added. */

static void rooms(void)
{
    static uint8_t full[WUZSANGET_FILE];
    static const uint32_t records[7] = {2048, 1024, 2046, 1023, 1, 0, 0};
    static const uint32_t sizes[7] = {4, 20, 2, 2, 4, 2, 2};
    static const uint16_t last[2] = {1023, 1023 | WUZSANGET_REVERSED};
    uint8_t *at = full;
    uint32_t offset = 56;
    for (int body = 0; body < 7; body++) {
        at = put(put(at, offset, 4), records[body], 4);
        offset += records[body] * sizes[body];
    }
    for (int point = 0; point < 2048; point++)
        at = put(at, 0, 4);
    for (int edge = 0; edge < 1024; edge++)
        at = put(put(put(put(at, 2 * edge, 2), 2 * edge + 1, 2), 0, 8), ONE, 8);
    for (int edge = 0; edge < 1023; edge++)
        at = put(put(at, edge, 2), edge | WUZSANGET_REVERSED, 2);
    for (int wire = 0; wire < 1023; wire++)
        at = put(at, 2, 2);
    at = put(put(at, 1023, 2), 0, 2);
    size_t n = (size_t)(at - full);
    lend();
    EXPECT(wuzsanget_add_boundary(full, n, 0, last, 2, uses, WUZSANGET_POINTS - 1, lengths, WUZSANGET_WIRES),
           WUZSANGET_REFUSED, 17, 0, 0, 0);
    EXPECT(wuzsanget_add_boundary(full, n, 0, last, 2, uses, WUZSANGET_POINTS, lengths, WUZSANGET_WIRES - 1),
           WUZSANGET_REFUSED, 17, 0, 0, 0);
    expect(all_kept(), "rooms of one entry less");
    EXPECT(wuzsanget_add_boundary(full, n, 0, last, 2, uses, WUZSANGET_POINTS, lengths, WUZSANGET_WIRES),
           WUZSANGET_DONE, 0, 2048, 1024, 0);
    expect(uses[2046] == last[0] && uses[2047] == last[1] && lengths[1023] == 2, "the last wire");
}

/* ---- numbers that name nothing: 3, also where the number's lower 16 bits name something */

static void unnamed(const uint8_t *file, size_t n)
{
    static const size_t above[5] = {65536, 131072, (size_t)1 << 32, SIZE_MAX - 65535, 65535};
    static const uint16_t edge[1] = {0};
    static uint8_t cut[WUZSANGET_FILE];
    size_t m = wuzsanget_cut_edge(file, n, 0, 0, 3, HALF, cut, sizeof cut).third;
    lend();
    for (int k = 0; k < 5; k++) {
        size_t up = above[k];
        EXPECT(wuzsanget_outline(file, n, up), WUZSANGET_REFUSED, 3, 0, 0, 0);
        EXPECT(wuzsanget_shell_condition(file, n, up), WUZSANGET_REFUSED, 3, 0, 0, 0);
        EXPECT(wuzsanget_extract_boundaries(file, n, up, uses, lengths), WUZSANGET_REFUSED, 3, 0, 0, 0);
        EXPECT(wuzsanget_is_connected(file, n, up), WUZSANGET_REFUSED, 3, 0, 0, 0);
        EXPECT(wuzsanget_connected_components(file, n, up, uses, lengths), WUZSANGET_REFUSED, 3, 0, 0,
               0);
        EXPECT(wuzsanget_singular_vertices(file, n, up, uses), WUZSANGET_REFUSED, 3, 0, 0, 0);
        EXPECT(wuzsanget_cut_edge(file, n, up, 0, 3, HALF, out, sizeof out), WUZSANGET_REFUSED, 3, 0, 0,
               0);
        EXPECT(wuzsanget_cut_edge(file, n, 0, up, 3, HALF, out, sizeof out), WUZSANGET_REFUSED, 3, 0, 0,
               0);
        EXPECT(wuzsanget_cut_edge(file, n, 0, 0, up + 3, HALF, out, sizeof out), WUZSANGET_REFUSED, 3,
               0, 0, 0);
        EXPECT(wuzsanget_remove_vertex(cut, m, up, 3, out, sizeof out), WUZSANGET_REFUSED, 3, 0, 0, 0);
        EXPECT(wuzsanget_remove_vertex(cut, m, 0, up + 3, out, sizeof out), WUZSANGET_REFUSED, 3, 0, 0,
               0);
        EXPECT(wuzsanget_concat(file, n, up, 1, out, sizeof out), WUZSANGET_REFUSED, 3, 0, 0, 0);
        EXPECT(wuzsanget_concat(file, n, 0, up + 1, out, sizeof out), WUZSANGET_REFUSED, 3, 0, 0, 0);
        EXPECT(wuzsanget_add_boundary(file, n, up, edge, 0, uses, 9, lengths, 9), WUZSANGET_REFUSED, 3,
               0, 0, 0);
        EXPECT(wuzsanget_cut_by_wire(file, n, up, edge, 1, uses, 9, lengths, 9), WUZSANGET_REFUSED, 3,
               0, 0, 0);
        EXPECT(wuzsanget_cut_by_edge(file, n, up, 0, uses, 9, lengths, 9), WUZSANGET_REFUSED, 3, 0, 0,
               0);
        EXPECT(wuzsanget_cut_by_edge(file, n, 0, up, uses, 9, lengths, 9), WUZSANGET_REFUSED, 3, 0, 0,
               0);
        EXPECT(wuzsanget_glue(file, n, up, 0, uses, 9, lengths, 9), WUZSANGET_REFUSED, 3, 0, 0, 0);
        EXPECT(wuzsanget_glue(file, n, 0, up, uses, 9, lengths, 9), WUZSANGET_REFUSED, 3, 0, 0, 0);
    }
    EXPECT(wuzsanget_cut_edge(file, n, 0, 65542, 3, HALF, out, sizeof out), WUZSANGET_REFUSED, 3, 0, 0,
           0);
    expect(all_kept(), "a number that names nothing");
}

/* ---- null for a list of no entries */

static void nulls(const uint8_t *file, size_t n)
{
    lend();
    EXPECT(wuzsanget_write(file, n, NULL, 0), WUZSANGET_REFUSED, 17, n, 0, 0);
    EXPECT(wuzsanget_cut_edge(file, n, 0, 0, 3, HALF, NULL, 0), WUZSANGET_REFUSED, 17, n + 42, 0, 0);
    EXPECT(wuzsanget_remove_vertex(file, n, 0, 3, NULL, 0), WUZSANGET_REFUSED, 23, 0, 0, 0);
    EXPECT(wuzsanget_concat(file, n, 0, 1, NULL, 0), WUZSANGET_REFUSED, 17, n + 20, 0, 0);
    EXPECT(wuzsanget_add_vertex(file, n, 0, NULL, 0), WUZSANGET_REFUSED, 17, n + 4, 0, 0);
    EXPECT(wuzsanget_add_boundary(file, n, 0, NULL, 0, NULL, 0, NULL, 0), WUZSANGET_REFUSED, 6, 0, 0, 0);
    EXPECT(wuzsanget_cut_by_wire(file, n, 0, NULL, 0, NULL, 0, NULL, 0), WUZSANGET_REFUSED, 19, 0, 0, 0);
    EXPECT(wuzsanget_cut_by_edge(file, n, 0, 0, NULL, 0, NULL, 0), WUZSANGET_REFUSED, 17, 0, 0, 0);
    EXPECT(wuzsanget_glue(file, n, 0, 0, NULL, 0, NULL, 0), WUZSANGET_REFUSED, 17, 0, 0, 0);
    expect(says(wuzsanget_report(NULL, 0, text), "refused 1 body 0 record 0\n"), "a report of nothing");
    expect(says(wuzsanget_show(NULL, 0, text), "refused 1 body 0 record 0\n"), "nothing as text");
    expect(all_kept(), "null for a list");
}

/* ---- inputs that no file has: each call answers as the reading checks do, and writes nothing */

static int same(wuzsanget_answer a, wuzsanget_answer b)
{
    return memcmp(&a, &b, sizeof a) == 0;
}

static void every_call(const uint8_t *file, size_t n, size_t number, size_t name, uint64_t bits)
{
    static const uint16_t wire[3] = {0, 65535, 32767};
    wuzsanget_answer a = wuzsanget_read(file, n);
    expect(a.outcome == WUZSANGET_UNREAD, "a file that no reading accepts");
    lend();
    expect(same(a, wuzsanget_counts(file, n, counts)), "counts");
    expect(same(a, wuzsanget_outline(file, n, number)), "outline");
    expect(same(a, wuzsanget_write(file, n, out, sizeof out)), "write");
    expect(same(a, wuzsanget_shell_condition(file, n, number)), "shell_condition");
    expect(same(a, wuzsanget_extract_boundaries(file, n, number, uses, lengths)),
           "extract_boundaries");
    expect(same(a, wuzsanget_is_connected(file, n, number)), "is_connected");
    expect(same(a, wuzsanget_connected_components(file, n, number, uses, lengths)),
           "connected_components");
    expect(same(a, wuzsanget_singular_vertices(file, n, number, uses)), "singular_vertices");
    expect(same(a, wuzsanget_solid(file, n)), "solid");
    expect(same(a, wuzsanget_cut_edge(file, n, number, name, name, bits, out, sizeof out)),
           "cut_edge");
    expect(same(a, wuzsanget_remove_vertex(file, n, number, name, out, 0)), "remove_vertex");
    expect(same(a, wuzsanget_concat(file, n, name, name, out, 1)), "concat");
    expect(same(a, wuzsanget_add_vertex(file, n, name, out, sizeof out)), "add_vertex");
    expect(same(a, wuzsanget_add_boundary(file, n, name, wire, 3, uses, 0, lengths, 0)),
           "add_boundary");
    expect(same(a, wuzsanget_cut_by_wire(file, n, name, wire, 0, uses, 1, lengths, 1)),
           "cut_by_wire");
    expect(same(a, wuzsanget_cut_by_edge(file, n, name, name, uses, 2, lengths, 2)), "cut_by_edge");
    expect(same(a, wuzsanget_glue(file, n, name, name, uses, 2048, lengths, 2048)), "glue");
    expect(all_kept(), "a refusal writes nothing");
    expect(wuzsanget_report(file, n, text) > 0, "report");
    expect(wuzsanget_show(file, n, text) > 0, "show");
}

static uint64_t state = 1;

static uint64_t random_bits(void)
{
    state = state * UINT64_C(6364136223846793005) + UINT64_C(1442695040888963407);
    return state >> 16;
}

static void strange(void)
{
    static uint8_t file[100000];
    every_call(NULL, 0, 0, 0, 0);
    every_call(file, 0, 0, 0, 0);
    every_call(file, sizeof file, SIZE_MAX, SIZE_MAX, UINT64_MAX);
    for (int k = 0; k < 2000; k++) {
        size_t n = random_bits() % 50000;
        for (size_t i = 0; i < n; i++)
            file[i] = (uint8_t)random_bits();
        every_call(file, n, random_bits(), random_bits(), random_bits());
    }
    /* The triangle with one byte changed is refused or read, and no call faults on it. */
    size_t n = triangle(file);
    for (size_t i = 0; i < n; i++)
        for (int value = 0; value < 256; value += 15) {
            triangle(file);
            file[i] = (uint8_t)value;
            if (wuzsanget_read(file, n).outcome == WUZSANGET_UNREAD)
                every_call(file, n, 0, 0, HALF);
            else
                expect(wuzsanget_report(file, n, text) > 0, "a report");
        }
}

/* ---- meshes: the coat's, whole and in pieces */

static uint8_t coat[32768], pattern[WUZSANGET_FILE];
static wuzsanget_mesh mesh;

/* The bytes of a file. Returns their number. */
static size_t load(const char *name, uint8_t *bytes, size_t room)
{
    FILE *f = fopen(name, "rb");
    size_t n = f ? fread(bytes, 1, room, f) : 0;
    expect(n > 0 && n < room, name);
    if (f)
        fclose(f);
    return n;
}

/* Whether `out` has this file, and past it what was lent. */
static int wrote(const uint8_t *given, size_t n)
{
    return memcmp(out, given, n) == 0 && kept(out, sizeof out, n);
}

static void steps(const uint8_t *bytes, size_t n, size_t size)
{
    for (size_t k = 0; k < n; k += size)
        WUZSANGET_MESH_STEP(&mesh, bytes + k, n - k < size ? n - k : size);
}

static void meshes(void)
{
    static const size_t sizes[5] = {1, 2, 3, 7, 4096};
    static const uint8_t wrong[] = "v\nv\nv\nf 1 2 4\n";
    static const uint16_t shell[WUZSANGET_BODIES] = {0, 0, 0, 0, 0, 1, 0};
    size_t n = load("samples/coat-mesh.obj", coat, sizeof coat);
    size_t m = load("samples/coat-mesh.pattern", pattern, sizeof pattern);
    if (n == 0 || m == 0)
        return;
    lend();
    EXPECT(wuzsanget_import(coat, n, out, m - 1), WUZSANGET_REFUSED, 17, m, 0, 0);
    EXPECT(wuzsanget_import(coat, n, NULL, 0), WUZSANGET_REFUSED, 17, m, 0, 0);
    EXPECT(wuzsanget_import(wrong, sizeof wrong - 1, out, sizeof out), WUZSANGET_REFUSED, 31, 4, 0, 0);
    expect(all_kept(), "a refused mesh");
    EXPECT(wuzsanget_import(coat, n, out, m), WUZSANGET_DONE, 0, m, 0, 0);
    expect(wrote(pattern, m), "the pattern of the mesh");

    for (int k = 0; k < 5; k++) {
        lend();
        memset(&mesh, 0xa5, sizeof mesh);
        WUZSANGET_MESH_START(&mesh);
        steps(wrong, sizeof wrong - 1, sizes[k]);
        EXPECT(WUZSANGET_MESH_FINISH(&mesh, out, sizeof out), WUZSANGET_REFUSED, 31, 4, 0, 0);
        WUZSANGET_MESH_START(&mesh);
        steps(coat, n, sizes[k]);
        EXPECT(WUZSANGET_MESH_FINISH(&mesh, out, m - 1), WUZSANGET_REFUSED, 17, m, 0, 0);
        EXPECT(WUZSANGET_MESH_FINISH(&mesh, NULL, 0), WUZSANGET_REFUSED, 17, m, 0, 0);
        expect(all_kept(), "a refused mesh in pieces");
        EXPECT(WUZSANGET_MESH_FINISH(&mesh, out, sizeof out), WUZSANGET_DONE, 0, m, 0, 0);
        expect(wrote(pattern, m), "the pattern of the mesh in pieces");
    }

    /* No bytes: one shell without listings. */
    EXPECT(wuzsanget_import(NULL, 0, out, sizeof out), WUZSANGET_DONE, 0, 58, 0, 0);
    EXPECT(wuzsanget_counts(out, 58, counts), WUZSANGET_DONE, 0, 0, 0, 0);
    expect(memcmp(counts, shell, sizeof shell) == 0, "the counts of an empty mesh");
    memcpy(pattern, out, 58);
    lend();
    WUZSANGET_MESH_START(&mesh);
    WUZSANGET_MESH_STEP(&mesh, NULL, 0);
    EXPECT(WUZSANGET_MESH_FINISH(&mesh, out, sizeof out), WUZSANGET_DONE, 0, 58, 0, 0);
    expect(wrote(pattern, 58), "an empty mesh in pieces");
}

/* The mesh as it is goes on with the second half of the coat's. Returns whether it is done; then what it wrote is a
 * pattern. */
static int goes_on(size_t n)
{
    wuzsanget_answer a;
    lend();
    WUZSANGET_MESH_STEP(&mesh, coat + n / 2, n - n / 2);
    a = WUZSANGET_MESH_FINISH(&mesh, out, sizeof out);
    if (a.outcome != WUZSANGET_DONE) {
        expect(all_kept(), "a mesh that is refused");
        return 0;
    }
    EXPECT(wuzsanget_read(out, a.first), WUZSANGET_DONE, 0, 0, 0, 0);
    expect(kept(out, sizeof out, a.first), "entries past the pattern");
    return 1;
}

/* A mesh of any content, not started: every call returns. Then one of which a number, an entry of a list, or both were
 * changed after half of it was read: some are done. */
static void any_mesh(void)
{
    static const uint8_t ends[] = "\nf 1 2 3\n";
    size_t n = load("samples/coat-mesh.obj", coat, sizeof coat);
    uint8_t *bytes = (uint8_t *)&mesh;
    int done = 0;
    memset(&mesh, 0xff, sizeof mesh);
    goes_on(n);
    for (int k = 0; k < 200; k++) {
        for (size_t i = 0; i < sizeof mesh; i++)
            bytes[i] = (uint8_t)random_bits();
        if (k % 2)
            for (int i = 0; i < 24; i++)
                mesh.numbers[i] >>= random_bits() % 64;
        if (k % 4 == 3)
            mesh.numbers[1] %= 5;
        steps(ends, sizeof ends - 1, 1 + random_bits() % 9);
        goes_on(n);
    }
    for (int k = 0; k < 1000; k++) {
        WUZSANGET_MESH_START(&mesh);
        steps(coat, n / 2, 4096);
        if (k % 2)
            mesh.numbers[random_bits() % 24] = random_bits() >> random_bits() % 48;
        if (k % 3)
            bytes[random_bits() % sizeof mesh] = (uint8_t)random_bits();
        done += goes_on(n);
    }
    expect(done > 0 && done < 1000, "meshes with a changed number");
}

/* ---- the threads */

static uint8_t file[WUZSANGET_FILE];

static void *jobs_and_texts(void *unused)
{
    jobs(file, triangle(file));
    texts();
    return unused;
}

static void *all_else(void *unused)
{
    size_t n = triangle(file);
    expect(wuzsanget_version() == WUZSANGET_VERSION, "the version");
    reports(file, n);
    edits(file, n);
    rooms();
    unnamed(file, n);
    nulls(file, n);
    meshes();
    any_mesh();
    strange();
    return unused;
}

static void with_stack(size_t bytes, void *(*calls)(void *))
{
    pthread_t thread;
    pthread_attr_t attributes;
    pthread_attr_init(&attributes);
    expect(pthread_attr_setstacksize(&attributes, bytes) == 0, "the stack of a thread");
    expect(pthread_create(&thread, &attributes, calls, NULL) == 0, "a thread");
    expect(pthread_join(thread, NULL) == 0, "the end of a thread");
}

int main(void)
{
    with_stack(WUZSANGET_STACK, jobs_and_texts);
    with_stack(131072, all_else);
    return failures != 0;
}
