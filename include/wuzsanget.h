/* Wuzsanget: a proved checker of garment patterns, as a static library for x86-64 Linux (level x86-64-v2 or later).
 *
 * A pattern is given as its file, in memory. Every function takes any bytes and any numbers to an
 * answer. Nothing is kept between calls, nothing is allocated, and calls may run at the same time in
 * several threads.
 *
 * A list is a pointer and a number of elements; where that number is 0, the pointer may be null. A list
 * whose number of elements is not given has the room that is said.
 *
 * A list that a call writes to may not overlap any other list of that call: `out` may not be `file`, nor
 * share memory with it. Such a list keeps every entry past what is written, and all of them when the call
 * is refused; only a `text` or a `said`, which say the refusal, and the lists of a wuzsanget_mesh are written then too.
 *
 * Records are numbered from 0. A use is an edge's number, plus 32,768 if reversed. A listing is a face's
 * number, plus 32,768 if reversed; so is every face that is given to a call. A number that names nothing is
 * refused with 3, however large it is.
 */
#ifndef WUZSANGET_H
#define WUZSANGET_H

#include <stddef.h>
#include <stdint.h>

#ifdef __cplusplus
extern "C" {
#endif

/* The number of this interface. It is raised by one whenever a function here is added, removed or declared
 * otherwise, and whenever a limit, a number or what an answer means changes. */
#define WUZSANGET_VERSION 2

/* The stack that suffices for any call, in bytes. Measured on the library as it is compiled today:
 * wuzsanget_draft takes some 1,075 KiB, wuzsanget_edit some 415 KiB, no other call more than 110 KiB;
 * wuzsanget_import some 80 KiB, and the calls for a mesh in pieces at most 6 KiB, beside the mesh itself. */
#define WUZSANGET_STACK 1310720

/* ---- Rooms, in entries: of bytes for files and texts, else of numbers */

/* The longest pattern file: a list of this length has room for every edited file. */
#define WUZSANGET_FILE 41048
/* The room for a report. */
#define WUZSANGET_REPORT 1126400
/* The room for the text of a pattern; the longest text that a pattern is made of. */
#define WUZSANGET_SHOW 262144
/* The room for the sentence that says what is wrong with a text. */
#define WUZSANGET_SAID 256
/* The longest line of a job, and the room for its answer. */
#define WUZSANGET_LINE 65536
/* The bodies of a file. */
#define WUZSANGET_BODIES 7
/* The room for points, or for the uses or the lengths of openings; also for the uses of every edit of a
 * face. Its results meet no point twice, and each use begins at a point: with at most 2,048 points, at most
 * 2,048 uses. A cut has two results, each of one wire; such a wire of more than two uses runs along no edge
 * twice: with at most 1,024 edges, at most 1,024 uses each. */
#define WUZSANGET_POINTS 2048
/* The room for the wire lengths of every edit of a face: no wire has less than two uses, since no edge runs
 * from a point to itself. */
#define WUZSANGET_WIRES 1024
/* The room for listings, or for the lengths of components. */
#define WUZSANGET_LISTINGS 512

#define WUZSANGET_REVERSED 32768u
/* A parameter that is nowhere on the curve: the bits of any NaN. */
#define WUZSANGET_NOWHERE UINT64_C(0x7ff8000000000000)

/* ---- Answers */

/* How a call ended. */
#define WUZSANGET_DONE 0
/* The reading checks refuse the file: `number` with body `first` and record `second`. */
#define WUZSANGET_UNREAD 1
/* The call itself is refused: `number` alone; for a solid with the shell's number `first`, for a mesh (30, 31, 32)
 * with the line `first`, for an `out` that is too short (17) with the length `first` that the file needs. */
#define WUZSANGET_REFUSED 2

/* The numbers of the refusals. 1 to 8 are the reading checks'; docs/GUIDE.md says what to do about each. */
enum wuzsanget_refusal {
    WUZSANGET_LAYOUT = 1,               /* file layout: too short, too long, a body at a wrong place */
    WUZSANGET_LIMIT = 2,                /* more records than the limit */
    WUZSANGET_UNNAMED = 3,              /* a number that names nothing, or a wrong sum */
    WUZSANGET_SPAN = 4,                 /* bad span */
    WUZSANGET_SAME_VERTEX = 5,          /* an edge from a point to itself */
    WUZSANGET_EMPTY_WIRE = 6,           /* a wire without uses */
    WUZSANGET_NOT_CLOSED_WIRE = 7,      /* a wire that is not closed */
    WUZSANGET_NOT_SIMPLE_WIRE = 8,      /* a wire that meets a point twice, or an earlier wire of its face */
    WUZSANGET_NOT_DISJOINT_WIRES = 9,   /* the added outline shares a point with the face's own */
    WUZSANGET_EMPTY_SHELL = 10,         /* a shell without listings */
    WUZSANGET_NOT_CONNECTED = 11,       /* a shell that is not connected */
    WUZSANGET_NOT_CLOSED_SHELL = 12,    /* a shell that is not closed */
    WUZSANGET_NOT_MANIFOLD = 13,        /* a shell with a singular point */
    WUZSANGET_VERTEX_IN_SHELL = 14,     /* the point is in the shell already */
    WUZSANGET_EDGE_NOT_IN_SHELL = 15,   /* the edge is not in the shell */
    WUZSANGET_CURVE_REFUSES = 16,       /* the curve refuses the parameter */
    WUZSANGET_NO_SPACE = 17,            /* points, edges or uses pass their limit, or a lent list is too short */
    WUZSANGET_NOT_ONE_WIRE = 18,        /* the face has not exactly one outline */
    WUZSANGET_ENDS_NOT_ON_WIRE = 19,    /* the wire's ends are not on the outline */
    WUZSANGET_FACES_DIFFER = 20,        /* the surfaces or the signs of the faces differ */
    WUZSANGET_OPPOSITE_EDGES = 21,      /* two uses with opposite ends are of different edges */
    WUZSANGET_NOTHING_REMAINS = 22,     /* nothing remains */
    WUZSANGET_NOT_ONE_OR_TWO_WIRES = 23, /* no wire, or over two, end at the point */
    WUZSANGET_UNMATCHED = 24,           /* two wires that do not match */
    WUZSANGET_SAME_ENDS = 25,           /* the joined ends are equal */
    WUZSANGET_SPAN_REFUSED = 26,        /* the joined span is out of range or not above its start */
    WUZSANGET_SHARED_FACE = 27,         /* a face of the shell is also listed in another shell */
    WUZSANGET_FACE_RULE = 28,           /* the result breaks the face rule */
    WUZSANGET_DISCONNECTED = 29,        /* the two uses do not meet */
    WUZSANGET_NOT_NUMBER = 30,          /* a word of a mesh's face that is no number */
    WUZSANGET_NOT_GIVEN = 31,           /* a point of a mesh that is not yet given, or zero */
    WUZSANGET_TOO_FEW = 32              /* a face of a mesh with under three points */
};

/* An answer. `number` is the refusal's (docs/FORMAT.md 6.1), 0 if done; what the values mean is said at each function, and a
 * value of which nothing is said is 0. `fourth` is 0 in every answer today. */
typedef struct wuzsanget_answer {
    size_t outcome;
    size_t number;
    size_t first;
    size_t second;
    size_t third;
    size_t fourth;
} wuzsanget_answer;

/* The answer of a job: the bytes of its line, and of the edited file, 0 where the file stays as it is. */
typedef struct wuzsanget_job {
    size_t text;
    size_t file;
} wuzsanget_job;

/* WUZSANGET_VERSION of the library that is linked: a client that finds another than its header's was
 * compiled for another library. */
size_t wuzsanget_version(void);

/* ---- Reading and writing */

/* Applies the reading checks: 1 to 8. */
wuzsanget_answer wuzsanget_read(const uint8_t *file, size_t file_length);

/* Writes how many points, edges, uses, wires, faces, shells and listings the file has to `counts`, which
 * has WUZSANGET_BODIES entries. */
wuzsanget_answer wuzsanget_counts(const uint8_t *file, size_t file_length, uint16_t *counts);

/* Where the uses of a wire stand in the use list of the file. first: the place of its first use, from
 * 0. second: how many uses. 3: no such wire. */
wuzsanget_answer wuzsanget_outline(const uint8_t *file, size_t file_length, size_t wire);

/* Reads a file and writes its pattern to `out`: the same bytes. first: their number. 17: `out` is
 * shorter than the file; first: the file's length. */
wuzsanget_answer wuzsanget_write(const uint8_t *file, size_t file_length,
                                 uint8_t *out, size_t out_length);

/* ---- Text. */

/* Writes what the program `report` prints, also for a refused file, to `text`, which has WUZSANGET_REPORT
 * bytes. Returns the number of bytes written. */
size_t wuzsanget_report(const uint8_t *file, size_t file_length, uint8_t *text);

/* Writes what the program `show` prints, the pattern as lines of text or the line of a refusal, to `text`, which
 * has WUZSANGET_SHOW bytes. Returns the number of bytes written. */
size_t wuzsanget_show(const uint8_t *file, size_t file_length, uint8_t *text);

/* Makes the pattern file of a text, as the program `draft` does, and writes it to `out`, which has
 * WUZSANGET_FILE bytes. first: its length. Refused: the number of a refusal of the reading checks, or 0 where the
 * text is no pattern's; first: the line, from 1, or 0 for the text as a whole; second: the word of the line that
 * is wrong, or the number that is expected there; third: the bytes of the sentence that says what is wrong,
 * with its line feed, which is written to `said`, of WUZSANGET_SAID bytes. */
wuzsanget_answer wuzsanget_draft(const uint8_t *text, size_t text_length, uint8_t *out, uint8_t *said);

/* ---- Meshes. Wavefront OBJ: docs/FORMAT.md 8. */

/* Writes the pattern file of a mesh to `out`. first: its length; WUZSANGET_FILE bytes always suffice. Refused by
 * the mesh's own checks: 30, 31, 32; first: the line. By the reading checks: 2, 5, 8. 17: `out` is shorter
 * than the file; first: the file's length. */
wuzsanget_answer wuzsanget_import(const uint8_t *mesh, size_t mesh_length, uint8_t *out, size_t out_length);

/* A mesh that comes in pieces, of 76,016 bytes. What is in it is the library's alone; any content is taken to an
 * answer, but only that of start, and of steps after it, means anything. It may be moved and copied. */
typedef struct wuzsanget_mesh {
    uint64_t numbers[24];
    double spans[2048];
    uint16_t tables[12312];
    uint16_t index[17408];
} wuzsanget_mesh;

/* Before the first piece. */
void wuzsanget_import_start(uint64_t *numbers, uint16_t *index);

/* Reads a piece, of any length, cut anywhere. */
void wuzsanget_import_step(uint64_t *numbers, uint16_t *tables, double *spans, uint16_t *index,
                           const uint8_t *piece, size_t piece_length);

/* The mesh ends: writes its pattern file to `out`, with the answer that wuzsanget_import gives for all pieces as
 * one. Refused with 17, it may be asked again with a longer list. */
wuzsanget_answer wuzsanget_import_finish(uint64_t *numbers, uint16_t *tables, double *spans, uint16_t *index,
                                         uint8_t *out, size_t out_length);

/* The same three on a wuzsanget_mesh. */
#define WUZSANGET_MESH_START(mesh) wuzsanget_import_start((mesh)->numbers, (mesh)->index)
#define WUZSANGET_MESH_STEP(mesh, piece, length) \
    wuzsanget_import_step((mesh)->numbers, (mesh)->tables, (mesh)->spans, (mesh)->index, piece, length)
#define WUZSANGET_MESH_FINISH(mesh, out, length) \
    wuzsanget_import_finish((mesh)->numbers, (mesh)->tables, (mesh)->spans, (mesh)->index, out, length)

/* ---- Reports. 3: no such shell. */

/* first: the condition, 0 Irregular, 1 Regular, 2 Oriented, 3 Closed. */
wuzsanget_answer wuzsanget_shell_condition(const uint8_t *file, size_t file_length, size_t shell);

/* Writes the openings' uses one after the other to `uses`, and how many each has to `lengths`; both
 * have WUZSANGET_POINTS entries. first: how many openings. second: their uses in all. third: the
 * lookups. */
wuzsanget_answer wuzsanget_extract_boundaries(const uint8_t *file, size_t file_length, size_t shell,
                                              uint16_t *uses, uint16_t *lengths);

/* first: 1 if the shell is connected, else 0. */
wuzsanget_answer wuzsanget_is_connected(const uint8_t *file, size_t file_length, size_t shell);

/* Writes the components' listings one after the other to `listings`, and how many each has to
 * `lengths`; both have WUZSANGET_LISTINGS entries. first: how many components. second: their listings
 * in all. */
wuzsanget_answer wuzsanget_connected_components(const uint8_t *file, size_t file_length,
                                                size_t shell, uint16_t *listings,
                                                uint16_t *lengths);

/* Writes the singular points, ascending, to `points`, which has WUZSANGET_POINTS entries. first: how
 * many. */
wuzsanget_answer wuzsanget_singular_vertices(const uint8_t *file, size_t file_length, size_t shell,
                                             uint16_t *points);

/* Whether all shells of the file make a solid. Refused with 10, 11, 12 or 13; first: the shell that is
 * refused. */
wuzsanget_answer wuzsanget_solid(const uint8_t *file, size_t file_length);

/* ---- Edits of a pattern. Each writes the edited file to `out`; the file itself stays as it is. third:
 * the number of bytes written. 17: the points, the edges or the uses would pass their limit, with first 0;
 * or `out` is shorter than the edited file, with first the length that this needs. WUZSANGET_FILE bytes
 * always suffice. */

/* Cuts an edge at a point. `parameter` holds the bits of the f64 where the search put the point on
 * the curve. first, second: the new edges, the half at the edge's front first. Refused: 3, 27, 14, 15,
 * 16, 17. */
wuzsanget_answer wuzsanget_cut_edge(const uint8_t *file, size_t file_length, size_t shell,
                                    size_t edge, size_t point, uint64_t parameter,
                                    uint8_t *out, size_t out_length);

/* Removes a point by joining the edges that meet there. first: the new edge. Refused: 3, 27, 23, 24,
 * 25, 26, 17. */
wuzsanget_answer wuzsanget_remove_vertex(const uint8_t *file, size_t file_length, size_t shell,
                                         size_t point, uint8_t *out, size_t out_length);

/* Joins the uses `a` and `b` to a new edge. first: the new edge. Refused: 3, 29, 25, 26, 17. */
wuzsanget_answer wuzsanget_concat(const uint8_t *file, size_t file_length, size_t a, size_t b,
                                  uint8_t *out, size_t out_length);

/* Appends a point with this label. first: the new point. Refused: 3 for a label of 4,294,967,296 or more, 17. */
wuzsanget_answer wuzsanget_add_vertex(const uint8_t *file, size_t file_length, size_t label,
                                      uint8_t *out, size_t out_length);

/* ---- Edits of a face. Each writes the wires of its result: their uses one after the other to `uses`,
 * and how many each has to `lengths`. first: the uses written. second: the wires. 17: the result is
 * longer than `uses` or `lengths`; WUZSANGET_POINTS uses and WUZSANGET_WIRES lengths always suffice. */

/* The face with one more outline. Refused: 3, 6, 7, 8, 9, 17. */
wuzsanget_answer wuzsanget_add_boundary(const uint8_t *file, size_t file_length, size_t face,
                                        const uint16_t *wire, size_t wire_length,
                                        uint16_t *uses, size_t uses_length,
                                        uint16_t *lengths, size_t lengths_length);

/* The outlines of the two faces into which a wire cuts a face. Refused: 3, 18, 19, 28, 17. */
wuzsanget_answer wuzsanget_cut_by_wire(const uint8_t *file, size_t file_length, size_t face,
                                       const uint16_t *wire, size_t wire_length,
                                       uint16_t *uses, size_t uses_length,
                                       uint16_t *lengths, size_t lengths_length);

/* The same for a wire of one use. Refused: 3, 18, 19, 17; its results always keep the face rule. */
wuzsanget_answer wuzsanget_cut_by_edge(const uint8_t *file, size_t file_length, size_t face,
                                       size_t use, uint16_t *uses, size_t uses_length,
                                       uint16_t *lengths, size_t lengths_length);

/* Two faces as one, without the edges along which they meet. Refused: 3, 20, 21, 22, 28, 17. */
wuzsanget_answer wuzsanget_glue(const uint8_t *file, size_t file_length, size_t face,
                                size_t other, uint16_t *uses, size_t uses_length,
                                uint16_t *lengths, size_t lengths_length);

/* ---- Jobs */

/* Applies a line of the program `edit` to the file: docs/GUIDE.md has the jobs. Writes the line of the
 * answer to `text`, which has WUZSANGET_LINE bytes, and the edited file, if the job gives one, to `out`, which
 * has WUZSANGET_FILE bytes. */
wuzsanget_job wuzsanget_edit(const uint8_t *line, size_t line_length, const uint8_t *file,
                             size_t file_length, uint8_t *out, uint8_t *text);

#ifdef __cplusplus
}
#endif

#endif
