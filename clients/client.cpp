// A client in C++, and the test of the library from C++: a pattern as a value that owns its file, edits that
// give a new one, refusals as exceptions. It asks about docs/FORMAT.md's two triangles that share a point alone, and
// about the mesh of a coat, which it reads from samples in the repository, where it is run.
// Prints nothing but what fails; exit status 0 if nothing does.
#include "wuzsanget.h"

#include <cstdio>
#include <cstring>
#include <fstream>
#include <iterator>
#include <memory>
#include <stdexcept>
#include <string>
#include <utility>
#include <vector>

namespace wuzsanget {

using Bytes = std::vector<std::uint8_t>;
using Uses = std::vector<std::uint16_t>;
using Wires = std::vector<Uses>;

// A call that was refused.
struct Refused : std::runtime_error {
    wuzsanget_answer answer;
    explicit Refused(const wuzsanget_answer &a)
        : std::runtime_error("refused " + std::to_string(a.number)), answer(a)
    {
    }
};

inline wuzsanget_answer done(const wuzsanget_answer &a)
{
    if (a.outcome != WUZSANGET_DONE)
        throw Refused(a);
    return a;
}

// Uses or listings, parted by lengths.
inline Wires parted(const Uses &uses, const Uses &lengths, std::size_t wires)
{
    Wires all;
    auto at = uses.begin();
    for (std::size_t k = 0; k < wires; at += lengths[k++])
        all.emplace_back(at, at + lengths[k]);
    return all;
}

// A pattern that the reading checks accept.
class Pattern {
    Bytes file_;

    // The pattern that an edit of a shell writes, and its answer.
    template <typename Call> std::pair<Pattern, wuzsanget_answer> edited(Call call) const
    {
        Bytes out(WUZSANGET_FILE);
        wuzsanget_answer a = done(call(out.data(), out.size()));
        out.resize(a.third);
        return {Pattern(std::move(out)), a};
    }

    // The wires that an edit of a face writes.
    template <typename Call> Wires faced(Call call) const
    {
        Uses uses(WUZSANGET_POINTS), lengths(WUZSANGET_WIRES);
        wuzsanget_answer a = done(call(uses.data(), uses.size(), lengths.data(), lengths.size()));
        return parted(uses, lengths, a.second);
    }

    template <typename Call> std::string text(std::size_t room, Call call) const
    {
        std::vector<std::uint8_t> text(room);
        std::size_t n = call(file_.data(), file_.size(), text.data());
        return std::string(text.begin(), text.begin() + static_cast<std::ptrdiff_t>(n));
    }

public:
    explicit Pattern(Bytes file) : file_(std::move(file))
    {
        done(wuzsanget_read(file_.data(), file_.size()));
    }

    // The pattern that a text describes.
    static Pattern draft(const std::string &text)
    {
        Bytes out(WUZSANGET_FILE), said(WUZSANGET_SAID), bytes(text.begin(), text.end());
        wuzsanget_answer a = done(wuzsanget_draft(bytes.data(), bytes.size(), out.data(), said.data()));
        out.resize(a.first);
        return Pattern(std::move(out));
    }

    // The pattern of a mesh.
    static Pattern of_mesh(const Bytes &mesh)
    {
        Bytes out(WUZSANGET_FILE);
        out.resize(done(wuzsanget_import(mesh.data(), mesh.size(), out.data(), out.size())).first);
        return Pattern(std::move(out));
    }

    const Bytes &file() const { return file_; }

    Uses counts() const
    {
        Uses counts(WUZSANGET_BODIES);
        done(wuzsanget_counts(file_.data(), file_.size(), counts.data()));
        return counts;
    }

    std::string report() const { return text(WUZSANGET_REPORT, wuzsanget_report); }
    std::string show() const { return text(WUZSANGET_SHOW, wuzsanget_show); }

    std::size_t condition(std::size_t shell) const
    {
        return done(wuzsanget_shell_condition(file_.data(), file_.size(), shell)).first;
    }

    Wires openings(std::size_t shell) const
    {
        Uses uses(WUZSANGET_POINTS), lengths(WUZSANGET_POINTS);
        wuzsanget_answer a = done(wuzsanget_extract_boundaries(file_.data(), file_.size(), shell,
                                                               uses.data(), lengths.data()));
        return parted(uses, lengths, a.first);
    }

    Wires components(std::size_t shell) const
    {
        Uses listings(WUZSANGET_LISTINGS), lengths(WUZSANGET_LISTINGS);
        wuzsanget_answer a = done(wuzsanget_connected_components(
            file_.data(), file_.size(), shell, listings.data(), lengths.data()));
        return parted(listings, lengths, a.first);
    }

    Uses singular(std::size_t shell) const
    {
        Uses points(WUZSANGET_POINTS);
        points.resize(
            done(wuzsanget_singular_vertices(file_.data(), file_.size(), shell, points.data())).first);
        return points;
    }

    void solid() const { done(wuzsanget_solid(file_.data(), file_.size())); }

    std::pair<Pattern, wuzsanget_answer> cut_edge(std::size_t shell, std::size_t edge,
                                                  std::size_t point, double parameter) const
    {
        std::uint64_t bits;
        static_assert(sizeof bits == sizeof parameter, "an f64 has 64 bits");
        std::memcpy(&bits, &parameter, sizeof bits);
        return edited([&](std::uint8_t *out, std::size_t room) {
            return wuzsanget_cut_edge(file_.data(), file_.size(), shell, edge, point, bits, out, room);
        });
    }

    std::pair<Pattern, wuzsanget_answer> remove_vertex(std::size_t shell, std::size_t point) const
    {
        return edited([&](std::uint8_t *out, std::size_t room) {
            return wuzsanget_remove_vertex(file_.data(), file_.size(), shell, point, out, room);
        });
    }

    std::pair<Pattern, wuzsanget_answer> concat(std::size_t a, std::size_t b) const
    {
        return edited([&](std::uint8_t *out, std::size_t room) {
            return wuzsanget_concat(file_.data(), file_.size(), a, b, out, room);
        });
    }

    std::pair<Pattern, wuzsanget_answer> add_vertex(std::size_t label) const
    {
        return edited([&](std::uint8_t *out, std::size_t room) {
            return wuzsanget_add_vertex(file_.data(), file_.size(), label, out, room);
        });
    }

    Wires add_boundary(std::size_t face, const Uses &wire) const
    {
        return faced([&](std::uint16_t *uses, std::size_t m, std::uint16_t *lengths, std::size_t k) {
            return wuzsanget_add_boundary(file_.data(), file_.size(), face, wire.data(), wire.size(),
                                          uses, m, lengths, k);
        });
    }

    Wires cut_by_wire(std::size_t face, const Uses &wire) const
    {
        return faced([&](std::uint16_t *uses, std::size_t m, std::uint16_t *lengths, std::size_t k) {
            return wuzsanget_cut_by_wire(file_.data(), file_.size(), face, wire.data(), wire.size(),
                                         uses, m, lengths, k);
        });
    }

    Wires cut_by_edge(std::size_t face, std::size_t use) const
    {
        return faced([&](std::uint16_t *uses, std::size_t m, std::uint16_t *lengths, std::size_t k) {
            return wuzsanget_cut_by_edge(file_.data(), file_.size(), face, use, uses, m, lengths, k);
        });
    }

    Wires glue(std::size_t face, std::size_t other) const
    {
        return faced([&](std::uint16_t *uses, std::size_t m, std::uint16_t *lengths, std::size_t k) {
            return wuzsanget_glue(file_.data(), file_.size(), face, other, uses, m, lengths, k);
        });
    }

    // Applies a job, and takes its file if there is one; returns the line of the answer.
    std::string edit(const std::string &line)
    {
        Bytes out(WUZSANGET_FILE), text(WUZSANGET_LINE);
        Bytes bytes(line.begin(), line.end());
        wuzsanget_job job = wuzsanget_edit(bytes.data(), bytes.size(), file_.data(), file_.size(),
                                           out.data(), text.data());
        if (job.file > 0) {
            out.resize(job.file);
            file_ = std::move(out);
        }
        return std::string(text.begin(), text.begin() + static_cast<std::ptrdiff_t>(job.text));
    }
};

// A mesh that comes in pieces. A copy goes its own way.
class Mesh {
    wuzsanget_mesh mesh_;

public:
    Mesh() : mesh_() { WUZSANGET_MESH_START(&mesh_); }
    // With these bytes as its content.
    explicit Mesh(const Bytes &content) : mesh_() { std::memcpy(&mesh_, content.data(), sizeof mesh_); }

    void step(const Bytes &piece) { WUZSANGET_MESH_STEP(&mesh_, piece.data(), piece.size()); }

    wuzsanget_answer finish(Bytes &out) { return WUZSANGET_MESH_FINISH(&mesh_, out.data(), out.size()); }

    Pattern pattern()
    {
        Bytes out(WUZSANGET_FILE);
        out.resize(done(finish(out)).first);
        return Pattern(std::move(out));
    }
};

} // namespace wuzsanget

using wuzsanget::Bytes;
using wuzsanget::Mesh;
using wuzsanget::Pattern;
using wuzsanget::Refused;
using wuzsanget::Uses;
using wuzsanget::Wires;

static int failures;

static void expect(bool fine, const char *what)
{
    if (!fine) {
        std::printf("client.cpp: %s\n", what);
        failures++;
    }
}

// The number of the refusal that a call throws; 0 if it throws none.
template <typename Call> static std::size_t refused(Call call)
{
    try {
        call();
    } catch (const Refused &r) {
        return r.answer.number;
    }
    return 0;
}

static void put(Bytes &file, std::uint64_t number, int bytes)
{
    for (int k = 0; k < bytes; k++)
        file.push_back(static_cast<std::uint8_t>(number >> 8 * k));
}

// The triangles 0+ 1+ 2+ and 3+ 4+ 5+ that share point 0 alone, where 0 and 3 begin, each a face of its own;
// point 5 is free.
static Bytes two_triangles()
{
    static const std::uint16_t ends[6][2] = {{0, 1}, {1, 2}, {2, 0}, {0, 3}, {3, 4}, {4, 0}};
    static const std::uint32_t counts[7] = {6, 6, 6, 2, 2, 1, 2};
    static const std::uint32_t sizes[7] = {4, 20, 2, 2, 4, 2, 2};
    Bytes file;
    std::uint32_t offset = 56;
    for (int body = 0; body < 7; body++) {
        put(file, offset, 4);
        put(file, counts[body], 4);
        offset += counts[body] * sizes[body];
    }
    for (std::uint64_t point = 0; point < 6; point++)
        put(file, point, 4);
    for (const auto &edge : ends) {
        put(file, edge[0], 2);
        put(file, edge[1], 2);
        put(file, 0, 8);
        put(file, UINT64_C(0x3ff0000000000000), 8);
    }
    for (std::uint64_t use = 0; use < 6; use++)
        put(file, use, 2);
    put(file, 3 + (3 << 16), 4); // two wires of three uses
    for (int face = 0; face < 2; face++)
        put(file, 1, 4); // one wire, surface 0
    put(file, 2, 2);
    put(file, 0 + (1 << 16), 4); // the listings 0+ 1+
    return file;
}

// Numbers that name nothing, though their lower 16 bits do.
static void unnamed(const Pattern &p)
{
    for (std::size_t up : {std::size_t(65536), std::size_t(1) << 32, SIZE_MAX - 65535}) {
        expect(refused([&] { p.condition(up); }) == 3, "no such shell to judge");
        expect(refused([&] { p.openings(up); }) == 3, "no such shell to walk");
        expect(refused([&] { p.components(up); }) == 3, "no such shell to part");
        expect(refused([&] { p.singular(up); }) == 3, "no such shell to search");
        expect(refused([&] { p.cut_edge(up, 0, 5, 0.5); }) == 3, "no such shell to cut");
        expect(refused([&] { p.cut_edge(0, up, 5, 0.5); }) == 3, "no such edge to cut");
        expect(refused([&] { p.cut_edge(0, 0, up + 5, 0.5); }) == 3, "no such point to cut at");
        expect(refused([&] { p.remove_vertex(up, 1); }) == 3, "no such shell to join in");
        expect(refused([&] { p.remove_vertex(0, up + 1); }) == 3, "no such point to remove");
        expect(refused([&] { p.concat(up, 1); }) == 3, "no such first use");
        expect(refused([&] { p.concat(0, up + 1); }) == 3, "no such second use");
        expect(refused([&] { p.add_boundary(up, Uses()); }) == 3, "no such face to add to");
        expect(refused([&] { p.cut_by_wire(up, Uses{0}); }) == 3, "no such face to cut");
        expect(refused([&] { p.cut_by_edge(up, 0); }) == 3, "no such face to cut by a use");
        expect(refused([&] { p.cut_by_edge(0, up); }) == 3, "no such use to cut by");
        expect(refused([&] { p.glue(up, 1); }) == 3, "no such first face");
        expect(refused([&] { p.glue(0, up + 1); }) == 3, "no such second face");
    }
    expect(refused([&] { p.cut_edge(0, 65542, 5, 0.5); }) == 3, "edge 65542");
}

static Bytes loaded(const char *name)
{
    std::ifstream file(name, std::ios::binary);
    expect(file.good(), name);
    return Bytes(std::istreambuf_iterator<char>(file), std::istreambuf_iterator<char>());
}

static std::vector<Bytes> pieces(const Bytes &all, std::size_t size)
{
    std::vector<Bytes> parts;
    for (auto at = all.begin(); at != all.end();) {
        auto left = static_cast<std::size_t>(all.end() - at);
        auto end = at + static_cast<std::ptrdiff_t>(left < size ? left : size);
        parts.emplace_back(at, end);
        at = end;
    }
    return parts;
}

static bool refused_with(const wuzsanget_answer &a, std::size_t number, std::size_t first)
{
    return a.outcome == WUZSANGET_REFUSED && a.number == number && a.first == first;
}

static void meshes()
{
    const Bytes coat = loaded("samples/coat-mesh.obj"), file = loaded("samples/coat-mesh.pattern");
    const std::string text = "v\nv\nv\nf 1 2 4\n";
    const Bytes wrong(text.begin(), text.end());
    if (coat.empty() || file.empty())
        return;
    Bytes out(file.size() - 1, 7);
    const Bytes lent = out;

    expect(Pattern::of_mesh(coat).file() == file, "the pattern of a mesh");
    expect(Pattern::of_mesh(Bytes()).counts() == Uses({0, 0, 0, 0, 0, 1, 0}), "no mesh");
    expect(Mesh().pattern().file() == Pattern::of_mesh(Bytes()).file(), "no pieces");
    expect(refused_with(wuzsanget_import(wrong.data(), wrong.size(), out.data(), out.size()), 31, 4) && out == lent,
           "a mesh that names a point too many");
    expect(refused_with(wuzsanget_import(coat.data(), coat.size(), out.data(), out.size()), 17, file.size()) &&
               out == lent,
           "a list that is too short");

    for (std::size_t size : {1, 2, 3, 7, 4096}) {
        std::unique_ptr<Mesh> mesh(new Mesh), refused(new Mesh);
        for (const Bytes &piece : pieces(wrong, size))
            refused->step(piece);
        expect(refused_with(refused->finish(out), 31, 4) && out == lent, "a refused mesh in pieces");
        for (const Bytes &piece : pieces(coat, size)) {
            mesh->step(piece);
            mesh.reset(new Mesh(*mesh));
        }
        expect(refused_with(mesh->finish(out), 17, file.size()) && out == lent, "pieces and a short list");
        expect(mesh->pattern().file() == file, "the pattern of a mesh in pieces");
    }

    // Any content, not started: an answer, and what is written is a pattern.
    Bytes content(sizeof(wuzsanget_mesh), 0xff);
    std::uint32_t state = 1;
    for (int k = 0; k < 100; k++) {
        std::unique_ptr<Mesh> mesh(new Mesh(content));
        mesh->step(coat);
        try {
            mesh->pattern();
        } catch (const Refused &r) {
            expect(r.answer.number > 0, "a refusal without a number");
        }
        for (std::uint8_t &byte : content) {
            state = state * 1664525 + 1013904223;
            byte = static_cast<std::uint8_t>(state >> 24);
        }
        // Else a place in a line that no line has: refused at once.
        if (k % 2)
            std::memset(content.data() + 8, 0, 8);
    }
}

int main()
{
    expect(wuzsanget_version() == WUZSANGET_VERSION, "the version");
    // An empty vector has no memory: its pointer may be null.
    expect(refused([] { Pattern{Bytes()}; }) == WUZSANGET_LAYOUT, "no bytes");

    Pattern p(two_triangles());
    expect(p.counts() == Uses({6, 6, 6, 2, 2, 1, 2}), "the counts");
    expect(p.condition(0) == 2, "the condition");
    expect(p.openings(0) == Wires({{3, 4, 5}, {1, 2}}), "the openings");
    expect(p.components(0) == Wires({{0}, {1}}), "the components");
    expect(p.singular(0) == Uses({0}), "the singular point");
    expect(refused([&] { p.solid(); }) == WUZSANGET_NOT_CLOSED_SHELL, "the solid");
    expect(p.report() == "shell 0\ncondition Oriented\nconnected yes\nopening 3+ 4+ 5+\nopening 1+ 2+\n"
                         "lookups 7\ncomponent 0+\ncomponent 1+\nsingular 0\nsolid refused 12 shell 0\n",
           "the report");
    expect(p.show() == "point 0 label 0\npoint 1 label 1\npoint 2 label 2\npoint 3 label 3\n"
                       "point 4 label 4\npoint 5 label 5\nedge 0 from 0 to 1 span 0 1\n"
                       "edge 1 from 1 to 2 span 0 1\nedge 2 from 2 to 0 span 0 1\n"
                       "edge 3 from 0 to 3 span 0 1\nedge 4 from 3 to 4 span 0 1\n"
                       "edge 5 from 4 to 0 span 0 1\nface 0 surface 0 wire 0+ 1+ 2+\n"
                       "face 1 surface 0 wire 3+ 4+ 5+\nshell 0 faces 0+ 1+\n",
           "the pattern as text");
    expect(Pattern::draft(p.show()).file() == two_triangles(), "the pattern from its text");
    expect(Pattern::draft("empty").counts() == Uses({0, 0, 0, 0, 0, 0, 0}), "an empty pattern");
    expect(refused([] { Pattern::draft("edge 0 from 0 to 0 span 0 1\npoint 0 label 0"); }) ==
               WUZSANGET_SAME_VERTEX,
           "a text with an edge from a point to itself");

    // A cut makes two edges and one use more, a removal one edge more and one use less.
    auto cut = p.cut_edge(0, 0, 5, 0.5);
    expect(cut.second.first == 6 && cut.second.second == 7, "the new edges");
    expect(cut.first.counts() == Uses({6, 8, 7, 2, 2, 1, 2}), "the counts after a cut");
    expect(refused([&] { cut.first.cut_edge(0, 0, 5, 0.5); }) == WUZSANGET_VERTEX_IN_SHELL,
           "the cut again");
    auto back = cut.first.remove_vertex(0, 5);
    expect(back.second.first == 8 && back.first.counts() == Uses({6, 9, 6, 2, 2, 1, 2}),
           "the point removed");
    auto joined = p.concat(0, 1);
    expect(joined.second.first == 6 && joined.first.counts() == Uses({6, 7, 6, 2, 2, 1, 2}), "a concat");
    auto more = p.add_vertex(9);
    expect(more.second.first == 6 && more.first.counts() == Uses({7, 6, 6, 2, 2, 1, 2}), "a fresh point");
    expect(more.first.report() == p.report(), "the report with a fresh point");
    expect(refused([&] { p.add_vertex(std::size_t(1) << 32); }) == WUZSANGET_UNNAMED, "a label too large");
    Pattern by_job = p;
    expect(by_job.edit("cut 0 0 5 0.5") == "done edges 6 7\n" && by_job.file() == cut.first.file(),
           "the cut as a job");
    expect(by_job.edit("") == "no job: begin with cut, remove, concat, point, add, cutface or glue\n" &&
               by_job.file() == cut.first.file(),
           "a line without a job");

    // A face cut along its own edge 0; an empty wire is no outline, and cuts nothing.
    const std::uint16_t turned = WUZSANGET_REVERSED;
    expect(p.cut_by_edge(0, 0) == Wires({{1, 2, 0}, {0, turned}}), "a face cut by a use");
    expect(p.cut_by_wire(0, Uses{0}) == Wires({{1, 2, 0}, {0, turned}}), "a face cut by a wire");
    expect(refused([&] { p.add_boundary(0, Uses()); }) == WUZSANGET_EMPTY_WIRE, "an empty outline");
    expect(refused([&] { p.cut_by_wire(0, Uses()); }) == WUZSANGET_ENDS_NOT_ON_WIRE, "an empty wire");
    expect(refused([&] { p.add_boundary(0, Uses{3, 4, 5}); }) == WUZSANGET_NOT_DISJOINT_WIRES,
           "an outline that touches the face's own");
    expect(refused([&] { p.glue(0, 1 + turned); }) == WUZSANGET_FACES_DIFFER, "faces of two signs");

    unnamed(p);
    meshes();
    return failures != 0;
}
