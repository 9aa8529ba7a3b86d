// The time of an import beside two readers of Wavefront OBJ, tinyobjloader and assimp, on the same bytes.
//
// Each goes from the bytes in memory to its result: the library to the pattern file, tinyobjloader to its lists (and by its
// callbacks, which keep nothing here), assimp to its scene, without steps after reading. What a reader can use again is made
// before, and what it leaves is freed after. The time is the processor's, of this process, the least of several rounds in
// which the readers take turns. The readers must find the same faces.
#include "wuzsanget.h"

#include <assimp/Importer.hpp>
#include <assimp/scene.h>
#include <tiny_obj_loader.h>

#include <cstdio>
#include <cstdlib>
#include <ctime>
#include <fstream>
#include <istream>
#include <iterator>
#include <streambuf>
#include <string>
#include <vector>

// ---- meshes

struct Given {
    const char *name;
    bool accepted;
    std::string bytes;
};

// The next of a fixed sequence of numbers.
static unsigned chance()
{
    static unsigned long long state = 1;
    state = state * 6364136223846793005ULL + 1442695040888963407ULL;
    return static_cast<unsigned>(state >> 33);
}

// A line of so many coordinates.
static std::string line(const char *key, int coordinates)
{
    char word[32];
    std::string all = key;
    for (int k = 0; k < coordinates; k++) {
        std::snprintf(word, sizeof word, " %s%u.%06u", chance() % 2 ? "-" : "", chance() % 200, chance() % 1000000);
        all += word;
    }
    return all + "\n";
}

// A face of these points, with the texture and the normal of the same number.
static std::string face(const std::vector<int> &points)
{
    std::string all = "f";
    for (int p : points)
        all += " " + std::to_string(p) + "/" + std::to_string(p) + "/" + std::to_string(p);
    return all + "\n";
}

// 10 MB: 2,048 points, then normals, textures and comments, then 256 squares.
static std::string vectors()
{
    std::string all;
    for (int k = 0; k < 2048; k++)
        all += line("v", 3);
    for (int k = 0; all.size() < 10000000; k++) {
        all += line("vn", 3) + line("vt", 2);
        if (k % 100 == 0)
            all += "# as it was measured\n";
    }
    for (int row = 0; row < 16; row++)
        for (int k = 17 * row + 1; k < 17 * row + 17; k++)
            all += face({k, k + 1, k + 18, k + 17});
    return all;
}

// A hub with spokes: triangles of the hub and two neighbours, again and again until there are 4 MB.
static std::string fan(int spokes)
{
    std::string all;
    for (int k = 0; k <= spokes; k++)
        all += line("v", 3);
    for (int k = 2; all.size() < 4000000; k = k < spokes ? k + 1 : 2)
        all += "f 1 " + std::to_string(k) + " " + std::to_string(k + 1) + "\n";
    return all;
}

// Edges from one point to 256 others that lie in one bucket of the library's index, then the sides of which its search is
// longest, again and again until there are 4 MB.
static std::string one_bucket()
{
    std::string all;
    for (int k = 0; k < 2048; k++)
        all += line("v", 3);
    for (int k = 2; k < 2048; k += 8)
        all += "f 1 " + std::to_string(k) + " 1\n";
    while (all.size() < 4000000)
        all += "f 1 2 1 2 1 2 1 2 1 2 1 2 1 2 1 2 1 2 1 2\n";
    return all;
}

static std::string loaded(const char *name)
{
    std::ifstream file(name, std::ios::binary);
    if (!file) {
        std::fprintf(stderr, "%s cannot be read\n", name);
        std::exit(2);
    }
    return std::string(std::istreambuf_iterator<char>(file), std::istreambuf_iterator<char>());
}

// ---- the readers: how many faces, and the time from the bytes to the result

static double now()
{
    std::timespec t;
    clock_gettime(CLOCK_PROCESS_CPUTIME_ID, &t);
    return static_cast<double>(t.tv_sec) * 1e6 + static_cast<double>(t.tv_nsec) / 1e3;
}

struct Took {
    long faces; // -1: refused by a limit; -2: any other refusal
    double microseconds;
};

static Took by_library(const std::string &bytes)
{
    static std::uint8_t out[WUZSANGET_FILE];
    auto mesh = reinterpret_cast<const std::uint8_t *>(bytes.data());
    double begun = now();
    wuzsanget_answer a = wuzsanget_import(mesh, bytes.size(), out, sizeof out);
    double took = now() - begun;
    if (a.outcome != WUZSANGET_DONE)
        return {a.number == WUZSANGET_LIMIT ? -1 : -2, took};
    std::uint16_t counts[WUZSANGET_BODIES];
    wuzsanget_counts(out, a.first, counts);
    return {counts[4], took};
}

// Bytes in memory as a stream, not copied.
struct View : std::streambuf {
    explicit View(const std::string &bytes)
    {
        char *begin = const_cast<char *>(bytes.data());
        setg(begin, begin, begin + bytes.size());
    }
};

static Took by_tinyobjloader(const std::string &bytes)
{
    tinyobj::attrib_t attributes;
    std::vector<tinyobj::shape_t> shapes;
    std::vector<tinyobj::material_t> materials;
    std::string warning, error;
    double begun = now();
    View view(bytes);
    std::istream stream(&view);
    bool fine = tinyobj::LoadObj(&attributes, &shapes, &materials, &warning, &error, &stream, nullptr, false, false);
    double took = now() - begun;
    long faces = 0;
    for (const tinyobj::shape_t &shape : shapes)
        faces += static_cast<long>(shape.mesh.num_face_vertices.size());
    return {fine ? faces : -2, took};
}

static Took by_callbacks(const std::string &bytes)
{
    long faces = 0;
    tinyobj::callback_t calls;
    calls.index_cb = [](void *data, tinyobj::index_t *, int) { ++*static_cast<long *>(data); };
    std::string warning, error;
    double begun = now();
    View view(bytes);
    std::istream stream(&view);
    bool fine = tinyobj::LoadObjWithCallback(stream, calls, &faces, nullptr, &warning, &error);
    double took = now() - begun;
    return {fine ? faces : -2, took};
}

static Took by_assimp(const std::string &bytes)
{
    static Assimp::Importer importer;
    importer.FreeScene();
    double begun = now();
    const aiScene *scene = importer.ReadFileFromMemory(bytes.data(), bytes.size(), 0, "obj");
    double took = now() - begun;
    if (!scene)
        return {-2, took};
    long faces = 0;
    for (unsigned k = 0; k < scene->mNumMeshes; k++)
        faces += scene->mMeshes[k]->mNumFaces;
    return {faces, took};
}

static const struct {
    const char *name;
    Took (*reads)(const std::string &);
} READERS[] = {{"wuzsanget", by_library}, {"tinyobjloader", by_tinyobjloader}, {"its callbacks", by_callbacks}, {"assimp", by_assimp}};

int main(int words, char **word)
{
    int rounds = words > 1 ? std::atoi(word[1]) : 20;
    bool right = rounds > 0;
    std::vector<Given> all = {
        {"coat", true, loaded("samples/coat-mesh.obj")}, {"vectors", true, vectors()},
        {"fan of 1,000", false, fan(1000)},              {"fan of 500", false, fan(500)},
        {"one bucket", false, one_bucket()},
    };
    std::printf("microseconds of processor time, ratio to wuzsanget, nanoseconds a byte; the least of %d rounds\n", rounds);
    for (const Given &given : all) {
        double least[4];
        long faces[4];
        // A short mesh is read more often.
        int times = rounds * (given.bytes.size() < 100000 ? 20 : 1);
        for (int round = 0; round < times; round++)
            for (int k = 0; k < 4; k++) {
                Took took = READERS[k].reads(given.bytes);
                faces[k] = took.faces;
                if (round == 0 || took.microseconds < least[k])
                    least[k] = took.microseconds;
            }
        std::printf("%s, %zu bytes, %ld faces\n", given.name, given.bytes.size(), faces[1]);
        for (int k = 0; k < 4; k++)
            std::printf("    %-14s %12.1f %8.2f %8.2f\n", READERS[k].name, least[k], least[k] / least[0],
                        least[k] * 1000 / static_cast<double>(given.bytes.size()));
        bool same = faces[1] == faces[2] && faces[1] == faces[3] && faces[0] == (given.accepted ? faces[1] : -1);
        if (!same)
            std::printf("    they differ: %ld, %ld, %ld, %ld faces\n", faces[0], faces[1], faces[2], faces[3]);
        right = right && same;
        for (int k = 1; k < 4; k++)
            right = right && (!given.accepted || least[k] >= least[0]);
    }
    return right ? 0 : 1;
}
