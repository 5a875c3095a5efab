// Prints where each hunk of a load file lies, and its first bytes: segments FILE BASE
#include <hunk.h>
#include <cstdio>
#include <exception>
#include <fstream>
#include <iterator>
#include <stdexcept>
#include <string>
#include <vector>

// The answer, unless the file is refused. Where it asks for room, it says how much.
static hunk_answer accepted(hunk_answer answer)
{
    if (answer.number == HUNK_OK || answer.number == HUNK_NO_ROOM)
        return answer;
    std::string text(256, ' ');
    text.resize(hunk_reason_text(answer.number, (uint8_t *)&text[0], text.size()).count);
    throw std::runtime_error("byte " + std::to_string(answer.place) + ": " + text);
}

static void print(const std::vector<uint8_t> &file, uint32_t base)
{
    const uint64_t budget = 1 << 24; // what the hunks may have together
    const hunk_answer table = accepted(hunk_table(file.data(), file.size(), budget, nullptr, 0));
    std::vector<hunk_row> rows(table.hunk);
    std::vector<uint8_t> memory(table.count);
    hunk_table(file.data(), file.size(), budget, rows.data(), rows.size());
    accepted(hunk_load_packed(file.data(), file.size(), base, memory.data(), memory.size()));
    size_t at = 0;
    for (const hunk_row &row : rows) {
        std::printf("%08lx %lu bytes:", (unsigned long)(base + at), (unsigned long)row.bytes);
        for (size_t i = at; i < at + row.bytes && i < at + 8; i++)
            std::printf(" %02x", memory[i]);
        std::printf("\n");
        at += row.bytes;
    }
}

int main(int argc, char **argv)
{
    if (argc != 3)
        return std::fprintf(stderr, "usage: segments FILE BASE\n"), 2;
    std::ifstream in(argv[1], std::ios::binary);
    try {
        print({std::istreambuf_iterator<char>(in), {}}, std::stoul(argv[2], nullptr, 16));
    } catch (const std::exception &error) {
        return std::fprintf(stderr, "segments: %s\n", error.what()), 1;
    }
    return 0;
}
