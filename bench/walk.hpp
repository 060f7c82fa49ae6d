// The walk of a recording, by the library and by the plain reader.
#pragma once
#include <cstddef>
#include <cstdint>
#include <string>
#include <vector>

struct Piece {
    uint64_t kind; // of enum selkavorn_piece
    uint64_t start, length;
};
using Pieces = std::vector<Piece>;

// Walks a recording by the library, with room for 1,024 pieces that is lent again and again, and counts the pieces; 0 where a call
// is refused.
size_t walk_count(const std::string &recording);

// Walks it likewise and gives the pieces.
Pieces walk(const std::string &recording);

// The pieces by the definition: at each byte the plain reader is asked whether it would refuse the stretch that tag 9 names with
// 11 or 12.
Pieces plain_walk(const std::string &recording);

// Says where the pieces of a walk first differ from those that are expected, or that they do not cover so many bytes; or nothing.
std::string difference(const Pieces &walked, const Pieces &expected, size_t bytes);
