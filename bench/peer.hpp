// The peer: QuickFIX reads the messages, and plain vectors hold the books.
#pragma once
#include <cstdint>
#include <string>
#include <vector>

#include <quickfix/DataDictionary.h>
#include <quickfix/Message.h>

// One place of a side, as a program would hold it.
struct PeerEntry {
    double price;
    double size;
    std::string order; // or empty
    int orders;        // or 0
    std::string date;
    std::string time;
};

struct PeerBook {
    uint64_t id;
    std::vector<PeerEntry> sides[2];
};

struct PeerBoard {
    uint64_t number = 0; // H
    std::string heard;   // 52 of message H
    std::vector<PeerBook> books;
};

// Reads a message: the chain of fields, length and checksum, the group by the dictionary.
bool peer_parse(const FIX::DataDictionary &dictionary, const std::string &bytes);

// The same, of a message of any type: one without a group too.
bool peer_read(const FIX::DataDictionary &dictionary, const std::string &bytes);

// And validates it by the dictionary.
bool peer_validate(const FIX::DataDictionary &dictionary, const std::string &bytes);

// And applies it to the books: an X by new, change and delete; a W by setting its instrument's book.
bool peer_apply(const FIX::DataDictionary &dictionary, const std::string &bytes, PeerBoard &board);
