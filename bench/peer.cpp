#include "peer.hpp"

#include <quickfix/FieldConvertors.h>
#include <quickfix/FixFieldNumbers.h>

namespace {

namespace tag = FIX::FIELD;

PeerBook *find(PeerBoard &board, uint64_t id) {
    for (PeerBook &book : board.books)
        if (book.id == id) return &book;
    return nullptr;
}

uint64_t whole(const FIX::FieldMap &fields, int tag) { return std::stoull(fields.getField(tag)); }

PeerEntry values(const FIX::FieldMap &fields) {
    PeerEntry entry;
    entry.price = FIX::DoubleConvertor::convert(fields.getField(tag::MDEntryPx));
    entry.size = FIX::DoubleConvertor::convert(fields.getField(tag::MDEntrySize));
    entry.orders = 0;
    if (fields.isSetField(tag::OrderID))
        entry.order = fields.getField(tag::OrderID);
    else
        entry.orders = FIX::IntConvertor::convert(fields.getField(tag::NumberOfOrders));
    entry.date = fields.getField(tag::MDEntryDate);
    entry.time = fields.getField(tag::MDEntryTime);
    return entry;
}

// One entry of an X.
bool change(PeerBoard &board, const FIX::FieldMap &fields) {
    PeerBook *book = find(board, whole(fields, tag::SecurityID));
    if (!book) return true;
    std::vector<PeerEntry> &side = book->sides[fields.getField(tag::MDEntryType) == "1"];
    size_t place = whole(fields, tag::MDEntryPositionNo);
    switch (fields.getField(tag::MDUpdateAction)[0]) {
    case '0':
        if (place < 1 || place > side.size() + 1 || side.size() >= 20) return false;
        side.insert(side.begin() + (place - 1), values(fields));
        return true;
    case '1':
        if (place < 1 || place > side.size()) return false;
        side[place - 1] = values(fields);
        return true;
    case '2':
        if (place < 1 || place > side.size()) return false;
        side.erase(side.begin() + (place - 1));
        return true;
    }
    return false;
}

bool changes(PeerBoard &board, const FIX::Message &message) {
    uint64_t number = whole(message.getHeader(), tag::MsgSeqNum);
    if (number != board.number + 1) return false;
    board.number = number;
    board.heard = message.getHeader().getField(tag::SendingTime);
    int count = FIX::IntConvertor::convert(message.getField(tag::NoMDEntries));
    for (int i = 1; i <= count; i++)
        if (!change(board, message.getGroupRef(i, tag::NoMDEntries))) return false;
    return true;
}

bool snapshot(PeerBoard &board, const FIX::Message &message) {
    PeerBook *book = find(board, whole(message, tag::SecurityID));
    if (!book) return true;
    book->sides[0].clear();
    book->sides[1].clear();
    int count = FIX::IntConvertor::convert(message.getField(tag::NoMDEntries));
    for (int i = 1; i <= count; i++) {
        const FIX::FieldMap &fields = message.getGroupRef(i, tag::NoMDEntries);
        book->sides[fields.getField(tag::MDEntryType) == "1"].push_back(values(fields));
    }
    return true;
}

} // namespace

bool peer_parse(const FIX::DataDictionary &dictionary, const std::string &bytes) {
    FIX::Message message(bytes, dictionary, true);
    return message.isSetField(tag::NoMDEntries);
}

bool peer_read(const FIX::DataDictionary &dictionary, const std::string &bytes) {
    FIX::Message message(bytes, dictionary, true);
    return message.getHeader().isSetField(tag::MsgType);
}

bool peer_validate(const FIX::DataDictionary &dictionary, const std::string &bytes) {
    FIX::Message message(bytes, dictionary, true);
    dictionary.validate(message);
    return message.isSetField(tag::NoMDEntries);
}

bool peer_apply(const FIX::DataDictionary &dictionary, const std::string &bytes, PeerBoard &board) {
    FIX::Message message(bytes, dictionary, true);
    dictionary.validate(message);
    if (message.getHeader().getField(tag::MsgType) == "W") return snapshot(board, message);
    return changes(board, message);
}
