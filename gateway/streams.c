/* Joins the recordings of the incremental stream and of the snapshot stream. */
#include "streams.h"

#include "message.h"

void streams_begin(struct streams *streams, const struct request *request, struct files files,
                   struct progress *progress)
{
    streams->request = request;
    streams->left_out = 0;
    recording_begin(&streams->incremental.recording, files.recording, progress);
    recording_begin(&streams->snapshots.recording, files.snapshots, NULL);
    streams->incremental.at_hand = false;
    streams->snapshots.at_hand = files.snapshots < 0;
    streams->snapshots.next = (struct piece){.kind = PIECE_END};
}

/* Says whether a piece of the snapshot stream is a message that is to be left out. */
static bool is_left_out(const struct piece *piece)
{
    return piece->kind == PIECE_MESSAGE && !message_has_type(piece, 'W');
}

static void bring_incremental(struct stream *stream)
{
    if (!stream->at_hand)
        recording_next(&stream->recording, &stream->next);
    stream->at_hand = true;
}

static void bring_snapshot(struct streams *streams)
{
    struct stream *stream = &streams->snapshots;
    while (!stream->at_hand) {
        recording_next(&stream->recording, &stream->next);
        stream->next.of_snapshots = true;
        stream->at_hand = !is_left_out(&stream->next);
        streams->left_out += !stream->at_hand;
    }
}

static bool piece_time(const struct piece *piece, int64_t *ms)
{
    return piece->kind == PIECE_MESSAGE && message_time(piece, ms);
}

static bool snapshot_is_next(const struct piece *incremental, const struct piece *snapshot)
{
    int64_t incremental_ms, snapshot_ms;
    if (snapshot->kind == PIECE_END || incremental->kind == PIECE_END)
        return snapshot->kind != PIECE_END;
    if (!piece_time(snapshot, &snapshot_ms))
        return true;
    return piece_time(incremental, &incremental_ms) && snapshot_ms < incremental_ms;
}

void streams_next(struct streams *streams, struct piece *piece)
{
    bring_incremental(&streams->incremental);
    bring_snapshot(streams);
    struct stream *next = snapshot_is_next(&streams->incremental.next, &streams->snapshots.next)
                              ? &streams->snapshots
                              : &streams->incremental;
    *piece = next->next;
    next->at_hand = piece->kind == PIECE_END;
}

enum status streams_status(const struct streams *streams)
{
    enum status status =
        reading_status(streams->request->path, streams->incremental.recording.failure);
    if (status != STATUS_GOOD)
        return status;
    return reading_status(streams->request->snapshots, streams->snapshots.recording.failure);
}
