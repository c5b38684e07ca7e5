/* Perillahinge: a block map for shared tablets, proved. The C interface, for C99 and C++11.
 *
 * Every function returns, whatever numbers, bytes and records it is given, and touches only the memory that it is
 * lent. None keeps anything between calls, takes memory of its own, or reads a clock or a file: two threads may
 * call at the same time on different buffers.
 *
 * What a host must keep to (no proof sees it):
 *   - A buffer is a pointer and a length, counted in elements. The pointer is aligned for its element type and
 *     good for that many; with length 0 it may be NULL. A record lent by pointer is not NULL.
 *   - What a call may write overlaps with nothing else that the same call is lent.
 *   - Between the calls of a session nobody else writes to its cells, its record, or the journal's used bytes.
 *
 * An answer has a number: 0, or why the call was refused (enum pl_number). A refused call changes nothing: record
 * and buffers are as they were, and the other numbers of the answer are 0, but for the line of 11 and 12. Where
 * more than one cause holds, the one that the function's comment names first answers.
 */
#ifndef PERILLAHINGE_H
#define PERILLAHINGE_H

#include <stddef.h>
#include <stdint.h>

#if !defined(__x86_64__)
#error "the archive is built for x86-64 only"
#endif

#ifdef __cplusplus
extern "C" {
#endif

/* Why a call was refused. README.md says what a host does then. */
enum pl_number {
    PL_OK = 0,
    PL_SIZE = 1,            /* size not 1 to 64 */
    PL_SEED = 2,            /* seed above 10,000,000 */
    PL_SEA_LEVEL = 3,       /* sea level not -4,096 to 4,096 */
    PL_WORLD_HEIGHT = 4,    /* world height not 2 to 4,096 */
    PL_PLACE = 5,           /* a cell of the chunk would lie beyond a million */
    PL_LENGTH = 6,          /* cells, or what replaces them or takes the border, of a wrong length */
    PL_OUTSIDE = 7,         /* cell outside the chunk */
    PL_MANY_GROUPS = 8,     /* a session's batch above 16 whole groups */
    PL_JOURNAL_LENGTH = 9,  /* journal over 32,768 bytes, or more held bytes than it is long */
    PL_NO_LINE = 10,        /* no whole line among the held bytes */
    PL_FIRST_LINE = 11,     /* first line not of its form */
    PL_LATER_LINE = 12,     /* a line behind the first that is malformed, or not allowed there */
    PL_TALLY_LISTS = 13,    /* a list of the tally has fewer places than there are ids */
    PL_RECORD = 21,         /* an invalid record, or a count that does not belong to these cells */
    PL_USED_BYTES = 22,     /* undo, checkpoint, restore: the used bytes are not this record's journal */
    PL_NOTHING_ACTIVE = 23, /* undo: nothing is active */
    PL_FULL = 24,           /* no space for the line, or an edit where 256 are active */
    PL_NAME = 25,           /* a name that is not 1 to 16 bytes, each of a to z or 0 to 9 */
    PL_UNKNOWN_NAME = 26,   /* restore: no checkpoint has this name */
    PL_MANY_NAMES = 27,     /* checkpoint: a seventeenth name */
    PL_PLANES_SIZE = 28,    /* planes: size not 1, 2, 4, 8, 16, 32 or 64 */
    PL_PLANES_BYTES = 29,   /* planes: bytes not 2 * size * size * size long */
    PL_FACE = 99            /* this interface alone: a number that names no face */
};

enum pl_limit {
    PL_SIZE_MOST = 64,
    PL_SEED_MOST = 10000000,
    PL_JOURNAL_MOST = 32768,
    PL_ACTIVE_MOST = 256,
    PL_GROUPS_MOST = 16,
    PL_HEADER_MOST = 51, /* bytes of a first line with its LF, at most */
    PL_NAME_MOST = 16,   /* bytes of a checkpoint's name */
    PL_NAMES_MOST = 16   /* names of checkpoints in one journal */
};

/* The six faces of a chunk. */
enum pl_face { PL_POS_X = 0, PL_NEG_X = 1, PL_POS_Y = 2, PL_NEG_Y = 3, PL_POS_Z = 4, PL_NEG_Z = 5 };

/* Settings, within these limits: seed at most 10,000,000; sea_level from -4,096 to 4,096; world_height_blocks from 2 to
 * 4,096; chunk_size from 1 to 64. */
typedef struct pl_config {
    uint32_t seed;
    int32_t sea_level;
    int32_t world_height_blocks;
    size_t chunk_size;
} pl_config;

/* The place of a chunk. Along each axis the first cell, this number times the size, is at -1,000,000 or above, and
 * the last one at 1,000,000 or below. */
typedef struct pl_pos {
    int32_t cx;
    int32_t cy;
    int32_t cz;
} pl_pos;

/* A session's record: settings, place, number of nonzero cells, used bytes of the journal, active edits. The host
 * keeps it and lends it; it need not be stored, since reopening makes it anew from the journal. */
typedef struct pl_session {
    pl_config config;
    pl_pos pos;
    uint32_t count;
    size_t used;
    size_t active;
} pl_session;

/* The answer of a session's edit, undo, checkpoint or restore. line is 0; written is the number of a batch's groups
 * that were inside, else 0. previous is the id that the cell of a set held before, else 0. altered is how many cells
 * hold another id than before the call, whatever cells were lent: a cell that a batch sets and sets back is not among
 * them, and one that it sets twice is there once. An edit that altered none tells the other two all the same. A
 * refused call, a checkpoint, a column outside and a batch with no group inside tell 0 for all three. */
typedef struct pl_reply {
    uint32_t number;
    size_t line;
    size_t written;
    uint16_t previous;
    size_t altered;
} pl_reply;

/* The answer of a call on bare cells. line is 0; the function's comment says what value is. */
typedef struct pl_answer {
    uint32_t number;
    size_t line;
    size_t value;
} pl_answer;

/* The answer of a batch on bare cells: the groups written, and the count after them. */
typedef struct pl_batch_answer {
    uint32_t number;
    size_t line;
    size_t written;
    uint32_t count;
} pl_batch_answer;

/* The answer of a fresh session or of reopening: the record, the number of whole lines, the first included, and of
 * bytes after the last of them. Where it is refused the record is all zeros, and every edit with it gets 21. */
typedef struct pl_start {
    pl_session session;
    uint32_t number;
    size_t line;
    size_t lines;
    size_t trailing;
} pl_start;

/* The layout that the archive has; a compiler that lays a record out otherwise stops here. */
typedef char pl_config_layout[sizeof(pl_config) == 24 && offsetof(pl_config, chunk_size) == 16 ? 1 : -1];
typedef char pl_session_layout[sizeof(pl_session) == 56 && offsetof(pl_session, pos) == 24 &&
                                       offsetof(pl_session, count) == 36 && offsetof(pl_session, used) == 40
                                   ? 1
                                   : -1];
typedef char pl_reply_layout[sizeof(pl_reply) == 40 && offsetof(pl_reply, line) == 8 &&
                                     offsetof(pl_reply, previous) == 24 && offsetof(pl_reply, altered) == 32
                                 ? 1
                                 : -1];
typedef char pl_answer_layout[sizeof(pl_answer) == 24 && offsetof(pl_answer, line) == 8 ? 1 : -1];
typedef char pl_batch_layout[sizeof(pl_batch_answer) == 32 && offsetof(pl_batch_answer, count) == 24 ? 1 : -1];
typedef char pl_start_layout[sizeof(pl_start) == 88 && offsetof(pl_start, number) == 56 ? 1 : -1];

/* ---- Sessions: edits are kept in a journal, lent with the cells. The cell (x, y, z) is element x + size * (y +
 * size * z). A journal buffer has at most 32,768 bytes; an accepted call with a line writes behind the used bytes
 * alone.
 *
 * A set, column or batch after which every cell is the same is idle: it is accepted with its usual numbers, changes
 * nothing, has no line and does not become active, also where 256 edits are active or the journal is full. The call as
 * a whole decides: a batch that sets a cell and sets it back is idle, and so is a column of height 0. Older journals
 * may have lines of idle edits: they still open, and there these edits are active.
 *
 * A checkpoint remembers the active edits under a name, and a restore makes these the active ones again. A name is 1
 * to 16 bytes, each of a to z or 0 to 9, with no NUL behind them, and no part of the journal that is lent with it. The
 * same name again moves its checkpoint; there are at most 16 names, and a restore drops none. Both calls append a
 * line, also where no cell is altered, and where 256 edits are active: they are not among these. They are not undone
 * either: an undo takes back the last active edit, straight after a restore the last that the checkpoint remembered.
 * Checkpoints are in the journal, not in the record: both calls read its used bytes, and a tablet that takes over has
 * them too. */

/* Lays the ground into cells (size * size * size long) and writes the first line to the journal's start. No edit is
 * active; lines is 1. Refused: 9, 1 to 6, 24 (the first line does not fit). */
pl_start pl_session_fresh(pl_config config, pl_pos pos, uint16_t *cells, size_t cells_len, uint8_t *journal,
                          size_t journal_len);

/* Sets one cell, appends a line, and tells the id that the cell held before and how many cells it altered, 0 or 1.
 * Where the cell holds this id already it tells the id and 0, changes nothing and has no line. Refused: 21 (also where
 * the edit would move the count off its limits), 7, 24 (not where it is idle). */
pl_reply pl_session_set(pl_session *session, uint16_t *cells, size_t cells_len, uint8_t *journal,
                        size_t journal_len, size_t x, size_t y, size_t z, uint16_t id);

/* Fills a column from y 0 up to a height, which is clipped to the size, appends a line, and tells how many cells it
 * altered. Where that is 0, as with height 0 or with x or z outside, it is accepted, changes nothing and has no line.
 * Refused: 21 (also where the edit would move the count off its limits), 24 (not where it is idle). */
pl_reply pl_session_fill_column(pl_session *session, uint16_t *cells, size_t cells_len, uint8_t *journal,
                                size_t journal_len, size_t x, size_t z, size_t height, uint16_t id);

/* Sets the cells of groups x, y, z, id in their order, appends one line for all, and tells how many groups were inside
 * and how many cells it altered. edits_len counts numbers, four to a group; one to three left over are ignored, an id
 * counts modulo 65,536, a group outside is skipped. Where it altered none, or no group is inside, it is accepted,
 * changes nothing and has no line. Refused: 21 (also where the edit would move the count off its limits), 8, 24 (not
 * where it is idle). */
pl_reply pl_session_set_blocks(pl_session *session, uint16_t *cells, size_t cells_len, uint8_t *journal,
                               size_t journal_len, const uint32_t *edits, size_t edits_len);

/* Takes the last active edit back: the cells are laid anew without it, and a line is appended. It tells how many cells
 * it altered. In a map that only these calls write that is never 0, but for an idle edit that an older journal has a
 * line of: its undo is accepted and alters none. Refused: 21, 22, 23, 24 (fewer than 2 bytes left). */
pl_reply pl_session_undo(pl_session *session, uint16_t *cells, size_t cells_len, uint8_t *journal,
                         size_t journal_len);

/* Remembers the active edits under a name, or moves the checkpoint of that name, and appends a line. It is lent no
 * cells, and tells nothing. Refused: 21 (without the cells' length), 25, 22, 27, 24 (fewer than name_len + 3 bytes
 * left). */
pl_reply pl_session_checkpoint(pl_session *session, uint8_t *journal, size_t journal_len, const uint8_t *name,
                               size_t name_len);

/* Makes the edits that a checkpoint remembers the active ones: the cells are laid anew with them, and a line is
 * appended. It tells how many cells it altered, which may be 0. Every checkpoint stays, also one that was made later.
 * Refused: 21, 25, 22, 26, 24 (fewer than name_len + 3 bytes left). */
pl_reply pl_session_restore(pl_session *session, uint16_t *cells, size_t cells_len, uint8_t *journal,
                            size_t journal_len, const uint8_t *name, size_t name_len);

/* Takes a map over from the first held bytes of a journal: lays the ground and the active edits into cells. Bytes
 * after the last whole line are counted in trailing and ignored. The journal is only read; to go on, lend it to the
 * session's calls, which write behind session.used. Refused: 9, 10, 11 (line 1), 1 to 5, 6, 12 (with its line,
 * counted from 1). */
pl_start pl_session_reopen(uint16_t *cells, size_t cells_len, const uint8_t *journal, size_t journal_len, size_t held);

/* How many of the held bytes count: those through the last LF; 0 where there is none or 9 holds. Never refused. */
size_t pl_committed_len(const uint8_t *journal, size_t journal_len, size_t held);

/* ---- Cells without a session. size is 1 to 64; count is the number of nonzero cells, which the host keeps. */

/* Lays the ground into cells. Value: the count. A cell of the world has the same ground for every size; boulders and
 * trees break off at a chunk's edge, and differ (README, Chunk sizes). Refused: 1 to 6. */
pl_answer pl_generate(pl_config config, pl_pos pos, uint16_t *cells, size_t cells_len);

/* Value: the id of a cell. Refused: 1, 6, 7. */
pl_answer pl_get(const uint16_t *cells, size_t cells_len, size_t size, size_t x, size_t y, size_t z);

/* Value: 1 if the cell is air (0), else 0. Refused: 1, 6, 7. */
pl_answer pl_is_air(const uint16_t *cells, size_t cells_len, size_t size, size_t x, size_t y, size_t z);

/* Value: 1 if every cell is air, else 0. Refused: 1, 6. */
pl_answer pl_is_empty(const uint16_t *cells, size_t cells_len, size_t size);

/* Value: 1 if no cell is air, else 0. Refused: 1, 6. */
pl_answer pl_is_solid(const uint16_t *cells, size_t cells_len, size_t size);

/* Sets one cell. Value: the count. Refused: 1, 6, 7, 21 (the count). */
pl_answer pl_set(uint16_t *cells, size_t cells_len, size_t size, uint32_t count, size_t x, size_t y, size_t z,
                 uint16_t id);

/* Fills a column from y 0 up to a height, clipped to the size; with x or z outside it changes nothing. Value: the
 * count. Refused: 1, 6, 21 (the count). */
pl_answer pl_fill_column(uint16_t *cells, size_t cells_len, size_t size, uint32_t count, size_t x, size_t z,
                         size_t height, uint16_t id);

/* Sets the cells of any number of groups x, y, z, id, as pl_session_set_blocks does; 33 KiB of stack. Refused: 1, 6,
 * 21 (the count). */
pl_batch_answer pl_set_blocks(uint16_t *cells, size_t cells_len, size_t size, uint32_t count, const uint32_t *edits,
                              size_t edits_len);

/* Copies blocks over all cells. Value: the count. Refused: 1, 6 (either length). */
pl_answer pl_replace_blocks(uint16_t *cells, size_t cells_len, size_t size, const uint16_t *blocks,
                            size_t blocks_len);

/* Copies the outermost layer on a face (enum pl_face) into border, size * size long. The k-th is the cell at
 * (x, y, z) with, for the X faces, z = k % size, y = k / size; for the Y faces, x = k % size, z = k / size; for the
 * Z faces, x = k % size, y = k / size. Value: 0. Refused: 99, 1, 6 (either length). */
pl_answer pl_extract_border(const uint16_t *cells, size_t cells_len, size_t size, uint32_t face, uint16_t *border,
                            size_t border_len);

/* Lists the nonzero ids present, once each and in ascending order, in ids, and each one's number of cells at the same
 * place in counts; places past them are left as they were. Lists of cells_len places, or of 65,535, are never too
 * short. Value: how many ids. Refused: 1, 6, 13 (either list). */
pl_answer pl_tally(const uint16_t *cells, size_t cells_len, size_t size, uint16_t *ids, size_t ids_len,
                   uint32_t *counts, size_t counts_len);

/* ---- Planes: a chunk's cells as bytes for a shelf copy, near cells near each other. The cells are taken in Morton
 * order: the position of the cell (x, y, z) has bit 0 of x, of y and of z as its bits 0, 1 and 2, bit 1 of each as its
 * bits 3, 4 and 5, and so on. The byte at a position is that cell's id modulo 256; the byte size * size * size further
 * on is its id divided by 256. Each call undoes the other, whatever ids and bytes they are. size is 1, 2, 4, 8, 16, 32
 * or 64. The bytes tell neither size nor settings nor place, and have no checksum: a host keeps those beside them. */

/* Copies the cells into bytes, 2 * size * size * size long. Value: 0. Refused: 28, 6, 29. */
pl_answer pl_to_planes(const uint16_t *cells, size_t cells_len, size_t size, uint8_t *bytes, size_t bytes_len);

/* Restores the cells from bytes, 2 * size * size * size long. Value: 0. Refused: 28, 6, 29. */
pl_answer pl_from_planes(const uint8_t *bytes, size_t bytes_len, size_t size, uint16_t *cells, size_t cells_len);

/* ---- The noise under the ground, for comparisons: they answer for every number, NaN and infinities too. */

float pl_hash2(int32_t x, int32_t y);
float pl_hash3(int32_t x, int32_t y, int32_t z);
float pl_noise2d(float x, float y);
float pl_noise3d(float x, float y, float z);
float pl_fbm2d(float x, float y, uint32_t octaves);
float pl_fbm3d(float x, float y, float z, uint32_t octaves);

#ifdef __cplusplus
}
#endif

#endif
