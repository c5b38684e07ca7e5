/* An example host: a fresh map, presses, a cut at every byte, and the next tablet takes over; and a shelf copy of
 * a chunk, written and restored (shelf_copy, shelf_restore). It is C99 and C++11.
 * It exits with 1, and says where, if an answer or a map is not what it must be. */
#include "perillahinge.h"
#include <stdio.h>
#include <stdlib.h>
#include <string.h>

#define CHECK(holds)                                                                                                \
    do {                                                                                                            \
        if (!(holds)) {                                                                                             \
            fprintf(stderr, "%s:%d: not so: %s\n", __FILE__, __LINE__, #holds);                                     \
            exit(1);                                                                                                \
        }                                                                                                           \
    } while (0)

enum { SIZE = 5, CELLS = SIZE * SIZE * SIZE, JOURNAL = 512, PRESSES = 11 };

/* Where the cells of a visit's two sets are. */
enum { AT_1_2_3 = 1 + SIZE * (2 + SIZE * 3), AT_4_0_4 = 4 + SIZE * (0 + SIZE * 4) };

/* One tablet: what the host keeps, and lends to each call. */
typedef struct tablet {
    pl_session session;
    uint16_t cells[CELLS];
    uint8_t journal[JOURNAL];
} tablet;

/* What outlives a tablet: here a buffer, in a real host a file. All bytes before `confirmed` are stored for certain. */
typedef struct storage {
    uint8_t bytes[JOURNAL];
    size_t confirmed;
} storage;

/* Stores what a call appended. A file would be written and synced before `confirmed` moves. */
static void store(storage *file, const tablet *t) {
    memcpy(file->bytes + file->confirmed, t->journal + file->confirmed, t->session.used - file->confirmed);
    file->confirmed = t->session.used;
}

static int same_session(const pl_session *a, const pl_session *b) {
    return a->config.seed == b->config.seed && a->config.sea_level == b->config.sea_level &&
           a->config.world_height_blocks == b->config.world_height_blocks &&
           a->config.chunk_size == b->config.chunk_size && a->pos.cx == b->pos.cx && a->pos.cy == b->pos.cy &&
           a->pos.cz == b->pos.cz && a->count == b->count && a->used == b->used && a->active == b->active;
}

/* The same map: record, cells, and the journal's used bytes. */
static int same_map(const tablet *a, const tablet *b) {
    return same_session(&a->session, &b->session) && memcmp(a->cells, b->cells, sizeof a->cells) == 0 &&
           memcmp(a->journal, b->journal, a->session.used) == 0;
}

static uint32_t nonzero(const uint16_t *cells, size_t n) {
    uint32_t count = 0;
    for (size_t i = 0; i < n; i++)
        count += cells[i] != 0;
    return count;
}

/* How many of n cells hold another id in b than in a. */
static size_t differing(const uint16_t *a, const uint16_t *b, size_t n) {
    size_t count = 0;
    for (size_t i = 0; i < n; i++)
        count += a[i] != b[i];
    return count;
}

/* Whether a press was accepted and tells these numbers. */
static int tells(pl_reply r, size_t written, uint16_t previous, size_t altered) {
    return r.number == PL_OK && r.line == 0 && r.written == written && r.previous == previous && r.altered == altered;
}

/* Whether a press was refused with this number, and tells nothing else. */
static int refused(pl_reply r, uint32_t number) {
    return r.number == number && r.line == 0 && r.written == 0 && r.previous == 0 && r.altered == 0;
}

static size_t lines_in(const uint8_t *bytes, size_t n) {
    size_t lines = 0;
    for (size_t i = 0; i < n; i++)
        lines += bytes[i] == '\n';
    return lines;
}

/* Lends a text as a name, without its NUL. */
static pl_reply checkpoint(pl_session *s, uint8_t *journal, size_t lent, const char *name) {
    return pl_session_checkpoint(s, journal, lent, (const uint8_t *)name, strlen(name));
}

static pl_reply restore(pl_session *s, uint16_t *cells, size_t n, uint8_t *journal, size_t lent, const char *name) {
    return pl_session_restore(s, cells, n, journal, lent, (const uint8_t *)name, strlen(name));
}

/* The visit's checkpoint and its restore among the presses, and how many lines there are with the checkpoint's: the map
 * after them is what "walls" remembers. */
enum { CHECKPOINT = 4, RESTORE = 9, WALLS = CHECKPOINT + 2 };

/* The presses of a visit; each appends one line, and each but the checkpoint alters a cell. */
static pl_reply press(tablet *t, int k) {
    static const uint32_t groups[] = {0, 0, 0, 9, 4, 4, 4, 65536 + 3, 5, 0, 0, 1, 7};
    pl_session *s = &t->session;
    switch (k) {
    case 0:
        return pl_session_set(s, t->cells, CELLS, t->journal, JOURNAL, 1, 2, 3, 65535);
    case 1:
        return pl_session_fill_column(s, t->cells, CELLS, t->journal, JOURNAL, 2, 2, 1000, 8);
    case 2:
        return pl_session_set_blocks(s, t->cells, CELLS, t->journal, JOURNAL, groups, 13);
    case 3:
        return pl_session_undo(s, t->cells, CELLS, t->journal, JOURNAL);
    case CHECKPOINT:
        return checkpoint(s, t->journal, JOURNAL, "walls");
    case 5:
        return pl_session_set(s, t->cells, CELLS, t->journal, JOURNAL, 4, 0, 4, 0);
    case 6:
        return pl_session_undo(s, t->cells, CELLS, t->journal, JOURNAL);
    case 7:
        return pl_session_undo(s, t->cells, CELLS, t->journal, JOURNAL);
    case 8:
        return pl_session_fill_column(s, t->cells, CELLS, t->journal, JOURNAL, 0, 4, 3, 300);
    case RESTORE:
        return restore(s, t->cells, CELLS, t->journal, JOURNAL, "walls");
    default:
        return pl_session_undo(s, t->cells, CELLS, t->journal, JOURNAL);
    }
}

/* A tablet with so many whole lines restores "walls", unless it has no line of it. */
static void restores(const tablet *t, size_t lines, const tablet *maps) {
    tablet next = *t;
    const tablet *walls = &maps[WALLS - 1];
    const pl_reply r = restore(&next.session, next.cells, CELLS, next.journal, JOURNAL, "walls");
    if (lines < WALLS) {
        CHECK(refused(r, PL_UNKNOWN_NAME) && same_map(&next, t));
        return;
    }
    CHECK(tells(r, 0, 0, differing(t->cells, walls->cells, CELLS)));
    CHECK(memcmp(next.cells, walls->cells, sizeof next.cells) == 0 && next.session.count == walls->session.count);
    CHECK(next.session.active == walls->session.active && next.session.used == t->session.used + 8);
}

/* The next tablet gets the first q bytes, then zeros, and must have the map of the last whole line. */
static void take_over(const storage *file, size_t q, const tablet *maps) {
    tablet next;
    memset(&next, 0xee, sizeof next);
    memset(next.journal, 0, JOURNAL);
    memcpy(next.journal, file->bytes, q);
    const size_t lines = lines_in(file->bytes, q);
    const size_t held = q + 7 < JOURNAL ? q + 7 : q;
    const pl_start start = pl_session_reopen(next.cells, CELLS, next.journal, JOURNAL, held);
    if (lines == 0) {
        CHECK(start.number == PL_NO_LINE && start.line == 0 && start.lines == 0);
        CHECK(pl_committed_len(next.journal, JOURNAL, held) == 0);
        CHECK(next.cells[0] == 0xeeee);
        return;
    }
    CHECK(start.number == PL_OK && start.lines == lines);
    next.session = start.session;
    CHECK(same_map(&next, &maps[lines - 1]));
    CHECK(start.trailing == held - start.session.used);
    CHECK(pl_committed_len(next.journal, JOURNAL, held) == start.session.used);

    /* It has the checkpoint too, unless its line was cut off. */
    restores(&next, lines, maps);

    /* It goes on from there. A press that puts the id that is there changes nothing. */
    pl_session *s = &next.session;
    const uint16_t before = next.cells[AT_1_2_3];
    const uint16_t id = before == 1 ? 2 : 1;
    CHECK(tells(pl_session_set(s, next.cells, CELLS, next.journal, JOURNAL, 1, 2, 3, before), 0, before, 0));
    CHECK(same_map(&next, &maps[lines - 1]));
    /* Another id tells the one that it replaced, and its undo brings the map back. */
    CHECK(tells(pl_session_set(s, next.cells, CELLS, next.journal, JOURNAL, 1, 2, 3, id), 0, before, 1));
    CHECK(next.cells[AT_1_2_3] == id && next.session.active == maps[lines - 1].session.active + 1);
    CHECK(tells(pl_session_undo(s, next.cells, CELLS, next.journal, JOURNAL), 0, 0, 1));
    CHECK(memcmp(next.cells, maps[lines - 1].cells, sizeof next.cells) == 0);
    CHECK(next.session.active == maps[lines - 1].session.active && next.session.count == maps[lines - 1].session.count);
}

/* A refused call changes nothing. */
static void refusals(const tablet *last) {
    static const char *const bad[] = {"", "abcdefghijklmnopq", "Walls", "walls done", "walls\n", "a\tb", "caf\xc3\xa9"};
    tablet t = *last;
    const uint32_t many[68] = {0};
    pl_session *s = &t.session;
    CHECK(refused(pl_session_set(s, t.cells, CELLS, t.journal, JOURNAL, SIZE, 0, 0, 1), PL_OUTSIDE));
    CHECK(refused(pl_session_set_blocks(s, t.cells, CELLS, t.journal, JOURNAL, many, 68), PL_MANY_GROUPS));
    CHECK(refused(pl_session_set(s, t.cells, CELLS, t.journal, t.session.used, 0, 0, 0, 77), PL_FULL));
    CHECK(refused(pl_session_set(s, t.cells, CELLS - 1, t.journal, JOURNAL, 0, 0, 0, 1), PL_RECORD));
    CHECK(refused(pl_session_set(s, NULL, 0, NULL, 0, 0, 0, 0, 1), PL_RECORD));
    CHECK(tells(pl_session_fill_column(s, t.cells, CELLS, t.journal, JOURNAL, SIZE, 0, 3, 1), 0, 0, 0));
    for (size_t i = 0; i < sizeof bad / sizeof *bad; i++) {
        CHECK(refused(checkpoint(s, t.journal, JOURNAL, bad[i]), PL_NAME));
        CHECK(refused(restore(s, t.cells, CELLS, t.journal, JOURNAL, bad[i]), PL_NAME));
    }
    CHECK(refused(pl_session_checkpoint(s, t.journal, JOURNAL, NULL, 0), PL_NAME));
    /* A name with the NUL behind it. */
    CHECK(refused(pl_session_checkpoint(s, t.journal, JOURNAL, (const uint8_t *)"walls", 6), PL_NAME));
    CHECK(refused(restore(s, t.cells, CELLS, t.journal, JOURNAL, "roof"), PL_UNKNOWN_NAME));
    CHECK(refused(restore(s, t.cells, CELLS - 1, t.journal, JOURNAL, "Roof"), PL_RECORD));
    CHECK(refused(checkpoint(s, t.journal, t.session.used - 1, "Roof"), PL_RECORD));
    /* The line of "walls" has 8 bytes. */
    CHECK(refused(checkpoint(s, t.journal, t.session.used + 7, "walls"), PL_FULL));
    CHECK(refused(restore(s, t.cells, CELLS, t.journal, t.session.used + 7, "walls"), PL_FULL));
    CHECK(same_map(&t, last) && memcmp(t.journal, last->journal, JOURNAL) == 0);

    t.journal[0] = 'H';
    CHECK(refused(pl_session_undo(s, t.cells, CELLS, t.journal, JOURNAL), PL_USED_BYTES));
    CHECK(refused(checkpoint(s, t.journal, JOURNAL, "walls"), PL_USED_BYTES));
    CHECK(refused(restore(s, t.cells, CELLS, t.journal, JOURNAL, "roof"), PL_USED_BYTES));
    CHECK(refused(restore(s, t.cells, CELLS, t.journal, JOURNAL, "Roof"), PL_NAME));
    const pl_start start = pl_session_reopen(t.cells, CELLS, t.journal, JOURNAL, s->used);
    CHECK(start.number == PL_FIRST_LINE && start.line == 1 && start.session.config.chunk_size == 0);
    t.session = start.session;
    CHECK(refused(pl_session_undo(s, t.cells, CELLS, t.journal, JOURNAL), PL_RECORD));
    CHECK(refused(checkpoint(s, t.journal, JOURNAL, "walls"), PL_RECORD));
    CHECK(memcmp(t.cells, last->cells, sizeof t.cells) == 0);
}

/* The calls without a session, on the last map's cells. */
static void bare(const tablet *last) {
    tablet t = *last;
    uint16_t border[SIZE * SIZE], ids[CELLS];
    uint32_t counts[CELLS];
    pl_answer a = pl_set(t.cells, CELLS, SIZE, t.session.count, 0, 0, 0, 77);
    CHECK(a.number == PL_OK && a.line == 0 && a.value == nonzero(t.cells, CELLS) && t.cells[0] == 77);
    CHECK(pl_get(t.cells, CELLS, SIZE, 0, 0, 0).value == 77 && pl_is_air(t.cells, CELLS, SIZE, 0, 0, 0).value == 0);
    CHECK(pl_get(t.cells, CELLS, SIZE, 0, SIZE, 0).number == PL_OUTSIDE);
    CHECK(pl_extract_border(t.cells, CELLS, SIZE, PL_NEG_X, border, SIZE * SIZE).number == PL_OK && border[0] == 77);
    border[0] = 1;
    CHECK(pl_extract_border(t.cells, CELLS, SIZE, 6, border, SIZE * SIZE).number == PL_FACE && border[0] == 1);
    a = pl_tally(t.cells, CELLS, SIZE, ids, CELLS, counts, CELLS);
    uint32_t sum = 0;
    for (size_t i = 0; i < a.value; i++)
        sum += counts[i];
    CHECK(a.number == PL_OK && sum == nonzero(t.cells, CELLS));
    CHECK(pl_tally(t.cells, CELLS, SIZE, ids, 0, counts, 0).number == PL_TALLY_LISTS);
    memset(border, 0, sizeof border);
    CHECK(pl_is_empty(border, 8, 2).value == 1 && pl_is_solid(border, 8, 2).value == 0);
    const uint32_t two[8] = {0, 0, 0, 5, 1, 1, 1, 6};
    const pl_batch_answer b = pl_set_blocks(border, 8, 2, 0, two, 8);
    CHECK(b.number == PL_OK && b.written == 2 && b.count == 2 && border[0] == 5 && border[7] == 6);
    a = pl_fill_column(border, 8, 2, 2, 1, 0, 9, 4);
    CHECK(a.number == PL_OK && a.value == 4 && border[1] == 4 && border[3] == 4);
    CHECK(pl_replace_blocks(border, 8, 2, t.cells, 8).value == nonzero(t.cells, 8));
    CHECK(memcmp(border, t.cells, 16) == 0);
    a = pl_generate(last->session.config, last->session.pos, t.cells, CELLS);
    CHECK(a.number == PL_OK && a.value == nonzero(t.cells, CELLS));
}

/* The example of the scope document: its text, and what it says the map is. */
static void example(void) {
    static const char text[] = "G\t0\t4096\t256\t2\t0\t128\t0\nS\t0\t0\t0\t0\nC\t1\t0\t2\t8\nU\nS\t1";
    static const uint16_t wanted[8] = {0, 5, 5, 5, 5, 5, 5, 5};
    uint16_t cells[8];
    const size_t n = sizeof text - 1;
    const pl_start start = pl_session_reopen(cells, 8, (const uint8_t *)text, n, n);
    CHECK(start.number == PL_OK && start.lines == 4 && start.session.active == 1);
    CHECK(start.session.count == 7 && start.trailing == 3 && memcmp(cells, wanted, sizeof cells) == 0);
}

/* A map of eight cells. */
typedef struct small {
    pl_session session;
    uint16_t cells[8];
    uint8_t journal[JOURNAL];
} small;

/* Presses after which every cell is the same, on a journal of `lent` bytes: they are accepted with their usual numbers,
 * and record, cells and journal are as they were. */
static void idle(small *t, size_t lent) {
    const small before = *t;
    const uint16_t id = t->cells[0];
    const uint32_t back[] = {0, 0, 0, id == 1 ? 2u : 1u, 0, 0, 0, id};
    pl_session *s = &t->session;
    CHECK(tells(pl_session_set(s, t->cells, 8, t->journal, lent, 0, 0, 0, id), 0, id, 0));
    CHECK(tells(pl_session_fill_column(s, t->cells, 8, t->journal, lent, 0, 0, 1, id), 0, 0, 0));
    CHECK(tells(pl_session_fill_column(s, t->cells, 8, t->journal, lent, 1, 1, 0, 8), 0, 0, 0));
    CHECK(tells(pl_session_set_blocks(s, t->cells, 8, t->journal, lent, back, 8), 2, 0, 0));
    CHECK(same_session(s, &before.session) && memcmp(t->cells, before.cells, sizeof before.cells) == 0);
    CHECK(memcmp(t->journal, before.journal, JOURNAL) == 0);
}

/* What presses tell on eight cells of water (5), worked out by hand. */
static void worked_out(void) {
    /* (1, 1, 1) is set and set back; (0, 0, 1) is set twice, from 5 to 7 in the end; (0, 0, 0) has its 9 already;
     * (2, 0, 0) lies outside. Five groups are inside, and one cell is altered. */
    static const uint32_t groups[] = {1, 1, 1, 8, 1, 1, 1, 5, 0, 0, 1, 8, 0, 0, 1, 7, 0, 0, 0, 9, 2, 0, 0, 1};
    static const char text[] = "G\t0\t4096\t256\t2\t0\t128\t0\nS\t0\t0\t0\t9\nC\t0\t0\t2\t9\n"
                               "B\t5\t1\t1\t1\t8\t1\t1\t1\t5\t0\t0\t1\t8\t0\t0\t1\t7\t0\t0\t0\t9\nU\nU\nU\n";
    const pl_config config = {0, 4096, 256, 2};
    const pl_pos pos = {0, 128, 0};
    small t;
    memset(&t, 0, sizeof t);
    const pl_start start = pl_session_fresh(config, pos, t.cells, 8, t.journal, JOURNAL);
    CHECK(start.number == PL_OK && start.session.count == 8 && t.cells[0] == 5 && t.cells[7] == 5);
    t.session = start.session;
    pl_session *s = &t.session;
    idle(&t, JOURNAL);
    CHECK(refused(pl_session_undo(s, t.cells, 8, t.journal, JOURNAL), PL_NOTHING_ACTIVE));
    CHECK(tells(pl_session_set(s, t.cells, 8, t.journal, JOURNAL, 0, 0, 0, 9), 0, 5, 1));
    idle(&t, JOURNAL);
    /* The column's two cells hold 9 and 5. */
    CHECK(tells(pl_session_fill_column(s, t.cells, 8, t.journal, JOURNAL, 0, 0, 7, 9), 0, 0, 1));
    CHECK(tells(pl_session_set_blocks(s, t.cells, 8, t.journal, JOURNAL, groups, 24), 5, 0, 1));
    idle(&t, JOURNAL);
    /* A journal of which all bytes are used has no space for a line. */
    idle(&t, s->used);
    CHECK(refused(pl_session_set(s, t.cells, 8, t.journal, s->used, 0, 0, 0, 5), PL_FULL));
    /* Back from 7 to 5, from 9 to 5, from 9 to 5: what altered nothing is not active. */
    for (int k = 0; k < 3; k++)
        CHECK(tells(pl_session_undo(s, t.cells, 8, t.journal, JOURNAL), 0, 0, 1));
    CHECK(refused(pl_session_undo(s, t.cells, 8, t.journal, JOURNAL), PL_NOTHING_ACTIVE));
    CHECK(s->used == sizeof text - 1 && memcmp(t.journal, text, sizeof text - 1) == 0);
}

/* An older journal has lines of presses that altered nothing. It opens, and they are active: their undos alter nothing.
 * Of its four edits only the second, 9 on (0, 0, 0), altered a cell. */
static void older(void) {
    static const char text[] = "G\t0\t4096\t256\t2\t0\t128\t0\nS\t0\t0\t0\t5\nS\t0\t0\t0\t9\nC\t1\t0\t0\t8\n"
                               "B\t2\t1\t1\t1\t8\t1\t1\t1\t5\n";
    static const size_t altered[4] = {0, 0, 1, 0};
    const size_t n = sizeof text - 1;
    small t;
    memset(&t, 0, sizeof t);
    memcpy(t.journal, text, n);
    const pl_start start = pl_session_reopen(t.cells, 8, t.journal, JOURNAL, n);
    CHECK(start.number == PL_OK && start.lines == 5 && start.session.active == 4 && t.cells[0] == 9);
    t.session = start.session;
    idle(&t, JOURNAL);
    for (int k = 0; k < 4; k++)
        CHECK(tells(pl_session_undo(&t.session, t.cells, 8, t.journal, JOURNAL), 0, 0, altered[k]));
    CHECK(t.cells[0] == 5 && t.session.used == n + 4 * 2);
    CHECK(refused(pl_session_undo(&t.session, t.cells, 8, t.journal, JOURNAL), PL_NOTHING_ACTIVE));
}

/* Whether the eight cells of a map hold these ids. */
static int holds(const small *t, const uint16_t *wanted) {
    return memcmp(t->cells, wanted, sizeof t->cells) == 0 && t->session.count == nonzero(wanted, 8);
}

/* Two walls of stone (1), a roof of logs (8) that is tried, and back to the walls: on eight cells of water (5), worked
 * out by hand. Then a cut in the last line, and the next tablet goes on. */
static void walls_and_roof(void) {
    static const uint32_t logs[] = {0, 1, 0, 8, 1, 1, 0, 8, 0, 1, 1, 8, 1, 1, 1, 8};
    static const uint16_t walls[8] = {1, 5, 5, 5, 5, 1, 5, 5}, roof[8] = {1, 5, 8, 8, 5, 1, 8, 8};
    static const uint16_t moved[8] = {1, 7, 5, 5, 5, 5, 5, 5};
    static const char text[] = "G\t0\t4096\t256\t2\t0\t128\t0\nC\t0\t0\t1\t1\nC\t1\t1\t1\t1\nM\twalls\n"
                               "B\t4\t0\t1\t0\t8\t1\t1\t0\t8\t0\t1\t1\t8\t1\t1\t1\t8\nM\troof\n"
                               "S\t0\t0\t0\t0\nR\twalls\nR\twalls\n";
    const pl_config config = {0, 4096, 256, 2};
    const pl_pos pos = {0, 128, 0};
    const size_t n = sizeof text - 1;
    small t;
    memset(&t, 0, sizeof t);
    pl_session *s = &t.session;
    *s = pl_session_fresh(config, pos, t.cells, 8, t.journal, JOURNAL).session;
    CHECK(refused(restore(s, t.cells, 8, t.journal, JOURNAL, "walls"), PL_UNKNOWN_NAME));
    CHECK(tells(pl_session_fill_column(s, t.cells, 8, t.journal, JOURNAL, 0, 0, 1, 1), 0, 0, 1));
    CHECK(tells(pl_session_fill_column(s, t.cells, 8, t.journal, JOURNAL, 1, 1, 1, 1), 0, 0, 1));
    CHECK(tells(checkpoint(s, t.journal, JOURNAL, "walls"), 0, 0, 0));
    CHECK(tells(pl_session_set_blocks(s, t.cells, 8, t.journal, JOURNAL, logs, 16), 4, 0, 4) && holds(&t, roof));
    CHECK(tells(checkpoint(s, t.journal, JOURNAL, "roof"), 0, 0, 0));
    /* A door: stone becomes air. The restore alters the four logs and the door, then nothing; it has its line. */
    CHECK(tells(pl_session_set(s, t.cells, 8, t.journal, JOURNAL, 0, 0, 0, 0), 0, 1, 1) && s->active == 4);
    CHECK(tells(restore(s, t.cells, 8, t.journal, JOURNAL, "walls"), 0, 0, 5) && holds(&t, walls));
    CHECK(tells(restore(s, t.cells, 8, t.journal, JOURNAL, "walls"), 0, 0, 0) && holds(&t, walls));
    CHECK(s->active == 2 && s->used == n && memcmp(t.journal, text, n) == 0);

    memset(t.cells, 0xee, sizeof t.cells);
    const pl_start start = pl_session_reopen(t.cells, 8, t.journal, JOURNAL, n - 3);
    CHECK(start.number == PL_OK && start.lines == 8 && start.trailing == 5);
    *s = start.session;
    CHECK(s->active == 2 && holds(&t, walls));
    /* A later checkpoint stays when an earlier one is restored. */
    CHECK(tells(restore(s, t.cells, 8, t.journal, JOURNAL, "roof"), 0, 0, 4) && holds(&t, roof));
    CHECK(tells(restore(s, t.cells, 8, t.journal, JOURNAL, "walls"), 0, 0, 4) && holds(&t, walls));
    /* Undone is the last edit that came back, the second wall. */
    CHECK(tells(pl_session_undo(s, t.cells, 8, t.journal, JOURNAL), 0, 0, 1) && s->active == 1);
    CHECK(tells(pl_session_set(s, t.cells, 8, t.journal, JOURNAL, 1, 0, 0, 7), 0, 5, 1));
    /* The name moves. The roof differs in its four logs, in (1, 0, 0) and in the second wall. */
    CHECK(tells(checkpoint(s, t.journal, JOURNAL, "walls"), 0, 0, 0));
    CHECK(tells(restore(s, t.cells, 8, t.journal, JOURNAL, "roof"), 0, 0, 6) && holds(&t, roof));
    CHECK(tells(restore(s, t.cells, 8, t.journal, JOURNAL, "walls"), 0, 0, 6) && holds(&t, moved));
    CHECK(tells(checkpoint(s, t.journal, JOURNAL, "a16bytenamefits0"), 0, 0, 0) && s->active == 2);
}

/* Sixteen names and a seventeenth, where 256 edits are active: names are not among these. */
static void many_names(void) {
    static uint8_t journal[4096];
    const pl_config config = {0, 4096, 256, 2};
    const pl_pos pos = {0, 128, 0};
    uint16_t cells[8];
    char name[] = "a";
    pl_session s = pl_session_fresh(config, pos, cells, 8, journal, sizeof journal).session;
    for (uint16_t k = 0; k < PL_ACTIVE_MOST; k++)
        CHECK(pl_session_set(&s, cells, 8, journal, sizeof journal, 0, 0, 0, (uint16_t)(100 + k)).number == PL_OK);
    CHECK(refused(pl_session_set(&s, cells, 8, journal, sizeof journal, 0, 0, 0, 1), PL_FULL));
    for (; *name < 'a' + PL_NAMES_MOST; ++*name)
        CHECK(tells(checkpoint(&s, journal, sizeof journal, name), 0, 0, 0));
    CHECK(refused(checkpoint(&s, journal, sizeof journal, "q"), PL_MANY_NAMES));
    CHECK(refused(checkpoint(&s, journal, s.used, "q"), PL_MANY_NAMES));
    CHECK(refused(restore(&s, cells, 8, journal, s.used, "q"), PL_UNKNOWN_NAME));
    CHECK(tells(restore(&s, cells, 8, journal, sizeof journal, "p"), 0, 0, 0) && s.active == PL_ACTIVE_MOST);
    /* What is undone is the last edit, not a checkpoint: 355 becomes 354. A known name moves. */
    CHECK(tells(pl_session_undo(&s, cells, 8, journal, sizeof journal), 0, 0, 1) && cells[0] == 354);
    CHECK(tells(checkpoint(&s, journal, sizeof journal, "a"), 0, 0, 0));
    CHECK(tells(restore(&s, cells, 8, journal, sizeof journal, "p"), 0, 0, 1) && cells[0] == 355);
    /* Four bytes are enough for a name of one. */
    CHECK(refused(restore(&s, cells, 8, journal, s.used + 3, "a"), PL_FULL));
    CHECK(tells(restore(&s, cells, 8, journal, s.used + 4, "a"), 0, 0, 1) && cells[0] == 354);
    CHECK(s.active == PL_ACTIVE_MOST - 1);
}

/* In a stored journal a name that no line before has, a bad one and a seventeenth are each 12, with their line. */
static void stored_names(void) {
    static const struct {
        const char *lines;
        size_t line;
    } bad[] = {
        {"M\twalls\nR\troof\n", 3},
        {"R\twalls\nM\twalls\n", 2},
        {"M\twalls\nM\tWalls\n", 3},
        {"M\t\n", 2},
        {"M\twalls\t\n", 2},
        {"M\ta\nS\t0\t0\t0\t9\nR\ta\nU\n", 5},
        {"M\ta\nM\tb\nM\tc\nM\td\nM\te\nM\tf\nM\tg\nM\th\nM\ti\nM\tj\nM\tk\nM\tl\nM\tm\nM\tn\nM\to\nM\tp\n"
         "M\ta\nM\tq\n",
         19},
    };
    for (size_t i = 0; i < sizeof bad / sizeof *bad; i++) {
        uint8_t text[JOURNAL];
        uint16_t cells[8];
        const int n = snprintf((char *)text, sizeof text, "G\t0\t4096\t256\t2\t0\t128\t0\n%s", bad[i].lines);
        const pl_start start = pl_session_reopen(cells, 8, text, sizeof text, (size_t)n);
        CHECK(start.number == PL_LATER_LINE && start.line == bad[i].line);
    }
}

/* Tallies of eight cells, worked out by hand: ids that do not stand in ascending order, one id, none. The lists hold 7
 * before, and keep it past the ids. */
static void tallies(void) {
    static const struct {
        uint16_t cells[8];
        size_t n;
        uint16_t ids[5];
        uint32_t counts[5];
    } wanted[3] = {
        {{5, 65535, 5, 0, 3, 40000, 3, 5}, 4, {3, 5, 40000, 65535, 7}, {2, 3, 1, 1, 7}},
        {{0, 300, 0, 0, 300, 300, 0, 0}, 1, {300, 7, 7, 7, 7}, {3, 7, 7, 7, 7}},
        {{0, 0, 0, 0, 0, 0, 0, 0}, 0, {7, 7, 7, 7, 7}, {7, 7, 7, 7, 7}},
    };
    for (size_t i = 0; i < 3; i++) {
        uint16_t ids[5] = {7, 7, 7, 7, 7};
        uint32_t counts[5] = {7, 7, 7, 7, 7};
        const pl_answer a = pl_tally(wanted[i].cells, 8, 2, ids, 5, counts, 5);
        CHECK(a.number == PL_OK && a.line == 0 && a.value == wanted[i].n);
        CHECK(memcmp(ids, wanted[i].ids, sizeof ids) == 0 && memcmp(counts, wanted[i].counts, sizeof counts) == 0);
    }
}

/* The greatest seed, in the longest first line: it fills a journal of its length, reopens, and one more is refused. */
static void seeds(void) {
    static const char text[] = "G\t10000000\t-4096\t4096\t1\t-1000000\t-1000000\t-1000000\n";
    const pl_pos pos = {-1000000, -1000000, -1000000};
    pl_config config = {PL_SEED_MOST, -4096, 4096, 1};
    uint8_t journal[PL_HEADER_MOST] = {0};
    uint16_t cell = 77, again = 77;
    CHECK(pl_session_fresh(config, pos, &cell, 1, journal, PL_HEADER_MOST - 1).number == PL_FULL);
    config.seed++;
    CHECK(pl_session_fresh(config, pos, &cell, 1, journal, PL_HEADER_MOST).number == PL_SEED);
    CHECK(pl_generate(config, pos, &cell, 1).number == PL_SEED);
    CHECK(cell == 77 && journal[0] == 0);
    config.seed--;
    pl_start start = pl_session_fresh(config, pos, &cell, 1, journal, PL_HEADER_MOST);
    CHECK(start.number == PL_OK && start.session.used == PL_HEADER_MOST && cell != 77);
    CHECK(sizeof text - 1 == PL_HEADER_MOST && memcmp(journal, text, PL_HEADER_MOST) == 0);
    start = pl_session_reopen(&again, 1, journal, PL_HEADER_MOST, PL_HEADER_MOST);
    CHECK(start.number == PL_OK && start.session.config.seed == PL_SEED_MOST && again == cell);
    journal[9] = '1';
    start = pl_session_reopen(&again, 1, journal, PL_HEADER_MOST, PL_HEADER_MOST);
    CHECK(start.number == PL_SEED && again == cell);
}

/* A viewer's cubes and a tablet's chunk over the same box of the world. */
enum { TABLET = 32, VIEWER = 16, CUBES = TABLET / VIEWER };

/* What a chunk may have where the ground before boulders and trees is air: also stone, a log, leaves. And where it is
 * water: also stone. */
static int over_air(uint16_t id) {
    return id == 0 || id == 1 || id == 8 || id == 9;
}

static int over_water(uint16_t id) {
    return id == 5 || id == 1;
}

/* Whether two chunks of any sizes may have these ids at one cell of the world. */
static int one_ground(uint16_t a, uint16_t b) {
    return a == b || (over_air(a) && over_air(b)) || (over_water(a) && over_water(b));
}

/* Lays one cube of the viewer's and looks its cells up in the tablet's chunk. Answers how many differ. */
static size_t look_up(const uint16_t *chunk, pl_config config, pl_pos pos, size_t x, size_t y, size_t z) {
    static uint16_t cube[VIEWER * VIEWER * VIEWER];
    const pl_pos place = {pos.cx * CUBES + (int32_t)x, pos.cy * CUBES + (int32_t)y, pos.cz * CUBES + (int32_t)z};
    size_t apart = 0;
    config.chunk_size = VIEWER;
    CHECK(pl_generate(config, place, cube, sizeof cube / sizeof *cube).number == PL_OK);
    for (size_t i = 0; i < sizeof cube / sizeof *cube; i++) {
        const size_t tx = x * VIEWER + i % VIEWER, ty = y * VIEWER + i / VIEWER % VIEWER;
        const size_t tz = z * VIEWER + i / VIEWER / VIEWER;
        const uint16_t there = chunk[tx + TABLET * (ty + TABLET * tz)];
        CHECK(one_ground(cube[i], there));
        apart += cube[i] != there;
    }
    return apart;
}

static void viewer(void) {
    static uint16_t chunk[TABLET * TABLET * TABLET];
    const pl_config config = {7, 24, 256, TABLET};
    size_t apart = 0;
    for (int32_t cx = -4; cx < 4; cx++) {
        const pl_pos pos = {cx, 1, -1};
        CHECK(pl_generate(config, pos, chunk, sizeof chunk / sizeof *chunk).number == PL_OK);
        for (size_t k = 0; k < CUBES * CUBES * CUBES; k++)
            apart += look_up(chunk, config, pos, k % CUBES, k / CUBES % CUBES, k / CUBES / CUBES);
    }
    /* Trees and boulders were among them. */
    CHECK(apart > 0);
}

/* Whether a call that tells no value answers this number. */
static int says(pl_answer a, uint32_t number) {
    return a.number == number && a.line == 0 && a.value == 0;
}

/* The planes of one cell and of eight, worked out by hand: at size 2 the cells stand as they lie. */
static void planes(void) {
    static const uint16_t one[1] = {0xabcd};
    static const uint16_t eight[8] = {0x0901, 0x0a02, 0x0b03, 0x0c04, 0x0d05, 0x0e06, 0x0f07, 0x1008};
    static const uint8_t wanted[16] = {1, 2, 3, 4, 5, 6, 7, 8, 9, 10, 11, 12, 13, 14, 15, 16};
    uint8_t bytes[16] = {0};
    uint16_t cells[8] = {0};
    CHECK(says(pl_to_planes(one, 1, 1, bytes, 2), PL_OK) && bytes[0] == 0xcd && bytes[1] == 0xab && bytes[2] == 0);
    CHECK(says(pl_from_planes(bytes, 2, 1, cells, 1), PL_OK) && cells[0] == 0xabcd && cells[1] == 0);
    CHECK(says(pl_to_planes(eight, 8, 2, bytes, 16), PL_OK) && memcmp(bytes, wanted, sizeof wanted) == 0);
    CHECK(says(pl_from_planes(wanted, 16, 2, cells, 8), PL_OK) && memcmp(cells, eight, sizeof eight) == 0);
}

/* The cells of the largest chunk. */
enum { MOST = PL_SIZE_MOST * PL_SIZE_MOST * PL_SIZE_MOST };

static size_t nonzero_bytes(const uint8_t *bytes, size_t n) {
    size_t count = 0;
    for (size_t i = 0; i < n; i++)
        count += bytes[i] != 0;
    return count;
}

/* Where single cells stand, worked out by hand. In octal each digit of a position has one bit of x, y and z, worth 1, 2
 * and 4: (1, 2, 3) has x 01, y 10 and z 11, so its digits are 0 + 2 + 4 and 1 + 0 + 4. */
static void positions(void) {
    static const struct {
        size_t size, x, y, z, position;
    } at[] = {
        {4, 1, 2, 3, 065},       {4, 2, 0, 0, 010},      {8, 4, 1, 2, 0142},
        {16, 9, 3, 12, 05423},   {32, 16, 0, 0, 010000}, {64, 32, 0, 0, 0100000},
        {64, 0, 32, 0, 0200000}, {64, 0, 0, 1, 04},      {64, 21, 42, 63, 0656565},
    };
    static uint16_t cells[MOST];
    static uint8_t bytes[2 * MOST];
    for (size_t k = 0; k < sizeof at / sizeof *at; k++) {
        const size_t size = at[k].size, n = size * size * size, position = at[k].position;
        const size_t i = at[k].x + size * (at[k].y + size * at[k].z);
        memset(cells, 0, sizeof cells);
        cells[i] = 0x1234;
        memset(bytes, 0xee, sizeof bytes);
        CHECK(says(pl_to_planes(cells, n, size, bytes, 2 * n), PL_OK) && nonzero_bytes(bytes, 2 * n) == 2);
        CHECK(bytes[position] == 0x34 && bytes[n + position] == 0x12);
        memset(cells, 0xee, sizeof cells);
        CHECK(says(pl_from_planes(bytes, 2 * n, size, cells, n), PL_OK) && nonzero(cells, n) == 1);
        CHECK(cells[i] == 0x1234);
    }
}

/* Each call undoes the other, at every size, whatever ids and bytes they are. */
static void both_ways(void) {
    static uint16_t cells[MOST], cells_again[MOST];
    static uint8_t bytes[2 * MOST], bytes_again[2 * MOST];
    for (size_t i = 0; i < MOST; i++)
        cells[i] = (uint16_t)((40503 * (i + 1)) >> 5);
    for (size_t i = 0; i < 2 * MOST; i++)
        bytes[i] = (uint8_t)((40503 * (i + 1)) >> 7);
    for (size_t size = 1; size <= PL_SIZE_MOST; size *= 2) {
        const size_t n = size * size * size;
        CHECK(says(pl_to_planes(cells, n, size, bytes_again, 2 * n), PL_OK));
        CHECK(says(pl_from_planes(bytes_again, 2 * n, size, cells_again, n), PL_OK));
        CHECK(memcmp(cells_again, cells, n * sizeof *cells) == 0);
        CHECK(says(pl_from_planes(bytes, 2 * n, size, cells_again, n), PL_OK));
        CHECK(says(pl_to_planes(cells_again, n, size, bytes_again, 2 * n), PL_OK));
        CHECK(memcmp(bytes_again, bytes, 2 * n) == 0);
    }
}

/* Planes that are refused: another size, whatever the lengths are, also one whose cube no number holds; then cells of a
 * wrong length; then bytes. */
static const struct {
    size_t size, cells, bytes;
    uint32_t number;
} bad_planes[] = {
    {0, 0, 0, PL_PLANES_SIZE},
    {3, 27, 54, PL_PLANES_SIZE},
    {SIZE, CELLS, 2 * CELLS, PL_PLANES_SIZE},
    {3, 8, 15, PL_PLANES_SIZE},
    {6, 8, 16, PL_PLANES_SIZE},
    {128, 8, 16, PL_PLANES_SIZE},
    {(size_t)1 << 22, 0, 0, PL_PLANES_SIZE},
    {SIZE_MAX, 8, 16, PL_PLANES_SIZE},
    {2, 7, 16, PL_LENGTH},
    {2, 9, 16, PL_LENGTH},
    {2, 7, 14, PL_LENGTH},
    {2, 0, 0, PL_LENGTH},
    {64, 8, 16, PL_LENGTH},
    {1, 8, 16, PL_LENGTH},
    {2, 8, 15, PL_PLANES_BYTES},
    {2, 8, 17, PL_PLANES_BYTES},
    {2, 8, 8, PL_PLANES_BYTES},
    {4, 64, 0, PL_PLANES_BYTES},
};

/* Where planes are refused, neither call writes. */
static void no_planes(void) {
    uint16_t cells[CELLS], stale_cells[CELLS];
    uint8_t bytes[2 * CELLS], stale_bytes[2 * CELLS];
    memset(stale_cells, 0xee, sizeof stale_cells);
    memset(stale_bytes, 0x11, sizeof stale_bytes);
    memcpy(cells, stale_cells, sizeof cells);
    memcpy(bytes, stale_bytes, sizeof bytes);
    for (size_t k = 0; k < sizeof bad_planes / sizeof *bad_planes; k++) {
        const size_t size = bad_planes[k].size, n = bad_planes[k].cells, m = bad_planes[k].bytes;
        CHECK(says(pl_to_planes(cells, n, size, bytes, m), bad_planes[k].number));
        CHECK(memcmp(bytes, stale_bytes, sizeof bytes) == 0);
        CHECK(says(pl_from_planes(bytes, m, size, cells, n), bad_planes[k].number));
        CHECK(memcmp(cells, stale_cells, sizeof cells) == 0);
    }
    CHECK(says(pl_to_planes(NULL, 0, 3, NULL, 0), PL_PLANES_SIZE));
    CHECK(says(pl_from_planes(NULL, 0, 2, NULL, 0), PL_LENGTH));
}

/* A shelf copy: the cells of a chunk of 16 in a file, so that they are there without a replay of the journal. */
enum { SHELF = 16, SHELF_CELLS = SHELF * SHELF * SHELF, SHELF_BYTES = 2 * SHELF_CELLS };

/* Writes a shelf copy: the first line of the chunk's journal, then the planes. The planes do not tell what they are a
 * copy of; the line has size, settings and place. A real host also stores a checksum, and may compress the planes. A
 * chunk of a size without planes is refused with 28: a host stores its cells as they are. */
static int shelf_copy(FILE *file, const uint8_t *line, size_t line_len, const uint16_t *cells) {
    static uint8_t bytes[SHELF_BYTES];
    return pl_to_planes(cells, SHELF_CELLS, SHELF, bytes, SHELF_BYTES).number == PL_OK &&
           fwrite(line, 1, line_len, file) == line_len && fwrite(bytes, 1, SHELF_BYTES, file) == SHELF_BYTES &&
           fflush(file) == 0;
}

/* Restores a shelf copy: its line gives size, settings and place, in a record, and the bare ground; its planes give the
 * cells. To go on building, a session needs its whole journal, not this record. A line of another form or size is
 * refused, and so are planes too short or too long. But any bytes of the right number are some chunk's planes: that
 * they are those that were written no call can tell, and a real host holds them to its checksum first. */
static int shelf_restore(FILE *file, pl_session *record, uint16_t *ground, uint16_t *cells) {
    static uint8_t bytes[SHELF_BYTES + 1];
    char line[PL_HEADER_MOST + 1];
    if (!fgets(line, sizeof line, file))
        return 0;
    const size_t n = strlen(line), got = fread(bytes, 1, sizeof bytes, file);
    const pl_start start = pl_session_reopen(ground, SHELF_CELLS, (const uint8_t *)line, n, n);
    *record = start.session;
    return start.number == PL_OK && pl_from_planes(bytes, got, SHELF, cells, SHELF_CELLS).number == PL_OK;
}

/* Zeros behind a first line: one too few and one too many are no shelf copy, and leave the cells. The right number is
 * one, of a chunk of air, though nobody wrote it. */
static void shelf_of_zeros(void) {
    static const char line[] = "G\t7\t24\t64\t16\t0\t1\t0\n";
    static const uint8_t zeros[SHELF_BYTES + 1] = {0};
    static uint16_t ground[SHELF_CELLS], cells[SHELF_CELLS];
    for (size_t n = SHELF_BYTES - 1; n <= SHELF_BYTES + 1; n++) {
        const uint16_t wanted = n == SHELF_BYTES ? 0 : 0xeeee;
        pl_session record;
        FILE *file = tmpfile();
        CHECK(file && fputs(line, file) >= 0 && fwrite(zeros, 1, n, file) == n);
        rewind(file);
        memset(cells, 0xee, sizeof cells);
        CHECK(shelf_restore(file, &record, ground, cells) == (n == SHELF_BYTES));
        for (size_t i = 0; i < SHELF_CELLS; i++)
            CHECK(cells[i] == wanted);
        CHECK(fclose(file) == 0);
    }
}

/* A chunk that was built in goes onto the shelf and comes back. */
static void shelf(void) {
    static uint16_t cells[SHELF_CELLS], ground[SHELF_CELLS], restored[SHELF_CELLS];
    static uint8_t journal[JOURNAL];
    const pl_config config = {7, 24, 64, SHELF};
    const pl_pos pos = {0, 1, 0};
    const pl_start start = pl_session_fresh(config, pos, cells, SHELF_CELLS, journal, JOURNAL);
    CHECK(start.number == PL_OK);
    pl_session s = start.session, record;
    CHECK(tells(pl_session_fill_column(&s, cells, SHELF_CELLS, journal, JOURNAL, 3, 5, SHELF, 300), 0, 0, SHELF));
    CHECK(pl_session_set(&s, cells, SHELF_CELLS, journal, JOURNAL, 15, 0, 15, 65535).altered == 1);

    FILE *file = tmpfile();
    CHECK(file && shelf_copy(file, journal, start.session.used, cells));
    rewind(file);
    memset(restored, 0xee, sizeof restored);
    CHECK(shelf_restore(file, &record, ground, restored));
    CHECK(same_session(&record, &start.session) && memcmp(restored, cells, sizeof cells) == 0);
    /* The column's 16 cells and the one that was set. */
    CHECK(differing(ground, restored, SHELF_CELLS) == 17);
    CHECK(fclose(file) == 0);
}

int main(void) {
    static tablet maps[PRESSES + 1]; /* the map after each line */
    static storage file;
    tablet t;
    memset(&t, 0, sizeof t);

    const pl_config config = {7, 24, 64, SIZE};
    const pl_pos pos = {-3, 4, 2};
    const pl_start start = pl_session_fresh(config, pos, t.cells, CELLS, t.journal, JOURNAL);
    CHECK(start.number == PL_OK && start.lines == 1 && start.session.count == nonzero(t.cells, CELLS));
    t.session = start.session;
    store(&file, &t);
    maps[0] = t;

    for (int k = 0; k < PRESSES; k++) {
        const uint16_t *before = maps[k].cells;
        const uint16_t replaced = k == 0 ? before[AT_1_2_3] : k == 5 ? before[AT_4_0_4] : 0;
        const pl_reply r = press(&t, k);
        CHECK(tells(r, k == 2 ? 2 : 0, replaced, differing(before, t.cells, CELLS)));
        CHECK((r.altered == 0) == (k == CHECKPOINT));
        CHECK(t.session.count == nonzero(t.cells, CELLS));
        store(&file, &t);
        maps[k + 1] = t;
    }
    /* After the restore two edits are active, and the undo behind it leaves the first. */
    CHECK(memcmp(maps[RESTORE + 1].cells, maps[CHECKPOINT].cells, sizeof t.cells) == 0);
    CHECK(memcmp(t.cells, maps[1].cells, sizeof t.cells) == 0);
    CHECK(maps[RESTORE + 1].session.active == 2 && t.session.active == 1);

    /* A cut can come at any byte. */
    for (size_t q = 0; q <= file.confirmed; q++)
        take_over(&file, q, maps);
    refusals(&t);
    bare(&t);
    example();
    worked_out();
    older();
    walls_and_roof();
    many_names();
    stored_names();
    tallies();
    seeds();
    viewer();
    planes();
    positions();
    both_ways();
    no_planes();
    shelf_of_zeros();
    shelf();
    printf("host in %s: %zu bytes, a cut at each, the map is there\n",
#ifdef __cplusplus
           "C++",
#else
           "C",
#endif
           file.confirmed);
    return 0;
}
