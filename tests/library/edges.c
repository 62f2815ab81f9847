/* edges.c: what C can hand over and Rust can't. Null runs and empty ones; one table lent for both; runs
   that end, or begin, just where a page begins that nobody may touch; a stack of 96 KiB. Each answer is
   checked. */
#define _GNU_SOURCE
#include <inttypes.h>
#include <pthread.h>
#include <sleet.h>
#include <stdio.h>
#include <stdlib.h>
#include <sys/mman.h>

/* An answer of the archive's own functions. */
static void expect(const char *what, sleet_answer said, uint64_t refusal, uint64_t a, uint64_t b, uint64_t c,
                   uint64_t d)
{
    if (said.refusal == refusal && said.a == a && said.b == b && said.c == c && said.d == d &&
        (said.e | said.f | said.g) == 0)
        return;
    fprintf(stderr,
            "edges: %s: %" PRIu64 " %" PRIu64 " %" PRIu64 " %" PRIu64 " %" PRIu64 ", not %" PRIu64 " %" PRIu64
            " %" PRIu64 " %" PRIu64 " %" PRIu64 "\n",
            what, said.refusal, said.a, said.b, said.c, said.d, refusal, a, b, c, d);
    exit(1);
}

static void need(const char *what, int fact)
{
    if (fact)
        return;
    fprintf(stderr, "edges: %s\n", what);
    exit(1);
}

/* So many bytes, with a page that nobody may touch right behind them (side 1) or before them (0). */
static void *guarded(size_t bytes, int side)
{
    size_t page = 4096, body = (bytes + page - 1) / page * page + page;
    char *all = mmap(NULL, body + page, PROT_READ | PROT_WRITE, MAP_PRIVATE | MAP_ANONYMOUS, -1, 0);
    need("memory", all != MAP_FAILED);
    need("a page to guard", mprotect(side ? all + body : all, page, PROT_NONE) == 0);
    return side ? all + body - bytes : all + page;
}

/* he, she, his, hers: 28 bytes. */
static size_t sample_set(uint8_t *set, size_t room)
{
    static const char *const tags[] = {"he", "she", "his", "hers"};
    sleet_added at = {1, 0};
    for (size_t i = 0; i < 4; i++) {
        at = sleet_set_add(set, room, at.length, tags[i], strlen(tags[i]));
        need("an entry fits", at.added);
    }
    return at.length;
}

/* The desk's calls, each with its answer's members. */
static void replaced(const char *what, sleet_replaced said, uint64_t refusal, uint32_t edition, size_t tags)
{
    need(what, said.refusal == refusal && said.edition == edition && said.tags == tags && said.entry == 0);
}

static void fed(const char *what, sleet_fed said, uint64_t refusal, size_t taken, uint64_t stop, size_t records)
{
    need(what, said.refusal == refusal && said.taken == taken && said.stop == stop && said.records == records);
}

static void was_read(const char *what, sleet_was_read said, uint64_t refusal, size_t taken, uint64_t stop,
                     size_t records)
{
    need(what, said.refusal == refusal && said.taken == taken && said.stop == stop && said.records == records);
}

/* Refused, TABLE, with the machine that lacks slots and the slots that it needs. */
static void too_short(const char *what, sleet_replaced said, size_t machine, size_t needs)
{
    replaced(what, said, SLEET_REFUSED_TABLE, 0, 0);
    need(what, said.machine == machine && said.needs == needs);
}

/* The tables of a desk that is lent them at each call. */
static uint16_t first[SLEET_SPLIT_TABLE], second[SLEET_SPLIT_TABLE];
enum { ALL = SLEET_SPLIT_TABLE };

static void null_runs(void)
{
    uint8_t set[28];
    size_t length = sample_set(set, sizeof set);
    const uint8_t *ushers = (const uint8_t *)"ushers";
    sleet_desk desk = sleet_desk_new();
    replaced("a null set", sleet_replace(&desk, NULL, 28, first, ALL, second, ALL), SLEET_REFUSED_EMPTY, 0, 0);
    too_short("a null table", sleet_replace(&desk, set, length, NULL, ALL, second, ALL), 0, 9);
    too_short("a null second table", sleet_replace(&desk, set, length, first, ALL, NULL, ALL), 8, 1);
    too_short("two null tables", sleet_replace(&desk, set, length, NULL, ALL, NULL, ALL), 0, 9);
    replaced("a set", sleet_replace(&desk, set, length, first, ALL, second, ALL), 0, 1, 4);
    need("open", sleet_open(&desk).serial == 1);
    fed("a null piece", sleet_feed(&desk, 1, first, ALL, second, ALL, NULL, 6), 0, 0, SLEET_STOP_ALL, 0);
    fed("a null table fed", sleet_feed(&desk, 1, NULL, ALL, second, ALL, ushers, 6), 0, 0, SLEET_STOP_DAMAGED, 0);
    fed("a null second fed", sleet_feed(&desk, 1, first, ALL, NULL, ALL, ushers, 6), 0, 0, SLEET_STOP_DAMAGED, 0);
    fed("a piece", sleet_feed(&desk, 1, first, ALL, second, ALL, ushers, 6), 0, 6, SLEET_STOP_ALL, 3);
    need("a null list takes nothing", sleet_take_many(&desk, NULL, 512) == 0 && desk.count == 3);
    sleet_taken oldest = sleet_take(&desk);
    need("take", oldest.refusal == 0 && oldest.record.serial == 1 && oldest.record.edition == 1 &&
                     oldest.record.end == 4 && oldest.record.tag == 0);
}

static void null_runs_outside_a_desk(void)
{
    uint8_t set[28];
    uint16_t state = 0;
    sleet_split_place place = sleet_split_start();
    size_t length = sample_set(set, sizeof set);
    const uint8_t *ushers = (const uint8_t *)"ushers";
    need("a null set has no size", sleet_size(NULL, 28).refusal == SLEET_REFUSED_EMPTY &&
                                       sleet_whole_size(NULL, 28).refusal == SLEET_REFUSED_EMPTY);
    need("nor a table", sleet_make_split(NULL, 28, first, 9, second, 9).refusal == SLEET_REFUSED_EMPTY &&
                            sleet_make_whole(set, length, NULL, 9).refusal == SLEET_REFUSED_TABLE &&
                            sleet_make_bitmap(NULL, 28, first, 9).refusal == SLEET_REFUSED_EMPTY);
    sleet_built short_one = sleet_make_bitmap(set, length, NULL, SLEET_BITMAP_TABLE);
    need("a null bitmap table", short_one.refusal == SLEET_REFUSED_TABLE &&
                                    short_one.machine == SLEET_BITMAP_MACHINE && short_one.needs == 10);
    short_one = sleet_make_split(set, length, first, ALL, NULL, ALL);
    need("a null second table", short_one.refusal == SLEET_REFUSED_TABLE && short_one.machine == 8 &&
                                    short_one.needs == 1);
    need("two tables", sleet_make_split(set, length, first, ALL, second, SLEET_SPLIT_SLOT).tags == 4);
    was_read("a null list",
             sleet_scan_split(first, ALL, second, SLEET_SPLIT_SLOT, &place, 0, ushers, 6, NULL, 9), 0, 3,
             SLEET_STOP_FULL, 0);
    place = sleet_split_start();
    was_read("a null second scanned", sleet_scan_split(first, ALL, NULL, ALL, &place, 0, ushers, 6, NULL, 9),
             SLEET_REFUSED_PLACE, 0, SLEET_STOP_NONE, 0);
    was_read("a null table scanned", sleet_scan_whole(NULL, 9, &state, 0, NULL, 9, NULL, 9), SLEET_REFUSED_PLACE, 0,
             SLEET_STOP_NONE, 0);
    was_read("a null bitmap table scanned", sleet_scan_bitmap(NULL, 190, &state, 0, NULL, 9, NULL, 9),
             SLEET_REFUSED_PLACE, 0, SLEET_STOP_NONE, 0);
}

/* One run lent for both tables, or two that share a number: nothing is built and nothing is read. Two
   that lie side by side are two tables. */
static void one_table_for_both(void)
{
    static uint16_t both[2 * SLEET_SPLIT_TABLE];
    uint8_t set[28];
    size_t length = sample_set(set, sizeof set);
    const uint8_t *ushers = (const uint8_t *)"ushers";
    uint16_t *behind = both + ALL;
    sleet_split_place place = sleet_split_start();
    sleet_desk desk = sleet_desk_new();
    memset(both, 7, sizeof both);
    too_short("the first again", sleet_replace(&desk, set, length, both, ALL, both, ALL), 8, 1);
    too_short("its last number", sleet_replace(&desk, set, length, both, ALL, behind - 1, ALL), 8, 1);
    too_short("before it", sleet_replace(&desk, set, length, behind, ALL, both, ALL + 1), 8, 1);
    too_short("within it", sleet_replace(&desk, set, length, both, 2 * ALL, both + 24, 24), 8, 1);
    sleet_built built = sleet_make_split(set, length, both, ALL, both, ALL);
    need("outside a desk", built.refusal == SLEET_REFUSED_TABLE && built.machine == 8 && built.needs == 1);
    need("nothing is written", both[0] == 0x0707 && both[ALL - 1] == 0x0707 && both[2 * ALL - 1] == 0x0707);
    replaced("side by side", sleet_replace(&desk, set, length, both, ALL, behind, ALL), 0, 1, 4);
    replaced("the other way", sleet_replace(&desk, set, length, behind, ALL, both, ALL), 0, 2, 4);
    need("open", sleet_open(&desk).serial == 1);
    fed("the first fed twice", sleet_feed(&desk, 1, behind, ALL, behind, ALL, ushers, 6), 0, 0, SLEET_STOP_DAMAGED, 0);
    fed("both", sleet_feed(&desk, 1, behind, ALL, both, ALL, ushers, 6), 0, 6, SLEET_STOP_ALL, 3);
    was_read("the first scanned twice", sleet_scan_split(both, ALL, both, ALL, &place, 0, ushers, 6, NULL, 0),
             SLEET_REFUSED_PLACE, 0, SLEET_STOP_NONE, 0);
}

/* What becomes of a ticket; and what is refused says nothing that could be taken for an answer. */
static void states(void)
{
    uint8_t set[28];
    size_t length = sample_set(set, sizeof set);
    sleet_desk desk = sleet_desk_new();
    need("no ticket without a set", sleet_open(&desk).refusal == SLEET_REFUSED_NO_SET);
    replaced("a set", sleet_replace(&desk, set, length, first, ALL, second, ALL), 0, 1, 4);
    need("never given", sleet_state(&desk, 1).state == SLEET_NEVER_GIVEN);
    need("three tickets", sleet_open(&desk).serial + sleet_open(&desk).serial + sleet_open(&desk).serial == 6);
    fed("a piece", sleet_feed(&desk, 2, first, ALL, second, ALL, (const uint8_t *)"xyz", 3), 0, 3, SLEET_STOP_ALL, 0);
    sleet_stated now = sleet_state(&desk, 2);
    need("open", now.state == SLEET_OPEN && now.edition == 1 && now.taken == 3);
    need("closed", sleet_close(&desk, 1).refusal == 0 && sleet_state(&desk, 1).state == SLEET_CLOSED);
    replaced("a set", sleet_replace(&desk, set, length, first, ALL, second, ALL), 0, 2, 4);
    now = sleet_state(&desk, 2);
    need("stale", now.state == SLEET_STALE && now.edition == 1 && now.taken == 3);
    now = sleet_state(&desk, 1);
    need("still closed", now.state == SLEET_CLOSED && now.edition == 0 && now.taken == 0);
    need("never given", sleet_state(&desk, 4).state == SLEET_NEVER_GIVEN && sleet_state(&desk, 0).state < SLEET_STALE);
    sleet_fed late = sleet_feed(&desk, 2, first, ALL, second, ALL, (const uint8_t *)"he", 2);
    fed("a stale ticket", late, SLEET_REFUSED_STALE, 0, SLEET_STOP_NONE, 0);
    need("its edition", late.edition == 1);
    fed("a closed one", sleet_feed(&desk, 1, first, ALL, second, ALL, (const uint8_t *)"he", 2),
        SLEET_REFUSED_NO_TICKET, 0, SLEET_STOP_NONE, 0);
    need("closed twice", sleet_close(&desk, 1).refusal == SLEET_REFUSED_NO_TICKET);
    need("nothing to take", sleet_take(&desk).refusal == SLEET_REFUSED_NOTHING);
}

/* Runs of no elements, at addresses where nothing can be read: over the two split tables. */
static void empty_runs(int side)
{
    static const sleet_split_place start;
    uint8_t set[28];
    size_t length = sample_set(set, sizeof set);
    uint16_t *no_numbers = (uint16_t *)guarded(0, 1);
    uint8_t *no_bytes = (uint8_t *)no_numbers;
    uint32_t *no_list = (uint32_t *)no_numbers;
    uint16_t *table = guarded(2 * 240, side), *slot = guarded(2 * 24, side);
    expect("slots, no bytes", sleet_slots_needed(no_bytes, 0), SLEET_REFUSED_EMPTY, 0, 0, 0, 0);
    expect("split, no bytes", sleet_build_split(no_bytes, 0, table, 240, slot, 24), SLEET_REFUSED_EMPTY, 0, 0, 0, 0);
    expect("split, no numbers", sleet_build_split(set, length, no_numbers, 0, slot, 24), SLEET_REFUSED_TABLE, 0, 9, 0,
           0);
    expect("split, no second", sleet_build_split(set, length, table, 240, no_numbers, 0), SLEET_REFUSED_TABLE, 8, 1, 0,
           0);
    expect("split", sleet_build_split(set, length, table, 240, slot, 24), 0, 4, 0, 0, 0);
    sleet_split_reply r = sleet_read_split(no_numbers, 0, slot, 24, &start, 0, no_bytes, 0, no_list, 0);
    expect("read, no numbers", r.answer, SLEET_REFUSED_PLACE, 0, 0, 0, 0);
    r = sleet_read_split(table, 240, no_numbers, 0, &start, 0, no_bytes, 0, no_list, 0);
    expect("read, no second", r.answer, SLEET_REFUSED_PLACE, 0, 0, 0, 0);
    r = sleet_read_split(table, 240, slot, 24, &start, UINT32_MAX, no_bytes, 0, no_list, 0);
    expect("read, no bytes", r.answer, 0, 0, SLEET_STOP_ALL, 0, 0);
    r = sleet_read_split(table, 240, slot, 24, &start, 0, (const uint8_t *)"ushers", 6, no_list, 0);
    expect("read, no list", r.answer, 0, 3, SLEET_STOP_FULL, 0, 0);
}

/* The same over a table of one machine. */
static void empty_runs_of_one_table(int side)
{
    uint8_t set[28];
    size_t length = sample_set(set, sizeof set);
    uint16_t *no_numbers = (uint16_t *)guarded(0, 1);
    uint8_t *no_bytes = (uint8_t *)no_numbers;
    uint32_t *no_list = (uint32_t *)no_numbers;
    uint16_t *table = guarded(2 * 240, side);
    expect("whole slots, no bytes", sleet_whole_slots_needed(no_bytes, 0), SLEET_REFUSED_EMPTY, 0, 0, 0, 0);
    expect("whole, no numbers", sleet_build_whole(set, length, no_numbers, 0), SLEET_REFUSED_TABLE,
           SLEET_WHOLE_MACHINE, 10, 0, 0);
    expect("bitmap, no bytes", sleet_build_bitmap(no_bytes, 0, table, 240), SLEET_REFUSED_EMPTY, 0, 0, 0, 0);
    expect("bitmap, no numbers", sleet_build_bitmap(set, length, no_numbers, 0), SLEET_REFUSED_TABLE,
           SLEET_BITMAP_MACHINE, 10, 0, 0);
    expect("bitmap", sleet_build_bitmap(set, length, table, 240), 0, 4, 0, 0, 0);
    sleet_bitmap_reply m = sleet_read_bitmap(no_numbers, 0, 0, 0, no_bytes, 0, no_list, 0);
    expect("bitmap read, no numbers", m.answer, SLEET_REFUSED_PLACE, 0, 0, 0, 0);
    m = sleet_read_bitmap(table, 240, 0, UINT32_MAX, no_bytes, 0, no_list, 0);
    expect("bitmap read, no bytes", m.answer, 0, 0, SLEET_STOP_ALL, 0, 0);
    m = sleet_read_bitmap(table, 240, 0, 0, (const uint8_t *)"hxshe", 5, no_list, 0);
    expect("bitmap read, no list", m.answer, 0, 4, SLEET_STOP_FULL, 0, 1);
    need("its state", m.place == 5);
    sleet_whole_reply w = sleet_read_whole(no_numbers, 0, 0, 0, no_bytes, 0, no_list, 0);
    expect("whole read, no numbers", w.answer, SLEET_REFUSED_PLACE, 0, 0, 0, 0);
}

static void guarded_desk(int side)
{
    size_t numbers = SLEET_SPLIT_TABLE + 23, room = 257;
    uint8_t *set = guarded(28, side), *piece = guarded(1500, side);
    uint16_t *table = guarded(2 * numbers, side), *other = guarded(2 * numbers, side);
    sleet_record *list = guarded(room * sizeof *list, side);
    sleet_desk *desk = guarded(sizeof *desk, side);
    size_t length = sample_set(set, 28);
    for (size_t i = 0; i < 1500; i++)
        piece[i] = (uint8_t) "ushers"[i % 6];
    *desk = sleet_desk_new();
    replaced("replace", sleet_replace(desk, set, length, table, numbers, other, numbers), 0, 1, 4);
    need("slots", desk->slots[0] == 479 && desk->slots[1] == 479);
    need("open", sleet_open(desk).serial == 1);
    /* 3 records in 6 bytes: 255 after 510, then 3 bytes without a match, then one with two */
    fed("feed", sleet_feed(desk, 1, table, numbers, other, numbers, piece, 1500), 0, 513, SLEET_STOP_FULL, 255);
    need("take_many", sleet_take_many(desk, list, room) == 255 && desk->count == 0);
    static const sleet_record oldest = {1, 1, 4, 0}, last = {1, 1, 510, 3}, none = {0, 0, 0, 0};
    need("its first record", memcmp(&list[0], &oldest, sizeof oldest) == 0);
    need("its last record", memcmp(&list[254], &last, sizeof last) == 0);
    need("what lies behind", memcmp(&list[255], &none, sizeof none) == 0 && list[room - 1].tag == 0);
    /* it goes on with that byte: 255 after 510 once more, and again one with two */
    fed("feed on", sleet_feed(desk, 1, table, numbers, other, numbers, piece + 513, 987), 0, 510, SLEET_STOP_FULL,
        255);
    need("room for two", sleet_take_many(desk, list + room - 2, 2) == 2 && desk->count == 253);
    need("close", sleet_close(desk, 1).refusal == 0);
}

/* A gate whose own image ends, or begins, where nobody may touch. */
static void guarded_gate(int side)
{
    sleet_gateway *g = guarded(sizeof *g, side);
    uint8_t *set = guarded(28, side), *piece = guarded(5000, side);
    size_t length = sample_set(set, 28);
    for (size_t i = 0; i < 5000; i++)
        piece[i] = (uint8_t) "ushers"[i % 6];
    sleet_gateway_start(g);
    replaced("change", sleet_change(g, set, length), 0, 1, 4);
    uint32_t one = sleet_begin(g).serial, other = sleet_begin(g).serial;
    sleet_pieced said = sleet_piece(g, one, piece, 5000);
    need("the list is emptied as often as it fills",
         said.whole && said.taken == 5000 && g->gate.desk.of_the_gate_alone.count == 0);
    sleet_decided held = sleet_decide(g, one);
    need("he, she, hers", held.verdict == SLEET_HOLD && held.mask == 11);
    need("a mask's tags", sleet_mask_has(held.mask, 0) && !sleet_mask_has(held.mask, 2) && sleet_mask_has(held.mask, 3) &&
                              !sleet_mask_has(UINT64_MAX, 64));
    need("no bytes are clean", sleet_decide(g, other).verdict == SLEET_PASS);
}

static void guarded_tables(int side)
{
    uint8_t *set = guarded(28, side), *piece = guarded(6, side);
    uint16_t *split = guarded(2 * 240, side), *slot = guarded(2 * 24, side), *whole = guarded(2 * 2570, side);
    sleet_split_place *place = guarded(sizeof *place, side);
    uint16_t *state = guarded(2, side);
    sleet_found *list = guarded(3 * sizeof *list, side);
    size_t length = sample_set(set, 28);
    memcpy(piece, "ushers", 6);
    sleet_needed size = sleet_size(set, length);
    need("slots", size.refusal == 0 && size.first_slots == 10 && size.second_slots == 1);
    need("whole slots", sleet_whole_size(set, length).refusal == 0 && sleet_whole_size(set, length).slots == 10);
    need("split", sleet_make_split(set, length, split, 240, slot, 24).tags == 4);
    need("whole", sleet_make_whole(set, length, whole, 2570).tags == 4);
    was_read("scan split", sleet_scan_split(split, 240, slot, 24, place, 0, piece, 6, list, 3), 0, 6, SLEET_STOP_ALL,
             3);
    static const sleet_found records[3] = {{4, 0}, {4, 1}, {6, 3}};
    need("its records", memcmp(list, records, sizeof records) == 0);
    memset(list, 0, sizeof records);
    was_read("scan whole", sleet_scan_whole(whole, 2570, state, 0, piece, 6, list, 3), 0, 6, SLEET_STOP_ALL, 3);
    need("its records", memcmp(list, records, sizeof records) == 0);
    need("its place", *state != 0);
    *place = sleet_split_start();
    place->states[7] = 10;
    was_read("a place outside", sleet_scan_split(split, 240, slot, 24, place, 0, piece, 6, list, 3),
             SLEET_REFUSED_PLACE, 0, SLEET_STOP_NONE, 0);
    need("the place given", place->states[7] == 10 && place->states[0] == 0);
    place->states[7] = 0, place->states[15] = 1;
    was_read("one outside the second", sleet_scan_split(split, 240, slot, 24, place, 0, piece, 6, list, 3),
             SLEET_REFUSED_PLACE, 0, SLEET_STOP_NONE, 0);
    was_read("too long", sleet_scan_whole(whole, 2570, state, UINT32_MAX, piece, 6, list, 3), SLEET_REFUSED_LONG, 0,
             SLEET_STOP_NONE, 0);
}

/* He folded and He exact: each table has the slots that it needs and no number more. */
static void guarded_kinds(int side)
{
    uint8_t *set = guarded(12, side), *piece = guarded(6, side);
    uint16_t *exact = guarded(2 * 72, side), *folded = guarded(2 * 72, side);
    sleet_split_place *place = guarded(sizeof *place, side);
    sleet_found *list = guarded(4 * sizeof *list, side);
    sleet_added at = sleet_set_add_folded(set, 12, 0, "He", 2);
    at = sleet_set_add(set, 12, at.length, "He", 2);
    need("two entries", at.added && at.length == 12 && set[2] == SLEET_KIND_FOLDED && set[8] == SLEET_KIND_EXACT);
    memcpy(piece, "hehEHe", 6);
    sleet_needed size = sleet_size(set, 12);
    need("slots", size.refusal == 0 && size.first_slots == 3 && size.second_slots == 3);
    sleet_whole_needed none = sleet_whole_size(set, 12);
    need("no whole slots", none.refusal == SLEET_REFUSED_KIND && none.entry == 0 && none.slots == 0);
    need("no whole table", sleet_make_whole(set, 12, exact, 72).refusal == SLEET_REFUSED_KIND &&
                               sleet_make_bitmap(set, 12, exact, 72).refusal == SLEET_REFUSED_KIND);
    sleet_built said = sleet_make_split(set, 12, exact, 72, folded, 71);
    need("short", said.refusal == SLEET_REFUSED_TABLE && said.machine == 8 && said.needs == 3 && exact[0] == 0);
    need("both", sleet_make_split(set, 12, exact, 72, folded, 72).tags == 2);
    was_read("scan", sleet_scan_split(exact, 72, folded, 72, place, 0, piece, 6, list, 4), 0, 6, SLEET_STOP_ALL, 4);
    static const sleet_found records[4] = {{2, 0}, {4, 0}, {6, 0}, {6, 1}};
    need("its records", memcmp(list, records, sizeof records) == 0);
    need("its place", place->states[0] == 2 && place->states[15] == 2);
    *place = sleet_split_start();
    was_read("room for three", sleet_scan_split(exact, 72, folded, 72, place, 0, piece, 6, list, 3), 0, 5,
             SLEET_STOP_FULL, 2);
}

/* The same over a bitmap table; and over one that was written over, which is walked as its numbers say. */
static void guarded_bitmap(int side)
{
    uint8_t *set = guarded(28, side), *piece = guarded(6, side);
    uint16_t *table = guarded(2 * 190, side), *state = guarded(2, side);
    sleet_found *list = guarded(3 * sizeof *list, side);
    size_t length = sample_set(set, 28);
    memcpy(piece, "ushers", 6);
    need("bitmap", sleet_make_bitmap(set, length, table, 190).tags == 4);
    sleet_was_read said = sleet_scan_bitmap(table, 190, state, 0, piece, 6, list, 3);
    was_read("scan bitmap", said, 0, 6, SLEET_STOP_ALL, 3);
    need("its move and its place", said.moves == 1 && *state == 9);
    static const sleet_found records[3] = {{4, 0}, {4, 1}, {6, 3}};
    need("its records", memcmp(list, records, sizeof records) == 0);
    said = sleet_scan_bitmap(table, 190, state, UINT32_MAX, piece, 6, list, 3);
    was_read("too long", said, SLEET_REFUSED_LONG, 0, SLEET_STOP_NONE, 0);
    need("no moves", said.moves == 0 && *state == 9);
    *state = 10;
    was_read("a place outside", sleet_scan_bitmap(table, 190, state, 0, piece, 6, list, 3), SLEET_REFUSED_PLACE, 0,
             SLEET_STOP_NONE, 0);
    need("the place given", *state == 10);
    /* she fails to itself: after it 'r' has no way */
    table[8 * SLEET_BITMAP_SLOT + 17] = 8;
    *state = 0;
    said = sleet_scan_bitmap(table, 190, state, 0, piece, 6, list, 3);
    was_read("damaged", said, 0, 4, SLEET_STOP_DAMAGED, 2);
    need("no move of it counts", said.moves == 0 && *state == 8);
    memset(table, 255, 2 * 190);
    *state = 9;
    was_read("numbers of any kind", sleet_scan_bitmap(table, 190, state, 0, piece, 6, list, 3), 0, 0,
             SLEET_STOP_DAMAGED, 0);
}

/* Nothing is added, and the length stays as it was. */
static int not_added(sleet_added said, size_t length) { return !said.added && said.length == length; }

static void entries(void)
{
    uint8_t set[40] = {0};
    need("no room for its head", not_added(sleet_set_add(set, 3, 0, "", 0), 0));
    need("no room for its tag", not_added(sleet_set_add(set, 40, 35, "he", 2), 35) && set[35] == 0);
    need("a length beyond the room", not_added(sleet_set_add(set, 40, 41, "he", 2), 41));
    need("too long to be said", not_added(sleet_set_add(set, SIZE_MAX, 0, set, 65536), 0) && set[0] == 0);
    sleet_added said = sleet_set_add(set, 4, 0, NULL, 0);
    need("an entry without bytes", said.added && said.length == 4 && set[2] == 1);
    expect("it is refused", sleet_slots_needed(set, 4), SLEET_REFUSED_LENGTH, 0, 0, 0, 0);
    need("a tag that nobody can read", not_added(sleet_set_add(set, 40, 4, NULL, 2), 4) && set[4] == 0);
    need("a folded one", not_added(sleet_set_add_folded(set, 40, 4, NULL, 2), 4) && set[4] == 0);
    need("no room for a folded one", not_added(sleet_set_add_folded(set, 40, 35, "he", 2), 35) && set[35] == 0);
    sleet_tags tags = sleet_tags_none();
    need("no tags are no set", sleet_size(tags.bytes, tags.length).refusal == SLEET_REFUSED_EMPTY);
    need("too long for any room", !sleet_tags_add(&tags, set, SIZE_MAX) && tags.length == 4);
    need("it is said", sleet_size(tags.bytes, tags.length).refusal == SLEET_REFUSED_LENGTH);
    for (int i = 0; i < 200; i++)
        need("a tag behind it makes no lawful set", sleet_tags_add(&tags, "he", 2) == (i < 96) &&
                                                        sleet_size(tags.bytes, tags.length).refusal == SLEET_REFUSED_LENGTH);
    need("it ends with its room", tags.length == sizeof tags.bytes);
    tags = sleet_tags_none();
    need("a tag that nobody can read", sleet_tags_add(&tags, "he", 2) && !sleet_tags_add(&tags, NULL, 2));
    sleet_needed size = sleet_size(tags.bytes, tags.length);
    need("makes no lawful set", size.refusal == SLEET_REFUSED_LENGTH && size.entry == 1);
    tags = sleet_tags_none();
    need("nor a folded one", sleet_tags_add_folded(&tags, "he", 2) && !sleet_tags_add_folded(&tags, NULL, 2));
    size = sleet_size(tags.bytes, tags.length);
    need("which is said", size.refusal == SLEET_REFUSED_LENGTH && size.entry == 1);
}

static void names(void)
{
    need("refusals", strcmp(sleet_refusal_name(0), "accepted") == 0 && strcmp(sleet_refusal_name(1), "CUT") == 0 &&
                         strcmp(sleet_refusal_name(SLEET_REFUSED_EDITION), "EDITION") == 0 &&
                         strcmp(sleet_refusal_name(SLEET_REFUSED_NO_TICKET), "NO TICKET") == 0 &&
                         strcmp(sleet_refusal_name(16), "NOTHING") == 0);
    need("stops", strcmp(sleet_stop_name(SLEET_STOP_DAMAGED), "DAMAGED") == 0);
    need("verdicts", strcmp(sleet_verdict_name(SLEET_PASS), "PASS") == 0 &&
                         strcmp(sleet_verdict_name(SLEET_UNREAD), "UNREAD") == 0);
    need("unknown", strcmp(sleet_refusal_name(17), "unknown") == 0 && strcmp(sleet_stop_name(UINT64_MAX), "unknown") == 0 &&
                        strcmp(sleet_verdict_name(5), "unknown") == 0);
}

static void *all(void *unused)
{
    need("one version", sleet_version() == SLEET_VERSION);
    null_runs();
    null_runs_outside_a_desk();
    one_table_for_both();
    states();
    entries();
    names();
    for (int side = 0; side < 2; side++) {
        empty_runs(side);
        empty_runs_of_one_table(side);
        guarded_desk(side);
        guarded_gate(side);
        guarded_tables(side);
        guarded_kinds(side);
        guarded_bitmap(side);
    }
    return unused;
}

int main(void)
{
    pthread_attr_t small;
    pthread_t thread;
    need("a small stack", pthread_attr_init(&small) == 0 && pthread_attr_setstacksize(&small, 98304) == 0);
    need("a thread", pthread_create(&thread, &small, all, NULL) == 0 && pthread_join(thread, NULL) == 0);
    puts("edges: every answer as expected");
    return 0;
}
