/* sleet.h: Sleetbarley's gate, desk and tables for C11 and C++11 on x86-64 Linux.

   Link libsleet.a, which `./library` puts beside this header in target/library:

       cc -std=c11 -I target/library/include program.c target/library/lib/libsleet.a -o program

   Every function of the archive is proved to return, and to give the answer that its contract
   says, for every value of its arguments (crates/exports/src/lib.rt). The archive has no state of
   its own, takes no memory and calls nothing but memcpy, memmove and memset, so gates and desks in
   different threads have nothing in common. docs/EMBEDDING.md leads through a first program.

   WHICH CALL GIVES WHAT
   - To decide about approvals use the gate and nothing else: sleet_gateway_start, sleet_change,
     then for each approval sleet_begin, sleet_piece for each piece, sleet_decide. SLEET_PASS is said
     only of an approval that was read whole under the set in force and carries none of its tags.
   - To be told where each tag ends use a desk: sleet_replace, sleet_open, sleet_feed, sleet_take,
     sleet_close. A desk decides nothing: a ticket whose last piece was taken may be stale a moment
     later, and its records may still be held. It is a desk of its own, beside the gate: that inside
     a gate is the gate's alone.
   - To read without tickets use tables: sleet_make_split and sleet_scan_split. The whole-byte and the
     bitmap layout have the same calls over one table, for exact tags alone: the one is larger, the
     other is smaller and slower (docs/EMBEDDING.md, 'Memory, stack and threads').
   - To write a set down use sleet_tags, which can't lose a tag: sleet_tags_add for an exact tag, which
     is matched byte for byte, and sleet_tags_add_folded for a folded one, which is matched in either
     letter case, of A to Z alone. Where people type a tag, or a phone rewrites it in capitals, fold it.
   Each call gives a struct of its own with named members. `refusal` is SLEET_ACCEPTED or a number
   below; a member that the answer doesn't fill is 0. A refused call changes nothing at all.

   WHAT A CALLER KEEPS
   - A run is lent as a pointer and a count of elements. The pointer is aligned for its element, and
     so many elements can be read there (written too, where it isn't const). Null counts as a run of
     no elements, whatever its count says (but see sleet_piece). Other pointers (to a gate, a desk, a
     place) aren't null.
   - The split layout has two tables, and so has a desk: the first for exact tags, machines 0 to 7, the
     second for folded ones, machines 8 to 15. Lend both to each call, in this order and with the same
     lengths. A table without tags of its kind needs a slot too, SLEET_SPLIT_SLOT numbers and never
     none. A second table that is null or shorter, or that has a number in common with the first, counts
     as one without a slot: a replacement and sleet_make_split are refused, TABLE, where the first is
     enough with machine 8 (and needs 1 where no tag is folded); a feed stops DAMAGED with 0 taken, and
     a scan is refused, PLACE. (A sleet_gateway has both inside.)
   - A gateway or a desk is in one call at a time: threads that share one need one lock around each
     call, which shuts out every other call. A piece writes too, and so does a decision.
   - Each call comes to its end. One that is left before (by a jump out of a signal handler, or with
     the thread or process that made it) leaves the gateway worth nothing: let nothing through until a
     replacement is accepted.
   - Nobody else writes a lent run during the call. A run that the call writes overlaps no other run
     lent to it, and nobody else reads it meanwhile. Runs that are only read may overlap, but the two
     tables of a call never do.
   - A call wants less than 80 KiB of stack, its copies of the gate or desk included (measured, not
     proved; a desk's calls want less than 56 KiB).
   - Histories: what is promised of a whole history of calls holds for a gateway that came from
     sleet_gateway_start and that only sleet_change, sleet_begin, sleet_piece and sleet_decide write;
     and for a desk that came from sleet_desk_new, that only the desk's calls write, and whose feeds
     are lent the tables as the last accepted replacement left them. On any other image, and over any
     other tables, each call still gives a defined answer: an image is numbers alone, and a table is
     walked as its numbers say.

   TWO FORMS OF EACH CALL
   The archive's own functions (sleet_gate_*, sleet_desk_*, sleet_build_*, sleet_read_*,
   sleet_slots_needed, sleet_whole_slots_needed) take a gate or a desk by value and give the next one
   beside an answer of plain numbers, for bindings of other languages; for them no pointer may be null,
   and two tables that they write have no number in common. The inline functions are the same calls in
   place, with named answers. */
#ifndef SLEET_H
#define SLEET_H

#include <stddef.h>
#include <stdint.h>
#include <string.h>

#if !defined(__x86_64__) || !defined(__linux__) || defined(__ILP32__)
#error "libsleet.a is for x86-64 Linux with 64-bit pointers"
#endif

/* Marks a call whose answer says what nothing else says later: the compiler warns where it is
   ignored. */
#if defined(__GNUC__)
#define SLEET_LOOK __attribute__((warn_unused_result))
#else
#define SLEET_LOOK
#endif

#ifdef __cplusplus
#define SLEET_LAYOUT(fact) static_assert(fact, "the layout of the archive")
extern "C" {
#else
#define SLEET_LAYOUT(fact) _Static_assert(fact, "the layout of the archive")
#endif

/* ---- Version ---- */

/* 10,000 for the major number, 100 for the minor one, and the patch. sleet_version() gives the
   archive's own: where it isn't SLEET_VERSION, header and archive aren't of one build. */
#define SLEET_VERSION 20000
uint64_t sleet_version(void);

/* ---- Sizes ---- */

enum {
    SLEET_MOST_TAGS = 16,       /* tags of a set */
    SLEET_LONGEST_TAG = 32,     /* bytes of a tag */
    SLEET_LONGEST_SET = 576,    /* bytes of the longest set that is accepted */
    SLEET_TAG_HEAD = 4,         /* bytes of an entry before its tag: length and kind */
    SLEET_KIND_EXACT = 1,       /* the kind of an entry: a tag matched byte for byte */
    SLEET_KIND_FOLDED = 2,      /* one matched in either letter case, of A to Z alone */
    SLEET_MOST_TICKETS = 16,    /* approvals or tickets at once, open or stale */
    SLEET_MOST_RECORDS = 256,   /* records that a desk holds */
    SLEET_SPLIT_MACHINES = 16,  /* machines of the split layout: 8 of the first table, 8 of the second */
    SLEET_SPLIT_SLOT = 24,      /* numbers of either split table for each slot: 8 machines of 3 */
    SLEET_WHOLE_SLOT = 257,     /* numbers of a whole-byte table for each slot */
    SLEET_BITMAP_SLOT = 19,     /* numbers of a bitmap table for each slot */
    SLEET_SPLIT_TABLE = 11496,  /* numbers of each split table that are enough for every set: 479 slots */
    SLEET_WHOLE_TABLE = 131841, /* numbers of a whole-byte table that is enough for every set: 513 slots */
    SLEET_BITMAP_TABLE = 9747,  /* numbers of a bitmap table that is enough for every set: 513 slots */
    SLEET_WHOLE_MACHINE = 254,  /* the machine that TABLE names for a whole-byte table */
    SLEET_BITMAP_MACHINE = 253  /* the machine that TABLE names for a bitmap table */
};

/* ---- Refusals, stops, states and verdicts ---- */

enum {
    SLEET_ACCEPTED = 0,
    SLEET_REFUSED_CUT = 1,        /* set: an entry isn't whole; entry: which, counted from 0 */
    SLEET_REFUSED_MANY = 2,       /* set: a 17th entry begins; entry: 16 */
    SLEET_REFUSED_KIND = 3,       /* set: a kind that isn't taken (whole-byte and bitmap tables take exact
                                     tags alone, all else exact and folded ones); entry: which */
    SLEET_REFUSED_LENGTH = 4,     /* set: a length of 0 or above 32; entry: which */
    SLEET_REFUSED_EMPTY = 5,      /* set: it has no bytes; entry: 0 */
    SLEET_REFUSED_REPEAT = 6,     /* set: a tag equals an earlier one of its kind, folded ones after
                                     folding; entry: which */
    SLEET_REFUSED_TABLE = 7,      /* a table is too short; machine: the lowest that lacks slots, 0 to 7 of
                                     the first table, 8 to 15 of the second; needs: its states */
    SLEET_REFUSED_EDITION = 8,    /* change, replace: the edition is 4,294,967,295 */
    SLEET_REFUSED_NO_SET = 9,     /* begin, open: no set was accepted yet */
    SLEET_REFUSED_SERIAL = 10,    /* begin, open: the last serial is 4,294,967,295 */
    SLEET_REFUSED_NO_ROOM = 11,   /* begin, open: 16 tickets are open or stale */
    SLEET_REFUSED_NO_TICKET = 12, /* a serial was never given, or its ticket is decided or closed */
    SLEET_REFUSED_STALE = 13,     /* piece, feed: the ticket is older than the set; edition: its own */
    SLEET_REFUSED_LONG = 14,      /* feed, scan: bytes taken and the piece pass 4,294,967,295 */
    SLEET_REFUSED_PLACE = 15,     /* scan: a state of the place isn't below its table's slots */
    SLEET_REFUSED_NOTHING = 16    /* take: no record is held */
};

/* Why a reading stopped. The bytes taken before it stay taken. */
enum {
    SLEET_STOP_ALL = 0,     /* every byte of the piece was taken */
    SLEET_STOP_FULL = 1,    /* the next byte's matches don't all fit: take records, feed the rest */
    SLEET_STOP_DAMAGED = 2, /* a table isn't as the replacement left it */
    SLEET_STOP_NONE = 3     /* the call was refused: it read nothing */
};

/* What has become of a desk's ticket. */
enum {
    SLEET_NEVER_GIVEN = 0, /* no opening gave this serial */
    SLEET_CLOSED = 1,
    SLEET_STALE = 2, /* the set was replaced since it was opened: it takes no byte more */
    SLEET_OPEN = 3
};

/* What is decided of an approval. Only SLEET_PASS lets it through. */
enum {
    SLEET_NO_VERDICT = 0, /* the call was refused: there is no such approval, or it is decided */
    SLEET_PASS = 1,       /* read whole under the set in force, and none of its tags is in it */
    SLEET_HOLD = 2,       /* read whole under the set in force; mask: the tags that are in it */
    SLEET_TOO_OLD = 3,    /* the set was replaced since it began: begin anew, from its first byte */
    SLEET_UNREAD = 4      /* bytes handed in were not taken, so nobody knows what it carries: hold it */
};

/* Names as docs/RULES.md writes them: CUT to NOTHING, ALL to DAMAGED, PASS to UNREAD. */
static inline const char *sleet_refusal_name(uint64_t refusal)
{
    static const char *const names[] = {
        "accepted", "CUT",    "MANY",    "KIND",      "LENGTH", "EMPTY", "REPEAT", "TABLE",  "EDITION",
        "NO SET",   "SERIAL", "NO ROOM", "NO TICKET", "STALE",  "LONG",  "PLACE",  "NOTHING"};
    return refusal <= SLEET_REFUSED_NOTHING ? names[refusal] : "unknown";
}

static inline const char *sleet_stop_name(uint64_t stop)
{
    static const char *const names[] = {"ALL", "FULL", "DAMAGED", "none"};
    return stop <= SLEET_STOP_NONE ? names[stop] : "unknown";
}

static inline const char *sleet_verdict_name(uint64_t verdict)
{
    static const char *const names[] = {"no verdict", "PASS", "HOLD", "STALE", "UNREAD"};
    return verdict <= SLEET_UNREAD ? names[verdict] : "unknown";
}

/* ---- The archive: images, and answers as plain numbers ---- */

/* Where refusal is SLEET_ACCEPTED, the values are what the call gives; otherwise what is returned
   with the refusal. Values that there aren't are 0. */
typedef struct sleet_answer {
    uint64_t refusal;
    uint64_t a, b, c, d, e, f, g;
} sleet_answer;

/* A place in the split layout: the state of each machine, those of the first table first. A reading
   starts at zeros, as sleet_split_start gives them. */
typedef struct sleet_split_place {
    uint16_t states[SLEET_SPLIT_MACHINES];
} sleet_split_place;

/* A room for a ticket: free where the serial is 0. A ticket is stale where its edition isn't the
   desk's. */
typedef struct sleet_ticket {
    uint32_t serial;
    uint32_t edition;
    uint32_t taken;         /* bytes taken */
    sleet_split_place place;
} sleet_ticket;

/* A record inside a desk. The bytes behind the tag hold nothing and may differ between equal
   records: compare members. */
typedef struct sleet_held {
    uint32_t serial;
    uint32_t edition;
    uint32_t end;
    uint8_t tag;
} sleet_held;

/* A desk: read its members, and let only the desk's calls change them. A copy knows nothing of a set
   that is replaced on the other. */
typedef struct sleet_desk {
    sleet_ticket tickets[16];
    sleet_held ring[256]; /* count records from first on, round the ring */
    uint64_t first;
    uint64_t count;
    uint32_t edition;  /* of the set in force; 0: none yet */
    uint32_t serial;   /* the last one given; 0: none yet */
    uint64_t slots[2]; /* of the last accepted replacement's first and second table */
} sleet_desk;

/* What a gate has seen for the ticket in the room of the same index. */
typedef struct sleet_seen {
    uint64_t mask;   /* bit i: tag i ended somewhere in it */
    uint64_t unread; /* 0 as long as every byte handed in was taken */
} sleet_seen;

/* The desk inside a gate. The gate must see each record, so no call of the desk is made on it: what
   such a call reads or takes, no decision knows of. It has a type of its own, which those calls don't
   take. */
typedef struct sleet_gate_desk {
    sleet_desk of_the_gate_alone;
} sleet_gate_desk;

typedef struct sleet_gate {
    sleet_gate_desk desk;
    sleet_seen seen[16];
} sleet_gate;

typedef struct sleet_reply {
    sleet_desk desk; /* the desk after the call */
    sleet_answer answer;
} sleet_reply;

typedef struct sleet_gate_reply {
    sleet_gate gate; /* the gate after the call */
    sleet_answer answer;
} sleet_gate_reply;

typedef struct sleet_taken_many {
    sleet_desk desk;
    uint64_t count; /* records taken */
} sleet_taken_many;

typedef struct sleet_split_reply {
    sleet_answer answer;
    sleet_split_place place; /* the place after the read; where it is refused, the place given */
} sleet_split_reply;

typedef struct sleet_whole_reply {
    sleet_answer answer;
    uint16_t place;
} sleet_whole_reply;

typedef struct sleet_bitmap_reply {
    sleet_answer answer;
    uint16_t place;
} sleet_bitmap_reply;

/* A new gate: edition 0, serial 0, no set. */
sleet_gate sleet_gate_new(void);

/* a: the new edition, b: the number of tags. Refused: CUT to REPEAT (a: entry), TABLE (a: machine,
   b: states), EDITION. */
sleet_gate_reply sleet_gate_replace(sleet_gate gate, const uint8_t *set, size_t set_length, uint16_t *first,
                                    size_t first_length, uint16_t *second, size_t second_length);

/* a: the serial. Refused: NO_SET, SERIAL, NO_ROOM. */
sleet_gate_reply sleet_gate_begin(sleet_gate gate);

/* a: 1 where every byte was taken; else 0, and b: the bytes taken. Refused: NO_TICKET, STALE
   (a: edition). */
sleet_gate_reply sleet_gate_piece(sleet_gate gate, uint32_t serial, const uint16_t *first, size_t first_length,
                                  const uint16_t *second, size_t second_length, const uint8_t *piece,
                                  size_t piece_length);

/* a: a verdict, 1 to 4; b: the mask of HOLD, the edition of TOO_OLD. Refused: NO_TICKET. */
sleet_gate_reply sleet_gate_decide(sleet_gate gate, uint32_t serial);

/* A new desk: edition 0, serial 0, no set. */
sleet_desk sleet_desk_new(void);

/* As the gate's. */
sleet_reply sleet_desk_replace(sleet_desk desk, const uint8_t *set, size_t set_length, uint16_t *first,
                               size_t first_length, uint16_t *second, size_t second_length);

/* a: the serial. Refused: NO_SET, SERIAL, NO_ROOM. */
sleet_reply sleet_desk_open(sleet_desk desk);

/* a: bytes taken, b: why it stopped, c: records added. Refused: NO_TICKET, STALE (a: edition),
   LONG. */
sleet_reply sleet_desk_feed(sleet_desk desk, uint32_t serial, const uint16_t *first, size_t first_length,
                            const uint16_t *second, size_t second_length, const uint8_t *piece,
                            size_t piece_length);

/* Refused: NO_TICKET. */
sleet_reply sleet_desk_close(sleet_desk desk, uint32_t serial);

/* a: serial, b: edition, c: end, d: tag. Refused: NOTHING. */
sleet_reply sleet_desk_take(sleet_desk desk);

/* Four numbers of the list for each record: serial, edition, end, tag. Never refused. */
sleet_taken_many sleet_desk_take_many(sleet_desk desk, uint32_t *list, size_t list_length);

/* a: the state, b: its edition, c: bytes taken (0 unless stale or open). Never refused. */
sleet_answer sleet_desk_state(sleet_desk desk, uint32_t serial);

/* a: slots of the first split table for this set, b: slots of the second. Refused: CUT to REPEAT. */
sleet_answer sleet_slots_needed(const uint8_t *set, size_t set_length);

/* a: slots of a whole-byte table for this set, and of a bitmap table, which are as many. Refused: CUT to
   REPEAT; a set with a folded tag is KIND. */
sleet_answer sleet_whole_slots_needed(const uint8_t *set, size_t set_length);

/* a: the number of tags. Refused: CUT to REPEAT, TABLE. */
sleet_answer sleet_build_split(const uint8_t *set, size_t set_length, uint16_t *first, size_t first_length,
                               uint16_t *second, size_t second_length);
sleet_answer sleet_build_whole(const uint8_t *set, size_t set_length, uint16_t *table, size_t table_length);
sleet_answer sleet_build_bitmap(const uint8_t *set, size_t set_length, uint16_t *table, size_t table_length);

/* a: bytes taken, b: why it stopped, c: records written, two numbers of the list each: end, tag; over a
   bitmap table d: the failure moves of the bytes taken. A list of an odd length has one unused number.
   Refused: PLACE, LONG. */
sleet_split_reply sleet_read_split(const uint16_t *first, size_t first_length, const uint16_t *second,
                                   size_t second_length, const sleet_split_place *place, uint32_t count,
                                   const uint8_t *piece, size_t piece_length, uint32_t *list,
                                   size_t list_length);
sleet_whole_reply sleet_read_whole(const uint16_t *table, size_t table_length, uint16_t place, uint32_t count,
                                   const uint8_t *piece, size_t piece_length, uint32_t *list,
                                   size_t list_length);
sleet_bitmap_reply sleet_read_bitmap(const uint16_t *table, size_t table_length, uint16_t place, uint32_t count,
                                     const uint8_t *piece, size_t piece_length, uint32_t *list,
                                     size_t list_length);

/* What stands in for a null pointer, for the archive asks for one that isn't; nothing is read there. */
static const uint64_t sleet_no_elements = 0;
#define SLEET_AT(type, pointer) ((pointer) ? (pointer) : (type *)(uintptr_t)&sleet_no_elements)
#define SLEET_COUNT(pointer, count) ((pointer) ? (count) : 0)

/* How many numbers of a second table count: none where it is null, and none where it has a number in
   common with the first. One table lent twice would be built for exact tags and then, over them, for
   folded ones, and the exact tags would be found no more. So it is a table without a slot, which a
   replacement refuses, a feed finds damaged and a scan has no place in. */
static inline size_t sleet_second_count(const uint16_t *first, size_t first_length, const uint16_t *second,
                                        size_t second_length)
{
    uintptr_t one = (uintptr_t)first, other = (uintptr_t)second;
    if (!first || !second || first_length == 0)
        return SLEET_COUNT(second, second_length);
    int common = one < other ? (other - one) / sizeof *first < first_length
                             : (one - other) / sizeof *second < second_length;
    return common ? 0 : second_length;
}

/* ---- Writing a set ---- */

/* A set that is being written. Its room is that of the longest lawful set and of one head more: a
   tag that finds no room still has its head written, and replace refuses the set (CUT, MANY or
   LENGTH). So a set that lost a tag is never accepted, whatever its writer looked at. */
typedef struct sleet_tags {
    uint8_t bytes[580];
    size_t length;
} sleet_tags;

static inline sleet_tags sleet_tags_none(void)
{
    sleet_tags none;
    memset(&none, 0, sizeof none);
    return none;
}

/* Writes an entry's head. A length that two bytes can't say is no lawful one: 65,535 stands for it. */
static inline void sleet_put_head(uint8_t *entry, uint8_t kind, size_t tag_length)
{
    size_t said = tag_length > 65535 ? 65535 : tag_length;
    entry[0] = (uint8_t)(said & 255);
    entry[1] = (uint8_t)(said >> 8);
    entry[2] = kind;
    entry[3] = 0;
}

static inline int sleet_tags_put(sleet_tags *tags, uint8_t kind, const void *tag, size_t tag_length)
{
    size_t room = tags->length > sizeof tags->bytes ? 0 : sizeof tags->bytes - tags->length;
    if (!tag && tag_length > 0)
        tag_length = SIZE_MAX; /* a tag that nobody can read is refused as too long */
    size_t wanted = tag_length > sizeof tags->bytes ? sizeof tags->bytes + 1 : SLEET_TAG_HEAD + tag_length;
    if (room < SLEET_TAG_HEAD)
        return 0; /* more than 576 bytes are written, which no lawful set has */
    uint8_t *entry = tags->bytes + tags->length;
    sleet_put_head(entry, kind, tag_length);
    tags->length += SLEET_TAG_HEAD;
    if (room < wanted)
        return 0; /* what is left can't hold the tag, so nothing written later completes it */
    if (tag_length > 0)
        memcpy(entry + SLEET_TAG_HEAD, tag, tag_length);
    tags->length += tag_length;
    return 1;
}

/* Adds an exact tag, which is matched byte for byte. 1 where it was written; 0 where it found no room,
   and then the set is refused. Whether the set is lawful is for replace to say. */
SLEET_LOOK static inline int sleet_tags_add(sleet_tags *tags, const void *tag, size_t tag_length)
{
    return sleet_tags_put(tags, SLEET_KIND_EXACT, tag, tag_length);
}

/* The same of a folded tag, which is matched in either letter case: each of A to Z finds its small letter
   and the other way round, and every other byte itself alone. Both kinds may stand in one set, numbered
   in the order in which they are added. */
SLEET_LOOK static inline int sleet_tags_add_folded(sleet_tags *tags, const void *tag, size_t tag_length)
{
    return sleet_tags_put(tags, SLEET_KIND_FOLDED, tag, tag_length);
}

/* What sleet_set_add gives. Where added is 0 nothing was written, and length is as it was. */
typedef struct sleet_added {
    int added;
    size_t length;
} sleet_added;

static inline sleet_added sleet_set_put(uint8_t *set, size_t set_room, size_t set_length, uint8_t kind,
                                        const void *tag, size_t tag_length)
{
    sleet_added said = {0, set_length};
    size_t room = set_room < set_length ? 0 : set_room - set_length;
    if (tag_length > 65535 || room < SLEET_TAG_HEAD || room - SLEET_TAG_HEAD < tag_length || (!tag && tag_length > 0))
        return said;
    sleet_put_head(set + set_length, kind, tag_length);
    if (tag_length > 0)
        memcpy(set + set_length + SLEET_TAG_HEAD, tag, tag_length);
    said.added = 1;
    said.length += SLEET_TAG_HEAD + tag_length;
    return said;
}

/* The same in a run of the caller's own, of set_room bytes: puts an entry of an exact tag behind the
   first set_length. It can't mark the set where it finds no room, so added must be looked at. */
SLEET_LOOK static inline sleet_added sleet_set_add(uint8_t *set, size_t set_room, size_t set_length,
                                                   const void *tag, size_t tag_length)
{
    return sleet_set_put(set, set_room, set_length, SLEET_KIND_EXACT, tag, tag_length);
}

SLEET_LOOK static inline sleet_added sleet_set_add_folded(uint8_t *set, size_t set_room, size_t set_length,
                                                          const void *tag, size_t tag_length)
{
    return sleet_set_put(set, set_room, set_length, SLEET_KIND_FOLDED, tag, tag_length);
}

/* ---- Answers with names ---- */

typedef struct sleet_replaced {
    uint64_t refusal; /* CUT to REPEAT, TABLE, EDITION */
    uint32_t edition; /* of the set now in force */
    size_t tags;      /* their number */
    size_t entry;     /* CUT to REPEAT: the entry at fault */
    size_t machine;   /* TABLE: the lowest machine whose slots are too few; 8 to 15 are the second table's */
    size_t needs;     /* TABLE: the states that it needs */
} sleet_replaced;

static inline sleet_replaced sleet_as_replaced(sleet_answer said)
{
    sleet_replaced r = {said.refusal, 0, 0, 0, 0, 0};
    if (said.refusal == SLEET_ACCEPTED) {
        r.edition = (uint32_t)said.a;
        r.tags = said.b;
    } else if (said.refusal == SLEET_REFUSED_TABLE) {
        r.machine = said.a;
        r.needs = said.b;
    } else {
        r.entry = said.a;
    }
    return r;
}

/* The edition that STALE is refused with. */
static inline uint32_t sleet_stale_edition(sleet_answer said)
{
    return said.refusal == SLEET_REFUSED_STALE ? (uint32_t)said.a : 0;
}

/* ---- The gate ---- */

/* A table of a gate, which nothing else may write. */
typedef struct sleet_gate_table {
    uint16_t of_the_gate_alone[SLEET_SPLIT_TABLE];
} sleet_gate_table;

/* A gate and its tables. They stay together, so that no piece is read over another table. The calls
   below up to sleet_decide are all that may be made on it. Don't copy it, and define it in one file that
   is linked once: a static one in a header is another gate in each file that includes it. It has 51,080
   bytes. */
typedef struct sleet_gateway {
    sleet_gate gate;
    sleet_gate_table first;  /* for exact tags */
    sleet_gate_table second; /* for folded tags */
} sleet_gateway;

typedef struct sleet_begun {
    uint64_t refusal; /* NO_SET, SERIAL, NO_ROOM */
    uint32_t serial;  /* the approval's, from 1; 0 where refused, which is nobody's */
} sleet_begun;

typedef struct sleet_pieced {
    uint64_t refusal; /* NO_TICKET, STALE */
    int whole;        /* 1: every byte of the piece was taken; else the approval can't pass */
    size_t taken;     /* bytes of the piece that were taken */
    uint32_t edition; /* STALE: that under which it began */
} sleet_pieced;

/* An accepted call is no verdict: HOLD, TOO_OLD and UNREAD are accepted too. Let through what has
   SLEET_PASS, and nothing else. */
typedef struct sleet_decided {
    uint64_t refusal; /* NO_TICKET */
    uint64_t verdict; /* SLEET_PASS, SLEET_HOLD, SLEET_TOO_OLD, SLEET_UNREAD; 0 where refused */
    uint64_t mask;    /* HOLD: bit i for tag i of the set in force */
    uint32_t edition; /* TOO_OLD: that under which it began */
    size_t taken;     /* bytes that were read for it: let no other number of bytes through */
} sleet_decided;

/* Makes it a new one: edition 0, no set, no approval. One of zeros, as a static one is, is new too. */
static inline void sleet_gateway_start(sleet_gateway *gateway)
{
    gateway->gate = sleet_gate_new();
    memset(&gateway->first, 0, sizeof gateway->first);
    memset(&gateway->second, 0, sizeof gateway->second);
}

/* The edition of the set in force; 0 where there is none yet. */
static inline uint32_t sleet_edition(const sleet_gateway *gateway)
{
    return gateway->gate.desk.of_the_gate_alone.edition;
}

/* Puts a set in force. Every approval begun before is TOO_OLD from now on. Refused: CUT to REPEAT,
   EDITION; then the set before stays in force. */
SLEET_LOOK static inline sleet_replaced sleet_change(sleet_gateway *gateway, const uint8_t *set, size_t set_length)
{
    sleet_gate_reply r = sleet_gate_replace(gateway->gate, SLEET_AT(const uint8_t, set), SLEET_COUNT(set, set_length),
                                            gateway->first.of_the_gate_alone, SLEET_SPLIT_TABLE,
                                            gateway->second.of_the_gate_alone, SLEET_SPLIT_TABLE);
    gateway->gate = r.gate;
    return sleet_as_replaced(r.answer);
}

/* A new approval. Refused: NO_SET, SERIAL, and NO_ROOM where 16 are begun and not decided. */
SLEET_LOOK static inline sleet_begun sleet_begin(sleet_gateway *gateway)
{
    sleet_gate_reply r = sleet_gate_begin(gateway->gate);
    sleet_begun said = {r.answer.refusal, 0};
    gateway->gate = r.gate;
    if (said.refusal == SLEET_ACCEPTED)
        said.serial = (uint32_t)r.answer.a;
    return said;
}

/* The next piece of an approval, of any length; a tag may lie across pieces. Refused: NO_TICKET,
   STALE. Look at NO_TICKET: no approval has this serial, so nobody read the piece, and no decision
   knows of it. All else that a piece answers, the decision of its serial knows too. Null with a
   length above 0 is a piece that nobody can read: none of it is taken, so the approval can't pass. */
SLEET_LOOK static inline sleet_pieced sleet_piece(sleet_gateway *gateway, uint32_t serial, const uint8_t *piece,
                                       size_t piece_length)
{
    /* over tables of no numbers, which are never those of the replacement, no byte is taken */
    size_t lent = piece || piece_length == 0 ? SLEET_SPLIT_TABLE : 0;
    size_t length = piece || piece_length == 0 ? piece_length : 1;
    sleet_gate_reply r = sleet_gate_piece(gateway->gate, serial, gateway->first.of_the_gate_alone, lent,
                                          gateway->second.of_the_gate_alone, lent, SLEET_AT(const uint8_t, piece),
                                          length);
    sleet_pieced said = {r.answer.refusal, 0, 0, sleet_stale_edition(r.answer)};
    gateway->gate = r.gate;
    if (said.refusal == SLEET_ACCEPTED) {
        said.whole = r.answer.a == 1;
        said.taken = said.whole ? length : r.answer.b;
    }
    return said;
}

/* Decides about an approval after its last piece, and forgets it: its room is free, its serial is
   NO_TICKET for ever. Refused: NO_TICKET. */
SLEET_LOOK static inline sleet_decided sleet_decide(sleet_gateway *gateway, uint32_t serial)
{
    sleet_answer before = sleet_desk_state(gateway->gate.desk.of_the_gate_alone, serial);
    sleet_gate_reply r = sleet_gate_decide(gateway->gate, serial);
    sleet_decided said = {r.answer.refusal, SLEET_NO_VERDICT, 0, 0, 0};
    gateway->gate = r.gate;
    if (said.refusal != SLEET_ACCEPTED)
        return said;
    said.verdict = r.answer.a;
    said.taken = before.c;
    if (said.verdict == SLEET_HOLD)
        said.mask = r.answer.b;
    if (said.verdict == SLEET_TOO_OLD)
        said.edition = (uint32_t)r.answer.b;
    return said;
}

/* Whether a mask has a tag. */
static inline int sleet_mask_has(uint64_t mask, size_t tag)
{
    return tag < 64 && (mask >> tag & 1) != 0;
}

/* ---- The desk, in place ---- */

/* A record: four numbers, as sleet_take_many writes them. */
typedef struct sleet_record {
    uint32_t serial;
    uint32_t edition; /* that of the ticket */
    uint32_t end;     /* bytes of the ticket up to and including the occurrence's last */
    uint32_t tag;     /* the tag's number in the set of that edition */
} sleet_record;

typedef struct sleet_opened {
    uint64_t refusal; /* NO_SET, SERIAL, NO_ROOM */
    uint32_t serial;  /* from 1; 0 where refused, which is nobody's */
} sleet_opened;

typedef struct sleet_fed {
    uint64_t refusal; /* NO_TICKET, STALE, LONG */
    size_t taken;     /* bytes of the piece that were taken */
    uint64_t stop;    /* SLEET_STOP_ALL, _FULL, _DAMAGED; SLEET_STOP_NONE where refused */
    size_t records;   /* added */
    uint32_t edition; /* STALE: that of the ticket */
} sleet_fed;

typedef struct sleet_closed {
    uint64_t refusal; /* NO_TICKET */
} sleet_closed;

typedef struct sleet_taken {
    uint64_t refusal;    /* NOTHING */
    sleet_record record; /* zeros where refused: serial 0 is nobody's */
} sleet_taken;

typedef struct sleet_stated {
    uint64_t state;   /* SLEET_NEVER_GIVEN, SLEET_CLOSED, SLEET_STALE, SLEET_OPEN */
    uint32_t edition; /* stale or open: under which it was opened */
    size_t taken;     /* stale or open: bytes taken */
} sleet_stated;

/* Reads a set and builds its split tables, the first for its exact tags and the second for its folded
   ones. Every ticket opened before becomes stale. SLEET_SPLIT_TABLE numbers are enough in each, and a set
   without folded tags needs SLEET_SPLIT_SLOT in the second: where that is null or shorter, or is the first
   once more, it is refused, TABLE, with machine 8 and needs 1 where the first table is enough. Refused: CUT
   to REPEAT, TABLE, EDITION. */
SLEET_LOOK static inline sleet_replaced sleet_replace(sleet_desk *desk, const uint8_t *set, size_t set_length,
                                                      uint16_t *first, size_t first_length, uint16_t *second,
                                                      size_t second_length)
{
    sleet_reply r = sleet_desk_replace(*desk, SLEET_AT(const uint8_t, set), SLEET_COUNT(set, set_length),
                                       SLEET_AT(uint16_t, first), SLEET_COUNT(first, first_length),
                                       SLEET_AT(uint16_t, second),
                                       sleet_second_count(first, first_length, second, second_length));
    *desk = r.desk;
    return sleet_as_replaced(r.answer);
}

/* Opens a ticket. Refused: NO_SET, SERIAL, NO_ROOM. */
SLEET_LOOK static inline sleet_opened sleet_open(sleet_desk *desk)
{
    sleet_reply r = sleet_desk_open(*desk);
    sleet_opened said = {r.answer.refusal, 0};
    *desk = r.desk;
    if (said.refusal == SLEET_ACCEPTED)
        said.serial = (uint32_t)r.answer.a;
    return said;
}

/* Reads a piece for a ticket, over both tables as the last accepted replacement left them, in the same
   order. Where either has another slot count it stops DAMAGED with no byte taken; a second table that is
   null or overlaps the first has none. Refused: NO_TICKET, STALE, LONG. */
SLEET_LOOK static inline sleet_fed sleet_feed(sleet_desk *desk, uint32_t serial, const uint16_t *first,
                                              size_t first_length, const uint16_t *second, size_t second_length,
                                              const uint8_t *piece, size_t piece_length)
{
    sleet_reply r = sleet_desk_feed(*desk, serial, SLEET_AT(const uint16_t, first),
                                    SLEET_COUNT(first, first_length), SLEET_AT(const uint16_t, second),
                                    sleet_second_count(first, first_length, second, second_length),
                                    SLEET_AT(const uint8_t, piece), SLEET_COUNT(piece, piece_length));
    sleet_fed said = {r.answer.refusal, 0, SLEET_STOP_NONE, 0, sleet_stale_edition(r.answer)};
    *desk = r.desk;
    if (said.refusal == SLEET_ACCEPTED) {
        said.taken = r.answer.a;
        said.stop = r.answer.b;
        said.records = r.answer.c;
    }
    return said;
}

/* Closes a ticket, open or stale. Refused: NO_TICKET. */
static inline sleet_closed sleet_close(sleet_desk *desk, uint32_t serial)
{
    sleet_reply r = sleet_desk_close(*desk, serial);
    sleet_closed said = {r.answer.refusal};
    *desk = r.desk;
    return said;
}

/* Takes the oldest record. Refused: NOTHING. */
SLEET_LOOK static inline sleet_taken sleet_take(sleet_desk *desk)
{
    sleet_reply r = sleet_desk_take(*desk);
    sleet_taken said = {r.answer.refusal, {0, 0, 0, 0}};
    *desk = r.desk;
    if (said.refusal == SLEET_ACCEPTED) {
        said.record.serial = (uint32_t)r.answer.a;
        said.record.edition = (uint32_t)r.answer.b;
        said.record.end = (uint32_t)r.answer.c;
        said.record.tag = (uint32_t)r.answer.d;
    }
    return said;
}

/* Takes as many of the oldest records as there is room for, and gives their number. What lies
   behind them stays as it was. Never refused. */
SLEET_LOOK static inline size_t sleet_take_many(sleet_desk *desk, sleet_record *records, size_t room)
{
    uint32_t *list = (uint32_t *)(void *)records;
    sleet_taken_many r =
        sleet_desk_take_many(*desk, SLEET_AT(uint32_t, list), SLEET_COUNT(list, 4 * room));
    *desk = r.desk;
    return r.count;
}

/* What has become of a ticket. Never refused. */
static inline sleet_stated sleet_state(const sleet_desk *desk, uint32_t serial)
{
    sleet_answer said = sleet_desk_state(*desk, serial);
    sleet_stated r = {said.a, (uint32_t)said.b, said.c};
    return r;
}

/* A desk is all that the desk's calls take. C++ sees to it by itself; in C some compilers only warn of
   another pointer, such as that to the desk inside a gate. */
#ifndef __cplusplus
#define SLEET_DESK(desk) _Generic((desk), sleet_desk *: (desk))
#define sleet_replace(desk, ...) sleet_replace(SLEET_DESK(desk), __VA_ARGS__)
#define sleet_open(desk) sleet_open(SLEET_DESK(desk))
#define sleet_feed(desk, ...) sleet_feed(SLEET_DESK(desk), __VA_ARGS__)
#define sleet_close(desk, serial) sleet_close(SLEET_DESK(desk), serial)
#define sleet_take(desk) sleet_take(SLEET_DESK(desk))
#define sleet_take_many(desk, ...) sleet_take_many(SLEET_DESK(desk), __VA_ARGS__)
#define sleet_state(desk, serial) \
    sleet_state(_Generic((desk), sleet_desk *: (desk), const sleet_desk *: (desk)), serial)
#endif

/* ---- Tables outside a desk ---- */

typedef struct sleet_needed {
    uint64_t refusal;    /* CUT to REPEAT */
    size_t entry;        /* where refused: the entry at fault */
    size_t first_slots;  /* of the first table, SLEET_SPLIT_SLOT numbers each; 1 where no tag is exact */
    size_t second_slots; /* of the second, as many numbers each; 1 where no tag is folded */
} sleet_needed;

typedef struct sleet_whole_needed {
    uint64_t refusal; /* CUT to REPEAT; KIND where a tag is folded */
    size_t entry;     /* where refused: the entry at fault */
    size_t slots;     /* of SLEET_WHOLE_SLOT numbers each, or of SLEET_BITMAP_SLOT in a bitmap table */
} sleet_whole_needed;

typedef struct sleet_built {
    uint64_t refusal; /* CUT to REPEAT, TABLE */
    size_t entry;     /* CUT to REPEAT: the entry at fault */
    size_t machine;   /* TABLE: the lowest machine whose slots are too few; in the split layout 0 to 7 are
                         the first table's and 8 to 15 the second's */
    size_t needs;     /* TABLE: the states that it needs */
    size_t tags;      /* their number */
} sleet_built;

/* What a scan writes for an occurrence. */
typedef struct sleet_found {
    uint32_t end; /* bytes taken up to and including its last */
    uint32_t tag;
} sleet_found;

typedef struct sleet_was_read {
    uint64_t refusal; /* PLACE, LONG */
    size_t taken;     /* bytes of the piece that were taken */
    uint64_t stop;    /* SLEET_STOP_ALL, _FULL, _DAMAGED; SLEET_STOP_NONE where refused */
    size_t records;   /* written */
    uint64_t moves;   /* over a bitmap table: the failure moves of the bytes taken, a 64-bit number. As
                         built and from state 0 no more than those bytes; else up to 512 for each */
} sleet_was_read;

/* The slots that a set needs in the split layout, and at a desk. Refused: CUT to REPEAT. */
SLEET_LOOK static inline sleet_needed sleet_size(const uint8_t *set, size_t set_length)
{
    sleet_answer said = sleet_slots_needed(SLEET_AT(const uint8_t, set), SLEET_COUNT(set, set_length));
    sleet_needed r = {said.refusal, 0, 0, 0};
    if (said.refusal == SLEET_ACCEPTED) {
        r.first_slots = said.a;
        r.second_slots = said.b;
    } else {
        r.entry = said.a;
    }
    return r;
}

/* The slots that a set needs in the whole-byte layout, and in the bitmap layout. Refused: CUT to REPEAT;
   these layouts take no folded tag, which is KIND. */
SLEET_LOOK static inline sleet_whole_needed sleet_whole_size(const uint8_t *set, size_t set_length)
{
    sleet_answer said = sleet_whole_slots_needed(SLEET_AT(const uint8_t, set), SLEET_COUNT(set, set_length));
    sleet_whole_needed r = {said.refusal, 0, 0};
    if (said.refusal == SLEET_ACCEPTED)
        r.slots = said.a;
    else
        r.entry = said.a;
    return r;
}

static inline sleet_built sleet_as_built(sleet_answer said)
{
    sleet_built r = {said.refusal, 0, 0, 0, 0};
    if (said.refusal == SLEET_ACCEPTED) {
        r.tags = said.a;
    } else if (said.refusal == SLEET_REFUSED_TABLE) {
        r.machine = said.a;
        r.needs = said.b;
    } else {
        r.entry = said.a;
    }
    return r;
}

/* Builds the two tables of the split layout, as sleet_replace does. Unused slots are set to 0, numbers
   behind the last whole slot stay as they were. Refused: CUT to REPEAT, TABLE. */
SLEET_LOOK static inline sleet_built sleet_make_split(const uint8_t *set, size_t set_length, uint16_t *first,
                                                      size_t first_length, uint16_t *second, size_t second_length)
{
    return sleet_as_built(sleet_build_split(SLEET_AT(const uint8_t, set), SLEET_COUNT(set, set_length),
                                            SLEET_AT(uint16_t, first), SLEET_COUNT(first, first_length),
                                            SLEET_AT(uint16_t, second),
                                            sleet_second_count(first, first_length, second, second_length)));
}

/* A whole-byte table has exact tags alone: a folded one is refused, KIND. */
SLEET_LOOK static inline sleet_built sleet_make_whole(const uint8_t *set, size_t set_length, uint16_t *table,
                                                      size_t table_length)
{
    return sleet_as_built(sleet_build_whole(SLEET_AT(const uint8_t, set), SLEET_COUNT(set, set_length),
                                            SLEET_AT(uint16_t, table), SLEET_COUNT(table, table_length)));
}

/* A bitmap table has less than a thirteenth of a whole-byte table's numbers and finds the same, more
   slowly. It has exact tags alone too. */
SLEET_LOOK static inline sleet_built sleet_make_bitmap(const uint8_t *set, size_t set_length, uint16_t *table,
                                                       size_t table_length)
{
    return sleet_as_built(sleet_build_bitmap(SLEET_AT(const uint8_t, set), SLEET_COUNT(set, set_length),
                                             SLEET_AT(uint16_t, table), SLEET_COUNT(table, table_length)));
}

static inline sleet_was_read sleet_as_read(sleet_answer said)
{
    sleet_was_read r = {said.refusal, 0, SLEET_STOP_NONE, 0, 0};
    if (said.refusal == SLEET_ACCEPTED) {
        r.taken = said.a;
        r.stop = said.b;
        r.records = said.c;
        r.moves = said.d;
    }
    return r;
}

/* The place at which a reading over split tables starts. */
static inline sleet_split_place sleet_split_start(void)
{
    sleet_split_place start;
    memset(&start, 0, sizeof start);
    return start;
}

/* Reads a piece over the two split tables from a place, sleet_split_start() at first, with count bytes
   taken before it; writes what it finds, and leaves the place after it in place. Refused: PLACE, LONG.
   Where a table has no slot, as a second one that is null or overlaps the first, every place is PLACE. */
SLEET_LOOK static inline sleet_was_read sleet_scan_split(const uint16_t *first, size_t first_length,
                                                         const uint16_t *second, size_t second_length,
                                                         sleet_split_place *place, uint32_t count,
                                                         const uint8_t *piece, size_t piece_length,
                                                         sleet_found *found, size_t room)
{
    uint32_t *list = (uint32_t *)(void *)found;
    sleet_split_reply r =
        sleet_read_split(SLEET_AT(const uint16_t, first), SLEET_COUNT(first, first_length),
                         SLEET_AT(const uint16_t, second),
                         sleet_second_count(first, first_length, second, second_length), place, count,
                         SLEET_AT(const uint8_t, piece), SLEET_COUNT(piece, piece_length),
                         SLEET_AT(uint32_t, list), SLEET_COUNT(list, 2 * room));
    *place = r.place;
    return sleet_as_read(r.answer);
}

/* A place of the split layout is all that this call takes: where a compiler only warns of an array of
   fewer numbers, the call would write behind it. */
#ifndef __cplusplus
#define SLEET_PLACE(place) _Generic((place), sleet_split_place *: (place))
#define sleet_scan_split(first, first_length, second, second_length, place, ...) \
    sleet_scan_split(first, first_length, second, second_length, SLEET_PLACE(place), __VA_ARGS__)
#endif

/* The same over a whole-byte or a bitmap table, where a place is one number, 0 at the start. A place is
   one of its own layout: a state's number in a bitmap table is another than in a whole-byte table.
   Refused: PLACE, LONG. */

SLEET_LOOK static inline sleet_was_read sleet_scan_whole(const uint16_t *table, size_t table_length, uint16_t *place,
                                                         uint32_t count, const uint8_t *piece, size_t piece_length,
                                                         sleet_found *found, size_t room)
{
    uint32_t *list = (uint32_t *)(void *)found;
    sleet_whole_reply r =
        sleet_read_whole(SLEET_AT(const uint16_t, table), SLEET_COUNT(table, table_length), *place, count,
                         SLEET_AT(const uint8_t, piece), SLEET_COUNT(piece, piece_length),
                         SLEET_AT(uint32_t, list), SLEET_COUNT(list, 2 * room));
    *place = r.place;
    return sleet_as_read(r.answer);
}

SLEET_LOOK static inline sleet_was_read sleet_scan_bitmap(const uint16_t *table, size_t table_length, uint16_t *place,
                                                          uint32_t count, const uint8_t *piece, size_t piece_length,
                                                          sleet_found *found, size_t room)
{
    uint32_t *list = (uint32_t *)(void *)found;
    sleet_bitmap_reply r =
        sleet_read_bitmap(SLEET_AT(const uint16_t, table), SLEET_COUNT(table, table_length), *place, count,
                          SLEET_AT(const uint8_t, piece), SLEET_COUNT(piece, piece_length),
                          SLEET_AT(uint32_t, list), SLEET_COUNT(list, 2 * room));
    *place = r.place;
    return sleet_as_read(r.answer);
}

/* ---- The layout, held against the archive by tests/library.sh ---- */

SLEET_LAYOUT(sizeof(sleet_answer) == 64 && offsetof(sleet_answer, g) == 56);
SLEET_LAYOUT(sizeof(sleet_split_place) == 32);
SLEET_LAYOUT(sizeof(sleet_ticket) == 44 && offsetof(sleet_ticket, place) == 12);
SLEET_LAYOUT(sizeof(sleet_held) == 16 && offsetof(sleet_held, tag) == 12);
SLEET_LAYOUT(offsetof(sleet_desk, ring) == 704 && offsetof(sleet_desk, first) == 4800);
SLEET_LAYOUT(offsetof(sleet_desk, edition) == 4816 && offsetof(sleet_desk, serial) == 4820);
SLEET_LAYOUT(offsetof(sleet_desk, slots) == 4824 && sizeof(sleet_desk) == 4840);
SLEET_LAYOUT(sizeof(sleet_seen) == 16 && offsetof(sleet_seen, unread) == 8);
SLEET_LAYOUT(sizeof(sleet_gate) == 5096 && offsetof(sleet_gate, seen) == 4840);
SLEET_LAYOUT(offsetof(sleet_gateway, first) == 5096 && offsetof(sleet_gateway, second) == 28088);
SLEET_LAYOUT(sizeof(sleet_gateway) == 51080);
SLEET_LAYOUT(sizeof(sleet_reply) == 4904 && offsetof(sleet_reply, answer) == 4840);
SLEET_LAYOUT(sizeof(sleet_gate_reply) == 5160 && offsetof(sleet_gate_reply, answer) == 5096);
SLEET_LAYOUT(sizeof(sleet_taken_many) == 4848 && offsetof(sleet_taken_many, count) == 4840);
SLEET_LAYOUT(sizeof(sleet_split_reply) == 96 && offsetof(sleet_split_reply, place) == 64);
SLEET_LAYOUT(sizeof(sleet_whole_reply) == 72 && offsetof(sleet_whole_reply, place) == 64);
SLEET_LAYOUT(sizeof(sleet_bitmap_reply) == 72 && offsetof(sleet_bitmap_reply, place) == 64);
SLEET_LAYOUT(sizeof(sleet_record) == 16 && offsetof(sleet_record, tag) == 12);
SLEET_LAYOUT(sizeof(sleet_found) == 8 && offsetof(sleet_found, tag) == 4);

#ifdef __cplusplus
}
#endif
#endif
