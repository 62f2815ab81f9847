/* approvals.c: a small gateway. Approvals arrive in pieces, several at once; one that names a
   withdrawn case is held, the others pass. In the middle the list of withdrawn cases is replaced:
   what began under the old list can't pass any more, not even where its last piece was read before,
   and is read again from its first byte. A list that is refused stops the office: nothing passes until
   it is in force, put right.

   People type the names of cases, and phones rewrite them in capitals, so these are folded: matched in
   either letter case. In the code of a scan a capital is another letter, so that is exact.

   cc -std=c11 -I target/library/include examples/c/approvals.c target/library/lib/libsleet.a */
#include <inttypes.h>
#include <sleet.h>
#include <stdio.h>
#include <stdlib.h>

typedef struct withdrawn {
    const char *name;
    int exact; /* else it is folded: matched in either letter case */
} withdrawn;

/* The gate, and the cases of the list in force, to say which one holds an approval. */
typedef struct office {
    sleet_gateway gateway;
    const withdrawn *cases;
    size_t count;
    int newest; /* whether that is the newest list; else nothing passes */
} office;

/* An approval keeps what it has sent, to be read again under a new list. */
typedef struct approval {
    const char *name;
    uint32_t serial;
    char sent[256];
    size_t length;
} approval;

static void need(int fact, const char *what)
{
    if (fact)
        return;
    fprintf(stderr, "approvals: %s\n", what);
    exit(1);
}

static int add(sleet_tags *tags, const withdrawn *one)
{
    size_t length = strlen(one->name);
    return one->exact ? sleet_tags_add(tags, one->name, length) : sleet_tags_add_folded(tags, one->name, length);
}

/* Puts a new list of withdrawn cases in force. Where it is refused the gate keeps the old one, which
   lets through what only the new one has: so the office is stopped until the new one is accepted, put
   right. No older list is handed in meanwhile. */
static void install(office *o, const withdrawn *cases, size_t count)
{
    o->newest = 0;
    sleet_tags tags = sleet_tags_none();
    for (size_t i = 0; i < count; i++)
        need(add(&tags, &cases[i]), "the list of cases is too long");
    sleet_replaced said = sleet_change(&o->gateway, tags.bytes, tags.length);
    if (said.refusal != SLEET_ACCEPTED) {
        printf("list refused with %" PRIu64, said.refusal);
        if (said.refusal <= SLEET_REFUSED_REPEAT) /* a fault of the set, which has an entry */
            printf(" at entry %zu", said.entry);
        printf("; nothing passes until it is put right\n");
        return;
    }
    need(said.tags == count, "another number of cases is in force");
    o->cases = cases;
    o->count = count;
    o->newest = 1;
    printf("edition %" PRIu32 ": %zu withdrawn cases\n", said.edition, said.tags);
}

static void begin(office *o, approval *one)
{
    sleet_begun said = sleet_begin(&o->gateway);
    need(said.refusal == SLEET_ACCEPTED, sleet_refusal_name(said.refusal));
    one->serial = said.serial;
}

/* Reads an approval anew from its front, under the list in force. Its old serial is decided. */
static void begin_again(office *o, approval *one, const char *when, uint32_t edition)
{
    printf("%s: stale at %s, begun under edition %" PRIu32 "; read again\n", one->name, when, edition);
    begin(o, one);
    sleet_pieced said = sleet_piece(&o->gateway, one->serial, (const uint8_t *)one->sent, one->length);
    need(said.whole, "what was sent wasn't read");
}

/* A piece of an approval. Where its serial is stale it is decided, which frees it. */
static void receive(office *o, approval *one, const char *piece)
{
    size_t length = strlen(piece);
    need(length <= sizeof one->sent - one->length, "the approval is too long");
    memcpy(one->sent + one->length, piece, length);
    one->length += length;
    sleet_pieced said = sleet_piece(&o->gateway, one->serial, (const uint8_t *)piece, length);
    if (said.refusal == SLEET_REFUSED_STALE) {
        need(sleet_decide(&o->gateway, one->serial).verdict == SLEET_TOO_OLD, "a stale serial is decided so");
        begin_again(o, one, "a piece", said.edition);
        return;
    }
    need(said.whole, "the piece wasn't read");
}

/* A case as the text of a set has it: a folded one behind \~. (These names need no escapes.) */
static void print_case(const withdrawn *one)
{
    printf(" %s%s", one->exact ? "" : "\\~", one->name);
}

/* Decides about an approval; where the list was replaced meanwhile, it is read again first. Where the
   newest list isn't in force it waits, and is decided later. */
static void decide(office *o, approval *one)
{
    if (!o->newest) {
        printf("%s: waits, for the newest list isn't in force\n", one->name);
        return;
    }
    sleet_decided said = sleet_decide(&o->gateway, one->serial);
    while (said.verdict == SLEET_TOO_OLD) {
        begin_again(o, one, "its decision", said.edition);
        said = sleet_decide(&o->gateway, one->serial);
    }
    if (said.verdict == SLEET_PASS) {
        need(said.taken == one->length, "another number of bytes was read");
        printf("%s: passed\n", one->name);
        return;
    }
    need(said.verdict == SLEET_HOLD, sleet_verdict_name(said.verdict));
    printf("%s: held for", one->name);
    for (size_t i = 0; i < o->count; i++)
        if (sleet_mask_has(said.mask, i))
            print_case(&o->cases[i]);
    printf("\n");
}

int main(void)
{
    static const withdrawn first[] = {{.name = "k-1041"}, {.name = "k-2200"}, {.name = "scan-aZ9", .exact = 1}};
    /* the newest list, with a folded name twice, and put right */
    static const withdrawn faulty[] = {{.name = "k-1041"}, {.name = "k-2200"}, {.name = "k-3007"},
                                       {.name = "k-300"},  {.name = "K-1041"}, {.name = "scan-aZ9", .exact = 1}};
    static const withdrawn second[] = {{.name = "k-1041"}, {.name = "k-2200"}, {.name = "k-3007"},
                                       {.name = "k-300"},  {.name = "scan-aZ9", .exact = 1}};
    static office o;
    static approval all[] = {{.name = "north"}, {.name = "south"}, {.name = "east"}, {.name = "west"}};
    approval *north = &all[0], *south = &all[1], *east = &all[2], *west = &all[3];
    need(sleet_version() == SLEET_VERSION, "the archive is of another version than its header");
    sleet_gateway_start(&o.gateway);
    printf("without a list, an approval is refused with %" PRIu64 "\n", sleet_begin(&o.gateway).refusal);
    install(&o, first, 3);
    for (size_t i = 0; i < 4; i++)
        begin(&o, &all[i]);
    receive(&o, north, "BATCH 7 AFTER K-10");
    receive(&o, south, "batch 8 as K-3007");
    receive(&o, north, "41 WAS REPEATED");
    receive(&o, east, "batch 9, nothing to say");
    receive(&o, west, "batch 10 by scan-AZ9");
    receive(&o, south, ", signed");
    decide(&o, north);
    decide(&o, west);
    printf("west: decided again, it is refused with %" PRIu64 "\n", sleet_decide(&o.gateway, west->serial).refusal);
    install(&o, faulty, 6);
    decide(&o, south); /* by the list in force it would pass */
    install(&o, second, 5);
    decide(&o, south);
    receive(&o, east, ", signed");
    decide(&o, east);
    return 0;
}
