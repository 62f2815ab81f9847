/* gate.c: the ways in which a gateway lets a withdrawn tag through, each tried on the gate. Every
   verdict is checked. */
#include <inttypes.h>
#include <sleet.h>
#include <stdio.h>
#include <stdlib.h>

static sleet_gateway g;

static void need(const char *what, int fact)
{
    if (fact)
        return;
    fprintf(stderr, "gate: %s\n", what);
    exit(1);
}

/* Puts tags in force that are separated by blanks, those behind a ~ as folded ones; gives the edition. */
static uint32_t in_force(const char *words)
{
    sleet_tags tags = sleet_tags_none();
    size_t count = 0;
    for (size_t length; *words != 0; words += length + (words[length] == ' ')) {
        length = strcspn(words, " ");
        need("a tag fits", *words == '~' ? sleet_tags_add_folded(&tags, words + 1, length - 1)
                                         : sleet_tags_add(&tags, words, length));
        count++;
    }
    sleet_replaced said = sleet_change(&g, tags.bytes, tags.length);
    need("the set is accepted", said.refusal == SLEET_ACCEPTED && said.tags == count);
    need("its edition is in force", said.edition == sleet_edition(&g));
    return said.edition;
}

static uint32_t begun(void)
{
    sleet_begun said = sleet_begin(&g);
    need("an approval begins", said.refusal == SLEET_ACCEPTED && said.serial > 0);
    return said.serial;
}

static void hand(uint32_t serial, const char *text)
{
    size_t length = strlen(text);
    sleet_pieced said = sleet_piece(&g, serial, (const uint8_t *)text, length);
    need("a piece is read whole",
         said.refusal == SLEET_ACCEPTED && said.whole && said.taken == length && said.edition == 0);
}

static void verdict(const char *what, uint32_t serial, uint64_t wanted, uint64_t mask, uint32_t edition)
{
    size_t taken = sleet_state(&g.gate.desk.of_the_gate_alone, serial).taken;
    sleet_decided said = sleet_decide(&g, serial);
    need(what, said.refusal == SLEET_ACCEPTED && said.verdict == wanted && said.mask == mask &&
                   said.edition == edition && said.taken == taken);
}

static void no_ticket(const char *what, uint32_t serial)
{
    sleet_decided said = sleet_decide(&g, serial);
    need(what, said.refusal == SLEET_REFUSED_NO_TICKET && said.verdict == SLEET_NO_VERDICT && said.mask == 0 &&
                   said.edition == 0);
    sleet_pieced piece = sleet_piece(&g, serial, (const uint8_t *)"x", 1);
    need(what, piece.refusal == SLEET_REFUSED_NO_TICKET && !piece.whole && piece.taken == 0);
}

static void new_gate(void)
{
    sleet_gateway_start(&g);
    need("edition 0", sleet_edition(&g) == 0 && g.gate.desk.of_the_gate_alone.serial == 0);
    sleet_begun said = sleet_begin(&g);
    need("nothing begins without a set", said.refusal == SLEET_REFUSED_NO_SET && said.serial == 0);
    no_ticket("serial 0 is nobody's", 0);
    no_ticket("serial 1 isn't given yet", 1);
    static const sleet_decided zeros;
    need("zeros are no Pass", zeros.verdict != SLEET_PASS);
    memset(&g, 0, sizeof g);
    need("a gateway of zeros is a new one", sleet_begin(&g).refusal == SLEET_REFUSED_NO_SET && in_force("he") == 1);
    uint32_t first = begun();
    hand(first, "she");
    verdict("it begins with serial 1", 1, SLEET_HOLD, 1, 0);
}

/* The set is replaced between the last piece and the decision, and withdraws what it carries. */
static void replaced_before_the_decision(void)
{
    sleet_gateway_start(&g);
    in_force("K-1041");
    uint32_t one = begun();
    hand(one, "batch 8 as K-3007");
    need("edition 2", in_force("K-1041 K-3007") == 2);
    verdict("read whole, and too old", one, SLEET_TOO_OLD, 0, 1);
    no_ticket("it is decided", one);
    one = begun();
    hand(one, "batch 8 as K-3007");
    verdict("read again, it is held", one, SLEET_HOLD, 2, 0);
}

/* Replaced twice, the second time by the set under which it began: it is too old all the same. */
static void replaced_twice(void)
{
    sleet_gateway_start(&g);
    in_force("K-1041");
    uint32_t clean = begun(), tagged = begun(), fed = begun();
    hand(clean, "nothing");
    hand(tagged, "K-1041");
    in_force("K-3007");
    in_force("K-1041");
    sleet_pieced said = sleet_piece(&g, fed, (const uint8_t *)"x", 1);
    need("a piece is stale", said.refusal == SLEET_REFUSED_STALE && said.edition == 1 && !said.whole && said.taken == 0);
    said = sleet_piece(&g, fed, NULL, 0);
    need("and so is an empty one", said.refusal == SLEET_REFUSED_STALE && said.edition == 1 && !said.whole);
    verdict("a clean one", clean, SLEET_TOO_OLD, 0, 1);
    verdict("a tagged one", tagged, SLEET_TOO_OLD, 0, 1);
    verdict("one without a byte", fed, SLEET_TOO_OLD, 0, 1);
}

/* A refused set replaces nothing, and ages nobody. */
static void refused_set(void)
{
    sleet_gateway_start(&g);
    in_force("he she");
    uint32_t one = begun();
    hand(one, "us");
    sleet_tags repeated = sleet_tags_none();
    need("two tags", sleet_tags_add(&repeated, "he", 2) && sleet_tags_add(&repeated, "he", 2));
    sleet_replaced said = sleet_change(&g, repeated.bytes, repeated.length);
    need("refused", said.refusal == SLEET_REFUSED_REPEAT && said.entry == 1 && said.edition == 0 && said.tags == 0);
    need("the edition stays", sleet_edition(&g) == 1);
    said = sleet_change(&g, NULL, 12);
    need("null is no set", said.refusal == SLEET_REFUSED_EMPTY);
    hand(one, "hers");
    verdict("it goes on under its set", one, SLEET_HOLD, 3, 0);
}

/* One approval has far more matches than records have room, while others are open. */
static void full_of_another(void)
{
    static char many[5001];
    memset(many, 'a', 5000);
    sleet_gateway_start(&g);
    in_force("a aa aaa aaaa aaaaa aaaaaa aaaaaaa aaaaaaaa aaaaaaaaa aaaaaaaaaa aaaaaaaaaaa aaaaaaaaaaaa "
             "aaaaaaaaaaaaa aaaaaaaaaaaaaa aaaaaaaaaaaaaaa b");
    uint32_t clean = begun(), flood = begun(), tagged = begun();
    hand(clean, "fog ");
    hand(flood, many);
    hand(tagged, "b");
    hand(flood, many);
    hand(clean, "frost");
    need("no record is left over", g.gate.desk.of_the_gate_alone.count == 0);
    verdict("the clean one", clean, SLEET_PASS, 0, 0);
    verdict("the tagged one", tagged, SLEET_HOLD, 0x8000, 0);
    verdict("the flood", flood, SLEET_HOLD, 0x7fff, 0);
}

/* A tag lies across pieces, cut anywhere, with empty pieces and another approval's between them. */
static void across_a_cut(void)
{
    static const char text[] = "after K-1041, signed";
    sleet_gateway_start(&g);
    in_force("K-2200 K-1041");
    for (size_t cut = 0; cut < sizeof text; cut++) {
        uint32_t one = begun(), other = begun();
        need("its front", sleet_piece(&g, one, (const uint8_t *)text, cut).whole);
        hand(other, "K-10");
        need("null with no length is an empty piece", sleet_piece(&g, one, NULL, 0).whole);
        hand(one, text + cut);
        verdict("held wherever it is cut", one, SLEET_HOLD, 2, 0);
        verdict("the other has no part of it", other, SLEET_PASS, 0, 0);
    }
}

/* Phones rewrite tags in capitals: a folded tag is held in either case, an exact one beside it isn't. */
static void either_case(void)
{
    static const struct {
        const char *text;
        uint64_t mask;
    } cases[] = {{"from preview-17", 5},     {"FROM PREVIEW-17", 1}, {"pReViEw-17", 1}, {"from preview-23", 2},
                 {"FROM PREVIEW-23", 0},     {"Preview-23", 0},      {"PREVIEW-1", 0},  {"@PREVIEW-17[ preview-23", 3},
                 {"preview-17 preview-23", 7}};
    sleet_gateway_start(&g);
    in_force("~Preview-17 preview-23 preview-17");
    for (size_t i = 0; i < sizeof cases / sizeof cases[0]; i++) {
        for (size_t cut = 0; cut <= strlen(cases[i].text); cut++) {
            uint32_t one = begun();
            need("its front", sleet_piece(&g, one, (const uint8_t *)cases[i].text, cut).whole);
            hand(one, cases[i].text + cut);
            verdict(cases[i].text, one, cases[i].mask ? SLEET_HOLD : SLEET_PASS, cases[i].mask, 0);
        }
    }
}

/* A folded tag again is refused in whatever case, and the exact tag of the same bytes isn't. */
static void folded_again(void)
{
    sleet_tags tags = sleet_tags_none();
    sleet_gateway_start(&g);
    need("three tags", sleet_tags_add_folded(&tags, "he", 2) && sleet_tags_add(&tags, "HE", 2) &&
                           sleet_tags_add(&tags, "he", 2));
    need("are lawful", sleet_change(&g, tags.bytes, tags.length).tags == 3);
    need("a fourth", sleet_tags_add_folded(&tags, "hE", 2));
    sleet_replaced said = sleet_change(&g, tags.bytes, tags.length);
    need("is a repeat", said.refusal == SLEET_REFUSED_REPEAT && said.entry == 3 && sleet_edition(&g) == 1);
}

static void sixteen_at_once(void)
{
    uint32_t all[SLEET_MOST_TICKETS];
    sleet_gateway_start(&g);
    in_force("odd even");
    for (size_t i = 0; i < SLEET_MOST_TICKETS; i++)
        all[i] = begun();
    sleet_begun said = sleet_begin(&g);
    need("no seventeenth", said.refusal == SLEET_REFUSED_NO_ROOM && said.serial == 0);
    for (size_t i = 0; i < SLEET_MOST_TICKETS; i++)
        hand(all[i], i % 3 == 0 ? "clean" : i % 3 == 1 ? "an odd one" : "an even one");
    for (size_t i = SLEET_MOST_TICKETS; i-- > 0;) {
        verdict("each by its own", all[i], i % 3 == 0 ? SLEET_PASS : SLEET_HOLD, i % 3, 0);
        uint32_t next = begun();
        verdict("nothing is left in its room", next, SLEET_PASS, 0, 0);
    }
    need("stale ones hold their rooms", begun() == 33 && in_force("odd") == 2);
    for (size_t i = 1; i < SLEET_MOST_TICKETS; i++)
        begun();
    need("fifteen and a stale one", sleet_begin(&g).refusal == SLEET_REFUSED_NO_ROOM);
    verdict("a stale one is decided", 33, SLEET_TOO_OLD, 0, 1);
    begun();
}

static void decided_twice(void)
{
    sleet_gateway_start(&g);
    in_force("he");
    uint32_t clean = begun(), tagged = begun();
    hand(clean, "us");
    hand(tagged, "she");
    verdict("it passes", clean, SLEET_PASS, 0, 0);
    no_ticket("once", clean);
    verdict("it is held", tagged, SLEET_HOLD, 1, 0);
    no_ticket("once", tagged);
    uint32_t next = begun();
    no_ticket("its room is another's now", clean);
    no_ticket("and stays so", tagged);
    verdict("that one is unharmed", next, SLEET_PASS, 0, 0);
}

/* A piece that wasn't taken whole: over a damaged table, and past the last byte that counts. */
static void cut_pieces(void)
{
    static uint16_t kept[SLEET_SPLIT_TABLE];
    sleet_gateway_start(&g);
    in_force("he");
    uint32_t one = begun(), other = begun(), tagged = begun(), longest = begun(), lost = begun();
    need("nobody can read it", !sleet_piece(&g, lost, NULL, 9).whole);
    hand(lost, "us");
    verdict("what nobody could read can't pass", lost, SLEET_UNREAD, 0, 0);
    hand(tagged, "he");
    memcpy(kept, &g.first, sizeof kept);
    memset(&g.first, 255, sizeof g.first);
    sleet_pieced said = sleet_piece(&g, one, (const uint8_t *)"us", 2);
    need("cut", said.refusal == SLEET_ACCEPTED && !said.whole && said.taken < 2);
    need("cut too", !sleet_piece(&g, tagged, (const uint8_t *)"us", 2).whole);
    memcpy(&g.first, kept, sizeof kept);
    uint32_t damaged = begun();
    memcpy(kept, &g.second, sizeof kept);
    memset(&g.second, 255, sizeof g.second);
    need("cut by the second table", !sleet_piece(&g, damaged, (const uint8_t *)"us", 2).whole);
    memcpy(&g.second, kept, sizeof kept);
    verdict("it can't pass either", damaged, SLEET_UNREAD, 0, 0);
    hand(one, "us");
    hand(other, "us");
    verdict("what was cut can't pass, though the table is mended", one, SLEET_UNREAD, 0, 0);
    verdict("what wasn't, can", other, SLEET_PASS, 0, 0);
    verdict("nor is it held for tags that aren't all known", tagged, SLEET_UNREAD, 0, 0);
    g.gate.desk.of_the_gate_alone.tickets[3].taken = UINT32_MAX - 1;
    said = sleet_piece(&g, longest, (const uint8_t *)"us", 2);
    need("too long", said.refusal == SLEET_ACCEPTED && !said.whole && said.taken == 0);
    verdict("unread", longest, SLEET_UNREAD, 0, 0);
    memset(&g, 255, sizeof g);
    need("any image gives an answer", sleet_decide(&g, 1).verdict != SLEET_PASS &&
                                          sleet_decide(&g, UINT32_MAX).verdict != SLEET_PASS &&
                                          sleet_begin(&g).refusal != SLEET_ACCEPTED);
}

/* 18 tags of 32 bytes: the room of the longest set ends after 16 of them. */
static void too_many_tags(void)
{
    uint8_t set[SLEET_LONGEST_SET], tag[SLEET_LONGEST_TAG] = {0};
    sleet_added at = {1, 0};
    sleet_tags tags = sleet_tags_none();
    sleet_gateway_start(&g);
    for (uint8_t i = 0; i < 18; i++) {
        tag[0] = i;
        at = sleet_set_add(set, sizeof set, at.length, tag, sizeof tag);
        need("added says so", at.added == (i < 16) && at.length == (i < 16 ? (i + 1u) * 36 : 576));
        need("so does the other", sleet_tags_add(&tags, tag, sizeof tag) == (i < 16));
    }
    sleet_replaced said = sleet_change(&g, tags.bytes, tags.length);
    need("the set that lost two is refused", said.refusal == SLEET_REFUSED_MANY && said.entry == 16);
    said = sleet_change(&g, set, at.length);
    need("sixteen are accepted as sixteen", said.refusal == SLEET_ACCEPTED && said.tags == 16);
}

/* Sets written without a look at the answers, tags of all lengths: accepted exactly if lawful, and
   then with every tag. */
static void sets_of_all_lengths(void)
{
    uint64_t seed = 88172645463325252u, accepted = 0;
    uint8_t tag[700];
    for (int round = 0; round < 6000; round++) {
        sleet_tags tags = sleet_tags_none();
        size_t count = (size_t)round % 24, longest = round % 7 == 0 ? 700 : 33, lawful = count > 0 && count <= 16;
        for (size_t i = 0; i < count; i++) {
            seed ^= seed << 13, seed ^= seed >> 7, seed ^= seed << 17;
            int folded = (seed >> 40 & 1) != 0;
            size_t length = round % 2 ? seed % (longest + 1) : 1 + seed % 32;
            memset(tag, (int)(1 + i), sizeof tag);
            lawful = lawful && length >= 1 && length <= SLEET_LONGEST_TAG;
            int added = folded ? sleet_tags_add_folded(&tags, tag, length) : sleet_tags_add(&tags, tag, length);
            (void)added;
        }
        sleet_gateway_start(&g);
        sleet_replaced said = sleet_change(&g, tags.bytes, tags.length);
        need("accepted exactly if lawful", (said.refusal == SLEET_ACCEPTED) == (lawful != 0));
        need("with every tag", said.tags == (lawful ? count : 0));
        accepted += lawful;
    }
    need("both kinds were met", accepted > 1000 && accepted < 5000);
}

int main(void)
{
    need("one version", sleet_version() == SLEET_VERSION);
    new_gate();
    replaced_before_the_decision();
    replaced_twice();
    refused_set();
    full_of_another();
    across_a_cut();
    either_case();
    folded_again();
    sixteen_at_once();
    decided_twice();
    cut_pieces();
    too_many_tags();
    sets_of_all_lengths();
    puts("gate: every verdict as expected");
    return 0;
}
