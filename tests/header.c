/* Calls each function of the header once or more, so that its parameters are held against the library and not its
 * name alone, and each number of the header with it: by mz_layout or by an answer. Then each with every slice empty
 * and null, with numbers at the end of their range, and on memory that is as short as can be and grows.
 *
 * What is lent is allocated at exactly its size: a tool that looks at each access sees one beyond it. Prints what is
 * wrong, and has status 1 where anything is. It is C and C++ alike. */
#include "mezzulidda.h"

#include <stdio.h>
#include <stdlib.h>
#include <string.h>

#define COUNT(array) (sizeof(array) / sizeof *(array))

static int wrong = 0;

static void hold(const char *what, bool holds) {
    if (!holds) {
        printf("header.c: %s\n", what);
        wrong++;
    }
}

/* ---- Memory ---- */

/* What was allocated, to be freed at the end. */
static void *blocks[80000];
static size_t block_count = 0;

/* So many bytes, none of which is zero. */
static void *block(size_t size) {
    void *it = malloc(size);
    if (it == NULL || block_count == COUNT(blocks)) {
        printf("header.c: no memory\n");
        exit(1);
    }
    blocks[block_count++] = it;
    memset(it, 0x5a, size);
    return it;
}

static size_t *numbers(size_t count) {
    return (size_t *)block(count * sizeof(size_t));
}

static const uint8_t *copied(const char *text) {
    return (const uint8_t *)memcpy(block(strlen(text)), text, strlen(text));
}

/* A text as the calls take it. */
#define BYTES(text) copied(text), strlen(text)

/* What a number is that nothing was written to. */
static size_t untouched(void) {
    size_t it;
    memset(&it, 0x5a, sizeof it);
    return it;
}

static bool are_untouched(const size_t *at, size_t count) {
    for (size_t i = 0; i < count; i++) {
        if (at[i] != untouched()) {
            return false;
        }
    }
    return true;
}

static uint32_t *words(size_t count) {
    return (uint32_t *)block(count * sizeof(uint32_t));
}

/* The same of hashes. */
static bool are_left(const uint32_t *at, size_t count) {
    for (size_t i = 0; i < count; i++) {
        if (at[i] != 0x5a5a5a5a) {
            return false;
        }
    }
    return true;
}

/* Memory for a resolver with none in it. */
static struct mz_resolver *lent(size_t text_len, size_t records_len) {
    struct mz_resolver *r = (struct mz_resolver *)block(sizeof *r);
    r->text = (uint8_t *)block(text_len);
    r->text_len = text_len;
    r->records = numbers(records_len);
    r->records_len = records_len;
    return r;
}

/* The same resolver in memory of other lengths: cut, or with zeros behind. */
static struct mz_resolver *moved(const struct mz_resolver *from, size_t text_len, size_t records_len) {
    struct mz_resolver *r = lent(text_len, records_len);
    size_t text = text_len < from->text_len ? text_len : from->text_len;
    size_t records = records_len < from->records_len ? records_len : from->records_len;
    memset(r->text, 0, text_len);
    memset(r->records, 0, records_len * sizeof(size_t));
    memcpy(r->text, from->text, text);
    memcpy(r->records, from->records, records * sizeof(size_t));
    memcpy(r->head, from->head, sizeof r->head);
    return r;
}

static bool same(const struct mz_resolver *a, const struct mz_resolver *b) {
    return a->text_len == b->text_len && !memcmp(a->text, b->text, a->text_len) && a->records_len == b->records_len &&
           !memcmp(a->records, b->records, a->records_len * sizeof(size_t)) &&
           !memcmp(a->head, b->head, sizeof a->head);
}

static struct mz_resolver *fresh(size_t text_len, size_t records_len) {
    struct mz_resolver *r = lent(text_len, records_len);
    hold("mz_fresh", mz_fresh(MZ_PASS(*r)) == 0);
    return r;
}

#define FULL MZ_TEXT, MZ_RECORD *MZ_RECORDS

/* ---- Layout ---- */

/* Where a type stands behind a char is its alignment. */
struct number {
    char before;
    size_t it;
};

static void layout(void) {
    const size_t wanted[][2] = {
        {MZ_LAYOUT_KEYS, MZ_KEYS},
        {MZ_LAYOUT_STATE, MZ_STATE},
        {MZ_LAYOUT_ANSWER, MZ_ANSWER},
        {MZ_LAYOUT_TEXT, MZ_TEXT},
        {MZ_LAYOUT_RECORDS, MZ_RECORDS},
        {MZ_LAYOUT_RECORD, MZ_RECORD},
        {MZ_LAYOUT_HEAD, MZ_HEAD},
        {MZ_LAYOUT_DETAIL, MZ_DETAIL},
        {MZ_LAYOUT_LISTED, MZ_LISTED},
        {MZ_LAYOUT_NUMBER_SIZE, sizeof(size_t)},
        {MZ_LAYOUT_NUMBER_ALIGNMENT, offsetof(struct number, it)},
        {MZ_LAYOUT_HASH_SIZE, sizeof(uint32_t)},
        {MZ_LAYOUT_READER, MZ_READER},
        {MZ_LAYOUT_HOLD, MZ_HOLD},
    };
    for (size_t what = 0; what < COUNT(wanted); what++) {
        size_t said = mz_layout(what);
        if (wanted[what][0] != what || said != wanted[what][1]) {
            printf("header.c: mz_layout(%lu) is %lu, and %lu by the header\n", (unsigned long)what,
                   (unsigned long)said, (unsigned long)wanted[what][1]);
            wrong++;
        }
    }
    hold("mz_layout: any other", mz_layout(COUNT(wanted)) == 0 && mz_layout(SIZE_MAX) == 0);
}

/* ---- Names ---- */

#define XML_URI "http://www.w3.org/XML/1998/namespace"
#define XMLNS_URI "http://www.w3.org/2000/xmlns/"

static void names(void) {
    hold("mz_split", mz_split(BYTES("v:id")) == 1 && mz_split(BYTES("id")) == 2);
    hold("mz_declares", mz_declares(BYTES("xmlns")) == 1 && mz_declares(BYTES("xmlns:v")) == 2 &&
                            mz_declares(BYTES("id")) == 0);
    hold("mz_is_xml", mz_is_xml(BYTES("xml")) && !mz_is_xml(BYTES("xmlns")));
    hold("mz_is_xmlns", mz_is_xmlns(BYTES("xmlns")) && !mz_is_xmlns(BYTES("xml")));
    hold("mz_verdict", mz_verdict(BYTES("xmlns:v"), BYTES("u")) == 1 &&
                           mz_verdict(BYTES("xmlns:v"), BYTES("")) == 0 &&
                           mz_verdict(BYTES("id"), BYTES("u")) == 2);
#define DEFAULT(value) mz_verdict(BYTES("xmlns"), BYTES(value))
    hold("mz_verdict: a default", DEFAULT("u") == 1 && DEFAULT("") == 1 && DEFAULT(XML_URI) == 0 && DEFAULT(XMLNS_URI) == 0 &&
                                      DEFAULT(XML_URI "/") == 1 && DEFAULT(XMLNS_URI "/") == 1);
    hold("mz_verdict: a byte less", DEFAULT("http://www.w3.org/XML/1998/namespac") == 1 &&
                                    DEFAULT("http://www.w3.org/2000/xmlns") == 1);
#undef DEFAULT
    hold("mz_verdict: xml", mz_verdict(BYTES("xmlns:xml"), BYTES(XML_URI)) == 1 &&
                            mz_verdict(BYTES("xmlns:xml"), BYTES("u")) == 0);
    hold("mz_as_bool", mz_as_bool(BYTES("false")) == 0 && mz_as_bool(BYTES("1")) == 1 &&
                           mz_as_bool(BYTES("True")) == 2);
}

/* ---- The attributes of a tag ---- */

/* An iterator with so many places for keys, opened at a position. */
struct reader {
    size_t *starts, *ends, *state, places[3];
    uint32_t *hashes;
};

/* Its key tables, which have each a length of its own. */
static struct reader lent_keys(size_t starts, size_t ends, size_t hashes, size_t kind, size_t position) {
    struct reader it;
    it.starts = numbers(starts);
    it.ends = numbers(ends);
    it.hashes = words(hashes);
    it.places[0] = starts;
    it.places[1] = ends;
    it.places[2] = hashes;
    it.state = numbers(MZ_STATE);
    it.state[0] = kind;
    it.state[1] = position;
    it.state[2] = 0;
    return it;
}

static struct reader opened(size_t places, size_t kind, size_t position) {
    return lent_keys(places, places, places, kind, position);
}

#define KEYS(it) (it).starts, (it).places[0], (it).ends, (it).places[1], (it).hashes, (it).places[2], (it).state

/* One more recorded key. */
static void record(struct reader it, size_t start, size_t end, uint32_t hash) {
    size_t at = it.state[2]++;
    it.starts[at] = start;
    it.ends[at] = end;
    it.hashes[at] = hash;
}

/* Whether all three tables are zeros, from the first place to the last. */
static bool are_zeros(struct reader it) {
    size_t set = 0;
    for (size_t i = 0; i < it.places[0]; i++) {
        set += it.starts[i] != 0;
    }
    for (size_t i = 0; i < it.places[1]; i++) {
        set += it.ends[i] != 0;
    }
    for (size_t i = 0; i < it.places[2]; i++) {
        set += it.hashes[i] != 0;
    }
    return set == 0;
}

/* Whether nothing was written to any of them from a place on. */
static bool are_unused(struct reader it, size_t from) {
    return are_untouched(it.starts + from, it.places[0] - from) && are_untouched(it.ends + from, it.places[1] - from) &&
           are_left(it.hashes + from, it.places[2] - from);
}

static bool is_at(struct reader it, size_t kind, size_t position, size_t keys, size_t why) {
    return it.state[0] == kind && it.state[1] == position && it.state[2] == keys && it.state[3] == why;
}

static bool is_answer(const size_t *out, size_t what, size_t a, size_t b, size_t c, size_t d) {
    return out[0] == what && out[1] == a && out[2] == b && out[3] == c && out[4] == d;
}

/* A tag that gives one answer from a position on, and the place that is left. */
static void one_answer(const char *what, const char *tag, bool html, const size_t *wanted, size_t kind,
                       size_t position) {
    struct reader it = opened(MZ_KEYS, MZ_NEXT, 0);
    size_t *out = numbers(MZ_ANSWER);
    hold(what, mz_read_batch(BYTES(tag), KEYS(it), html, true, out, MZ_ANSWER) == 1 &&
                   !memcmp(out, wanted, MZ_ANSWER * sizeof(size_t)) && it.state[0] == kind &&
                   it.state[1] == position && it.state[3] == MZ_OUT_FULL);
}

static void each_answer(void) {
    const size_t eq[] = {MZ_EXPECTED_EQ, 2, 0, 0, 0}, value[] = {MZ_EXPECTED_VALUE, 2, 0, 0, 0},
                 quoted[] = {MZ_UNQUOTED_VALUE, 2, 0, 0, 0}, quote[] = {MZ_EXPECTED_QUOTE, 4, '\'', 0, 0},
                 double_q[] = {MZ_DOUBLE_Q, 0, 1, 3, 4}, single_q[] = {MZ_SINGLE_Q, 0, 1, 3, 4},
                 unquoted[] = {MZ_UNQUOTED, 0, 1, 2, 3}, empty[] = {MZ_EMPTY, 0, 1, 0, 0};
    one_answer("MZ_EXPECTED_EQ", "a b", false, eq, MZ_NEXT, 2);
    one_answer("MZ_EXPECTED_VALUE", "a=", false, value, MZ_DONE, 0);
    one_answer("MZ_UNQUOTED_VALUE", "a=1", false, quoted, MZ_SKIP_VALUE, 2);
    one_answer("MZ_EXPECTED_QUOTE", "a='1", false, quote, MZ_DONE, 0);
    one_answer("MZ_DOUBLE_Q", "a=\"1\"", false, double_q, MZ_NEXT, 5);
    one_answer("MZ_SINGLE_Q", "a='1'", false, single_q, MZ_NEXT, 5);
    one_answer("MZ_UNQUOTED", "a=1 ", true, unquoted, MZ_NEXT, 3);
    one_answer("MZ_EMPTY", "a", true, empty, MZ_DONE, 0);
}

/* FNV-1a with 32 bits of a few names, and of two that share one. */
#define HASH_A 0xe40c292cu
#define HASH_B 0xe70c2de5u
#define HASH_FOOBAR 0xbf9cf968u
#define HASH_YACZF_GLBPP 0xaec12bf4u
#define HASH_IX 0x8ab8d906u

static void attributes(void) {
    const char *tag = "a=1 b='2' b=\"\" c";
    struct reader it = opened(MZ_KEYS, MZ_NEXT, 0);
    size_t *out = numbers(2 * MZ_ANSWER + 1);
    hold("mz_read_batch: two answers",
         mz_read_batch(BYTES(tag), KEYS(it), false, true, out, 2 * MZ_ANSWER + 1) == 2 &&
             is_answer(out, MZ_UNQUOTED_VALUE, 2, 0, 0, 0) && is_answer(out + MZ_ANSWER, MZ_SINGLE_Q, 4, 5, 7, 8) &&
             are_untouched(out + 2 * MZ_ANSWER, 1) && is_at(it, MZ_NEXT, 9, 2, MZ_OUT_FULL));
    hold("mz_read_batch: one more, and a place to skip from",
         mz_read_batch(BYTES(tag), KEYS(it), false, true, out, MZ_ANSWER) == 1 &&
             is_answer(out, MZ_DUPLICATED, 10, 4, 0, 0) && is_at(it, MZ_SKIP_FROM_EQ, 11, 2, MZ_OUT_FULL));
    hold("mz_read_batch: the end",
         mz_read_batch(BYTES(tag), KEYS(it), false, true, out, 2 * MZ_ANSWER) == 1 &&
             is_answer(out, MZ_EXPECTED_EQ, 16, 0, 0, 0) && is_at(it, MZ_DONE, 0, 2, MZ_END));
    hold("mz_read_batch: keys", it.starts[0] == 0 && it.ends[0] == 1 && it.starts[1] == 4 && it.ends[1] == 5 &&
                                    it.hashes[0] == HASH_A && it.hashes[1] == HASH_B && are_unused(it, 2));
    it = opened(0, MZ_NEXT, 15);
    hold("mz_read_batch: HTML mode, checks off, and no place for a key",
         mz_read_batch(BYTES(tag), KEYS(it), true, false, out, 2 * MZ_ANSWER) == 1 &&
             is_answer(out, MZ_EMPTY, 15, 16, 0, 0) && is_at(it, MZ_DONE, 0, 0, MZ_END));
    it = opened(MZ_KEYS, MZ_SKIP_VALUE, 16);
    hold("MZ_BAD_STATE", mz_read_batch(BYTES(tag), KEYS(it), false, true, out, 2 * MZ_ANSWER) == 1 &&
                             is_answer(out, MZ_BAD_STATE, 0, 0, 0, 0) && is_at(it, MZ_DONE, 0, 0, MZ_END) && are_zeros(it));
    it = opened(MZ_KEYS, MZ_SKIP_FROM_EQ, 0);
    hold("MZ_SKIP_FROM_EQ: a byte that is none",
         mz_read_batch(BYTES(tag), KEYS(it), false, true, out, MZ_ANSWER) == 1 && out[0] == MZ_BAD_STATE);
    it = opened(MZ_KEYS + 1, MZ_NEXT, 0);
    hold("MZ_NONE", mz_read_batch(BYTES(tag), KEYS(it), false, true, out, MZ_ANSWER) == MZ_NONE && are_unused(it, 0) &&
                        it.state[0] == MZ_NEXT);
    for (size_t table = 0; table < 3; table++) {
        it = lent_keys(table == 0 ? MZ_KEYS + 1 : 1, table == 1 ? MZ_KEYS + 1 : 1, table == 2 ? MZ_KEYS + 1 : 1, MZ_NEXT, 0);
        hold("MZ_NONE: one table", mz_read_batch(BYTES(tag), KEYS(it), false, false, out, MZ_ANSWER) == MZ_NONE &&
                                       are_unused(it, 0) && is_at(it, MZ_NEXT, 0, 0, untouched()));
    }
    out = numbers(MZ_ANSWER - 1);
    it = opened(1, MZ_SKIP_VALUE, SIZE_MAX);
    hold("mz_read_batch: no room for an answer",
         mz_read_batch(BYTES(tag), KEYS(it), false, true, out, MZ_ANSWER - 1) == 0 &&
             are_untouched(out, MZ_ANSWER - 1) && are_unused(it, 0) && is_at(it, MZ_SKIP_VALUE, SIZE_MAX, 0, untouched()));
}

/* Whether a state is answered by MZ_BAD_STATE, and all three tables are zeros then. */
static bool is_bad(const char *tag, struct reader it, bool checks) {
    size_t *out = numbers(MZ_ANSWER);
    return mz_read_batch(BYTES(tag), KEYS(it), false, checks, out, MZ_ANSWER) == 1 && is_answer(out, MZ_BAD_STATE, 0, 0, 0, 0) &&
           is_at(it, MZ_DONE, 0, 0, MZ_OUT_FULL) && are_zeros(it);
}

/* The kept hashes: what is written of them, which of them are read, and that two names may have one. */
static void hashes(void) {
    const char *tag = "a='' foobar='' a='' b='' c", *shared = "yaczf='' glbpp='' yaczf='' glbpp=''";
    const uint32_t unused[] = {0, 1, UINT32_MAX, HASH_A, HASH_FOOBAR};
    struct reader it = opened(MZ_KEYS, MZ_NEXT, 0);
    size_t *out = numbers(4 * MZ_ANSWER);
#define READ(tag, checks, count) mz_read_batch(BYTES(tag), KEYS(it), false, checks, out, (count) * MZ_ANSWER)
    hold("a key is recorded", READ(tag, true, 1) == 1 && it.hashes[0] == HASH_A && are_unused(it, 1));
    hold("one more", READ(tag, true, 1) == 1 && it.hashes[0] == HASH_A && it.hashes[1] == HASH_FOOBAR && are_unused(it, 2));
    hold("MZ_DUPLICATED writes none", READ(tag, true, 1) == 1 && is_answer(out, MZ_DUPLICATED, 15, 0, 0, 0) &&
                                      are_unused(it, 2) &&
                                          it.state[2] == 2);
    hold("with checks off none is written", READ(tag, false, 1) == 1 && is_answer(out, MZ_SINGLE_Q, 20, 21, 23, 23) &&
                                                are_unused(it, 2) && it.state[2] == 2);
    hold("a bare key writes none", READ(tag, true, 1) == 1 && is_answer(out, MZ_EXPECTED_EQ, 26, 0, 0, 0) && are_unused(it, 2));
    it = opened(4, MZ_NEXT, 0);
    hold("names of one hash", READ(shared, true, 4) == 4 && is_answer(out, MZ_SINGLE_Q, 0, 5, 7, 7) &&
                                  is_answer(out + MZ_ANSWER, MZ_SINGLE_Q, 9, 14, 16, 16) &&
                                  is_answer(out + 2 * MZ_ANSWER, MZ_DUPLICATED, 18, 0, 0, 0) &&
                                  is_answer(out + 3 * MZ_ANSWER, MZ_DUPLICATED, 27, 9, 0, 0));
    hold("their hashes", it.hashes[0] == HASH_YACZF_GLBPP && it.hashes[1] == HASH_YACZF_GLBPP && are_unused(it, 2) &&
                         it.state[2] == 2);
    for (size_t checks = 0; checks < 2; checks++) {
        for (size_t index = 0; index < 2; index++) {
            for (size_t bit = 0; bit < 32; bit++) {
                it = opened(bit == 31 ? MZ_KEYS : 3, MZ_NEXT, 5);
                record(it, 0, 1, HASH_A);
                record(it, 5, 11, HASH_FOOBAR);
                it.hashes[index] ^= (uint32_t)1 << bit;
                hold("a hash that is not its key's", is_bad(tag, it, checks == 1));
            }
        }
        it = opened(3, MZ_DONE, 0);
        record(it, 0, 1, HASH_B);
        hold("a hash that is not its key's, where reading has ended", is_bad(tag, it, checks == 1));
        for (size_t value = 0; value < COUNT(unused); value++) {
            it = opened(3, MZ_NEXT, 5);
            record(it, 0, 1, HASH_A);
            it.hashes[1] = it.hashes[2] = unused[value];
            hold("hashes that are not in use", READ(tag, checks == 1, 1) == 1 && is_answer(out, MZ_SINGLE_Q, 5, 11, 13, 13) &&
                                                   it.hashes[0] == HASH_A && it.hashes[2] == unused[value] &&
                                                   it.hashes[1] == (checks == 1 ? HASH_FOOBAR : unused[value]));
        }
    }
#undef READ
}

/* Key tables of different lengths are as long as the shortest; it is a bad state that has more keys. */
static void shortest(void) {
    const char *tag = "a='' b='' foobar=''";
    for (size_t table = 0; table < 3; table++) {
        size_t *out = numbers(3 * MZ_ANSWER);
        struct reader it = lent_keys(table == 0 ? 1 : 3, table == 1 ? 1 : MZ_KEYS, table == 2 ? 1 : 2, MZ_NEXT, 0);
        hold("the shortest table", mz_read_batch(BYTES(tag), KEYS(it), false, true, out, 3 * MZ_ANSWER) == 1 &&
                                       is_answer(out, MZ_SINGLE_Q, 0, 1, 3, 3) && is_at(it, MZ_NEXT, 4, 1, MZ_MORE_KEYS) &&
                                       it.hashes[0] == HASH_A && are_unused(it, 1));
        it.state[2] = 2;
        hold("more keys than the shortest table has places", is_bad(tag, it, table == 1));
        it = lent_keys(table == 0 ? 0 : 3, table == 1 ? 0 : 1, table == 2 ? 0 : MZ_KEYS, MZ_NEXT, 0);
        hold("a table of no place", mz_read_batch(BYTES(tag), KEYS(it), false, true, out, 3 * MZ_ANSWER) == 0 &&
                                        is_at(it, MZ_NEXT, 0, 0, MZ_MORE_KEYS) && are_unused(it, 0) &&
                                        mz_read_batch(BYTES(tag), KEYS(it), false, false, out, 3 * MZ_ANSWER) == 3 &&
                                        are_unused(it, 0));
    }
    for (size_t more = 0; more < 3; more++) {
        struct reader it = opened(MZ_KEYS, MZ_NEXT, 0);
        const size_t counts[] = {MZ_KEYS + 1, MZ_KEYS + 2, SIZE_MAX};
        it.state[2] = counts[more];
        hold("more keys than there can be", is_bad(tag, it, more == 1));
    }
}

/* A tag of so many attributes of different names, and one more of the first name. */
static char *many(size_t count) {
    char *tag = (char *)block(7 * (count + 1) + 1);
    size_t len = 0;
    for (size_t n = 0; n <= count; n++) {
        len += (size_t)sprintf(tag + len, " %03lx=''", (unsigned long)(n % count));
    }
    return tag;
}

/* Few places for keys, and more each time that one is wanting: the answers are those with all places. */
static void more_keys(void) {
    const char *tag = many(MZ_KEYS);
    size_t room = (MZ_KEYS + 2) * MZ_ANSWER, *out = numbers(room), *all = numbers(room), read = 0;
    struct reader full = opened(MZ_KEYS, MZ_NEXT, 0), it = opened(0, MZ_NEXT, 0);
    hold("all keys that there can be", mz_read_batch(BYTES(tag), KEYS(full), false, true, all, room) == MZ_KEYS + 1 &&
                                           all[MZ_KEYS * MZ_ANSWER] == MZ_DUPLICATED &&
                                           is_at(full, MZ_SKIP_FROM_EQ, 7 * MZ_KEYS + 4, MZ_KEYS, MZ_END));
    do {
        size_t had = it.places[0], places = had == 0 ? 1 : 2 * had;
        struct reader longer = opened(places > MZ_KEYS ? MZ_KEYS : places, it.state[0], it.state[1]);
        size_t got = mz_read_batch(BYTES(tag), KEYS(it), false, true, out + read * MZ_ANSWER, room - read * MZ_ANSWER);
        read += got;
        hold("mz_read_batch: keys that have no place", got <= MZ_KEYS + 1 && it.state[2] <= had);
        if (it.state[3] != MZ_MORE_KEYS) {
            break;
        }
        hold("MZ_MORE_KEYS", it.state[2] == had && had < MZ_KEYS);
        memcpy(longer.starts, it.starts, had * sizeof(size_t));
        memcpy(longer.ends, it.ends, had * sizeof(size_t));
        memcpy(longer.hashes, it.hashes, had * sizeof(uint32_t));
        memcpy(longer.state, it.state, MZ_STATE * sizeof(size_t));
        it = longer;
    } while (it.places[0] <= MZ_KEYS);
    hold("MZ_END", read == MZ_KEYS + 1 && !memcmp(out, all, room * sizeof(size_t)) &&
                       is_at(it, MZ_SKIP_FROM_EQ, 7 * MZ_KEYS + 4, MZ_KEYS, MZ_END) &&
                       !memcmp(it.starts, full.starts, MZ_KEYS * sizeof(size_t)) &&
                       !memcmp(it.ends, full.ends, MZ_KEYS * sizeof(size_t)) &&
                       !memcmp(it.hashes, full.hashes, MZ_KEYS * sizeof(uint32_t)));
    full = opened(MZ_KEYS, MZ_NEXT, 0);
    tag = many(MZ_KEYS + 1);
    hold("MZ_KEY_TABLE_FULL", mz_read_batch(BYTES(tag), KEYS(full), false, true, all, room) == MZ_KEYS + 1 &&
                                  is_answer(all + MZ_KEYS * MZ_ANSWER, MZ_KEY_TABLE_FULL, 7 * MZ_KEYS + 1, 0, 0, 0) &&
                                  is_at(full, MZ_DONE, 0, MZ_KEYS, MZ_END) &&
                                  !memcmp(it.hashes, full.hashes, MZ_KEYS * sizeof(uint32_t)));
}

/* ---- Tags that arrive in pieces ---- */

/* A reader, with its text and its key tables, and how it is read. */
struct pieces {
    uint8_t *text;
    size_t text_len;
    struct reader keys; /* its state is not used */
    size_t *reader;
    bool html, checks;
};

/* One that is opened at a position, with so many bytes of text and so many places for keys. */
static struct pieces lent_pieces(size_t text_len, size_t places, size_t position) {
    struct pieces it;
    it.text = (uint8_t *)block(text_len);
    it.text_len = text_len;
    it.keys = opened(places, MZ_DONE, 0);
    it.reader = numbers(MZ_READER);
    memset(it.reader, 0, MZ_READER * sizeof(size_t));
    it.reader[0] = MZ_NEXT;
    it.reader[1] = position;
    it.html = false;
    it.checks = true;
    return it;
}

/* A copy of all its memory, in arrays of other lengths: cut, or with what is not set behind. */
static struct pieces copy_of(const struct pieces *from, size_t text_len, size_t places) {
    struct pieces it = lent_pieces(text_len, places, 0);
    const size_t *had = from->keys.places;
    memcpy(it.text, from->text, text_len < from->text_len ? text_len : from->text_len);
    memcpy(it.keys.starts, from->keys.starts, (places < had[0] ? places : had[0]) * sizeof(size_t));
    memcpy(it.keys.ends, from->keys.ends, (places < had[1] ? places : had[1]) * sizeof(size_t));
    memcpy(it.keys.hashes, from->keys.hashes, (places < had[2] ? places : had[2]) * sizeof(uint32_t));
    memcpy(it.reader, from->reader, MZ_READER * sizeof(size_t));
    it.html = from->html;
    it.checks = from->checks;
    return it;
}

#define COPY(it) copy_of(&(it), (it).text_len, (it).keys.places[0])

/* Whether all memory is the same, bit by bit, but for the reason, which is `why`. */
static bool is_copy(const struct pieces *a, const struct pieces *b, size_t why) {
    const size_t *places = a->keys.places;
    return a->reader[3] == why && !memcmp(a->reader, b->reader, 3 * sizeof(size_t)) &&
           !memcmp(a->reader + 4, b->reader + 4, (MZ_READER - 4) * sizeof(size_t)) && !memcmp(a->text, b->text, a->text_len) &&
           !memcmp(a->keys.starts, b->keys.starts, places[0] * sizeof(size_t)) &&
           !memcmp(a->keys.ends, b->keys.ends, places[1] * sizeof(size_t)) &&
           !memcmp(a->keys.hashes, b->keys.hashes, places[2] * sizeof(uint32_t));
}

static bool is_same(const struct pieces *a, const struct pieces *b) {
    return is_copy(a, b, b->reader[3]);
}

#define PIECE(it, bytes) mz_piece((it).text, (it).text_len, (it).reader, BYTES(bytes))
#define TAKE(it, out, out_len)                                                                                          \
    mz_take((it).text, (it).text_len, (it).keys.starts, (it).keys.places[0], (it).keys.ends, (it).keys.places[1],       \
            (it).keys.hashes, (it).keys.places[2], (it).reader, (it).html, (it).checks, out, out_len)

/* All nine numbers. */
static bool is_reader(const struct pieces *it, size_t kind, size_t position, size_t keys, size_t why, size_t held,
                      size_t finished, size_t phase, size_t start, size_t end) {
    const size_t wanted[] = {kind, position, keys, why, held, finished, phase, start, end};
    return !memcmp(it->reader, wanted, sizeof wanted);
}

static bool is_phase(const struct pieces *it, size_t phase, size_t start, size_t end) {
    return it->reader[6] == phase && it->reader[7] == start && it->reader[8] == end;
}

/* Nothing is there, and that changes nothing but the reason, whatever room there is; nor does it write an answer. */
static bool is_more(struct pieces *it) {
    struct pieces before = COPY(*it);
    size_t *out = numbers(2 * MZ_ANSWER);
    bool holds = TAKE(*it, out, 2 * MZ_ANSWER) == 0 && is_copy(it, &before, MZ_END);
    holds = holds && TAKE(*it, out, MZ_ANSWER) == 0 && is_copy(it, &before, MZ_END);
    return holds && are_untouched(out, 2 * MZ_ANSWER);
}

/* One answer is there, and no other: with room for one, and with room for two, which leave the same but the reason. */
static bool gives(struct pieces *it, size_t what, size_t a, size_t b, size_t c, size_t d) {
    struct pieces other = COPY(*it);
    size_t *one = numbers(MZ_ANSWER), *two = numbers(2 * MZ_ANSWER);
    bool holds = TAKE(other, one, MZ_ANSWER) == 1 && is_answer(one, what, a, b, c, d) && other.reader[3] == MZ_OUT_FULL &&
                 is_phase(&other, MZ_BEGIN, 0, 0);
    return holds && TAKE(*it, two, 2 * MZ_ANSWER) == 1 && is_answer(two, what, a, b, c, d) &&
           are_untouched(two + MZ_ANSWER, MZ_ANSWER) &&
           (it->reader[5] != 0 || is_copy(it, &other, MZ_END));
}

/* A tag byte by byte: with how many bytes each answer is there is what `moments` says, a digit or `f` for the finish;
 * nothing is at any other time. */
static void comes(const char *tag, bool html, bool checks, const char *moments, const size_t (*wanted)[MZ_ANSWER]) {
    struct pieces it = lent_pieces(strlen(tag), 8, 0);
    size_t answers = 0, *out = numbers(2 * MZ_ANSWER);
    it.html = html;
    it.checks = checks;
    for (size_t at = 0; at <= strlen(tag); at++) {
        char now = at == strlen(tag) ? 'f' : (char)(at < 10 ? '0' + at : 'a' + at - 10);
        bool holds = at == strlen(tag) ? mz_finish(it.reader) == 0 : mz_piece(it.text, it.text_len, it.reader, copied(tag + at), 1) == 0;
        for (; moments[answers] == now; answers++) {
            holds = holds && TAKE(it, out, MZ_ANSWER) == 1 && !memcmp(out, wanted[answers], MZ_ANSWER * sizeof(size_t)) &&
                    it.reader[3] == MZ_OUT_FULL;
        }
        holds = holds && (at < strlen(tag) ? is_more(&it) : TAKE(it, out, MZ_ANSWER) == 0 && it.reader[3] == MZ_END);
        if (!holds) {
            printf("header.c: %s, html %d, checks %d, at byte %lu\n", tag, html, checks, (unsigned long)at);
            wrong++;
            return;
        }
    }
    hold("an answer that does not come", moments[answers] == 0);
}

/* The last byte that each answer's rule looks at. */
static void moments(void) {
    const size_t quoted[][MZ_ANSWER] = {{MZ_SINGLE_Q, 0, 1, 3, 4}, {MZ_DOUBLE_Q, 5, 6, 8, 8}};
    const size_t unquoted[][MZ_ANSWER] = {{MZ_UNQUOTED_VALUE, 2, 0, 0, 0}, {MZ_UNQUOTED, 0, 1, 2, 3}};
    const size_t bare[][MZ_ANSWER] = {{MZ_EXPECTED_EQ, 3, 0, 0, 0}, {MZ_EMPTY, 0, 1, 0, 0}};
    const size_t cut[][MZ_ANSWER] = {{MZ_EXPECTED_QUOTE, 4, '"', 0, 0}, {MZ_EXPECTED_VALUE, 3, 0, 0, 0}};
    const size_t again[][MZ_ANSWER] = {{MZ_SINGLE_Q, 0, 1, 3, 3}, {MZ_DUPLICATED, 5, 0, 0, 0}};
    const size_t bare_again[][MZ_ANSWER] = {{MZ_EMPTY, 0, 1, 0, 0}, {MZ_DUPLICATED, 2, 0, 0, 0}, {MZ_EMPTY, 5, 6, 0, 0}};
    const size_t empty[][MZ_ANSWER] = {{MZ_EMPTY, 0, 1, 0, 0}, {MZ_EXPECTED_VALUE, 5, 0, 0, 0}};
    const size_t no_eq[][MZ_ANSWER] = {{MZ_EXPECTED_EQ, 3, 0, 0, 0}, {MZ_EXPECTED_VALUE, 5, 0, 0, 0}};
    const size_t unchecked[][MZ_ANSWER] = {{MZ_SINGLE_Q, 0, 1, 3, 3}, {MZ_EXPECTED_QUOTE, 9, '\'', 0, 0}};
    const size_t skipped[][MZ_ANSWER] = {{MZ_UNQUOTED_VALUE, 2, 0, 0, 0}, {MZ_SINGLE_Q, 5, 6, 8, 8}};
    comes("a='1'b=\"\"", false, true, "48", quoted);
    comes("a='1'b=\"\"", true, false, "48", quoted);
    comes("a=1", false, true, "2", unquoted);
    comes("a=1", true, true, "f", unquoted + 1);
    comes("a=1 ", true, true, "3", unquoted + 1);
    comes("a  ", false, true, "f", bare);
    comes("a  ", true, true, "f", bare + 1);
    comes("a  b=", true, true, "3f", empty);
    comes("a  b=", false, true, "3f", no_eq);
    comes("a=\"1", false, true, "f", cut);
    comes("a= ", true, true, "f", cut + 1);
    /* a duplicate with its `=`, and what follows waits for whitespace */
    comes("a='' a='b", false, true, "36", again);
    comes("a='' a='b", true, true, "36", again);
    comes("a='' a='b", false, false, "3f", unchecked);
    comes("a a  b", true, true, "25f", bare_again);
    comes("a=1x b=''", false, true, "28", skipped);
    comes("", false, true, "", quoted);
    comes(" \t\r\n", true, true, "", quoted);
}

/* What pieces and takes leave in each number. */
static void phases(void) {
    struct pieces it = lent_pieces(40, 4, 0);
    hold("mz_piece: nothing", PIECE(it, "") == 0 && is_reader(&it, MZ_NEXT, 0, 0, 0, 0, 0, MZ_IN_SPACE, 0, 0));
    hold("MZ_IN_SPACE", PIECE(it, " \t") == 0 && is_reader(&it, MZ_NEXT, 0, 0, 0, 2, 0, MZ_IN_SPACE, 0, 0) && is_more(&it));
    hold("mz_piece: the reason", it.reader[3] == MZ_END && PIECE(it, "k") == 0 && it.reader[3] == 0);
    hold("MZ_IN_KEY", is_reader(&it, MZ_NEXT, 0, 0, 0, 3, 0, MZ_IN_KEY, 2, 0) && is_more(&it) && PIECE(it, "ey") == 0 &&
                          is_phase(&it, MZ_IN_KEY, 2, 0));
    hold("MZ_AFTER_KEY", PIECE(it, "\r ") == 0 && is_reader(&it, MZ_NEXT, 0, 0, 0, 7, 0, MZ_AFTER_KEY, 2, 5) && is_more(&it));
    hold("MZ_BEFORE_VALUE", PIECE(it, "=\n") == 0 && is_reader(&it, MZ_NEXT, 0, 0, 0, 9, 0, MZ_BEFORE_VALUE, 2, 5) &&
                            is_more(&it));
    hold("MZ_IN_DOUBLE", PIECE(it, "\"'") == 0 && is_reader(&it, MZ_NEXT, 0, 0, 0, 11, 0, MZ_IN_DOUBLE, 2, 5) && is_more(&it));
    hold("MZ_DUE", PIECE(it, "\" ") == 0 && is_reader(&it, MZ_NEXT, 0, 0, 0, 13, 0, MZ_DUE, 0, 0) &&
                   !memcmp(it.text, " \tkey\r =\n\"'\" ", 13) &&
                       it.text[13] == 0x5a);
    hold("MZ_DUE: it stays", PIECE(it, "a=") == 0 && is_phase(&it, MZ_DUE, 0, 0));
    hold("an answer sets it back", gives(&it, MZ_DOUBLE_Q, 2, 5, 10, 11) &&
                                   is_reader(&it, MZ_NEXT, 12, 1, MZ_END, 15, 0, MZ_BEGIN, 0, 0));
    hold("a piece after it", PIECE(it, "'") == 0 && is_phase(&it, MZ_IN_SINGLE, 13, 14) && is_more(&it) && PIECE(it, "'") == 0 &&
                                 is_phase(&it, MZ_DUE, 0, 0) && gives(&it, MZ_SINGLE_Q, 13, 14, 16, 16));
    hold("MZ_IN_UNQUOTED", PIECE(it, "b=1") == 0 && is_reader(&it, MZ_NEXT, 17, 2, 0, 20, 0, MZ_IN_UNQUOTED, 17, 18));
    {
        struct pieces html = COPY(it);
        html.html = true;
        hold("MZ_IN_UNQUOTED: in HTML mode", is_more(&html) && PIECE(html, " ") == 0 && is_phase(&html, MZ_DUE, 0, 0) &&
                                                 gives(&html, MZ_UNQUOTED, 17, 18, 19, 20));
    }
    hold("MZ_IN_UNQUOTED: in XML mode", gives(&it, MZ_UNQUOTED_VALUE, 19, 0, 0, 0) &&
                                            is_reader(&it, MZ_SKIP_VALUE, 19, 3, MZ_END, 20, 0, MZ_BEGIN, 0, 0));
    hold("MZ_IN_SKIP", PIECE(it, "1") == 0 && is_reader(&it, MZ_SKIP_VALUE, 19, 3, 0, 21, 0, MZ_IN_SKIP, 0, 0) && is_more(&it) &&
                           PIECE(it, " ") == 0 && is_phase(&it, MZ_IN_SPACE, 0, 0));
    hold("a duplicate", PIECE(it, "key=") == 0 && is_phase(&it, MZ_BEFORE_VALUE, 22, 25) &&
                        gives(&it, MZ_DUPLICATED, 22, 2, 0, 0) &&
                            is_reader(&it, MZ_SKIP_FROM_EQ, 25, 3, MZ_END, 26, 0, MZ_BEGIN, 0, 0) && is_more(&it));
    hold("a bare key", PIECE(it, "' c d") == 0 && is_phase(&it, MZ_DUE, 0, 0) && gives(&it, MZ_EXPECTED_EQ, 30, 0, 0, 0) &&
                           is_reader(&it, MZ_NEXT, 30, 3, MZ_END, 31, 0, MZ_BEGIN, 0, 0));
    hold("mz_finish", mz_finish(it.reader) == 0 && is_reader(&it, MZ_NEXT, 30, 3, 0, 31, 1, MZ_BEGIN, 0, 0) &&
                          gives(&it, MZ_EXPECTED_EQ, 31, 0, 0, 0) &&
                          is_reader(&it, MZ_DONE, 0, 3, MZ_END, 31, 1, MZ_BEGIN, 0, 0));
    it = lent_pieces(8, 1, 0);
    hold("the end leaves the phase", PIECE(it, "  ") == 0 && mz_finish(it.reader) == 0 &&
                                     TAKE(it, numbers(MZ_ANSWER), MZ_ANSWER) == 0 &&
                                         is_reader(&it, MZ_DONE, 0, 0, MZ_END, 2, 1, MZ_IN_SPACE, 0, 0));
}

/* The whole tag, opened at some position, in one piece, in two and byte by byte: the answers of mz_read_batch, and what it leaves. */
static void as_the_whole(const char *tag, size_t position, bool html, bool checks) {
    size_t len = strlen(tag), room = (len + 2) * MZ_ANSWER, *all = numbers(room), *out = numbers(room), wanted;
    struct reader whole = opened(8, MZ_NEXT, position);
    wanted = mz_read_batch(BYTES(tag), KEYS(whole), html, checks, all, room);
    for (size_t cut = 0; cut <= len; cut++) {
        struct pieces it = lent_pieces(len, 8, position);
        size_t got = 0;
        it.html = html;
        it.checks = checks;
        hold("a tag that is cut", mz_piece(it.text, len, it.reader, copied(tag), cut) == 0);
        got += cut % 2 == 1 ? 0 : TAKE(it, out, room);
        hold("its other part", mz_piece(it.text, len, it.reader, copied(tag + cut), len - cut) == 0);
        got += cut % 3 == 1 ? 0 : TAKE(it, out + got * MZ_ANSWER, room - got * MZ_ANSWER);
        hold("its finish", mz_finish(it.reader) == 0);
        got += TAKE(it, out + got * MZ_ANSWER, room - got * MZ_ANSWER);
        hold("its answers", got == wanted && !memcmp(all, out, got * MZ_ANSWER * sizeof(size_t)) &&
                                !memcmp(it.reader, whole.state, MZ_STATE * sizeof(size_t)) && it.reader[3] == MZ_END);
        hold("its keys", !memcmp(it.keys.starts, whole.starts, 8 * sizeof(size_t)) &&
                         !memcmp(it.keys.ends, whole.ends, 8 * sizeof(size_t)) &&
                             !memcmp(it.keys.hashes, whole.hashes, 8 * sizeof(uint32_t)));
    }
}

/* Every refusal leaves everything as it is; where more than one holds: 99, 32, 31, 98. */
static void refused_pieces(void) {
    const size_t finishes[] = {1, 2, 256, SIZE_MAX}, others[] = {0, 1, 65535, MZ_HOLD};
    uint8_t *long_piece = (uint8_t *)block(MZ_HOLD + 1);
    struct pieces it = lent_pieces(MZ_HOLD, 2, 0), before;
    memset(long_piece, ' ', MZ_HOLD + 1);
#define GIVE(it, len) mz_piece((it).text, (it).text_len, (it).reader, long_piece, len)
#define REFUSES(it, call, answer) (before = COPY(it), (call) == (answer) && is_same(&(it), &before))
    it.reader[3] = 77;
    hold("MZ_PIECE_TOO_LONG", REFUSES(it, GIVE(it, MZ_HOLD + 1), MZ_PIECE_TOO_LONG));
    hold("a piece as long as can be", GIVE(it, MZ_HOLD) == 0 && it.reader[4] == MZ_HOLD);
    hold("nothing more", GIVE(it, 0) == 0 && is_reader(&it, MZ_NEXT, 0, 0, 0, MZ_HOLD, 0, MZ_IN_SPACE, 0, 0));
    hold("a byte more", REFUSES(it, GIVE(it, 1), MZ_PIECE_TOO_LONG));
    hold("the finish of it", mz_finish(it.reader) == 0);
    hold("MZ_FINISHED comes first", REFUSES(it, GIVE(it, 1), MZ_FINISHED) && REFUSES(it, GIVE(it, 0), MZ_FINISHED) &&
                                        REFUSES(it, GIVE(it, MZ_HOLD + 1), MZ_FINISHED) &&
                                        REFUSES(it, mz_piece(it.text, it.text_len, it.reader, NULL, 0), MZ_FINISHED));
    hold("a second finish", REFUSES(it, mz_finish(it.reader), MZ_FINISHED));
    for (size_t k = 0; k < COUNT(finishes); k++) {
        it = lent_pieces(3, 2, 0);
        it.reader[5] = finishes[k];
        hold("finished by any number", REFUSES(it, GIVE(it, 1), MZ_FINISHED) && REFUSES(it, GIVE(it, 9), MZ_FINISHED) &&
                                           REFUSES(it, mz_finish(it.reader), MZ_FINISHED));
        it.reader[4] = MZ_HOLD + 1;
        hold("finished, and too much held", REFUSES(it, GIVE(it, 0), MZ_FINISHED));
    }
    /* a text that is too long, or too short */
    it = lent_pieces(MZ_HOLD + 1, 2, 0);
    hold("MZ_WRONG_LENGTH: a text", REFUSES(it, GIVE(it, 0), MZ_WRONG_LENGTH) &&
                                    REFUSES(it, GIVE(it, MZ_HOLD + 1), MZ_WRONG_LENGTH));
    it.reader[5] = 1;
    hold("MZ_WRONG_LENGTH comes first", REFUSES(it, GIVE(it, 1), MZ_WRONG_LENGTH));
    it = lent_pieces(4, 2, 0);
    hold("MZ_LEND_MORE: a piece", REFUSES(it, PIECE(it, "a='1'"), MZ_LEND_MORE) && PIECE(it, "a='") == 0 &&
                                  REFUSES(it, PIECE(it, "1'"), MZ_LEND_MORE));
    hold("MZ_PIECE_TOO_LONG comes first", REFUSES(it, GIVE(it, MZ_HOLD), MZ_PIECE_TOO_LONG) &&
                                          REFUSES(it, GIVE(it, MZ_HOLD - 3), MZ_LEND_MORE));
    it = copy_of(&it, 5, 2);
    hold("lent as long as is needed", PIECE(it, "1'") == 0 && gives(&it, MZ_SINGLE_Q, 0, 1, 3, 4) && PIECE(it, "") == 0 &&
                                          REFUSES(it, GIVE(it, 1), MZ_LEND_MORE));
    /* more held than can be, or than is lent: for a piece it is too long, or wants more */
    for (size_t k = 0; k < COUNT(others); k++) {
        it = lent_pieces(others[k], 2, 0);
        it.reader[4] = MZ_HOLD + 1;
        hold("more held than can be", REFUSES(it, GIVE(it, 0), MZ_PIECE_TOO_LONG) && REFUSES(it, GIVE(it, 1), MZ_PIECE_TOO_LONG));
        it.reader[4] = SIZE_MAX;
        hold("held without end", REFUSES(it, GIVE(it, 0), MZ_PIECE_TOO_LONG) && REFUSES(it, GIVE(it, 1), MZ_PIECE_TOO_LONG) &&
                                     REFUSES(it, GIVE(it, 2), MZ_PIECE_TOO_LONG));
        hold("the finish never asks", mz_finish(it.reader) == 0 && is_reader(&it, MZ_NEXT, 0, 0, 0, SIZE_MAX, 1, 0, 0, 0));
        it = lent_pieces(others[k], 2, 0);
        it.reader[4] = others[k] + 1;
        hold("more held than is lent", REFUSES(it, GIVE(it, 0), others[k] == MZ_HOLD ? MZ_PIECE_TOO_LONG : MZ_LEND_MORE));
    }
    it = lent_pieces(0, 0, 0);
    hold("null: a piece", mz_piece(NULL, 0, it.reader, NULL, 0) == 0 &&
                          is_reader(&it, MZ_NEXT, 0, 0, 0, 0, 0, MZ_IN_SPACE, 0, 0) &&
                              mz_piece(NULL, 0, it.reader, long_piece, 1) == MZ_LEND_MORE &&
                              mz_take(NULL, 0, NULL, 0, NULL, 0, NULL, 0, it.reader, false, true, NULL, 0) == 0 &&
                              it.reader[3] == 0);
#undef REFUSES
#undef GIVE
}

/* A reader that is answered by MZ_BAD_STATE: with room for one answer and for more, finished or not, in some phases. The text
 * is left. */
static void is_bad_reader(const char *what, const struct pieces *from) {
    for (size_t k = 0; k < 6; k++) {
        struct pieces it = copy_of(from, from->text_len, from->keys.places[0]), before;
        size_t room = MZ_ANSWER * (1 + k % 2) + k % 3, *out = numbers(room), finished = k < 2 ? 0 : k < 4 ? 1 : 700;
        size_t position = it.reader[0] == MZ_DONE ? it.reader[1] : 0;
        it.reader[5] = finished;
        it.reader[6] = k == 0 ? it.reader[6] : MZ_BEGIN + 2 * k; /* it comes first, whatever the phase says */
        before = COPY(it);
        hold(what, TAKE(it, out, room) == 1 && is_answer(out, MZ_BAD_STATE, 0, 0, 0, 0) &&
                   are_untouched(out + MZ_ANSWER, room - MZ_ANSWER) &&
                       is_reader(&it, MZ_DONE, position, 0, room < 2 * MZ_ANSWER ? MZ_OUT_FULL : MZ_END, 0, finished, MZ_BEGIN, 0, 0) &&
                       are_zeros(it.keys) && !memcmp(it.text, before.text, it.text_len));
        /* then there is nothing, and a piece as long as can be is taken if it is not finished */
        hold("after it", TAKE(it, out, room) == 0 && is_reader(&it, MZ_DONE, position, 0, MZ_END, 0, finished, MZ_BEGIN, 0, 0));
        hold("a piece after it", PIECE(it, "") == (finished ? MZ_FINISHED : 0) && is_phase(&it, MZ_BEGIN, 0, 0));
    }
}

/* Readers made by hand. */
static void bad_readers(void) {
    struct pieces good = lent_pieces(9, 3, 0), it;
    hold("a good reader", PIECE(good, "a='1' b='") == 0 && gives(&good, MZ_SINGLE_Q, 0, 1, 3, 4) && PIECE(good, "") == 0 &&
                              is_phase(&good, MZ_IN_SINGLE, 6, 7));
#define WITH(index, number) (it = COPY(good), it.reader[index] = (number), &it)
    is_bad_reader("held: one more than is lent", WITH(4, 10));
    is_bad_reader("held: one more than can be", WITH(4, MZ_HOLD + 1));
    is_bad_reader("held: without end", WITH(4, SIZE_MAX));
    is_bad_reader("held: less than a key", WITH(4, 0));
    is_bad_reader("a kind that is none", WITH(0, 4));
    is_bad_reader("a kind without end", WITH(0, SIZE_MAX));
    is_bad_reader("more keys than places", WITH(2, 4));
    is_bad_reader("keys without end", WITH(2, SIZE_MAX));
    it = COPY(good);
    it.keys.hashes[0] ^= 1;
    is_bad_reader("a hash that is not its key's", &it);
    it.checks = false;
    is_bad_reader("a hash that is not its key's, checks off", &it);
    it.reader[0] = MZ_DONE;
    it.reader[1] = 5;
    is_bad_reader("beside done", &it);
    it = COPY(good);
    it.keys.ends[0] = it.keys.starts[0];
    is_bad_reader("an empty key", &it);
    for (size_t kind = MZ_SKIP_VALUE; kind <= MZ_SKIP_FROM_EQ; kind++) {
        it = COPY(good);
        it.reader[0] = kind;
        it.reader[1] = 9;
        is_bad_reader("a skip from what is not held", &it);
        it.reader[1] = SIZE_MAX;
        is_bad_reader("a skip from far behind", &it);
        it.reader[2] = 0;
        is_bad_reader("a skip from far behind, and no keys", &it);
        it.reader[2] = 1;
        /* good on the whole tag, and not on what is held */
        it.reader[1] = 8;
        it.reader[4] = 8;
        is_bad_reader("a skip from what is lent and not held", &it);
    }
    it = COPY(good);
    it.reader[0] = MZ_SKIP_FROM_EQ;
    it.reader[1] = 8;
    is_bad_reader("a skip from `=` at another byte", &it);
    /* all places of tables of different lengths are set to zeros */
    for (size_t table = 0; table < 3; table++) {
        it = COPY(good);
        it.keys = lent_keys(table == 0 ? 1 : 7, table == 1 ? 1 : 8, table == 2 ? 1 : 9, 0, 0);
        it.reader[2] = 2;
        hold("more keys than the shortest table has places",
             TAKE(it, numbers(MZ_ANSWER), MZ_ANSWER) == 1 && it.reader[4] == 0 && are_zeros(it.keys));
    }
    it = lent_pieces(MZ_HOLD, 1, 0);
    memset(it.text, ' ', MZ_HOLD);
    it.reader[4] = MZ_HOLD + 1;
    is_bad_reader("one byte too many, and all that can be lent", &it);
    /* then none is held, and all that can be may come */
    {
        size_t *out = numbers(MZ_ANSWER);
        uint8_t *all = (uint8_t *)memset(block(MZ_HOLD), 'a', MZ_HOLD);
        hold("all that can be held, after MZ_BAD_STATE",
             TAKE(it, out, MZ_ANSWER) == 1 && out[0] == MZ_BAD_STATE && it.reader[4] == 0 &&
                 mz_piece(it.text, MZ_HOLD, it.reader, all, MZ_HOLD) == 0 && it.reader[4] == MZ_HOLD && is_more(&it));
    }
#undef WITH
}

/* Phases that lie: they can make it wait, and no answer wrong or early; after the finish they are nothing. */
static void lying_phases(void) {
    const size_t none[] = {10, 11, 255, 256, SIZE_MAX / 2, SIZE_MAX - 1, SIZE_MAX};
    struct pieces ready = lent_pieces(16, 3, 0), it, before;
    memcpy(ready.text, "a='1' b='2' a=xy", 16);
    ready.reader[4] = 5;
    for (size_t k = 0; k < COUNT(none); k++) {
        it = COPY(ready);
        it.reader[6] = none[k];
        hold("a phase that is none", gives(&it, MZ_SINGLE_Q, 0, 1, 3, 4) &&
                                     is_reader(&it, MZ_NEXT, 5, 1, MZ_END, 5, 0, MZ_BEGIN, 0, 0));
        it = COPY(ready);
        it.reader[6] = none[k];
        it.reader[7] = it.reader[8] = SIZE_MAX;
        it.reader[4] = 3;
        hold("a phase that is none, carried on", is_more(&it) && mz_piece(it.text, 16, it.reader, copied("1"), 1) == 0 &&
                                                     is_phase(&it, MZ_IN_SINGLE, 0, 1));
    }
    for (size_t phase = MZ_IN_SKIP; phase <= MZ_IN_UNQUOTED; phase++) {
        it = COPY(ready);
        it.reader[6] = phase;
        it.html = true;
        hold("a phase that waits for nothing", is_more(&it) && mz_finish(it.reader) == 0 && gives(&it, MZ_SINGLE_Q, 0, 1, 3, 4));
        it.html = false;
        it.reader[0] = MZ_NEXT;
        it.reader[1] = 5;
        it.reader[4] = 11;
        it.reader[5] = 0;
        it.reader[6] = phase;
        it.reader[7] = it.reader[8] = SIZE_MAX;
        hold("a phase with any key", phase == MZ_IN_UNQUOTED ? gives(&it, MZ_SINGLE_Q, 6, 7, 9, 10) : is_more(&it));
    }
    for (size_t phase = MZ_BEGIN; phase <= MZ_DUE; phase++) {
        it = COPY(ready);
        it.reader[4] = 4;
        it.reader[6] = phase;
        it.reader[7] = it.reader[8] = SIZE_MAX;
        hold("a phase that says too much", is_more(&it));
    }
    /* from MZ_BEFORE_VALUE on a key that is recorded does not wait, if it is one */
    for (size_t phase = MZ_BEFORE_VALUE; phase <= MZ_IN_UNQUOTED; phase++) {
        const size_t bounds[][3] = {{0, 1, 1}, {12, 13, 1}, {6, 7, 0}, {1, 0, 0}, {0, 0, 0},
                                    {0, 17, 0}, {SIZE_MAX, 1, 0}, {0, SIZE_MAX, 0}};
        for (size_t k = 0; k < COUNT(bounds); k++) {
            size_t *out = numbers(MZ_ANSWER);
            it = COPY(ready);
            it.html = true;
            hold("a key that is recorded", TAKE(it, out, MZ_ANSWER) == 1 && it.reader[2] == 1);
            it.reader[4] = 16;
            it.reader[6] = phase;
            it.reader[7] = bounds[k][0];
            it.reader[8] = bounds[k][1];
            if (bounds[k][2] == 0) {
                hold("another key waits", is_more(&it));
                continue;
            }
            before = COPY(it);
            before.checks = false;
            hold("it waits with checks off", is_more(&before));
            hold("a key that is refused does not wait",
                 TAKE(it, out, MZ_ANSWER) == 1 && is_answer(out, MZ_SINGLE_Q, 6, 7, 9, 10));
        }
    }
    /* what a piece makes of numbers that no phase has */
    it = lent_pieces(4, 0, 0);
    it.reader[6] = MZ_IN_SPACE;
    it.reader[7] = it.reader[8] = 99;
    hold("numbers that a phase has not", PIECE(it, "") == 0 && is_phase(&it, MZ_IN_SPACE, 0, 0));
    /* a kind that is none is a skip from the end of what was held */
    it.reader[0] = 4;
    it.reader[6] = MZ_BEGIN;
    hold("a kind that is none, and a piece", PIECE(it, "") == 0 && is_phase(&it, MZ_IN_SKIP, 0, 0));
    it.reader[6] = SIZE_MAX;
    hold("a kind that is none, and whitespace",
         PIECE(it, " ") == 0 && is_reader(&it, 4, 0, 0, 0, 1, 0, MZ_IN_SPACE, 0, 0));
    it.reader[6] = MZ_IN_KEY;
    it.reader[7] = it.reader[8] = 99;
    hold("a key's end that is not known", PIECE(it, "a") == 0 && is_phase(&it, MZ_IN_KEY, 99, 0) && PIECE(it, " ") == 0 &&
                                              is_phase(&it, MZ_AFTER_KEY, 99, 2));
}

/* The other traps: a key that is recorded by nothing, places past the end, room, tables. */
static void traps(void) {
    struct pieces it = lent_pieces(16, 2, 0), before;
    size_t *out = numbers(3 * MZ_ANSWER);
    /* *more* records no key: not one of a value that is not there, with or without a phase */
    hold("a key without its value", PIECE(it, "a=") == 0 && is_more(&it) && are_unused(it.keys, 0));
    it.reader[6] = it.reader[7] = it.reader[8] = 0;
    hold("a key without its value, phase 0", is_more(&it) && are_unused(it.keys, 0) && it.reader[2] == 0);
    hold("a quote that is not closed", PIECE(it, "'1") == 0 && is_more(&it) && are_unused(it.keys, 0));
    it.reader[6] = 0;
    hold("a quote that is not closed, phase 0", is_more(&it) && are_unused(it.keys, 0));
    hold("by the finish", mz_finish(it.reader) == 0 && gives(&it, MZ_EXPECTED_QUOTE, 4, '\'', 0, 0) &&
                          it.keys.hashes[0] == HASH_A &&
                              is_reader(&it, MZ_DONE, 0, 1, MZ_END, 4, 1, 0, 0, 0) && are_unused(it.keys, 1));
    /* a position past what is held, and at its end */
    it = lent_pieces(16, 2, 9);
    hold("opened past the end", PIECE(it, "a=''") == 0 && is_reader(&it, MZ_NEXT, 9, 0, 0, 4, 0, MZ_BEGIN, 0, 0) &&
                                is_more(&it) &&
                                    mz_finish(it.reader) == 0 && TAKE(it, out, MZ_ANSWER) == 0 &&
                                    is_reader(&it, MZ_NEXT, 9, 0, MZ_END, 4, 1, MZ_BEGIN, 0, 0));
    it = lent_pieces(16, 2, 4);
    hold("opened at the end", PIECE(it, "a=''") == 0 && is_more(&it) && mz_finish(it.reader) == 0 &&
                              TAKE(it, out, MZ_ANSWER) == 0 &&
                                  it.reader[0] == MZ_DONE && it.reader[1] == 0 && it.reader[3] == MZ_END);
    it = lent_pieces(16, 2, 6);
    hold("opened where bytes come to be", PIECE(it, "a='' ") == 0 && is_phase(&it, MZ_BEGIN, 0, 0) && PIECE(it, "xb='1'") == 0 &&
                                              gives(&it, MZ_SINGLE_Q, 6, 7, 9, 10));
    it = lent_pieces(1, 2, SIZE_MAX);
    hold("opened far behind", PIECE(it, "a") == 0 && is_more(&it) && is_phase(&it, MZ_BEGIN, 0, 0));
    /* where reading has ended it is more, and the end after the finish */
    it = lent_pieces(4, 1, 0);
    it.reader[0] = MZ_DONE;
    it.reader[1] = 33;
    hold("done", PIECE(it, "a=''") == 0 && is_reader(&it, MZ_DONE, 33, 0, 0, 4, 0, MZ_BEGIN, 0, 0) && is_more(&it) &&
                     mz_finish(it.reader) == 0 && TAKE(it, out, MZ_ANSWER) == 0 &&
                     is_reader(&it, MZ_DONE, 33, 0, MZ_END, 4, 1, MZ_BEGIN, 0, 0));
    /* no room for an answer: nothing is written, be it a bad reader */
    it = lent_pieces(5, 1, 0);
    hold("an answer", PIECE(it, "a='1'") == 0);
    for (size_t bad = 0; bad < 2; bad++) {
        it.reader[0] = bad == 0 ? MZ_NEXT : 9;
        it.reader[3] = 55;
        before = COPY(it);
        out = numbers(3 * MZ_ANSWER);
        hold("no room for an answer", TAKE(it, out, MZ_ANSWER - 1) == 0 && is_same(&it, &before) && TAKE(it, NULL, 0) == 0 &&
                                          is_same(&it, &before) && are_untouched(out, MZ_ANSWER));
    }
    it.reader[0] = MZ_NEXT;
    /* tables that are too short, of which more comes before */
    it = lent_pieces(20, 1, 0);
    hold("a key that has a place", PIECE(it, "a='' b='") == 0 && TAKE(it, out, 3 * MZ_ANSWER) == 1 && it.reader[3] == MZ_END &&
                                       is_reader(&it, MZ_NEXT, 4, 1, MZ_END, 8, 0, MZ_BEGIN, 0, 0));
    hold("more comes before MZ_MORE_KEYS", is_more(&it) && PIECE(it, "x") == 0 && is_more(&it));
    before = COPY(it);
    hold("MZ_MORE_KEYS: at the finish", mz_finish(before.reader) == 0 && TAKE(before, out, MZ_ANSWER) == 0 &&
                                            is_reader(&before, MZ_NEXT, 4, 1, MZ_MORE_KEYS, 9, 1, MZ_IN_SINGLE, 5, 6));
    hold("MZ_MORE_KEYS", PIECE(it, "'") == 0 && is_phase(&it, MZ_DUE, 0, 0));
    before = COPY(it);
    hold("MZ_MORE_KEYS: nothing else", TAKE(it, out, 3 * MZ_ANSWER) == 0 && is_copy(&it, &before, MZ_MORE_KEYS));
    it = copy_of(&it, 20, 2);
    hold("with longer tables", gives(&it, MZ_SINGLE_Q, 5, 6, 8, 9) && it.keys.hashes[1] == HASH_B && it.keys.starts[1] == 5);
    hold("a duplicate needs no place", PIECE(it, " a=") == 0 && gives(&it, MZ_DUPLICATED, 11, 0, 0, 0));
    it = lent_pieces(20, 0, 0);
    it.checks = false;
    hold("checks off, and no place for a key", PIECE(it, "a='' a='' ") == 0 && TAKE(it, out, 3 * MZ_ANSWER) == 2 &&
                                               it.reader[2] == 0 &&
                                                   is_answer(out + MZ_ANSWER, MZ_SINGLE_Q, 5, 6, 8, 8));
    /* lengths that are wrong: nothing is written */
    for (size_t k = 0; k < 5; k++) {
        it = lent_pieces(k == 0 ? MZ_HOLD + 1 : 5, 2, 0);
        if (k > 0 && k < 4) {
            it.keys = lent_keys(k == 1 ? MZ_KEYS + 1 : MZ_KEYS, k == 2 ? MZ_KEYS + 1 : MZ_KEYS, k == 3 ? MZ_KEYS + 1 : MZ_KEYS, 0, 0);
        }
        memcpy(it.text, "a='1'", 5);
        it.reader[4] = 5;
        it.reader[3] = 55;
        out = numbers(MZ_ANSWER);
        if (k == 4) {
            hold("right lengths", TAKE(it, out, MZ_ANSWER) == 1);
            continue;
        }
        hold("MZ_NONE of a reader", TAKE(it, out, MZ_ANSWER) == MZ_NONE && TAKE(it, NULL, 0) == MZ_NONE &&
                                    are_untouched(out, MZ_ANSWER) &&
                                        is_reader(&it, MZ_NEXT, 0, 0, 55, 5, 0, 0, 0, 0) && are_unused(it.keys, 0));
    }
    /* the shortest table counts */
    for (size_t table = 0; table < 3; table++) {
        it = lent_pieces(20, 2, 0);
        it.keys = lent_keys(table == 0 ? 1 : 3, table == 1 ? 1 : 4, table == 2 ? 1 : 5, 0, 0);
        hold("the shortest table of a reader", PIECE(it, "a='' b='' ") == 0 && TAKE(it, out, MZ_ANSWER) == 1 &&
                                               TAKE(it, out, MZ_ANSWER) == 0 &&
                                                   it.reader[3] == MZ_MORE_KEYS && it.reader[2] == 1);
    }
}

/* All keys that there can be: one too many is there with its `=`, a bare one in HTML mode with the byte behind it, and is
 * the last. */
static void full_keys(void) {
    const char *tag = many(MZ_KEYS - 1);
    size_t len = 7 * (MZ_KEYS - 1), room = (MZ_KEYS + 1) * MZ_ANSWER, *out = numbers(room);
    for (size_t bare = 0; bare < 2; bare++) {
        struct pieces it = lent_pieces(MZ_HOLD, MZ_KEYS, 0);
        it.html = bare == 1;
        hold("all keys but one", mz_piece(it.text, it.text_len, it.reader, copied(tag), len) == 0 &&
                                 PIECE(it, " x='' new") == 0 &&
                                     TAKE(it, out, room) == MZ_KEYS && it.reader[2] == MZ_KEYS && it.reader[3] == MZ_END);
        hold("a key too many: not before it is whole", is_more(&it) && PIECE(it, " ") == 0 && is_more(&it));
        hold("a key too many", PIECE(it, bare == 1 ? "b" : "=") == 0 && gives(&it, MZ_KEY_TABLE_FULL, len + 6, 0, 0, 0) &&
                                   is_reader(&it, MZ_DONE, 0, MZ_KEYS, MZ_END, len + 11, 0, MZ_BEGIN, 0, 0));
        hold("reading has ended", is_more(&it) && PIECE(it, "'' y='' ") == 0 && is_phase(&it, MZ_BEGIN, 0, 0) && is_more(&it) &&
                                      mz_finish(it.reader) == 0 && TAKE(it, out, MZ_ANSWER) == 0 && it.reader[3] == MZ_END);
    }
}

static void pieces(void) {
    const char *tags[] = {"", "a", " a='1' b=\"2\"", "a=1 b='x' a=2 c", "a='1 b", "= a ==''", "a a a='' b"};
    phases();
    moments();
    for (size_t k = 0; k < COUNT(tags) * 16; k++) {
        as_the_whole(tags[k / 16], k / 4 % 4 * 3, k % 2 == 1, k / 2 % 2 == 1);
    }
    refused_pieces();
    bad_readers();
    lying_phases();
    traps();
    full_keys();
}

/* ---- Scopes ---- */

/* Whether bounds are those of a text. */
static bool are(const uint8_t *in, const size_t *bounds, const char *wanted) {
    return bounds[1] - bounds[0] == strlen(wanted) && !memcmp(in + bounds[0], wanted, strlen(wanted));
}

static bool is_told(const size_t *detail, size_t a, size_t b) {
    return detail[0] == a && detail[1] == b;
}

static bool is_head(const struct mz_resolver *r, size_t used, size_t count, size_t level, size_t limit) {
    return r->head[0] == used && r->head[1] == count && r->head[2] == level && r->head[3] == limit;
}

/* The names of a tag at once: each answer is what mz_resolve says of the name alone. */
static void all_names(const struct mz_resolver *r) {
    const char *tag = "x p:x qq:x x";
    const size_t from[] = {0, 2, 6, 11, 3, 13, 0, SIZE_MAX}, to[] = {1, 5, 10, 12, 2, 14, SIZE_MAX, SIZE_MAX};
    size_t *kinds = numbers(COUNT(to)), *begins = numbers(COUNT(to)), *ends = numbers(COUNT(to)), *d = numbers(MZ_DETAIL);
    const size_t elements = 2, n = COUNT(to);
    hold("mz_resolve_all",
         mz_resolve_all(MZ_PASS(*r), BYTES(tag), from, n, to, n, elements, kinds, n, begins, n, ends, n) == 0);
    for (size_t k = 0; k < n; k++) {
        bool bounds = from[k] <= to[k] && to[k] <= strlen(tag);
        const uint8_t *name = copied(tag) + (bounds ? from[k] : 0);
        size_t kind = mz_resolve(MZ_PASS(*r), name, bounds ? to[k] - from[k] : 0, k < elements, d);
        hold("mz_resolve_all: a name", kinds[k] == kind && begins[k] == d[0] && ends[k] == d[1]);
    }
    kinds = numbers(n);
    hold("mz_resolve_all: a wrong length", mz_resolve_all(MZ_PASS(*r), BYTES(tag), from, n, to, n, elements, kinds, n, begins,
                                                          n - 1, ends, n) == MZ_WRONG_LENGTH && are_untouched(kinds, n));
    hold("mz_resolve_all: all of them elements",
         mz_resolve_all(MZ_PASS(*r), BYTES(tag), from, n, to, n, SIZE_MAX, kinds, n, begins, n, ends, n) == 0 &&
             kinds[3] == kinds[0]);
}

/* A tag that says yes once: the iterator is left behind that attribute, then at the end. */
static void nil(struct mz_resolver *r) {
    const char *tag = "a i:nil='0' nil='1' j:nil='true' i:x='1' i:nil='1'";
    const char *scope = "xmlns:i='http://www.w3.org/2001/XMLSchema-instance' "
                        "xmlns:j='http://www.w3.org/2001/XMLSchema-instance'";
    struct reader it = opened(4, MZ_NEXT, 1), before;
    hold("mz_push: for nil", mz_push(MZ_PASS(*r), BYTES(scope), 0, numbers(MZ_DETAIL)) == 0);
#define HAS_NIL(r, it) mz_has_nil(MZ_PASS(r), BYTES(tag), KEYS(it), false, true)
    hold("mz_has_nil: yes", HAS_NIL(*r, it) == 1 && is_at(it, MZ_NEXT, 32, 3, untouched()));
    hold("mz_has_nil: no", HAS_NIL(*r, it) == 0 && is_at(it, MZ_SKIP_FROM_EQ, 46, 4, untouched()) && it.starts[3] == 33 &&
                               it.ends[3] == 36 && it.hashes[3] == HASH_IX);
    before = lent_keys(6, 5, MZ_KEYS, MZ_NEXT, 1);
    hold("mz_has_nil: what is not in use", HAS_NIL(*r, before) == 1 && before.hashes[0] == it.hashes[0] &&
                                               before.hashes[2] == it.hashes[2] && are_unused(before, 3));
    before = lent_keys(6, 5, 2, MZ_NEXT, 1);
    hold("mz_has_nil: a hash that has no place", HAS_NIL(*r, before) == MZ_LEND_MORE &&
                                                 is_at(before, MZ_NEXT, 1, 0, untouched()) &&
                                                     are_unused(before, 0));
    for (size_t checks = 0; checks < 2; checks++) {
        before = opened(3, MZ_NEXT, 32);
        record(before, 33, 36, HASH_IX ^ 1);
        hold("mz_has_nil: a hash that is not its key's",
             mz_has_nil(MZ_PASS(*r), BYTES(tag), KEYS(before), false, checks == 1) == MZ_BAD_STATE &&
                 is_at(before, MZ_DONE, 0, 0, untouched()) && are_zeros(before));
    }
    before = opened(2, MZ_NEXT, 1);
    hold("mz_has_nil: a key that has no place", HAS_NIL(*r, before) == MZ_LEND_MORE &&
                                                is_at(before, MZ_NEXT, 1, 0, untouched()) &&
                                                    are_unused(before, 0));
    for (size_t table = 0; table < 3; table++) {
        before = lent_keys(table == 0 ? MZ_KEYS + 1 : 4, table == 1 ? MZ_KEYS + 1 : 4, table == 2 ? MZ_KEYS + 1 : 4, MZ_NEXT, 1);
        hold("mz_has_nil: a wrong length", HAS_NIL(*r, before) == MZ_WRONG_LENGTH && are_unused(before, 0));
    }
    it.state[0] = MZ_SKIP_VALUE;
    it.state[1] = SIZE_MAX;
    r->head[0]++;
    hold("mz_has_nil: no resolver", HAS_NIL(*r, it) == MZ_BAD_RESOLVER && is_at(it, MZ_SKIP_VALUE, SIZE_MAX, 4, untouched()) &&
                                        it.starts[3] == 33);
    r->head[0]--;
    hold("mz_has_nil: a bad state", HAS_NIL(*r, it) == MZ_BAD_STATE && is_at(it, MZ_DONE, 0, 0, untouched()) && are_zeros(it));
#undef HAS_NIL
    hold("mz_pop: after nil", mz_pop(MZ_PASS(*r)) == 0);
}

/* Every refusal of a declaration, by mz_add and by mz_push. */
static void refusals(void) {
    struct mz_resolver *r = fresh(FULL);
    size_t *d = numbers(MZ_DETAIL);
#define ADD(prefix, value) mz_add(MZ_PASS(*r), true, BYTES(prefix), BYTES(value), d)
    hold("MZ_INVALID_XML_PREFIX_BIND", ADD("xml", "w") == MZ_INVALID_XML_PREFIX_BIND && is_told(d, 0, 1));
    hold("MZ_INVALID_XMLNS_PREFIX_BIND", ADD("xmlns", "w") == MZ_INVALID_XMLNS_PREFIX_BIND && is_told(d, 0, 1));
    hold("MZ_INVALID_PREFIX_FOR_XML", ADD("pp", XML_URI) == MZ_INVALID_PREFIX_FOR_XML && is_told(d, 0, 2));
    hold("MZ_INVALID_PREFIX_FOR_XMLNS", ADD("pp", XMLNS_URI) == MZ_INVALID_PREFIX_FOR_XMLNS && is_told(d, 0, 2));
    hold("what is refused changes nothing", is_head(r, MZ_FRESH_TEXT, 2, 0, 128));
    r->head[3] = 0;
    hold("MZ_TOO_MANY_BINDINGS", ADD("p", "u") == MZ_TOO_MANY_BINDINGS && is_told(d, 0, 0));
    hold("MZ_TOO_MANY_BINDINGS: by mz_push", mz_push(MZ_PASS(*r), BYTES(" xmlns='u'"), 0, d) == MZ_TOO_MANY_BINDINGS &&
                                                 is_head(r, MZ_FRESH_TEXT, 2, 1, 0));
    hold("MZ_TOO_DEEPLY_NESTED", mz_set_level(MZ_PASS(*r), 65535) == 0 && r->head[2] == 65535 &&
                                     mz_push(MZ_PASS(*r), BYTES(" xmlns='u'"), 0, d) == MZ_TOO_DEEPLY_NESTED &&
                                     is_told(d, 65535, 0) && r->head[2] == 65535);
    r->head[3] = SIZE_MAX;
    for (size_t n = 2; n < MZ_RECORDS; n++) {
        hold("mz_add: all bindings that there can be", mz_add(MZ_PASS(*r), false, NULL, 0, NULL, 0, d) == 0);
    }
    hold("MZ_BINDING_TABLE_FULL", ADD("p", "u") == MZ_BINDING_TABLE_FULL && is_told(d, 0, 0) && r->head[1] == MZ_RECORDS);
    r = fresh(FULL);
    {
        uint8_t *long_value = (uint8_t *)block(MZ_TEXT);
        size_t most = MZ_TEXT - MZ_FRESH_TEXT - 1;
        hold("MZ_TEXT_FULL", mz_add(MZ_PASS(*r), true, BYTES("p"), long_value, most + 1, d) == MZ_TEXT_FULL && is_told(d, 0, 0));
        hold("all text that there can be", mz_add(MZ_PASS(*r), true, BYTES("p"), long_value, most, d) == 0 &&
                                           r->head[0] == MZ_TEXT);
    }
#undef ADD
}

static void scopes(void) {
    struct mz_resolver *r = fresh(FULL), *other;
    size_t *d = numbers(MZ_DETAIL), *listed = numbers(MZ_LISTED);
    const char *tag = "a xmlns='u' xmlns:xml='w'";
    hold("mz_fresh: its head", is_head(r, MZ_FRESH_TEXT, 2, 0, 128) && r->text[MZ_TEXT - 1] == 0 &&
                                   r->records[MZ_RECORD * MZ_RECORDS - 1] == 0);
    hold("mz_add", mz_add(MZ_PASS(*r), true, BYTES("p"), BYTES("urn:p"), d) == 0 && is_told(d, 0, 0) &&
                       is_head(r, MZ_FRESH_TEXT + 6, 3, 0, 128));
    hold("a record", r->records[2 * MZ_RECORD] == MZ_FRESH_TEXT && r->records[2 * MZ_RECORD + 1] == 1 &&
                         r->records[2 * MZ_RECORD + 2] == 5 && r->records[2 * MZ_RECORD + 3] == 0);
    hold("mz_push", mz_push(MZ_PASS(*r), BYTES(tag), 1, d) == MZ_INVALID_XML_PREFIX_BIND &&
                        are((const uint8_t *)tag, d, "w") && r->head[2] == 1);
    hold("mz_resolve: bound", mz_resolve(MZ_PASS(*r), BYTES("p:x"), false, d) == 1 && are(r->text, d, "urn:p"));
    hold("mz_resolve: the default", mz_resolve(MZ_PASS(*r), BYTES("x"), true, d) == 1 && are(r->text, d, "u"));
    hold("mz_resolve: unbound", mz_resolve(MZ_PASS(*r), BYTES("x"), false, d) == 0 && is_told(d, 0, 0));
    hold("mz_resolve: unknown", mz_resolve(MZ_PASS(*r), BYTES("qq:x"), true, d) == 2 && is_told(d, 0, 2));
    all_names(r);
    nil(r);
    hold("mz_binding", mz_binding(MZ_PASS(*r), 0, listed) == 2 && are(r->text, listed, "p") &&
                           are(r->text, listed + 2, "urn:p") && listed[4] == 3);
    hold("mz_binding_of", mz_binding_of(MZ_PASS(*r), 1, 0, listed) == 1 && are(r->text, listed + 2, "u") && listed[4] == 4);
    hold("the end of a listing", mz_binding_of(MZ_PASS(*r), 1, 4, listed) == 0 && listed[3] == 0 && listed[4] == 4);
    hold("a place far behind", mz_binding(MZ_PASS(*r), SIZE_MAX, listed) == 0 && listed[3] == 0 && listed[4] == SIZE_MAX);
    hold("mz_set_level", mz_set_level(MZ_PASS(*r), 500) == 0 && r->head[2] == 500 && r->head[1] == 4);
    hold("mz_pop", mz_pop(MZ_PASS(*r)) == 0 && r->head[2] == 499);
    hold("mz_set_level: down", mz_set_level(MZ_PASS(*r), 0) == 0 && is_head(r, MZ_FRESH_TEXT + 6, 3, 0, 128));
    other = moved(r, FULL);
    r->text[MZ_TEXT - 1] = 1;
    hold("a resolver that is none", mz_pop(MZ_PASS(*r)) == MZ_BAD_RESOLVER && r->text[MZ_TEXT - 1] == 1);
    hold("a listing of it", mz_binding(MZ_PASS(*r), 3, listed) == MZ_BAD_RESOLVER && listed[0] == 0 && listed[4] == 3);
    hold("a lookup in it", mz_resolve(MZ_PASS(*r), BYTES("p:x"), true, d) == MZ_BAD_RESOLVER && is_told(d, 0, 0));
    r = moved(other, FULL);
    r->head[2] = 65536;
    hold("a level that is none", mz_binding_of(MZ_PASS(*r), 1, 5, listed) == MZ_BAD_RESOLVER && listed[4] == 5);
    for (size_t part = 0; part < 3; part++) {
        r = moved(other, FULL);
        r->head[part] = SIZE_MAX;
        hold("a head beyond all capacity", mz_pop(MZ_PASS(*r)) == MZ_BAD_RESOLVER && r->head[part] == SIZE_MAX);
    }
    for (size_t part = 0; part < MZ_RECORD; part++) {
        r = moved(other, FULL);
        r->records[2 * MZ_RECORD + part] = SIZE_MAX;
        hold("a record beyond all capacity", mz_pop(MZ_PASS(*r)) == MZ_BAD_RESOLVER);
    }
    r = moved(other, FULL);
    hold("mz_push: a reserved default", mz_push(MZ_PASS(*r), BYTES(" xmlns=\"" XMLNS_URI "\""), 0, d) == 0 && is_told(d, 0, 0));
    hold("mz_resolve: a reserved default", mz_resolve(MZ_PASS(*r), BYTES("a"), true, d) == 1 && are(r->text, d, XMLNS_URI));
    hold("mz_add: a reserved default", mz_add(MZ_PASS(*r), false, NULL, 0, BYTES(XML_URI), d) == 0 && is_told(d, 0, 0) &&
                                           mz_resolve(MZ_PASS(*r), BYTES("a"), true, d) == 1 && are(r->text, d, XML_URI));
    hold("mz_pop: a reserved default", mz_pop(MZ_PASS(*r)) == 0 && mz_resolve(MZ_PASS(*r), BYTES("a"), true, d) == 0);
    hold("mz_push: from far behind", mz_push(MZ_PASS(*r), BYTES(tag), SIZE_MAX, d) == 0 && r->head[2] == 1 && r->head[1] == 3);
}

/* ---- Memory of other lengths ---- */

static void wrong_lengths(void) {
    struct mz_resolver *r = fresh(FULL), *other, *before;
    size_t *d = numbers(MZ_DETAIL), *listed = numbers(MZ_LISTED), used, count;
    const size_t lengths[][2] = {{MZ_TEXT + 1, MZ_RECORD * MZ_RECORDS}, {MZ_TEXT, MZ_RECORD * MZ_RECORDS + 1},
                                 {MZ_FRESH_TEXT + 1, MZ_RECORD * MZ_RECORDS}, {MZ_TEXT, 3 * MZ_RECORD - 1}};
    hold("mz_add: two bytes", mz_add(MZ_PASS(*r), true, BYTES("p"), BYTES("u"), d) == 0);
    used = r->head[0];
    count = r->head[1];
    for (size_t k = 0; k < COUNT(lengths); k++) {
        other = moved(r, lengths[k][0], lengths[k][1]);
        before = moved(other, lengths[k][0], lengths[k][1]);
        d = numbers(MZ_DETAIL);
        hold("MZ_WRONG_LENGTH", mz_add(MZ_PASS(*other), false, BYTES(""), BYTES(""), d) == MZ_WRONG_LENGTH &&
                                    mz_resolve(MZ_PASS(*other), BYTES("p:x"), true, d) == MZ_WRONG_LENGTH &&
                                    mz_pop(MZ_PASS(*other)) == MZ_WRONG_LENGTH && same(other, before));
        hold("MZ_WRONG_LENGTH: the detail", is_told(d, 0, 0) && mz_binding(MZ_PASS(*other), 7, listed) == MZ_WRONG_LENGTH &&
                                                listed[3] == 0 && listed[4] == 7);
        hold("MZ_WRONG_LENGTH: mz_fresh", k >= 2 || (mz_fresh(MZ_PASS(*other)) == MZ_WRONG_LENGTH && same(other, before)));
    }
    other = moved(r, used, MZ_RECORD * count);
    hold("exactly what is in use", mz_resolve(MZ_PASS(*other), BYTES("p:x"), true, d) == 1 && are(other->text, d, "u") &&
                                       mz_set_level(MZ_PASS(*other), 7) == 0);
    other = lent(MZ_FRESH_TEXT - 1, MZ_FRESH_RECORDS);
    hold("MZ_FRESH_TEXT", mz_fresh(MZ_PASS(*other)) == MZ_LEND_MORE && other->text[0] == 0x5a &&
                          are_untouched(other->head, MZ_HEAD));
    other = lent(MZ_FRESH_TEXT, MZ_FRESH_RECORDS - 1);
    hold("MZ_FRESH_RECORDS", mz_fresh(MZ_PASS(*other)) == MZ_LEND_MORE && other->text[0] == 0x5a);
    fresh(MZ_FRESH_TEXT, MZ_FRESH_RECORDS);
    fresh(MZ_FRESH_TEXT + 1, MZ_FRESH_RECORDS + 1);
}

/* The same declarations in memory of full size, and in memory that is made as long as they need, and was one byte
 * or one number short of it before. */
static void short_memory(void) {
    const char *tags[] = {"a xmlns='urn:a' xmlns:p='urn:p'", "b", "c xmlns='' xmlns:q='urn:q' xmlns:xml='no' xmlns:r='r'",
                          "d xmlns:p='urn:another' xmlns:s='s' x xmlns:t='t'"};
    struct mz_resolver *full = fresh(FULL), *r = fresh(MZ_FRESH_TEXT, MZ_FRESH_RECORDS);
    size_t *d = numbers(MZ_DETAIL), *e = numbers(MZ_DETAIL), *l = numbers(MZ_LISTED), *m = numbers(MZ_LISTED);
    for (size_t k = 0; k < COUNT(tags); k++) {
        size_t code = mz_push(MZ_PASS(*full), BYTES(tags[k]), 1, d), again;
        size_t text = full->head[0], records = MZ_RECORD * full->head[1];
        if (text > r->text_len) {
            struct mz_resolver *less = moved(r, text - 1, records), *before = moved(less, text - 1, records);
            hold("MZ_LEND_MORE: a byte", mz_push(MZ_PASS(*less), BYTES(tags[k]), 1, e) == MZ_LEND_MORE &&
                                             same(less, before) && is_told(e, 0, 0));
        }
        if (records > r->records_len) {
            struct mz_resolver *less = moved(r, text, records - 1), *before = moved(less, text, records - 1);
            hold("MZ_LEND_MORE: a number", mz_push(MZ_PASS(*less), BYTES(tags[k]), 1, e) == MZ_LEND_MORE &&
                                               same(less, before) && is_told(e, 0, 0));
        }
        while ((again = mz_push(MZ_PASS(*r), BYTES(tags[k]), 1, e)) == MZ_LEND_MORE) {
            r = moved(r, r->text_len + (r->text_len < text), r->records_len + (r->records_len < records));
        }
        hold("mz_push: in memory that grew", (r->text_len == text || k == 1) && d[0] == e[0] && d[1] == e[1] &&
                                                 same(full, moved(r, FULL)) && again == code &&
                                                 code == (k == 2 ? MZ_INVALID_XML_PREFIX_BIND : 0));
        for (size_t place = 0; place <= full->head[1]; place++) {
            hold("mz_binding: in memory that grew", mz_binding(MZ_PASS(*full), place, l) == mz_binding(MZ_PASS(*r), place, m) &&
                                                        !memcmp(l, m, MZ_LISTED * sizeof(size_t)));
        }
    }
    hold("mz_add: in memory that does", mz_set_level(MZ_PASS(*r), 0) == 0 &&
                                        mz_add(MZ_PASS(*r), true, BYTES("z"), BYTES("z"), d) == 0);
}

/* ---- Positions far behind ---- */

/* One position that no tag and no resolver has: at the end of the range, or where a number has another sign or another
 * width. What is read there is the end, what is skipped from there is no state, and bounds there are those of an empty name. */
static void far(struct mz_resolver *r, size_t position) {
    const char *tag = "a='1' xmlns:q='u'";
    struct reader it = opened(2, MZ_NEXT, position);
    size_t *out = numbers(MZ_ANSWER), *d = numbers(MZ_DETAIL), *listed = numbers(MZ_LISTED), kind, begin, end;
    hold("far: mz_read_batch", mz_read_batch(BYTES(tag), KEYS(it), false, true, out, MZ_ANSWER) == 0 &&
                                   is_at(it, MZ_NEXT, position, 0, MZ_END) && are_untouched(out, MZ_ANSWER));
    hold("far: mz_has_nil", mz_has_nil(MZ_PASS(*r), BYTES(tag), KEYS(it), true, true) == 0 &&
                                is_at(it, MZ_NEXT, position, 0, MZ_END));
    for (size_t skip = MZ_SKIP_VALUE; skip <= MZ_SKIP_FROM_EQ; skip++) {
        it = opened(2, skip, position);
        hold("far: a place to skip from", mz_read_batch(BYTES(tag), KEYS(it), true, true, out, MZ_ANSWER) == 1 &&
                                              is_answer(out, MZ_BAD_STATE, 0, 0, 0, 0) && is_at(it, MZ_DONE, 0, 0, MZ_OUT_FULL));
    }
    for (size_t bound = 0; bound < 3; bound++) {
        it = opened(2, MZ_NEXT, 5);
        it.state[2] = 1;
        it.starts[0] = bound == 0 ? 0 : position;
        it.ends[0] = bound == 1 ? position + 1 : position;
        hold("far: a recorded key", mz_read_batch(BYTES(tag), KEYS(it), false, true, out, MZ_ANSWER) == 1 &&
                                        is_answer(out, MZ_BAD_STATE, 0, 0, 0, 0) && are_zeros(it));
    }
    it = opened(2, MZ_NEXT, 0);
    it.state[2] = position;
    hold("far: so many recorded keys", mz_read_batch(BYTES(tag), KEYS(it), false, true, out, MZ_ANSWER) == 1 &&
                                           is_answer(out, MZ_BAD_STATE, 0, 0, 0, 0) && is_at(it, MZ_DONE, 0, 0, MZ_OUT_FULL));
    hold("far: mz_push", mz_push(MZ_PASS(*r), BYTES(tag), position, d) == 0 && is_told(d, 0, 0) &&
                             is_head(r, MZ_FRESH_TEXT + 2, 3, 1, 128) && mz_pop(MZ_PASS(*r)) == 0);
    hold("far: mz_binding", mz_binding(MZ_PASS(*r), position, listed) == 0 && listed[3] == 0 && listed[4] == position);
    hold("far: mz_binding_of", mz_binding_of(MZ_PASS(*r), 0, position, listed) == 0 && listed[3] == 0 && listed[4] == position);
    for (size_t bound = 0; bound < 3; bound++) {
        size_t from = bound == 0 ? 6 : position, to = bound == 1 ? position + 3 : position;
        hold("far: mz_resolve_all", mz_resolve_all(MZ_PASS(*r), BYTES(tag), &from, 1, &to, 1, 0, &kind, 1, &begin, 1, &end, 1) == 0 &&
                                        kind == 0 && begin == 0 && end == 0);
    }
}

static void far_behind(void) {
    struct mz_resolver *r = fresh(MZ_FRESH_TEXT + 2, MZ_FRESH_RECORDS + MZ_RECORD);
    size_t *d = numbers(MZ_DETAIL);
    hold("mz_add: before what is far", mz_add(MZ_PASS(*r), true, BYTES("p"), BYTES("u"), d) == 0);
    for (size_t back = 0; back < 20; back++) {
        far(r, SIZE_MAX - back);
        far(r, SIZE_MAX / 2 + back);
        far(r, ((size_t)1 << 32) + back);
    }
}

/* ---- Nothing at all ---- */

/* A slice of length 0 by a pointer that no access may go through. */
#define NONE NULL, 0

static void empty_and_null(void) {
    size_t *d = numbers(MZ_DETAIL), *listed = numbers(MZ_LISTED), *out = numbers(MZ_ANSWER);
    struct mz_resolver *r = fresh(FULL), nothing = {NULL, 0, NULL, 0, {0, 0, 0, 0}};
    struct reader it = opened(0, MZ_NEXT, 0);
    hold("null: names", mz_split(NONE) == 0 && mz_declares(NONE) == 0 && !mz_is_xml(NONE) && !mz_is_xmlns(NONE));
    hold("null: mz_verdict", mz_verdict(NONE, NONE) == 2 && mz_verdict(BYTES("xmlns"), NONE) == 1);
    hold("null: mz_as_bool", mz_as_bool(NONE) == 2);
    hold("null: a tag", mz_read_batch(NONE, NONE, NONE, NONE, it.state, false, true, NONE) == 0 && it.state[0] == MZ_NEXT &&
                            mz_read_batch(NONE, NONE, NONE, NONE, it.state, false, true, out, MZ_ANSWER) == 0 &&
                            is_at(it, MZ_DONE, 0, 0, MZ_END));
    it.state[0] = MZ_NEXT;
    it.state[1] = SIZE_MAX;
    hold("null: a tag from far behind", mz_read_batch(NONE, NONE, NONE, NONE, it.state, true, true, out, MZ_ANSWER) == 0 &&
                                            is_at(it, MZ_NEXT, SIZE_MAX, 0, MZ_END));
    it.state[2] = SIZE_MAX;
    hold("null: more keys than places", mz_read_batch(NONE, NONE, NONE, NONE, it.state, true, true, out, MZ_ANSWER) == 1 &&
                                            out[0] == MZ_BAD_STATE && is_at(it, MZ_DONE, 0, 0, MZ_OUT_FULL));
    it.state[0] = SIZE_MAX;
    hold("null: a kind that is none", mz_read_batch(NONE, NONE, NONE, NONE, it.state, true, true, out, MZ_ANSWER) == 1 &&
                                          out[0] == MZ_BAD_STATE && is_at(it, MZ_DONE, 0, 0, MZ_OUT_FULL));
    it.state[1] = SIZE_MAX;
    hold("null: a position beside done", mz_read_batch(NONE, NONE, NONE, NONE, it.state, true, true, out, MZ_ANSWER) == 0 &&
                                             is_at(it, MZ_DONE, SIZE_MAX, 0, MZ_END));
    hold("null: a resolver", mz_fresh(MZ_PASS(nothing)) == MZ_LEND_MORE && mz_pop(MZ_PASS(nothing)) == MZ_BAD_RESOLVER &&
                                 mz_resolve(MZ_PASS(nothing), NONE, true, d) == MZ_BAD_RESOLVER && is_told(d, 0, 0));
    nothing.head[0] = 1;
    hold("null: a resolver that is not lent", mz_pop(MZ_PASS(nothing)) == MZ_WRONG_LENGTH &&
                                                  mz_set_level(MZ_PASS(nothing), 1) == MZ_WRONG_LENGTH);
    hold("null: mz_add", mz_add(MZ_PASS(*r), true, NONE, NONE, d) == 0 && mz_add(MZ_PASS(*r), false, NONE, NONE, d) == 0);
    hold("null: mz_push", mz_push(MZ_PASS(*r), NONE, 0, d) == 0 && mz_push(MZ_PASS(*r), NONE, 7, d) == 0);
    hold("null: mz_resolve", mz_resolve(MZ_PASS(*r), NONE, true, d) == 0 && is_told(d, 0, 0));
    hold("null: mz_resolve_all", mz_resolve_all(MZ_PASS(*r), NONE, NONE, NONE, 0, NONE, NONE, NONE) == 0 &&
                                     mz_resolve_all(MZ_PASS(*r), NONE, NONE, NONE, 1, NONE, NONE, listed, 1) == MZ_WRONG_LENGTH);
    hold("null: mz_binding", mz_binding(MZ_PASS(*r), 0, listed) == 0 && listed[4] == 0);
    it.state[0] = MZ_NEXT;
    it.state[1] = 0;
    hold("null: mz_has_nil", mz_has_nil(MZ_PASS(*r), NONE, NONE, NONE, NONE, it.state, false, true) == 0 &&
                             it.state[0] == MZ_DONE);
}

int main(void) {
    layout();
    if (wrong > 0) {
        return 1; /* nothing can be lent to such a library */
    }
    names();
    each_answer();
    attributes();
    hashes();
    shortest();
    more_keys();
    pieces();
    refusals();
    scopes();
    wrong_lengths();
    short_memory();
    far_behind();
    empty_and_null();
    while (block_count > 0) {
        free(blocks[--block_count]);
    }
    return wrong > 0;
}
