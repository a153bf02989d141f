/*
 * The static library's functions. Each is proved: for every input and every content of lent memory it
 * ends with the answer that its definition gives, and writes what that says and nothing else. It keeps
 * no pointer, allocates nothing, and asks nothing of its caller but what is said here:
 *
 * - A slice is a pointer and a length, in elements. The pointer is aligned, and so many elements can be
 *   read there, and written where it is not const. Where the length is 0 nothing is read or written
 *   through the pointer: it may be null.
 * - `head`, `state`, `reader` and `detail` have a fixed number of elements and are pointers alone, which
 *   are not null.
 * - What a call writes lies apart from everything else that it is given.
 *
 * Positions are indexes of bytes, from 0; bounds are a start and the end behind the last byte.
 */
#ifndef MEZZULIDDA_H
#define MEZZULIDDA_H

#include <stdbool.h>
#include <stddef.h>
#include <stdint.h>

#ifdef __cplusplus
extern "C" {
#endif

/* ---- Layout ---- */

/* The numbers that a caller takes for granted about the memory it lends, as the library has them: so a
 * program can find out that it was compiled with another header than the library's. Any other `what`
 * is 0. */
#define MZ_LAYOUT_KEYS 0              /* MZ_KEYS */
#define MZ_LAYOUT_STATE 1             /* MZ_STATE */
#define MZ_LAYOUT_ANSWER 2            /* MZ_ANSWER */
#define MZ_LAYOUT_TEXT 3              /* MZ_TEXT */
#define MZ_LAYOUT_RECORDS 4           /* MZ_RECORDS */
#define MZ_LAYOUT_RECORD 5            /* MZ_RECORD */
#define MZ_LAYOUT_HEAD 6              /* MZ_HEAD */
#define MZ_LAYOUT_DETAIL 7            /* MZ_DETAIL */
#define MZ_LAYOUT_LISTED 8            /* MZ_LISTED */
#define MZ_LAYOUT_NUMBER_SIZE 9       /* sizeof(size_t) */
#define MZ_LAYOUT_NUMBER_ALIGNMENT 10 /* its alignment */
#define MZ_LAYOUT_HASH_SIZE 11        /* sizeof(uint32_t) */
#define MZ_LAYOUT_READER 12           /* MZ_READER */
#define MZ_LAYOUT_HOLD 13             /* MZ_HOLD */
size_t mz_layout(size_t what);

/* ---- Lent memory ---- */

/* Answers of the calls that take memory in proportion to what is in use. */
#define MZ_LEND_MORE 98    /* an array is too short; nothing is changed: lend a longer one, and call again */
#define MZ_WRONG_LENGTH 99 /* what is in use is not lent, or an array is too long; nothing is changed */

/* ---- Names ---- */

/* The index of the first colon, or the length where there is none. */
size_t mz_split(const uint8_t *name, size_t name_len);

/* What an attribute of this name declares: 0 nothing, 1 the default namespace, 2 a prefix, which is the
 * name from index 6 on. */
size_t mz_declares(const uint8_t *name, size_t name_len);

/* Whether a prefix is `xml`, and whether it is `xmlns`. */
bool mz_is_xml(const uint8_t *prefix, size_t prefix_len);
bool mz_is_xmlns(const uint8_t *prefix, size_t prefix_len);

/* Whether Namespaces in XML 1.0 allows the declaration that an attribute makes: 0 no, 1 yes, 2 it
 * declares nothing. mz_add and mz_push accept more, as quick-xml does: a reserved URI as the default, say. */
size_t mz_verdict(const uint8_t *name, size_t name_len, const uint8_t *value, size_t value_len);

/* ---- The attributes of a tag ---- */

/* What a value says: 0 no (`0`, `false`), 1 yes (`1`, `true`), 2 neither. */
size_t mz_as_bool(const uint8_t *value, size_t value_len);

#define MZ_KEYS 1024        /* so many keys of a tag can be recorded: elements of each key table, at most */
#define MZ_STATE 4          /* elements of `state` */
#define MZ_ANSWER 5         /* elements of `out` for each answer */
#define MZ_NONE SIZE_MAX    /* instead of a number of answers: a key table is longer than MZ_KEYS, or the text of
                             * mz_take than MZ_HOLD */

/* The kinds of a place, `state[0]`. */
#define MZ_DONE 0           /* reading has ended */
#define MZ_NEXT 1           /* go on at the position */
#define MZ_SKIP_VALUE 2     /* go on at the first whitespace from the position on */
#define MZ_SKIP_FROM_EQ 3   /* the same, and the position is that of a `=` */

/* Why reading stopped, `state[3]`. */
#define MZ_OUT_FULL 0       /* `out` is full: more may follow */
#define MZ_END 1            /* the tag has no more answers */
#define MZ_MORE_KEYS 2      /* the next key has no place in the key tables: lend longer ones and call again */

/* What an answer is, its first number. The others follow it; those that it doesn't have are 0. */
#define MZ_EXPECTED_EQ 1    /* position */
#define MZ_EXPECTED_VALUE 2 /* the tag's length */
#define MZ_UNQUOTED_VALUE 3 /* position */
#define MZ_EXPECTED_QUOTE 4 /* the tag's length, the quote's byte */
#define MZ_DUPLICATED 5     /* positions of the key and of the earlier one */
#define MZ_KEY_TABLE_FULL 6 /* position of the key, which is new where MZ_KEYS are recorded */
#define MZ_BAD_STATE 7      /* the state is none that reading leaves */
#define MZ_DOUBLE_Q 101     /* bounds of the key, bounds of the value */
#define MZ_SINGLE_Q 102
#define MZ_UNQUOTED 103
#define MZ_EMPTY 104        /* bounds of the key */

/*
 * Reads answers of a tag until `out` has no room for one more, the tag ends, or a key can't be recorded.
 * The number of answers is the result; `state[3]` says which of the three it was.
 *
 * `state` is the kind of the place, its position, the number of recorded keys, and why reading stopped.
 * A tag is opened by { MZ_NEXT, where its attributes begin, 0, 0 }; each call leaves the state for the next
 * one, which doesn't look at state[3].
 *
 * A recorded key is its bounds, `starts[i]` and `ends[i]`, and `hashes[i]`, which is FNV-1a with 32 bits of its
 * bytes. These are the key tables. With checks off no key is recorded, and they may be empty. They may have any
 * length up to MZ_KEYS, and the shortest counts: after MZ_MORE_KEYS the caller copies the recorded keys to longer
 * ones, and the answers go on as if those had been there from the start. Recording a key writes one place of each.
 * Places behind the recorded keys need not be set, and are left alone, but for MZ_BAD_STATE, which sets all three
 * tables to zeros and ends reading. More recorded keys than there are places is such a state, and so is a hash that
 * is not that of its key, with checks on or off.
 *
 * So each call hashes all bytes of the recorded keys: with room for few answers a call, a tag of many keys, or of
 * long ones, takes time by the square of its length. Let the room grow, or have room for the whole tag.
 *
 * What stands in `out` behind the answers is left alone. Where `out` has no room for any answer nothing at
 * all is written; and so it is with MZ_NONE.
 */
size_t mz_read_batch(const uint8_t *tag, size_t tag_len,
                     size_t *starts, size_t starts_len,
                     size_t *ends, size_t ends_len,
                     uint32_t *hashes, size_t hashes_len,
                     size_t *state,
                     bool html, bool checks,
                     size_t *out, size_t out_len);

/* ---- Tags that arrive in pieces ---- */

#define MZ_HOLD 65536       /* bytes of a tag that a reader can hold: elements of `text`, at most */
#define MZ_READER 9         /* elements of `reader` */

/*
 * A reader takes a tag in pieces, as they come, and then a finish. Between them, at any time, it gives the
 * answers that mz_read_batch would give on the whole tag: the same, in the same order, however the tag is cut
 * and whenever they are taken. Each can be taken once the piece is there that holds the last byte which its rule
 * looks at:
 *
 *   MZ_DOUBLE_Q, MZ_SINGLE_Q           the closing quote
 *   MZ_UNQUOTED                        the whitespace behind the value; if none, the finish
 *   MZ_EMPTY, MZ_EXPECTED_EQ           the first byte behind the key that is no whitespace; if none, the finish
 *   MZ_UNQUOTED_VALUE                  the value's first byte
 *   MZ_DUPLICATED, MZ_KEY_TABLE_FULL   the `=` of the key; of a key without one as MZ_EMPTY
 *   MZ_EXPECTED_VALUE, MZ_EXPECTED_QUOTE, and the end that follows the last answer: the finish
 *
 * A reader is the caller's own memory: the bytes that it holds, `text`; the key tables, as mz_read_batch has
 * them; and the numbers of `reader`:
 *
 *   reader[0], reader[1], reader[2]    the kind of the place, its position, the number of recorded keys
 *   reader[3]                          why mz_take stopped
 *   reader[4]                          how many bytes are held: the first ones of `text`
 *   reader[5]                          whether the finish has come: 0 no, any other number yes
 *   reader[6]                          the phase: what the next answer waits for
 *   reader[7], reader[8]               the bounds of its key, as far as the phase knows them, else 0
 *
 * It is opened by { MZ_NEXT, where the tag's attributes begin, 0, 0, 0, 0, 0, 0, 0 }. Positions count from the
 * first byte of the first piece. `text` may have any length up to MZ_HOLD; what stands behind the bytes held
 * need not be set. After MZ_LEND_MORE the caller copies these to a longer array, and calls again. With arrays of
 * full length, and room for ten answers in `out`, a tag is read so:
 *
 *   size_t reader[MZ_READER] = { MZ_NEXT, name_len }, n;
 *   do {
 *       more = next_piece(&piece, &piece_len);
 *       refused = more ? mz_piece(text, MZ_HOLD, reader, piece, piece_len) : mz_finish(reader);
 *       do {
 *           n = mz_take(text, MZ_HOLD, starts, MZ_KEYS, ends, MZ_KEYS, hashes, MZ_KEYS, reader, html, checks,
 *                       out, 10 * MZ_ANSWER);
 *           use(out, n);
 *       } while (n == 10);
 *   } while (more && !refused);
 */

/* The phases: what the next answer waits for. mz_piece carries the phase over its own bytes, and an answer sets
 * it back to MZ_BEGIN; so no byte is looked at anew with each piece. It only saves time: MZ_BEGIN is always
 * right, any number above MZ_IN_UNQUOTED is taken for it, and after the finish no phase is looked at. */
#define MZ_BEGIN 0          /* it is not known yet */
#define MZ_DUE 1            /* the answer can be taken */
#define MZ_IN_SKIP 2        /* whitespace, where reading goes on after a fault */
#define MZ_IN_SPACE 3       /* a key's first byte */
#define MZ_IN_KEY 4         /* the key's end */
#define MZ_AFTER_KEY 5      /* a byte behind the key that is no whitespace */
#define MZ_BEFORE_VALUE 6   /* the value's first byte: there was a `=` */
#define MZ_IN_DOUBLE 7      /* the closing `"` */
#define MZ_IN_SINGLE 8      /* the closing `'` */
#define MZ_IN_UNQUOTED 9    /* the whitespace behind an unquoted value; in XML mode the answer can be taken */

/* Answers of mz_piece and mz_finish, beside 0, MZ_LEND_MORE and MZ_WRONG_LENGTH. All but 0 change nothing. */
#define MZ_PIECE_TOO_LONG 31 /* more than MZ_HOLD bytes would be held */
#define MZ_FINISHED 32       /* the finish has come before */

/*
 * Takes the next piece of the tag, of any length, 0 too. MZ_WRONG_LENGTH where `text` is longer than MZ_HOLD;
 * then MZ_FINISHED; then MZ_PIECE_TOO_LONG; then MZ_LEND_MORE where `text` is shorter than all that would be
 * held. With 0 the piece stands in `text` behind what was held, reader[4] and the phase have moved on, and
 * reader[3] is 0.
 *
 * It costs a copy of the piece and one look at its bytes; the first piece after an answer looks at the bytes
 * that are held behind that answer as well.
 */
size_t mz_piece(uint8_t *text, size_t text_len, size_t *reader, const uint8_t *piece, size_t piece_len);

/* The finish: no piece follows, and what is held is the whole tag. 0 sets reader[5] to 1 and reader[3] to 0; or
 * MZ_FINISHED. */
size_t mz_finish(size_t *reader);

/*
 * Takes the answers that are there, as many as `out` has room for, written as mz_read_batch writes them. The
 * number of answers is the result, and reader[3] says why there are no more:
 *
 *   MZ_OUT_FULL     `out` is full
 *   MZ_END          none is there. After the finish this is the end; before it, more pieces are wanted
 *   MZ_MORE_KEYS    one is there, and its key has no place in the key tables: lend longer ones and call again
 *
 * A call that finds none before the finish writes reader[3] and nothing else. One that finds some leaves the
 * place and the recorded keys for the next call, as mz_read_batch does, and the phase MZ_BEGIN.
 *
 * MZ_BAD_STATE comes first, before the finish and after it: for a place or a recorded key that is none on the
 * bytes held, as in mz_read_batch, and where more bytes are held than `text` has. It leaves, beside what it
 * leaves there, no bytes held and the phase MZ_BEGIN; whether the finish has come stays. A reader that was
 * opened as above, and was changed by these three functions alone, does not have it.
 *
 * A call costs the bytes of all recorded keys, which are hashed, those of a key whose value is awaited, and those
 * that it reads for its answers: so give room for many, and a tag with long keys in short pieces few calls. After a piece the phase tells where a call would find nothing, and need not be made: in
 * MZ_BEGIN, since reading has ended or its position is not reached, and in MZ_IN_SKIP to MZ_AFTER_KEY. From
 * MZ_BEFORE_VALUE to MZ_IN_UNQUOTED one call for each key tells whether that is a duplicate or one too many; if it
 * finds nothing, none is there before MZ_DUE, or in XML mode MZ_IN_UNQUOTED, or the finish. Whoever goes by that
 * makes two calls for an attribute at most, however the tag is cut.
 *
 * Where `out` has no room for any answer nothing at all is written; and so it is with MZ_NONE.
 */
size_t mz_take(const uint8_t *text, size_t text_len,
               size_t *starts, size_t starts_len,
               size_t *ends, size_t ends_len,
               uint32_t *hashes, size_t hashes_len,
               size_t *reader,
               bool html, bool checks,
               size_t *out, size_t out_len);

/* ---- Scopes ---- */

#define MZ_TEXT 65536       /* bytes of text that a resolver can hold: elements of `text`, at most */
#define MZ_RECORDS 1026     /* bindings that it can hold, of which two are built in */
#define MZ_RECORD 4         /* elements of `records` for each: start, prefix length, value length, level */
#define MZ_HEAD 4           /* elements of `head`: text used, bindings, level, limit */
#define MZ_DETAIL 2         /* elements of `detail`, but for the listings */
#define MZ_LISTED 5         /* elements of `detail` in the listings */

/*
 * A resolver is the caller's own memory: its text, its records and its head. Text and records may be as
 * short as what is in use, and no longer than MZ_TEXT and MZ_RECORD * MZ_RECORDS elements: what is not lent
 * counts as unused and zero. A call looks at all that is lent, so that little memory makes it fast.
 *
 * mz_fresh sets all of it up, whatever it held; it needs MZ_FRESH_TEXT and MZ_FRESH_RECORDS elements. A call
 * that has no room for what it would add changes nothing and answers MZ_LEND_MORE: the caller copies text
 * and records to longer arrays that go on with zeros, and calls again, as with realloc. With arrays of full
 * length that doesn't come.
 *
 * The limit, head[3], may be set to any number, and head[0] to head[2] be read; all else is left to the
 * calls. Memory of any other content is answered by MZ_BAD_RESOLVER, and left as it is.
 */
struct mz_resolver {
    uint8_t *text;
    size_t text_len;
    size_t *records;
    size_t records_len;
    size_t head[MZ_HEAD];
};

/* A resolver as the calls take it: the parameters, and what a caller passes for them. */
#define MZ_RESOLVER(array)                                                                            \
    array uint8_t *text, size_t text_len, array size_t *records, size_t records_len, array size_t *head
#define MZ_CHANGED
#define MZ_READ const
#define MZ_PASS(resolver)                                                                             \
    (resolver).text, (resolver).text_len, (resolver).records, (resolver).records_len, (resolver).head

#define MZ_FRESH_TEXT 73
#define MZ_FRESH_RECORDS (2 * MZ_RECORD)

/* 0, MZ_LEND_MORE, MZ_WRONG_LENGTH, or a refusal. `detail` is set to its numbers, and to 0 where it has fewer; the
 * listings also set the place. Where more than one holds, MZ_WRONG_LENGTH comes first, and MZ_LEND_MORE last. */
#define MZ_INVALID_XML_PREFIX_BIND 12   /* bounds of the value */
#define MZ_INVALID_XMLNS_PREFIX_BIND 13 /* bounds of the value */
#define MZ_INVALID_PREFIX_FOR_XML 14    /* bounds of the prefix */
#define MZ_INVALID_PREFIX_FOR_XMLNS 15  /* bounds of the prefix */
#define MZ_TOO_MANY_BINDINGS 16         /* the limit */
#define MZ_TOO_DEEPLY_NESTED 17         /* 65535 */
#define MZ_BINDING_TABLE_FULL 18        /* MZ_RECORDS are in use */
#define MZ_TEXT_FULL 19                 /* MZ_TEXT bytes would not do */
#define MZ_BAD_RESOLVER 20

/* The resolver with no declarations: level 0, limit 128. */
size_t mz_fresh(MZ_RESOLVER(MZ_CHANGED));

/* Binds a prefix, or the default where `named` is false, at the present level. A refusal changes nothing.
 * Bounds are those in the prefix or the value. */
size_t mz_add(MZ_RESOLVER(MZ_CHANGED), bool named,
              const uint8_t *prefix, size_t prefix_len,
              const uint8_t *value, size_t value_len,
              size_t *detail);

/* One level more, with the declarations of a tag whose attributes begin at `at`. Bounds are those in the
 * tag. A declaration that is refused (12 to 16, 18, 19) ends the call: the level stays raised and the
 * bindings before it stay, so that mz_pop undoes the whole push. MZ_TOO_DEEPLY_NESTED, MZ_BAD_RESOLVER and
 * MZ_LEND_MORE change nothing. The first fault of the attributes themselves, as a value without quotes, ends
 * reading with success: what comes behind it declares nothing. */
size_t mz_push(MZ_RESOLVER(MZ_CHANGED), const uint8_t *tag, size_t tag_len, size_t at, size_t *detail);

/* One level less, from 0 to 0. */
size_t mz_pop(MZ_RESOLVER(MZ_CHANGED));

/* Another level; bindings above it are dropped. */
size_t mz_set_level(MZ_RESOLVER(MZ_CHANGED), uint16_t level);

/* The namespace of a name: 0 unbound; 1 bound, with the bounds of the URI in the text; 2 unknown, with
 * the bounds of the prefix in the name. */
size_t mz_resolve(MZ_RESOLVER(MZ_READ), const uint8_t *name, size_t name_len, bool use_default, size_t *detail);

/* The same for many names by one test of the resolver. Name k is tag[from[k]] up to tag[to[k]], and is empty
 * where these are no bounds in the tag; the first `elements` names want the default. kinds[k] is the answer,
 * begins[k] and ends[k] are its bounds, or 0: those of a prefix are in the name and not in the tag. 0 where
 * all names are answered; a refusal, and MZ_WRONG_LENGTH where the five arrays have not all the same length,
 * write nothing. */
size_t mz_resolve_all(MZ_RESOLVER(MZ_READ), const uint8_t *tag, size_t tag_len,
                      const size_t *from, size_t from_len,
                      const size_t *to, size_t to_len, size_t elements,
                      size_t *kinds, size_t kinds_len,
                      size_t *begins, size_t begins_len,
                      size_t *ends, size_t ends_len);

/* The first binding shown from a place on, 0 at first: 0 the end; 1 a default, 2 a named one, with the
 * bounds of prefix and value in the text. detail[4] is the place to go on from: behind the binding that
 * is shown, and the place that was asked at the end and with a refusal, where the four bounds are 0.
 * mz_binding shows those that hold, mz_binding_of those of a level. */
size_t mz_binding(MZ_RESOLVER(MZ_READ), size_t place, size_t *detail);
size_t mz_binding_of(MZ_RESOLVER(MZ_READ), uint16_t level, size_t place, size_t *detail);

/*
 * Whether one of the attributes that are left of a tag is `nil` in the namespace of XML Schema instances,
 * with a yes for its value: 0 no, 1 yes. The tag is lent as to mz_read_batch, and reading goes on behind
 * the attribute that was a yes, or has ended. What is wrong in the tag counts as a no. MZ_BAD_RESOLVER, and
 * MZ_LEND_MORE where a key has no place in the key tables, leave these and the state as they are;
 * MZ_BAD_STATE leaves them as mz_read_batch does. Key tables longer than MZ_KEYS are MZ_WRONG_LENGTH.
 * state[3] is left alone.
 */
size_t mz_has_nil(MZ_RESOLVER(MZ_READ), const uint8_t *tag, size_t tag_len,
                  size_t *key_starts, size_t key_starts_len,
                  size_t *key_ends, size_t key_ends_len,
                  uint32_t *key_hashes, size_t key_hashes_len,
                  size_t *state,
                  bool html, bool checks);

#ifdef __cplusplus
}
#endif

#endif
