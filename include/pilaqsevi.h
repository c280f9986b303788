/*
 * Pilaqsevi: the proved core of a practice order host for OUCH 4.2 clients, for C and C++.
 *
 * All memory is the caller's. A function reads and writes the bytes that it is given while it runs, keeps no pointer, allocates nothing and
 * holds no state of its own. Pointers and lengths must be true, and memory that one call is given to write must not overlap anything else that
 * it is given. Where a length is 0 its pointer is not followed and may be NULL; `at`, `held`, `place`, `live` and `open` are pointers to one
 * number each and may not. Nothing else is asked: every other value is judged and answered.
 *
 * A driver had best keep a struct pq_host, which holds all that is lent, and use the five functions over it (at the end of this file): what a
 * step is lent may grow, and such a driver is not touched by it.
 *
 * Threads: there is no state but what is lent, so calls on different tables, rings and lists may run at once; calls that share a table, a ring
 * with its marks or a list may not, unless none of them writes it. There is no lock inside.
 *
 * Linking: the archive calls memcpy, memmove and memset of the C library and nothing else.
 */
#ifndef PILAQSEVI_H
#define PILAQSEVI_H

#include <stddef.h>
#include <stdint.h>

#ifdef __cplusplus
extern "C" {
#endif

/*
 * What a call answers. Each function names the answers that it can give, in the order in which they are asked for; the first that applies
 * is given. Only PQ_DONE changes anything: after any other answer every byte and mark is what it was.
 */
enum pq_answer {
    PQ_DONE = 0,
    PQ_IGNORED = 1,       /* ignored by the rules; of w: no order is left to cancel */
    PQ_MALFORMED = 2,     /* kind or type unknown, or length not the kind's */
    PQ_BAD_FIELD = 3,     /* a stamp, token, letter, price, account, appendage or setting is bad */
    PQ_TOO_EARLY = 4,     /* stamp below the last stamp */
    PQ_NOT_LIVE = 5,      /* token not live or, of h, symbol not listed */
    PQ_WRONG_SHARES = 6,  /* shares 0 or above open */
    PQ_WRONG_MOMENT = 7,
    PQ_FULL = 8,          /* no record is free, or no reference is left */
    PQ_BLOCKED = 9,       /* the message is longer than what is free in the ring: release, and offer the entry again */
    PQ_NOT_SOUND = 10,    /* table not sound */
    PQ_WRONG_RING = 11,   /* ring length or marks wrong */
    PQ_NOT_HELD = 12,     /* release above the held count */
    PQ_NO_ROOM = 13,      /* buffer too short for the echo's message or for the entry that is made, or not exactly as long as the rebuilt table */
    PQ_WRONG_STOCKS = 14, /* list of stocks of a wrong length, not ascending, or with another state */
    PQ_UNLISTED_FIRM = 15 /* firm of w, d or n not listed */
};

/* Sizes in bytes, and limits. */
#define PQ_HEADER_SIZE 64
#define PQ_RECORD_SIZE 80
#define PQ_FEWEST_RECORDS 1
#define PQ_MOST_RECORDS 800
#define PQ_FIRM_SIZE 4
#define PQ_MOST_FIRMS 8
#define PQ_LOWEST_THRESHOLD 1
#define PQ_HIGHEST_THRESHOLD 1000000
#define PQ_SYMBOL_SIZE 8
#define PQ_STOCK_SIZE 9       /* a symbol and its state */
#define PQ_MOST_STOCKS 2000
#define PQ_SHORTEST_RING 80
#define PQ_LONGEST_RING 65536
#define PQ_LONGEST_ENTRY 56   /* kind and stamp included */
#define PQ_LONGEST_MESSAGE 80 /* as long as the shortest ring, so a ring that holds nothing has room for any message */

/* The bytes of a table with so many records: a header, the records, and a bit for each; of one in the old form; of a list with so many stocks. */
#define PQ_TABLE_SIZE(records) (PQ_HEADER_SIZE + PQ_RECORD_SIZE * (records) + ((records) + 7) / 8)
#define PQ_OLD_TABLE_SIZE(records) (PQ_HEADER_SIZE + PQ_RECORD_SIZE * (records))
#define PQ_STOCKS_SIZE(stocks) (PQ_STOCK_SIZE * (stocks))

/*
 * What a table keeps so that nobody has to count: bytes 60 to 63 of its header are the open shares of all live orders, added up, the highest byte
 * first, and behind its records stand bits, one for each, the lowest bit of the first byte for the first record. A bit is set exactly while its
 * record is used and its order is live, and the spare bits of the last byte are zero. Every call keeps this so, and a table in which it is not so is
 * not sound. Byte 2, the form, is 1. The old form had zeros there and in bytes 60 to 63, and no bits: such a table is not sound either, and
 * pq_convert rebuilds it.
 */

/*
 * Makes the bytes at `table` a fresh table: day not begun, no record used, no firm blocked, next reference 1, form 1, these settings, zeros
 * elsewhere. Its length is PQ_TABLE_SIZE of 1 to 800 records. The firms are 1 to 8 codes, one after the other, each 1 to 4 capitals and then
 * spaces; the first is the default. firms_len counts bytes.
 * Answers PQ_NOT_SOUND for a bad table_len; PQ_BAD_FIELD for bad settings, a firms_len that is no row of codes among them; PQ_DONE.
 */
uint8_t pq_fresh(uint8_t *table, size_t table_len, uint32_t threshold, const uint8_t *firms, size_t firms_len);

/*
 * Rebuilds a table of the old form, which was kept from before, in a second buffer. old_len is PQ_OLD_TABLE_SIZE of 1 to 800 records, and table_len
 * PQ_TABLE_SIZE of as many. What is written there is the old header with form 1 and the sum in bytes 60 to 63, the old records, unused ones as they
 * are, and the bits. The old table stays as it is, and the two may not overlap.
 * Answers PQ_NOT_SOUND where the old table is not sound in its old form, so for every table of form 1; PQ_NO_ROOM for any other table_len; PQ_DONE.
 */
uint8_t pq_convert(const uint8_t *old_table, size_t old_len, uint8_t *table, size_t table_len);

/*
 * Takes one entry: judges table, ring, marks, list and entry, decides, and where the answer is PQ_DONE writes the table and puts the entry's
 * message, if it has one, right behind the held bytes of the ring, which may wrap at its end; *held grows by the message's length and *at stays.
 * The ring has 80 to 65,536 bytes, *at is below its length and *held at most its length. No other byte of table and ring changes.
 * The list has 0 to 2,000 places of nine bytes: a symbol of eight and its state, T (trading) or H (halted), the symbols strictly ascending as
 * unsigned bytes. stocks_len counts bytes. Symbols are not judged otherwise. An entry h that is done sets one byte, its symbol's state; no other
 * entry changes the list.
 * An entry w cancels one order, with reason U: the first in the table that is live and not late, of its firm and, unless its symbol is eight
 * spaces, of its symbol. The next one goes with the next w, which may be the same bytes again, until PQ_IGNORED says that none is left. An entry d
 * blocks a firm, so that its new orders are Rejected with letter a, and n lets it in again; both send nothing. None of the three asks for an open
 * day. Byte 3 of the table has the blocked firms' bits, the lowest for the first firm; a firm that is listed twice has its first place's.
 * Answers PQ_NOT_SOUND, PQ_WRONG_RING, PQ_WRONG_STOCKS, PQ_MALFORMED, PQ_BAD_FIELD, PQ_TOO_EARLY, PQ_UNLISTED_FIRM, PQ_IGNORED, PQ_NOT_LIVE,
 * PQ_WRONG_MOMENT, PQ_WRONG_SHARES, PQ_FULL, PQ_BLOCKED or PQ_DONE. An entry that was answered PQ_BLOCKED may be offered again once bytes were
 * released, and comes to the same.
 * *place is written by every call: with PQ_BAD_FIELD it is the offset of the entry's first bad byte, its kind counted as 0, that is the first byte
 * of the bad field or, in a token, the first character that no token has; with every other answer it is 0, where no field lies.
 */
uint8_t pq_step(uint8_t *table, size_t table_len, uint8_t *ring, size_t ring_len, size_t *at, size_t *held, uint8_t *stocks, size_t stocks_len, const uint8_t *entry, size_t entry_len, size_t *place);

/*
 * Tells how many orders are live, and how many shares of them are open in all: *live is the number of ones in the table's bits, and *open what its
 * bytes 60 to 63 hold. No record is looked at, so a status screen may ask as often as it likes. Over a table that is sound, as every call leaves
 * it, these are the numbers that counting its orders would give; whether it is sound is not judged.
 * Answers PQ_NOT_SOUND where table_len or byte 2 is no table's; PQ_DONE. Both numbers are written by every call, with PQ_NOT_SOUND as 0.
 */
uint8_t pq_status(const uint8_t *table, size_t table_len, size_t *live, size_t *open);

/*
 * The length of the longest unbroken run of held bytes, which starts at ring + at. 0 where nothing is held, and where the ring's length or
 * the marks are wrong. Nothing is changed: what was read stays held until it is released.
 */
size_t pq_read(const uint8_t *ring, size_t ring_len, size_t at, size_t held);

/*
 * Gives up the oldest k held bytes: *at moves on by k around the ring, and *held is lowered by k. No byte of the ring moves.
 * Answers PQ_WRONG_RING for a wrong ring_len or wrong marks; PQ_NOT_HELD where k is above *held; PQ_DONE. A release of 0 bytes is done.
 */
uint8_t pq_release(size_t ring_len, size_t *at, size_t *held, size_t k);

/*
 * Reads the message, as one of a client's where `inbound` is not 0 and otherwise as one of the host's, and writes it to the front of `out`.
 * Where the answer is PQ_DONE the first `len` bytes of `out` are the message's and the others are what they were.
 * Answers PQ_MALFORMED for an unknown type or a length that is not the type's; PQ_BAD_FIELD for a bad stamp, token, side or sweep; PQ_NO_ROOM
 * where out_len is too short; PQ_DONE. *place is written by every call: with PQ_BAD_FIELD it is the offset of the message's first bad byte, its
 * type counted as 0, and with every other answer it is 0.
 */
uint8_t pq_echo(uint8_t inbound, const uint8_t *message, size_t len, uint8_t *out, size_t out_len, size_t *place);

/*
 * Makes an entry of the tape from a message and its time: from one of the purge port's requests where `purge` is not 0, and otherwise from one of
 * a client's four messages. A Mass Cancel Request (M, 25 bytes) becomes w, a Disable Order Entry Request (D, 15) becomes d and an Enable Order
 * Entry Request (E, 15) becomes n; a client's O, U, X and M become the entries of these kinds. The stamp is written as it is given: pq_step judges
 * it, and whether the firm is listed.
 * Where the answer is PQ_DONE the first bytes of `entry` are the entry's, as many as pq_entry_length has for entry[0], and the others are what
 * they were. PQ_LONGEST_ENTRY bytes have room for each.
 * Answers PQ_MALFORMED for an unknown type or a length that is not the type's; PQ_BAD_FIELD for a client's bad token, side or sweep, and for a
 * request's account that isn't six spaces or appendage length that isn't 0, since neither is served; PQ_NO_ROOM where entry_len is too short;
 * PQ_DONE. *place is written by every call: with PQ_BAD_FIELD it is the offset of the message's first bad byte, its type counted as 0, that is the
 * first byte of the bad field (9 of an account, 23 of an appendage length) or, in a token, the first character that no token has; with every other
 * answer it is 0.
 */
uint8_t pq_entry(uint8_t purge, uint64_t stamp, const uint8_t *message, size_t len, uint8_t *entry, size_t entry_len, size_t *place);

/*
 * The length of an entry of this kind, the byte of kind and the stamp included; 0 where there is no such kind. A driver that cuts a tape
 * into entries hands what has no kind to pq_step as it is, one byte, and gets PQ_MALFORMED.
 */
size_t pq_entry_length(uint8_t kind);

/*
 * The length of the message of this type, its type included, among a client's four where `inbound` is not 0 and otherwise among the host's
 * twelve; 0 where there is no such type. It cuts what is read from the ring into messages.
 */
size_t pq_message_length(uint8_t inbound, uint8_t type);

/*
 * A host: all that a step is lent, and the ring's marks. Begin with zeros and set the fields by their names, so that what is not set is nothing:
 * no stock is listed, and nothing is held. The memory stays the caller's and has to last as long as the host is used.
 */
struct pq_host {
    uint8_t *table;
    size_t table_len;
    uint8_t *ring;
    size_t ring_len;
    uint8_t *stocks;
    size_t stocks_len;
    size_t at, held;
};

/* pq_fresh of the host's table. Ring, marks and list stay as they are, so that nothing which is held is forgotten. */
static inline uint8_t pq_host_fresh(struct pq_host *host, uint32_t threshold, const uint8_t *firms, size_t firms_len)
{
    return pq_fresh(host->table, host->table_len, threshold, firms, firms_len);
}

/* pq_step of one entry. */
static inline uint8_t pq_host_step(struct pq_host *host, const uint8_t *entry, size_t entry_len, size_t *place)
{
    return pq_step(host->table, host->table_len, host->ring, host->ring_len, &host->at, &host->held, host->stocks, host->stocks_len, entry,
                   entry_len, place);
}

/* pq_status of the host's table. */
static inline uint8_t pq_host_status(const struct pq_host *host, size_t *live, size_t *open)
{
    return pq_status(host->table, host->table_len, live, open);
}

/* pq_read: the length of the longest unbroken run of held bytes, and in *run where it starts; NULL where there is none. */
static inline size_t pq_host_read(const struct pq_host *host, const uint8_t **run)
{
    size_t length = pq_read(host->ring, host->ring_len, host->at, host->held);
    *run = length > 0 ? host->ring + host->at : NULL;
    return length;
}

/* pq_release of the oldest k held bytes. */
static inline uint8_t pq_host_release(struct pq_host *host, size_t k)
{
    return pq_release(host->ring_len, &host->at, &host->held, k);
}

#ifdef __cplusplus
}
#endif

#endif
