/*
 * A driver in C with the shortest ring and a slow reader: plays the tape on standard input, and writes what the host sends to standard output.
 * An entry that is blocked waits until the reader has made room, so what is sent is what a roomy ring would send; the driver plays the tape
 * beside one to show it. With a word, `embed purge`, the purge button is pressed when the tape has ended; with another, `embed kept`, the day goes
 * on from a table that was kept before tables had bits.
 */
#include "pilaqsevi.h"

#include <stdio.h>
#include <string.h>

/* The roomy ring, and the most that the reader takes at a time. */
#define ROOMY 4096
#define SLOW 12

/* A host with its memory: 800 records, a ring, and one stock, which trades. */
struct desk {
    uint8_t table[PQ_TABLE_SIZE(PQ_MOST_RECORDS)];
    uint8_t ring[ROOMY];
    uint8_t stocks[PQ_STOCKS_SIZE(1)];
    struct pq_host host;
    size_t place;
};

static struct desk small, roomy;
static size_t blocked, sent;
static int differs;

static void open_desk(struct desk *desk, size_t ring_len)
{
    memcpy(desk->stocks, "ABC     T", sizeof desk->stocks);
    desk->host.table = desk->table;
    desk->host.table_len = sizeof desk->table;
    desk->host.ring = desk->ring;
    desk->host.ring_len = ring_len;
    desk->host.stocks = desk->stocks;
    desk->host.stocks_len = sizeof desk->stocks;
    pq_host_fresh(&desk->host, PQ_HIGHEST_THRESHOLD, (const uint8_t *)"ABCD", PQ_FIRM_SIZE);
}

/*
 * What a driver of the old form kept of a morning: the day is open, and the only order is ABCD's, ORDER1, to buy 500 ABC at 150.0000. The header
 * has the day, firms, used records, last stamp, next reference, threshold and the firm; what neither of the two has is zeros.
 */
static const char kept_header[] = "\1\1\0\0" "\0\0\0\1" "\0\0\37\32\316\331\360\0" "\0\0\0\0\0\0\0\2" "\0\17\102\100" "ABCD";
static const char kept_order[] = "LORDER1        B" "\0\0\1\364\0\0\0\0\0\0\0\0" "ABC     " "\0\26\343\140" "\0\0\0\0" "ABCDYAN"
                                 "\0\0\0\0" "N" "\0\0\0\0\0\0\0\1";

/* Goes on from the old table: it is rebuilt in the desk's, which has the records of it and so the length. */
static uint8_t take_over(struct desk *desk)
{
    static uint8_t old[PQ_OLD_TABLE_SIZE(PQ_MOST_RECORDS)];
    memcpy(old, kept_header, sizeof kept_header - 1);
    memcpy(old + PQ_HEADER_SIZE, kept_order, sizeof kept_order - 1);
    return pq_convert(old, sizeof old, desk->table, sizeof desk->table);
}

/* What a status screen shows. The table has both numbers at hand, so that it may be asked after every entry. */
static void tell_status(void)
{
    size_t live, open;
    if (pq_host_status(&small.host, &live, &open) == PQ_DONE)
        fprintf(stderr, "%zu live, %zu shares open\n", live, open);
}

static uint8_t offer(struct desk *desk, const uint8_t *entry, size_t length)
{
    return pq_host_step(&desk->host, entry, length, &desk->place);
}

/* The reader takes at most k bytes of the unbroken run into `out`, and gives them up. */
static size_t take(struct desk *desk, size_t k, uint8_t *out)
{
    const uint8_t *run;
    size_t length = pq_host_read(&desk->host, &run);
    size_t taken = length < k ? length : k;
    if (taken > 0)
        memcpy(out, run, taken);
    pq_host_release(&desk->host, taken);
    return taken;
}

/* The slow reader takes a piece and sends it on. The roomy ring's reader takes as much, which has to be the same. */
static void read_piece(void)
{
    uint8_t piece[SLOW], roomys[SLOW];
    size_t taken = take(&small, SLOW, piece);
    size_t there = take(&roomy, taken, roomys);
    there += take(&roomy, taken - there, roomys + there); /* the rest, where that ring wraps */
    differs |= there != taken || memcmp(piece, roomys, taken) != 0;
    fwrite(piece, 1, taken, stdout);
    sent += taken;
}

/* Reads the next entry: its kind says how long it is. What is no whole entry is handed on, and the host answers PQ_MALFORMED. */
static size_t next_entry(uint8_t *entry)
{
    int kind = getchar();
    if (kind == EOF)
        return 0;
    entry[0] = (uint8_t)kind;
    size_t length = pq_entry_length(entry[0]);
    return length > 0 ? 1 + fread(entry + 1, 1, length - 1, stdin) : 1;
}

/* Offers an entry, and where it is blocked lets the reader make room and offers it again: it is never lost, and never half sent. */
static uint8_t offer_until_taken(const uint8_t *entry, size_t length)
{
    uint8_t answer;
    while ((answer = offer(&small, entry, length)) == PQ_BLOCKED) {
        size_t held = small.host.held;
        read_piece();
        blocked++;
        fprintf(stderr, "%c answered 9, %zu of %zu held; %zu bytes read and released\n", entry[0], held, small.host.ring_len,
                held - small.host.held);
    }
    fprintf(stderr, "%c answered %d, %zu of %zu held\n", entry[0], answer, small.host.held, small.host.ring_len);
    if (answer == PQ_BAD_FIELD)
        fprintf(stderr, "its first bad byte is at %zu, of %zu\n", small.place, length);
    return answer;
}

/* Offers an entry to both hosts, which have to answer the same. */
static uint8_t play(const uint8_t *entry, size_t length)
{
    uint8_t roomys = offer(&roomy, entry, length);
    uint8_t answer = offer_until_taken(entry, length);
    differs |= answer != roomys || small.place != roomy.place;
    return answer;
}

/*
 * The purge button: a request and the time at which it came become an entry. It cancels one order of the firm, waits as any other where it is
 * blocked, and is offered again until it is ignored: then no order is left that it could cancel.
 */
static void purge(uint64_t now)
{
    static const char request[] = "M\0\0\0\1ABCD              \0\0"; /* reference 1, the firm, no account, all symbols, no appendage */
    uint8_t entry[PQ_LONGEST_ENTRY];
    size_t place;
    if (pq_entry(1, now, (const uint8_t *)request, sizeof request - 1, entry, sizeof entry, &place) == PQ_DONE)
        while (play(entry, pq_entry_length(entry[0])) == PQ_DONE)
            ;
}

/* The stamp of an entry. The last one that was done is this driver's clock, as no stamp may be below it. */
static uint64_t stamp_of(const uint8_t *entry)
{
    uint64_t stamp = 0;
    for (size_t i = 1; i <= 8; i++)
        stamp = stamp << 8 | entry[i];
    return stamp;
}

int main(int words, char **word)
{
    uint8_t entry[PQ_LONGEST_ENTRY], answer = PQ_DONE;
    uint64_t now = 0;
    open_desk(&small, PQ_SHORTEST_RING);
    open_desk(&roomy, ROOMY);
    if (words > 1 && strcmp(word[1], "kept") == 0) {
        fprintf(stderr, "old table answered %d\n", take_over(&small));
        take_over(&roomy);
        tell_status();
    }
    for (size_t length; answer != PQ_MALFORMED && (length = next_entry(entry)) > 0;) {
        answer = play(entry, length);
        now = answer == PQ_DONE ? stamp_of(entry) : now;
    }
    tell_status();
    if (words > 1 && strcmp(word[1], "purge") == 0) {
        purge(now);
        tell_status();
    }
    while (small.host.held > 0)
        read_piece();
    fprintf(stderr, "%zu bytes sent, %zu offers blocked; through a ring of %zu %s\n", sent, blocked, roomy.host.ring_len,
            differs || roomy.host.held > 0 ? "it is something else" : "the stream is the same");
    return differs || roomy.host.held > 0;
}
