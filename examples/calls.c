/* Every function of the C door called, done and refused, beside the number that it should answer. Ends with 1 if one answers another. */
#include "pilaqsevi.h"

#include <stdio.h>
#include <string.h>

#define BYTES(text) (const uint8_t *)(text), sizeof(text) - 1

static const char start[] = "s\0\0\0\0\0\0\0\1S";
static const char enter[] = "O\0\0\0\0\0\0\0\2TOKEN1        B\0\0\1\364ABC     \0\0\47\20\0\1\206\237    YAN\0\0\0\0N";
static const char cancel[] = "X\0\0\0\0\0\0\0\3TOKEN1        \0\0\0\0";
static const char message[] = "XTOKEN1        \0\0\0\0";

static const char halt[] = "h\0\0\0\0\0\0\0\3ABC     H";

/* What the purge port takes: a reference, a firm, no account, and in a Mass Cancel a symbol, or spaces for all, and no appendage. */
static const char mass_cancel[] = "M\0\0\0\1ABCD              \0\0";
static const char disable[] = "D\0\0\0\2ABCD      ";
static const char enable[] = "E\0\0\0\3ABCD      ";

static uint8_t table[PQ_TABLE_SIZE(4)], ring[PQ_SHORTEST_RING], out[PQ_LONGEST_MESSAGE], made[PQ_LONGEST_ENTRY];
static uint8_t old[PQ_OLD_TABLE_SIZE(4)], rebuilt[PQ_TABLE_SIZE(4)];
static uint8_t stocks[] = {'A', 'B', 'C', ' ', ' ', ' ', ' ', ' ', 'T'};
static struct pq_host host;
static size_t place;
static int calls, wrong;

static void is(const char *what, size_t should, size_t did)
{
    calls++;
    wrong += should != did;
    printf("%s: should %zu, did %zu\n", what, should, did);
}

/* What the host is lent; its marks are zeros. */
static void lend(void)
{
    host.table = table;
    host.table_len = sizeof table;
    host.ring = ring;
    host.ring_len = sizeof ring;
    host.stocks = stocks;
    host.stocks_len = sizeof stocks;
}

static uint8_t step(const uint8_t *entry, size_t length)
{
    return pq_host_step(&host, entry, length, &place);
}

static void freshes(void)
{
    is("fresh of 144 bytes, as one record took in the old form, threshold 0", PQ_NOT_SOUND, pq_fresh(table, 144, 0, BYTES("ABCD")));
    is("fresh, threshold 0", PQ_BAD_FIELD, pq_fresh(table, sizeof table, 0, BYTES("ABCD")));
    is("fresh, firms of 5 bytes", PQ_BAD_FIELD, pq_fresh(table, sizeof table, PQ_HIGHEST_THRESHOLD, BYTES("ABCDE")));
    is("fresh, nine firms", PQ_BAD_FIELD, pq_fresh(table, sizeof table, PQ_HIGHEST_THRESHOLD, BYTES("A   B   C   D   E   F   G   H   I   ")));
    is("fresh", PQ_DONE, pq_host_fresh(&host, PQ_HIGHEST_THRESHOLD, BYTES("ABCD")));
    is("its form", 1, table[2]);
}

static void steps(void)
{
    is("step of nothing", PQ_MALFORMED, step(BYTES("")));
    is("start of the day", PQ_DONE, step(BYTES(start)));
    is("held after it", 10, host.held);
    is("start again", PQ_WRONG_MOMENT, step(BYTES(start)));
    is("enter, 70 free", PQ_DONE, step(BYTES(enter)));
    is("held after it", 76, host.held);
    is("cancel, 4 free", PQ_BLOCKED, step(BYTES(cancel)));
    is("held after it", 76, host.held);
}

/* An answer 3 tells the first bad byte: of a field its first one, of a token the character. No other answer tells one. */
static void places(void)
{
    is("a token with a full stop", PQ_BAD_FIELD, step(BYTES("X\0\0\0\0\0\0\0\3TOKEN.        \0\0\0\0")));
    is("its place", 14, place);
    is("a stamp of the next day, and that token", PQ_BAD_FIELD, step(BYTES("X\1\0\0\0\0\0\0\3TOKEN.        \0\0\0\0")));
    is("its place", 1, place);
    is("a system event that there is not", PQ_BAD_FIELD, step(BYTES("s\0\0\0\0\0\0\0\3T")));
    is("its place", 9, place);
    is("a kind that there is not", PQ_MALFORMED, step(BYTES("?")));
    is("its place", 0, place);
}

static void releases(void)
{
    const uint8_t *run;
    is("read", 76, pq_host_read(&host, &run));
    is("type of the first", 'S', run[0]);
    is("release of 77", PQ_NOT_HELD, pq_host_release(&host, 77));
    is("release of 10", PQ_DONE, pq_host_release(&host, 10));
    is("type of the next", 'A', ring[host.at]);
    is("release of 66", PQ_DONE, pq_host_release(&host, 66));
    is("read of nothing", 0, pq_host_read(&host, &run));
    is("a run of nothing", 1, run == NULL);
    is("cancel again, at 76 of 80", PQ_DONE, step(BYTES(cancel)));
    is("read up to the ring's end", 4, pq_host_read(&host, &run));
    is("release of it", PQ_DONE, pq_host_release(&host, 4));
    is("read of the rest", 24, pq_host_read(&host, &run));
    is("place around the ring", 0, host.at);
}

/* A stock that nobody may trade: one byte of the list, and the letters of O. */
static void halts(void)
{
    is("release of all", PQ_DONE, pq_host_release(&host, host.held));
    is("ABC halted", PQ_DONE, step(BYTES(halt)));
    is("its state", 'H', stocks[PQ_SYMBOL_SIZE]);
    is("nothing sent", 0, host.held);
    is("a symbol that isn't listed", PQ_NOT_LIVE, step(BYTES("h\0\0\0\0\0\0\0\3XYZ     H")));
    is("another state", PQ_BAD_FIELD, step(BYTES("h\0\0\0\0\0\0\0\3ABC     X")));
    is("its place", 17, place);
    is("ABC trades again", PQ_DONE, step(BYTES("h\0\0\0\0\0\0\0\3ABC     T")));
    is("its state", 'T', stocks[PQ_SYMBOL_SIZE]);
    stocks[PQ_SYMBOL_SIZE] = 't';
    is("a list with another state", PQ_WRONG_STOCKS, step(BYTES(start)));
    stocks[PQ_SYMBOL_SIZE] = 'T';
    host.stocks_len--;
    is("a list that is a byte short", PQ_WRONG_STOCKS, step(BYTES(start)));
    host.stocks_len++;
}

/* A client's message or the purge port's becomes an entry, or is answered why not. */
static void entries(void)
{
    memset(made, '?', sizeof made);
    is("entry of a Mass Cancel", PQ_DONE, pq_entry(1, 4, BYTES(mass_cancel), made, sizeof made, &place));
    is("its bytes differ", 0, memcmp(made, "w\0\0\0\0\0\0\0\4ABCD        ?", 22) != 0);
    is("its length", 21, pq_entry_length(made[0]));
    is("entry of it into 20 bytes", PQ_NO_ROOM, pq_entry(1, 4, BYTES(mass_cancel), made, 20, &place));
    is("its place", 0, place);
    is("an account, into 20 bytes", PQ_BAD_FIELD, pq_entry(1, 4, BYTES("M\0\0\0\1ABCD   1          \0\0"), made, 20, &place));
    is("its place", 9, place);
    is("an appendage", PQ_BAD_FIELD, pq_entry(1, 4, BYTES("M\0\0\0\1ABCD              \0\1"), made, sizeof made, &place));
    is("its place", 23, place);
    is("both", PQ_BAD_FIELD, pq_entry(1, 4, BYTES("M\0\0\0\1ABCD     1        \1\0"), made, sizeof made, &place));
    is("their place", 9, place);
    is("a Mass Cancel without its appendage length", PQ_MALFORMED, pq_entry(1, 4, (const uint8_t *)mass_cancel, 23, made, sizeof made, &place));
    is("entry of a Disable", PQ_DONE, pq_entry(1, 4, BYTES(disable), made, sizeof made, &place));
    is("its bytes differ", 0, memcmp(made, "d\0\0\0\0\0\0\0\4ABCD", 13) != 0);
    is("entry of an Enable", PQ_DONE, pq_entry(255, 4, BYTES(enable), made, sizeof made, &place));
    is("its bytes differ", 0, memcmp(made, "n\0\0\0\0\0\0\0\4ABCD", 13) != 0);
    is("a Disable as a client's", PQ_MALFORMED, pq_entry(0, 4, BYTES(disable), made, sizeof made, &place));
    is("entry of a client's Cancel", PQ_DONE, pq_entry(0, 3, BYTES(message), made, sizeof made, &place));
    is("its bytes differ", 0, memcmp(made, cancel, sizeof cancel - 1) != 0);
    is("a client's as the purge port's", PQ_MALFORMED, pq_entry(1, 3, BYTES(message), made, sizeof made, &place));
    is("one with a bad token", PQ_BAD_FIELD, pq_entry(0, 3, BYTES("XTOKEN!        \0\0\0\0"), made, sizeof made, &place));
    is("its place", 6, place);
    is("a stamp of the next day", PQ_DONE, pq_entry(0, UINT64_MAX, BYTES(message), made, sizeof made, &place));
    is("step of it", PQ_BAD_FIELD, step(made, pq_entry_length(made[0])));
    is("its place", 1, place);
}

/* Makes an entry of a message and offers it, after what is held has gone out. */
static uint8_t offer(uint8_t purge, const uint8_t *bytes, size_t length)
{
    pq_host_release(&host, host.held);
    uint8_t answer = pq_entry(purge, 4, bytes, length, made, sizeof made, &place);
    return answer == PQ_DONE ? step(made, pq_entry_length(made[0])) : answer;
}

/* A client's order: the one that `enter` has, with another number at the end of its token. */
static uint8_t order(char number)
{
    uint8_t bytes[48];
    bytes[0] = 'O';
    memcpy(bytes + 1, enter + 9, sizeof bytes - 1);
    bytes[6] = (uint8_t)number;
    return offer(0, bytes, sizeof bytes);
}

/* Of the message that is held the first byte, and the last, which in a Canceled and a Rejected is the reason. */
static uint8_t type_sent(void)
{
    return ring[host.at];
}

static uint8_t reason_sent(void)
{
    return ring[(host.at + host.held - 1) % sizeof ring];
}

/* The purge button: a firm's orders go, one with each entry, and its new ones are kept out until it is let in again. */
static void purges(void)
{
    is("fresh, two firms", PQ_DONE, pq_host_fresh(&host, PQ_HIGHEST_THRESHOLD, BYTES("WXYZABCD")));
    is("purge with no order, before the day", PQ_IGNORED, offer(1, BYTES(mass_cancel)));
    is("purge of a firm that isn't listed", PQ_UNLISTED_FIRM, offer(1, BYTES("M\0\0\0\1NONE              \0\0")));
    is("purge of no firm, which isn't the default's", PQ_UNLISTED_FIRM, offer(1, BYTES("M\0\0\0\1                  \0\0")));
    is("block of a firm that isn't listed", PQ_UNLISTED_FIRM, offer(1, BYTES("D\0\0\0\2NONE      ")));
    is("start of the day", PQ_DONE, step(BYTES(start)));
    is("first order", PQ_DONE, order('1'));
    is("second order", PQ_DONE, order('2'));
    is("third order", PQ_DONE, order('3'));
    is("purge of the other firm", PQ_IGNORED, offer(1, BYTES(mass_cancel)));
    is("purge in another symbol", PQ_IGNORED, offer(1, BYTES("M\0\0\0\1WXYZ      XYZ     \0\0")));
    is("purge in all symbols", PQ_DONE, offer(1, BYTES("M\0\0\0\1WXYZ              \0\0")));
    is("type of what is sent", 'C', type_sent());
    is("its reason", 'U', reason_sent());
    is("the same entry again", PQ_DONE, step(made, pq_entry_length(made[0])));
    is("held after it", 56, host.held);
    is("purge in the orders' symbol", PQ_DONE, offer(1, BYTES("M\0\0\0\1WXYZ      ABC     \0\0")));
    is("the same entry again, none left", PQ_IGNORED, step(made, pq_entry_length(made[0])));
    is("second firm blocked", PQ_DONE, offer(1, BYTES(disable)));
    is("nothing sent", 0, host.held);
    is("blocked firms", 2, table[3]);
    is("first firm blocked", PQ_DONE, offer(1, BYTES("D\0\0\0\2WXYZ      ")));
    is("blocked firms", 3, table[3]);
    is("order of a blocked firm", PQ_DONE, order('4'));
    is("type of what is sent", 'J', type_sent());
    is("its reason", 'a', reason_sent());
    is("second firm let in again", PQ_DONE, offer(1, BYTES(enable)));
    is("blocked firms", 1, table[3]);
    table[3] = 4;
    is("a bit past the firms", PQ_NOT_SOUND, offer(1, BYTES(enable)));
    table[3] = 0;
}

/* Whether the host's status has these numbers, and the table the bits. */
static void counts(const char *when, size_t live_should, size_t open_should, uint8_t bits_should)
{
    size_t live = SIZE_MAX, open = SIZE_MAX;
    printf("%s:\n", when);
    is("status", PQ_DONE, pq_host_status(&host, &live, &open));
    is("live orders", live_should, live);
    is("open shares", open_should, open);
    is("bits", bits_should, table[PQ_OLD_TABLE_SIZE(4)]);
}

/* The status screen: what is counted goes with every entry. */
static void statuses(void)
{
    size_t live = SIZE_MAX, open = SIZE_MAX;
    is("fresh", PQ_DONE, pq_host_fresh(&host, PQ_HIGHEST_THRESHOLD, BYTES("ABCD")));
    counts("a fresh table", 0, 0, 0);
    is("start of the day", PQ_DONE, step(BYTES(start)));
    is("first order", PQ_DONE, order('1'));
    is("second order", PQ_DONE, order('2'));
    is("third order", PQ_DONE, order('3'));
    counts("three orders of 500", 3, 1500, 7);
    is("second order cancelled to 100", PQ_DONE, offer(0, BYTES("XTOKEN2        \0\0\0\144")));
    counts("one of them of 100", 3, 1100, 7);
    is("second order cancelled", PQ_DONE, offer(0, BYTES("XTOKEN2        \0\0\0\0")));
    counts("the second dead", 2, 1000, 5);
    is("purge of the first", PQ_DONE, offer(1, BYTES(mass_cancel)));
    counts("the third left", 1, 500, 4);
    is("status a byte short", PQ_NOT_SOUND, pq_status(table, sizeof table - 1, &live, &open));
    is("live orders", 0, live);
    is("open shares", 0, open);
}

/* A table that doesn't count right is not sound, and a status believes it. */
static void miscounts(void)
{
    size_t live = SIZE_MAX, open = SIZE_MAX;
    uint8_t *bits = table + PQ_OLD_TABLE_SIZE(4);
    *bits ^= 1;
    is("a dead order's bit", PQ_NOT_SOUND, step(BYTES(cancel)));
    counts("as the bits have it", 2, 500, 5);
    *bits ^= 1 | 16;
    is("a spare bit", PQ_NOT_SOUND, step(BYTES(cancel)));
    *bits ^= 16;
    table[63]++;
    is("a share too many", PQ_NOT_SOUND, step(BYTES(cancel)));
    counts("as the sum has it", 1, 501, 4);
    table[63]--;
    table[2] = 0;
    is("the old form", PQ_NOT_SOUND, step(BYTES(cancel)));
    is("its status", PQ_NOT_SOUND, pq_host_status(&host, &live, &open));
    is("live orders", 0, live);
    is("open shares", 0, open);
    table[2] = 1;
    is("as it was", PQ_IGNORED, offer(0, BYTES("XTOKEN1        \0\0\0\0")));
}

/* An old table is the present one without bits, sum and form. */
static void conversions(void)
{
    memcpy(old, table, sizeof old);
    old[2] = 0;
    memset(old + 60, 0, 4);
    memset(rebuilt, '?', sizeof rebuilt);
    is("step on an old table", PQ_NOT_SOUND, pq_step(old, sizeof old, ring, sizeof ring, &host.at, &host.held, stocks, sizeof stocks, BYTES(cancel), &place));
    is("conversion into a byte less", PQ_NO_ROOM, pq_convert(old, sizeof old, rebuilt, sizeof rebuilt - 1));
    is("conversion of three records into the bytes of four", PQ_NO_ROOM, pq_convert(old, PQ_OLD_TABLE_SIZE(3), rebuilt, sizeof rebuilt));
    is("conversion of a table of form 1", PQ_NOT_SOUND, pq_convert(table, sizeof table, rebuilt, sizeof rebuilt));
    is("conversion of a byte too few", PQ_NOT_SOUND, pq_convert(old, sizeof old - 1, rebuilt, sizeof rebuilt));
    old[63] = 1;
    is("an old table with a sum, into a byte less", PQ_NOT_SOUND, pq_convert(old, sizeof old, rebuilt, sizeof rebuilt - 1));
    old[63] = 0;
    is("what all these wrote to", '?', rebuilt[0]);
    is("conversion", PQ_DONE, pq_convert(old, sizeof old, rebuilt, sizeof rebuilt));
    is("its bytes differ", 0, memcmp(rebuilt, table, sizeof table) != 0);
    is("the old form", 0, old[2]);
}

static void wrongs(void)
{
    size_t past = sizeof ring, none = 0;
    is("step with a place past the ring", PQ_WRONG_RING, pq_step(table, sizeof table, ring, sizeof ring, &past, &none, stocks, sizeof stocks, BYTES(cancel), &place));
    is("read with it", 0, pq_read(ring, sizeof ring, past, 1));
    is("release of 1 with it", PQ_WRONG_RING, pq_release(sizeof ring, &past, &none, 1));
    table[0] = 3;
    is("step on a damaged table", PQ_NOT_SOUND, step(BYTES(cancel)));
}

static void echoes(void)
{
    is("echo", PQ_DONE, pq_echo(1, BYTES(message), out, sizeof out, &place));
    is("echoed bytes differ", 0, memcmp(out, message, sizeof message - 1) != 0);
    is("echo as the host's", PQ_MALFORMED, pq_echo(0, BYTES(message), out, sizeof out, &place));
    is("echo with a bad token into 18 bytes", PQ_BAD_FIELD, pq_echo(1, BYTES("XTOKEN!        \0\0\0\0"), out, 18, &place));
    is("its place", 6, place);
    is("echo into 18 bytes", PQ_NO_ROOM, pq_echo(1, BYTES(message), out, 18, &place));
    is("its place", 0, place);
}

/* Where a length is 0 there need be no memory. */
static void nothings(void)
{
    size_t zero = 0, none = 0;
    is("fresh of no table", PQ_NOT_SOUND, pq_fresh(NULL, 0, 1, BYTES("A   ")));
    is("fresh without firms", PQ_BAD_FIELD, pq_fresh(table, sizeof table, 1, NULL, 0));
    is("fresh", PQ_DONE, pq_fresh(table, sizeof table, 1, BYTES("A   ")));
    is("step on no table", PQ_NOT_SOUND, pq_step(NULL, 0, ring, sizeof ring, &zero, &none, stocks, sizeof stocks, BYTES(start), &place));
    is("step without a ring", PQ_WRONG_RING, pq_step(table, sizeof table, NULL, 0, &zero, &none, stocks, sizeof stocks, BYTES(start), &place));
    is("step of no entry", PQ_MALFORMED, pq_step(table, sizeof table, ring, sizeof ring, &zero, &none, stocks, sizeof stocks, NULL, 0, &place));
    is("step with no list", PQ_DONE, pq_step(table, sizeof table, ring, sizeof ring, &zero, &none, NULL, 0, BYTES(start), &place));
    is("read of no ring", 0, pq_read(NULL, 0, 0, 0));
    is("echo of no message", PQ_MALFORMED, pq_echo(1, NULL, 0, out, sizeof out, &place));
    is("echo into no buffer", PQ_NO_ROOM, pq_echo(1, BYTES(message), NULL, 0, &place));
    is("entry of no message", PQ_MALFORMED, pq_entry(1, 4, NULL, 0, made, sizeof made, &place));
    is("entry into no buffer", PQ_NO_ROOM, pq_entry(1, 4, BYTES(disable), NULL, 0, &place));
    is("conversion of no table", PQ_NOT_SOUND, pq_convert(NULL, 0, rebuilt, sizeof rebuilt));
    is("conversion into no table", PQ_NO_ROOM, pq_convert(old, sizeof old, NULL, 0));
    is("status of no table", PQ_NOT_SOUND, pq_status(NULL, 0, &zero, &none));
}

/* The lengths of all kinds and types, and that there are no others. */
static void lengths(void)
{
    static const char kinds[] = "OUXMecqplfshwdn", client[] = "OUXM", host[] = "SAUCDEBJPITM";
    static const size_t entries[] = {56, 55, 27, 28, 40, 28, 36, 27, 23, 23, 10, 18, 21, 13, 13};
    static const size_t clients[] = {48, 47, 19, 20}, hosts[] = {10, 66, 80, 28, 37, 40, 32, 24, 23, 23, 36, 28};
    size_t others = 0, longest_entry = 0, longest_message = 0;
    for (int letter = 0; letter < 256; letter++) {
        const char *kind = letter ? strchr(kinds, letter) : NULL;
        const char *in = letter ? strchr(client, letter) : NULL, *sent = letter ? strchr(host, letter) : NULL;
        size_t entry = pq_entry_length((uint8_t)letter), message_sent = pq_message_length(0, (uint8_t)letter);
        others += entry != (kind ? entries[kind - kinds] : 0);
        others += pq_message_length(1, (uint8_t)letter) != (in ? clients[in - client] : 0);
        others += pq_message_length(255, (uint8_t)letter) != (in ? clients[in - client] : 0);
        others += message_sent != (sent ? hosts[sent - host] : 0);
        longest_entry = entry > longest_entry ? entry : longest_entry;
        longest_message = message_sent > longest_message ? message_sent : longest_message;
    }
    is("lengths of 256 kinds and types that are others", 0, others);
    is("the longest entry", PQ_LONGEST_ENTRY, longest_entry);
    is("the longest message", PQ_LONGEST_MESSAGE, longest_message);
}

int main(void)
{
    lend();
    freshes();
    steps();
    places();
    releases();
    halts();
    entries();
    purges();
    statuses();
    miscounts();
    conversions();
    wrongs();
    echoes();
    nothings();
    lengths();
    printf("%d of %d answered as they should\n", calls - wrong, calls);
    return wrong > 0;
}
