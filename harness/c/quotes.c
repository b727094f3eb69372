/* Quotes counted, looked up and filled into a case from C, under the header's names. It prints how many were before the trade and
 * how many were examined. It ends with 1 where an answer is another, and says which; with 2 where the text cannot be written. */

#include <inttypes.h>
#include <stdio.h>
#include <string.h>

#include "desk.h"
#include "numbers.h"

#define QUOTES 4
#define AROUND 16 /* bytes before and after the lent case */

static void put_quote(uint8_t *record, uint32_t exchange, uint32_t time, uint32_t bid, uint32_t bid_size, uint32_t offer,
                      uint32_t offer_size)
{
    put_u16(record + DESK_AT_LENGTH, DESK_QUOTE_BYTES);
    put_u16(record + DESK_AT_KIND, DESK_KIND_QUOTE);
    put_u32(record + DESK_QUOTE_AT_EXCHANGE, exchange);
    put_u32(record + DESK_QUOTE_AT_TIME, time);
    put_u32(record + DESK_QUOTE_AT_BID, bid);
    put_u32(record + DESK_QUOTE_AT_OFFER, offer);
    put_u32(record + DESK_QUOTE_AT_BID_SIZE, bid_size);
    put_u32(record + DESK_QUOTE_AT_OFFER_SIZE, offer_size);
}

/* Exchange 1 withdraws its offer before the trade at 34,200; exchange 16 joins its bid; exchange 2 comes in the trade's second. */
static void put_list(uint8_t list[QUOTES * DESK_QUOTE_BYTES])
{
    put_quote(list, 1, 34100, 1000, 600000, 1050, 7);
    put_quote(list + DESK_QUOTE_BYTES, DESK_EXCHANGES, 34199, 1000, 600000, 1100, 20);
    put_quote(list + 2 * DESK_QUOTE_BYTES, 1, 34199, 1000, 500000, DESK_NONE, 0);
    put_quote(list + 3 * DESK_QUOTE_BYTES, 2, 34200, 5000, 1, 50, 1);
}

/* A buy of 10 at 2.000 between two Market Makers, executed at 34,200, without quotes. */
static void put_case(uint8_t record[DESK_CASE_BYTES])
{
    memset(record, 0, DESK_CASE_BYTES);
    put_u16(record + DESK_AT_LENGTH, DESK_CASE_BYTES);
    put_u16(record + DESK_AT_KIND, DESK_KIND_CASE);
    put_u32(record + DESK_CASE_AT_EXECUTION, 2000);
    put_u32(record + DESK_CASE_AT_CONTRACTS, 10);
    put_u32(record + DESK_CASE_AT_EXECUTED, 34200);
    put_u32(record + DESK_CASE_AT_BID, DESK_NONE);
    put_u32(record + DESK_CASE_AT_OFFER, DESK_NONE);
    put_u32(record + DESK_CASE_AT_OFFICIAL, DESK_NONE);
    record[DESK_CASE_AT_SIDE] = DESK_BUY;
    memcpy(record + DESK_CASE_AT_BUYER_CODE, "BUY1", 4);
    put_u32(record + DESK_CASE_AT_BUYER_LIMIT, DESK_NONE);
    memcpy(record + DESK_CASE_AT_SELLER_CODE, "SEL1", 4);
    put_u32(record + DESK_CASE_AT_SELLER_LIMIT, DESK_NONE);
    record[DESK_CASE_AT_BUYER_KIND] = DESK_MARKET_MAKER;
    record[DESK_CASE_AT_SELLER_KIND] = DESK_MARKET_MAKER;
    put_u32(record + DESK_CASE_AT_AGREED_PRICE, DESK_NONE);
    put_u32(record + DESK_CASE_AT_FILED, 34320);
    put_u32(record + DESK_CASE_AT_ACCEPTED_AFTER, DESK_NONE);
}

static int is(struct desk_best best, uint64_t bid, uint64_t bid_size, uint64_t offer, uint64_t offer_size, uint64_t examined)
{
    return best.refusal == 0 && best.bid == bid && best.bid_size == bid_size && best.offer == offer &&
           best.offer_size == offer_size && best.examined == examined;
}

static int is_refused(struct desk_best best, uint64_t refusal)
{
    return best.refusal == refusal && best.bid == DESK_NONE && best.bid_size == 0 && best.offer == DESK_NONE &&
           best.offer_size == 0 && best.examined == 0;
}

/* As most programs will look up: with the number that desk_quotes_before tells. */
static struct desk_best look_up(const uint8_t *list, size_t len, uint32_t trade_time)
{
    return desk_best_quotes(list, len, trade_time, desk_quotes_before(list, len, trade_time));
}

/* The longest list, and one quote more: the sixteen exchanges in turn, all in one second. */
static void put_long_list(uint8_t long_list[DESK_QUOTES_BYTES + DESK_QUOTE_BYTES])
{
    uint32_t at;

    for (at = 0; at <= DESK_QUOTES; at++)
        put_quote(long_list + at * DESK_QUOTE_BYTES, 1 + at % DESK_EXCHANGES, DESK_LAST_SECOND - 1, 0, 0, DESK_HIGHEST_PRICE, 1);
}

/* What is wrong with the numbers of quotes before a trade; NULL if nothing is. */
static const char *fault_of_numbers(const uint8_t list[QUOTES * DESK_QUOTE_BYTES], const uint8_t *long_list)
{
    size_t len = QUOTES * DESK_QUOTE_BYTES;

    if (desk_quotes_before(list, len, 34100) != 0 || desk_quotes_before(list, len, 34199) != 1 ||
        desk_quotes_before(list, len, 34200) != 3 || desk_quotes_before(list, len, 34201) != QUOTES ||
        desk_quotes_before(long_list, DESK_QUOTES_BYTES, DESK_LAST_SECOND) != DESK_QUOTES ||
        desk_quotes_before(NULL, 0, DESK_LAST_SECOND) != 0)
        return "desk_quotes_before: another number";
    if (desk_quotes_before(list, len - 1, 34200) != 0 || desk_quotes_before(list, len, DESK_LAST_SECOND + 1) != 0 ||
        desk_quotes_before(long_list, DESK_QUOTES_BYTES + DESK_QUOTE_BYTES, DESK_LAST_SECOND) != 0)
        return "desk_quotes_before: a number beside a refusal";
    return NULL;
}

/* What is wrong with the lookups; NULL if nothing is. */
static const char *fault_of_lookups(const uint8_t list[QUOTES * DESK_QUOTE_BYTES], const uint8_t *long_list)
{
    uint8_t bad[QUOTES * DESK_QUOTE_BYTES];
    size_t len = sizeof bad;

    /* Two bids of 1.000 sum to 1,100,000, given as 1,000,000; the offer of 1.050 is gone. */
    if (!is(desk_best_quotes(list, len, 34200, 3), 1000, DESK_MOST_CONTRACTS, 1100, 20, 3))
        return "desk_best_quotes: another answer at 34,200";
    if (!is(desk_best_quotes(list, len, 34199, 1), 1000, 600000, 1050, 7, 1))
        return "desk_best_quotes: another answer at 34,199";
    if (!is(desk_best_quotes(list, len, 34100, 0), DESK_NONE, 0, DESK_NONE, 0, 0) ||
        !is(desk_best_quotes(NULL, 0, DESK_LAST_SECOND, 0), DESK_NONE, 0, DESK_NONE, 0, 0))
        return "desk_best_quotes: an answer without a quote";
    if (!is(desk_best_quotes(long_list, DESK_QUOTES_BYTES, DESK_LAST_SECOND, DESK_QUOTES), 0, 0, DESK_HIGHEST_PRICE,
            DESK_EXCHANGES, DESK_EXCHANGES))
        return "desk_best_quotes: another answer to the longest list";

    if (!is_refused(look_up(long_list, DESK_QUOTES_BYTES + DESK_QUOTE_BYTES, 34200), DESK_REFUSAL_QUOTES_LENGTH) ||
        !is_refused(look_up(list, len - 1, 34200), DESK_REFUSAL_QUOTES_LENGTH))
        return "desk_best_quotes: another number than 20";
    memcpy(bad, list, len);
    put_u32(bad + DESK_QUOTE_AT_EXCHANGE, DESK_EXCHANGES + 1);
    if (!is_refused(look_up(bad, len, 34200), DESK_REFUSAL_QUOTE_FIELD))
        return "desk_best_quotes: another number than 21";
    memcpy(bad, list, len);
    put_u32(bad + DESK_QUOTE_AT_TIME, 34200);
    if (!is_refused(look_up(bad, len, 34200), DESK_REFUSAL_QUOTE_ORDER))
        return "desk_best_quotes: another number than 22";
    if (!is_refused(look_up(list, len, DESK_LAST_SECOND + 1), DESK_REFUSAL_TRADE_TIME))
        return "desk_best_quotes: another number than 23";
    if (!is_refused(desk_best_quotes(list, len, 34200, 2), DESK_REFUSAL_QUOTES_BEFORE) ||
        !is_refused(desk_best_quotes(list, len, 34200, QUOTES), DESK_REFUSAL_QUOTES_BEFORE) ||
        !is_refused(desk_best_quotes(list, len, 34200, UINT64_MAX), DESK_REFUSAL_QUOTES_BEFORE) ||
        !is_refused(desk_best_quotes(NULL, 0, 34200, 1), DESK_REFUSAL_QUOTES_BEFORE))
        return "desk_best_quotes: another number than 28";
    return NULL;
}

/* What is wrong with the filling of a case of kind 1, or of kind 2 if it has a differential; NULL if nothing is. The list must
 * stay as it is, and so must what is around the case. */
static const char *fault_of_filling(const uint8_t list[QUOTES * DESK_QUOTE_BYTES], uint32_t differential)
{
    uint8_t expected[AROUND + DESK_WIDE_CASE_BYTES + AROUND];
    uint8_t lent[sizeof expected];
    uint8_t *record = lent + AROUND;
    size_t len = QUOTES * DESK_QUOTE_BYTES;
    size_t case_len = differential ? DESK_WIDE_CASE_BYTES : DESK_CASE_BYTES;

    memset(expected, 165, sizeof expected);
    put_case(expected + AROUND);
    if (differential) {
        put_u16(expected + AROUND + DESK_AT_LENGTH, DESK_WIDE_CASE_BYTES);
        put_u16(expected + AROUND + DESK_AT_KIND, DESK_KIND_WIDE_CASE);
        put_u32(expected + AROUND + DESK_CASE_AT_DIFFERENTIAL, differential);
    }
    memcpy(lent, expected, sizeof lent);
    if (desk_fill_case(list, len - 1, record, case_len) != DESK_REFUSAL_QUOTES_LENGTH ||
        desk_fill_case(list, len - 1, record, case_len - 1) != DESK_REFUSAL_CASE_LENGTH ||
        desk_fill_case(NULL, 0, NULL, 0) != DESK_REFUSAL_CASE_LENGTH)
        return "desk_fill_case: another number";
    if (memcmp(lent, expected, sizeof lent) != 0)
        return "desk_fill_case: refused, and something is written";
    if (desk_fill_case(list, len, record, case_len) != 0 || desk_check_case(record, case_len) != 0)
        return "desk_fill_case: refused, or filled with what is refused";
    put_u32(expected + AROUND + DESK_CASE_AT_BID, 1000);
    put_u32(expected + AROUND + DESK_CASE_AT_OFFER, 1100);
    put_u32(expected + AROUND + DESK_CASE_AT_BID_SIZE, DESK_MOST_CONTRACTS);
    put_u32(expected + AROUND + DESK_CASE_AT_OFFER_SIZE, 20);
    if (memcmp(lent, expected, sizeof lent) != 0)
        return "desk_fill_case: other bytes";
    return NULL;
}

static int print_counts(const uint8_t *list, size_t len, uint32_t trade_time)
{
    uint64_t before = desk_quotes_before(list, len, trade_time);
    struct desk_best best = desk_best_quotes(list, len, trade_time, before);

    return printf("%" PRIu64 " before, %" PRIu64 " examined\n", before, best.examined) > 0;
}

int main(void)
{
    static uint8_t long_list[DESK_QUOTES_BYTES + DESK_QUOTE_BYTES];
    uint8_t list[QUOTES * DESK_QUOTE_BYTES];
    uint8_t before[sizeof list];
    const char *found;

    put_list(list);
    put_long_list(long_list);
    memcpy(before, list, sizeof list);
    found = fault_of_numbers(list, long_list);
    if (!found)
        found = fault_of_lookups(list, long_list);
    if (!found)
        found = fault_of_filling(list, 0);
    if (!found)
        found = fault_of_filling(list, 50);
    if (!found && memcmp(list, before, sizeof list) != 0)
        found = "the list is changed";
    if (found) {
        fprintf(stderr, "%s\n", found);
        return 1;
    }
    if (!print_counts(list, sizeof list, 34200) || !print_counts(long_list, DESK_QUOTES_BYTES, DESK_LAST_SECOND) ||
        fflush(stdout) != 0) {
        fputs("standard output cannot be written\n", stderr);
        return 2;
    }
    return 0;
}
