/* Every field of a case record of both kinds, of a quote and of a ruling, written under the header's names, each with a value of
 * its own: the test compares the 88, 92, 28 and 32 bytes with those of the harness's own records. */

#include <stdio.h>
#include <string.h>

#include "desk.h"
#include "numbers.h"

static void put_case(uint8_t record[DESK_CASE_BYTES])
{
    memset(record, 255, DESK_CASE_BYTES);
    put_u16(record + DESK_AT_LENGTH, DESK_CASE_BYTES);
    put_u16(record + DESK_AT_KIND, DESK_KIND_CASE);
    put_u32(record + DESK_CASE_AT_TRADE, 101);
    put_u32(record + DESK_CASE_AT_EXECUTION, 102);
    put_u32(record + DESK_CASE_AT_CONTRACTS, DESK_MOST_CONTRACTS);
    put_u32(record + DESK_CASE_AT_EXECUTED, 103);
    put_u32(record + DESK_CASE_AT_BID, 104);
    put_u32(record + DESK_CASE_AT_OFFER, 105);
    put_u32(record + DESK_CASE_AT_BID_SIZE, 106);
    put_u32(record + DESK_CASE_AT_OFFER_SIZE, 107);
    put_u32(record + DESK_CASE_AT_ZERO, 0);
    put_u32(record + DESK_CASE_AT_OFFICIAL, DESK_HIGHEST_PRICE);
    record[DESK_CASE_AT_SIDE] = DESK_SELL;
    record[DESK_CASE_AT_OPENING] = 1;
    record[DESK_CASE_AT_EXPIRY] = 0;
    record[DESK_CASE_AT_PANEL] = 1;
    memcpy(record + DESK_CASE_AT_BUYER_CODE, "BUY1", 4);
    put_u32(record + DESK_CASE_AT_BUYER_LIMIT, 108);
    memcpy(record + DESK_CASE_AT_SELLER_CODE, "SEL1", 4);
    put_u32(record + DESK_CASE_AT_SELLER_LIMIT, DESK_NONE);
    record[DESK_CASE_AT_BUYER_KIND] = DESK_CUSTOMER;
    record[DESK_CASE_AT_SELLER_KIND] = DESK_OTHER;
    record[DESK_CASE_AT_DAY] = DESK_NEXT_DAY;
    record[DESK_CASE_AT_AGREEMENT] = DESK_AGREED_NULLIFY;
    put_u32(record + DESK_CASE_AT_AGREED_PRICE, DESK_NONE);
    put_u32(record + DESK_CASE_AT_FILED, DESK_LAST_SECOND);
    put_u32(record + DESK_CASE_AT_AGREED_AFTER, DESK_MOST_AFTER);
    put_u32(record + DESK_CASE_AT_ACCEPTED_AFTER, 109);
    put_u32(record + DESK_CASE_AT_LAST_ZERO, 0);
}

static void put_wide_case(uint8_t record[DESK_WIDE_CASE_BYTES])
{
    put_case(record);
    put_u16(record + DESK_AT_LENGTH, DESK_WIDE_CASE_BYTES);
    put_u16(record + DESK_AT_KIND, DESK_KIND_WIDE_CASE);
    put_u32(record + DESK_CASE_AT_DIFFERENTIAL, 110);
}

static void put_quote(uint8_t record[DESK_QUOTE_BYTES])
{
    memset(record, 255, DESK_QUOTE_BYTES);
    put_u16(record + DESK_AT_LENGTH, DESK_QUOTE_BYTES);
    put_u16(record + DESK_AT_KIND, DESK_KIND_QUOTE);
    put_u32(record + DESK_QUOTE_AT_EXCHANGE, DESK_EXCHANGES);
    put_u32(record + DESK_QUOTE_AT_TIME, DESK_LAST_SECOND);
    put_u32(record + DESK_QUOTE_AT_BID, 201);
    put_u32(record + DESK_QUOTE_AT_OFFER, 202);
    put_u32(record + DESK_QUOTE_AT_BID_SIZE, 203);
    put_u32(record + DESK_QUOTE_AT_OFFER_SIZE, 204);
}

static void put_ruling(uint8_t record[DESK_RULING_BYTES])
{
    memset(record, 255, DESK_RULING_BYTES);
    put_u16(record + DESK_AT_LENGTH, DESK_RULING_BYTES);
    put_u16(record + DESK_AT_KIND, DESK_KIND_RULING);
    put_u32(record + DESK_RULING_AT_TRADE, 301);
    record[DESK_RULING_AT_OUTCOME] = DESK_ADJUSTED;
    record[DESK_RULING_AT_REASON] = DESK_REASON_OPENING;
    record[DESK_RULING_AT_ORIGIN] = DESK_ORIGIN_OFFICIAL;
    record[DESK_RULING_AT_ONE_ZERO] = 0;
    put_u32(record + DESK_RULING_AT_TP, 302);
    put_u32(record + DESK_RULING_AT_NEW_PRICE, 303);
    put_u32(record + DESK_RULING_AT_ADJUSTED, 304);
    put_u32(record + DESK_RULING_AT_NULLIFIED, 305);
    put_u32(record + DESK_RULING_AT_STANDING, 306);
}

int main(void)
{
    uint8_t records[DESK_CASE_BYTES + DESK_WIDE_CASE_BYTES + DESK_QUOTE_BYTES + DESK_RULING_BYTES];
    uint8_t *wide = records + DESK_CASE_BYTES;
    uint8_t *quote = wide + DESK_WIDE_CASE_BYTES;

    put_case(records);
    put_wide_case(wide);
    put_quote(quote);
    put_ruling(quote + DESK_QUOTE_BYTES);
    if (fwrite(records, 1, sizeof records, stdout) != sizeof records || fflush(stdout) != 0) {
        fputs("standard output cannot be written\n", stderr);
        return 2;
    }
    return 0;
}
