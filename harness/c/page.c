/* The desk called from C: the page's own sheet of three cases is ruled, its answers are read and its rulings printed; its first
 * case with other prices, for each origin of TP; and the same as a case of kind 2, by itself and in a sheet. It ends with 1 where
 * an answer is another, with 2 where the text cannot be written. */

#include <stdio.h>
#include <string.h>

#include "desk.h"
#include "numbers.h"

#define CASES 3

/* Two Market Makers, executed at 34,200 and filed on the trade date; no quote, limit, official's price, agreement or acceptance. */
static void put_case(uint8_t *record, uint32_t trade, uint32_t execution, uint32_t contracts, uint8_t side,
                     uint32_t filed_after)
{
    memset(record, 0, DESK_CASE_BYTES);
    put_u16(record + DESK_AT_LENGTH, DESK_CASE_BYTES);
    put_u16(record + DESK_AT_KIND, DESK_KIND_CASE);
    put_u32(record + DESK_CASE_AT_TRADE, trade);
    put_u32(record + DESK_CASE_AT_EXECUTION, execution);
    put_u32(record + DESK_CASE_AT_CONTRACTS, contracts);
    put_u32(record + DESK_CASE_AT_EXECUTED, 34200);
    put_u32(record + DESK_CASE_AT_BID, DESK_NONE);
    put_u32(record + DESK_CASE_AT_OFFER, DESK_NONE);
    put_u32(record + DESK_CASE_AT_OFFICIAL, DESK_NONE);
    record[DESK_CASE_AT_SIDE] = side;
    memcpy(record + DESK_CASE_AT_BUYER_CODE, "BUY1", 4);
    put_u32(record + DESK_CASE_AT_BUYER_LIMIT, DESK_NONE);
    memcpy(record + DESK_CASE_AT_SELLER_CODE, "SEL1", 4);
    put_u32(record + DESK_CASE_AT_SELLER_LIMIT, DESK_NONE);
    record[DESK_CASE_AT_BUYER_KIND] = DESK_MARKET_MAKER;
    record[DESK_CASE_AT_SELLER_KIND] = DESK_MARKET_MAKER;
    record[DESK_CASE_AT_DAY] = DESK_TRADE_DATE;
    record[DESK_CASE_AT_AGREEMENT] = DESK_AGREED_NOTHING;
    put_u32(record + DESK_CASE_AT_AGREED_PRICE, DESK_NONE);
    put_u32(record + DESK_CASE_AT_FILED, 34200 + filed_after);
    put_u32(record + DESK_CASE_AT_ACCEPTED_AFTER, DESK_NONE);
}

static void put_sheet(uint8_t sheet[CASES * DESK_CASE_BYTES])
{
    uint8_t *first = sheet;
    uint8_t *second = first + DESK_CASE_BYTES;
    uint8_t *third = second + DESK_CASE_BYTES;

    /* Trade 1: a buy of 10 at 2.000, offer 1.000, filed after 120 s. */
    put_case(first, 1, 2000, 10, DESK_BUY, 120);
    put_u32(first + DESK_CASE_AT_OFFER, 1000);
    put_u32(first + DESK_CASE_AT_OFFER_SIZE, 10);

    /* Trade 2: on the opening a Customer sells 30 at 1.000, bid 2.000 of size 20, filed after 1,800 s. */
    put_case(second, 2, 1000, 30, DESK_SELL, 1800);
    put_u32(second + DESK_CASE_AT_BID, 2000);
    put_u32(second + DESK_CASE_AT_BID_SIZE, 20);
    second[DESK_CASE_AT_OPENING] = 1;
    second[DESK_CASE_AT_SELLER_KIND] = DESK_CUSTOMER;

    /* A case of 0 contracts. */
    put_case(third, 3, 2000, 0, DESK_BUY, 120);
}

static int begins(const uint8_t *record, uint32_t length, uint32_t kind)
{
    return get_u16(record + DESK_AT_LENGTH) == length && get_u16(record + DESK_AT_KIND) == kind;
}

/* Trade 2: adjusted to the bid of 2.000, 20 of its 30 contracts; 10 stand. */
static int is_second_ruling(const uint8_t *ruling)
{
    return begins(ruling, DESK_RULING_BYTES, DESK_KIND_RULING) && get_u32(ruling + DESK_RULING_AT_TRADE) == 2 &&
           ruling[DESK_RULING_AT_OUTCOME] == DESK_ADJUSTED && ruling[DESK_RULING_AT_REASON] == DESK_REASON_OPENING &&
           ruling[DESK_RULING_AT_ORIGIN] == DESK_ORIGIN_QUOTE && ruling[DESK_RULING_AT_ONE_ZERO] == 0 &&
           get_u32(ruling + DESK_RULING_AT_TP) == 2000 && get_u32(ruling + DESK_RULING_AT_NEW_PRICE) == 2000 &&
           get_u32(ruling + DESK_RULING_AT_ADJUSTED) == 20 && get_u32(ruling + DESK_RULING_AT_NULLIFIED) == 0 &&
           get_u32(ruling + DESK_RULING_AT_STANDING) == 10;
}

static int is_second_notice(const uint8_t *notice, uint8_t recipient, const char *own, const char *other)
{
    return begins(notice, DESK_NOTICE_BYTES, DESK_KIND_NOTICE) && get_u32(notice + DESK_NOTICE_AT_TRADE) == 2 &&
           notice[DESK_NOTICE_AT_OUTCOME] == DESK_ADJUSTED && notice[DESK_NOTICE_AT_REASON] == DESK_REASON_OPENING &&
           notice[DESK_NOTICE_AT_RECIPIENT] == recipient && notice[DESK_NOTICE_AT_ZERO] == 0 &&
           get_u32(notice + DESK_NOTICE_AT_NEW_PRICE) == 2000 && get_u32(notice + DESK_NOTICE_AT_ADJUSTED) == 20 &&
           get_u32(notice + DESK_NOTICE_AT_NULLIFIED) == 0 && memcmp(notice + DESK_NOTICE_AT_OTHER_CODE, other, 4) == 0 &&
           memcmp(notice + DESK_NOTICE_AT_OWN_CODE, own, 4) == 0;
}

static int is_second_answer(const uint8_t *answer)
{
    return is_second_ruling(answer + DESK_ANSWER_AT_RULING) &&
           is_second_notice(answer + DESK_ANSWER_AT_BUYER, DESK_TO_BUYER, "BUY1", "SEL1") &&
           is_second_notice(answer + DESK_ANSWER_AT_SELLER, DESK_TO_SELLER, "SEL1", "BUY1");
}

static int is_third_refused(const uint8_t *refused)
{
    return begins(refused, DESK_REFUSED_BYTES, DESK_KIND_REFUSED) && get_u32(refused + DESK_REFUSED_AT_INDEX) == 2 &&
           get_u16(refused + DESK_REFUSED_AT_NUMBER) == DESK_REFUSAL_CONTRACTS_OR_SIZE &&
           get_u16(refused + DESK_REFUSED_AT_ZERO) == 0;
}

/* Is the case ruled with that TP and that origin of it? */
static int is_from(const uint8_t *record, size_t len, uint32_t tp, uint8_t origin)
{
    uint8_t answer[DESK_ANSWER_BYTES];
    const uint8_t *ruling = answer + DESK_ANSWER_AT_RULING;

    return desk_rule_case(record, len, answer, sizeof answer) == 0 &&
           get_u32(ruling + DESK_RULING_AT_TP) == tp && ruling[DESK_RULING_AT_ORIGIN] == origin;
}

/* What is wrong with the origins of TP; NULL if nothing is. */
static const char *fault_of_origins(const uint8_t first[DESK_CASE_BYTES])
{
    uint8_t record[DESK_CASE_BYTES];

    /* Beside an offer of 1.000 an official's price of 1.100 has no say. */
    memcpy(record, first, sizeof record);
    put_u32(record + DESK_CASE_AT_OFFICIAL, 1100);
    if (!is_from(first, DESK_CASE_BYTES, 1000, DESK_ORIGIN_QUOTE) || !is_from(record, sizeof record, 1000, DESK_ORIGIN_QUOTE))
        return "desk_rule_case: another origin than the quote";
    record[DESK_CASE_AT_DAY] = DESK_LATER;
    if (!is_from(record, sizeof record, DESK_NONE, DESK_ORIGIN_NONE))
        return "desk_rule_case: an origin beside reason 2";
    record[DESK_CASE_AT_DAY] = DESK_TRADE_DATE;
    put_u32(record + DESK_CASE_AT_OFFER, DESK_NONE);
    put_u32(record + DESK_CASE_AT_OFFER_SIZE, 0);
    if (!is_from(record, sizeof record, 1100, DESK_ORIGIN_OFFICIAL))
        return "desk_rule_case: another origin than the official";
    put_u32(record + DESK_CASE_AT_OFFICIAL, DESK_NONE);
    if (!is_from(record, sizeof record, DESK_NONE, DESK_ORIGIN_NONE))
        return "desk_rule_case: an origin while the case waits";
    return NULL;
}

/* The first case with a bid of .900, .100 below its offer, as one of kind 2. */
static void put_wide_case(uint8_t record[DESK_WIDE_CASE_BYTES], const uint8_t first[DESK_CASE_BYTES], uint32_t differential)
{
    memcpy(record, first, DESK_CASE_BYTES);
    put_u16(record + DESK_AT_LENGTH, DESK_WIDE_CASE_BYTES);
    put_u16(record + DESK_AT_KIND, DESK_KIND_WIDE_CASE);
    put_u32(record + DESK_CASE_AT_BID, 900);
    put_u32(record + DESK_CASE_AT_BID_SIZE, 10);
    put_u32(record + DESK_CASE_AT_DIFFERENTIAL, differential);
}

/* What is wrong with cases of kind 2; NULL if nothing is. */
static const char *fault_of_wide_cases(const uint8_t first[DESK_CASE_BYTES])
{
    uint8_t sheet[DESK_CASE_BYTES + DESK_WIDE_CASE_BYTES];
    uint8_t *record = sheet + DESK_CASE_BYTES;
    uint8_t out[2 * DESK_ANSWER_BYTES];
    struct desk_sheet counts;

    put_wide_case(record, first, 51);
    if (!is_from(record, DESK_WIDE_CASE_BYTES, 1000, DESK_ORIGIN_QUOTE))
        return "desk_rule_case: another origin than the quote, of kind 2";
    put_wide_case(record, first, 50);
    if (!is_from(record, DESK_WIDE_CASE_BYTES, DESK_NONE, DESK_ORIGIN_NONE))
        return "desk_rule_case: an origin while wide quotes wait for an official";
    put_u32(record + DESK_CASE_AT_OFFICIAL, 1100);
    if (!is_from(record, DESK_WIDE_CASE_BYTES, 1100, DESK_ORIGIN_OFFICIAL))
        return "desk_rule_case: another origin than the official, of kind 2";

    memcpy(sheet, first, DESK_CASE_BYTES);
    counts = desk_rule_sheet(sheet, sizeof sheet, out, sizeof out);
    if (counts.refusal != 0 || counts.written != sizeof out || counts.ruled != 2 || counts.refused != 0)
        return "desk_rule_sheet: other counts, of both kinds";
    counts = desk_rule_sheet(sheet, sizeof sheet - 1, out, sizeof out);
    if (counts.refusal != DESK_REFUSAL_SHEET_LENGTH || counts.written != 0)
        return "desk_rule_sheet: a case cut short, and not refused";
    if (desk_check_case(record, DESK_WIDE_CASE_BYTES - 1) != DESK_REFUSAL_CASE_LENGTH ||
        desk_check_case(record, DESK_CASE_BYTES) != DESK_REFUSAL_LENGTH_OR_KIND)
        return "desk_check_case: another number for a case of kind 2 that is cut";
    put_u32(record + DESK_CASE_AT_DIFFERENTIAL, 0);
    if (desk_check_case(record, DESK_WIDE_CASE_BYTES) != DESK_REFUSAL_PRICE)
        return "desk_check_case: a differential of 0";
    put_u16(record + DESK_AT_KIND, DESK_KIND_CASE);
    counts = desk_rule_sheet(sheet, sizeof sheet, out, sizeof out);
    if (desk_check_case(record, DESK_WIDE_CASE_BYTES) != DESK_REFUSAL_LENGTH_OR_KIND ||
        counts.refusal != DESK_REFUSAL_SHEET_LENGTH)
        return "kind 1 in 92 bytes";
    return NULL;
}

/* What is wrong with the answers to the sheet; NULL if nothing is. */
static const char *fault(const uint8_t sheet[CASES * DESK_CASE_BYTES])
{
    uint8_t out[CASES * DESK_ANSWER_BYTES];
    uint8_t answer[DESK_ANSWER_BYTES];
    struct desk_sheet counts;

    if (desk_check_case(sheet, DESK_CASE_BYTES) != 0 ||
        desk_check_case(sheet + 2 * DESK_CASE_BYTES, DESK_CASE_BYTES) != DESK_REFUSAL_CONTRACTS_OR_SIZE ||
        desk_check_case(NULL, 0) != DESK_REFUSAL_CASE_LENGTH)
        return "desk_check_case: another number";
    counts = desk_rule_sheet(sheet, CASES * DESK_CASE_BYTES, out, sizeof out);
    if (counts.refusal != 0 || counts.written != 2 * DESK_ANSWER_BYTES + DESK_REFUSED_BYTES || counts.ruled != 2 ||
        counts.refused != 1)
        return "desk_rule_sheet: other counts";
    if (!is_second_answer(out + DESK_ANSWER_BYTES))
        return "desk_rule_sheet: another answer to trade 2";
    if (!is_third_refused(out + 2 * DESK_ANSWER_BYTES))
        return "desk_rule_sheet: another answer to the case of 0 contracts";
    if (desk_rule_case(sheet, DESK_CASE_BYTES, answer, sizeof answer) != 0 || memcmp(answer, out, sizeof answer) != 0)
        return "desk_rule_case: another answer than in the sheet";
    return NULL;
}

/* What is wrong with the explanation of the case of 0 contracts; NULL if nothing is. */
static const char *fault_of_explanation(const uint8_t third[DESK_CASE_BYTES])
{
    static const char told[] = "trade 3: REFUSED 6\n  contracts 0 (bytes 12 to 15); allowed: 1 to 1,000,000 [R3.6]\n";
    static uint8_t text[DESK_EXPLANATION_BYTES];

    if (desk_explain_case(third, DESK_CASE_BYTES, &text) != sizeof told - 1 || memcmp(text, told, sizeof told - 1) != 0)
        return "desk_explain_case: another text than the page's";
    return NULL;
}

int main(void)
{
    static uint8_t text[DESK_TEXT_BYTES];
    uint8_t sheet[CASES * DESK_CASE_BYTES];
    const char *found;
    size_t length;

    put_sheet(sheet);
    found = fault(sheet);
    if (!found)
        found = fault_of_origins(sheet);
    if (!found)
        found = fault_of_wide_cases(sheet);
    if (!found)
        found = fault_of_explanation(sheet + 2 * DESK_CASE_BYTES);
    if (found) {
        fprintf(stderr, "%s\n", found);
        return 1;
    }
    length = (size_t)desk_print_sheet(sheet, sizeof sheet, &text);
    if (fwrite(text, 1, length, stdout) != length || fflush(stdout) != 0) {
        fputs("standard output cannot be written\n", stderr);
        return 2;
    }
    return 0;
}
