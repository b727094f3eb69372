/* The desk: a trade that a member calls erroneous, ruled by the page (docs/RULE.md). The functions stand in libdesk.a, but for
 * desk_explain_case, which stands in libcounter.a; bin/staticlib builds both, from the crates desk_c and counter_c. They are proved to
 * keep what is said here.
 *
 * They ask nothing of the caller but valid pointers, each to as many bytes as its length says, and buffers that do not
 * overlap. Beside a length of 0 the pointer may be NULL. Any bytes may be given: what is not a case, a sheet or a list of
 * quotes gets the number of the first test that it fails (from desk_quotes_before, which has no room for it, 0). They keep no
 * state and allocate nothing. Of the stack desk_check_case takes 64 bytes, desk_rule_case 176, desk_rule_sheet 224,
 * desk_print_sheet 272 and desk_explain_case 3,488, as measured; those for quotes were not.
 *
 * A program that was compiled when struct desk_best had five numbers, and desk_best_quotes three arguments, must be compiled
 * again: the linker does not see the difference. One that was written when bytes 10 and 11 of a ruling were both zero, under the
 * name DESK_RULING_AT_ZERO, and a printed line had eight fields, must be changed where it reads them: byte 10 tells the origin
 * of the theoretical price, and so does a ninth field, FROM. With the old name it does not compile. One that was written when every
 * case was 88 bytes long goes on as it is for such cases, but for a sheet in which one begins otherwise: that was a refused case,
 * with the number 2, and is now a sheet refused whole (10). */
#ifndef DESK_H
#define DESK_H

#include <stddef.h>
#include <stdint.h>

#ifdef __cplusplus
extern "C" {
#endif

/* ---- Lengths */

#define DESK_CASE_BYTES 88u      /* a case record of kind 1 */
#define DESK_WIDE_CASE_BYTES 92u /* a case record of kind 2 */
#define DESK_RULING_BYTES 32u    /* a ruling */
#define DESK_NOTICE_BYTES 32u    /* a notice */
#define DESK_ANSWER_BYTES 96u    /* a ruling and two notices */
#define DESK_REFUSED_BYTES 12u   /* a refused case of a sheet */
#define DESK_SHEET_CASES 600u    /* the most cases of a sheet: all of them of kind 1 */
#define DESK_SHEET_BYTES 52800u  /* the longest sheet: 600 cases of kind 1; 573 of kind 2 take 52,716 */
#define DESK_TEXT_BYTES 65536u   /* room for the text of any sheet */
#define DESK_EXPLANATION_BYTES 20480u /* room for the explanation of any case */
#define DESK_QUOTE_BYTES 28u     /* a quote record */
#define DESK_QUOTES 2000u        /* the most quotes of a list */
#define DESK_QUOTES_BYTES 56000u /* the longest list: 2,000 quotes */

/* ---- All records. Every number stands lowest byte first. DESK_.._AT_.. is where a field begins; its comment says how long it
 * is and what it holds. */

#define DESK_AT_LENGTH 0u /* 2: the record's length */
#define DESK_AT_KIND 2u   /* 2: its kind */

#define DESK_KIND_CASE 1u      /* a case, DESK_CASE_BYTES long */
#define DESK_KIND_WIDE_CASE 2u /* a case with a permitted differential, DESK_WIDE_CASE_BYTES long */
#define DESK_KIND_RULING 16u
#define DESK_KIND_NOTICE 17u
#define DESK_KIND_REFUSED 18u
#define DESK_KIND_QUOTE 32u

#define DESK_NONE 4294967295u /* the mark "none", of a price and of an acceptance */

/* ---- The case record. Prices are in mills ($1 is 1,000), times in seconds after midnight. A case of kind 1 is 88 bytes long, one
 * of kind 2 is 92: the same fields in the same places, and the permitted differential behind them. A sheet may hold both, each at
 * the end of the one before it. */

#define DESK_CASE_AT_TRADE 4u           /* 4: trade number, any */
#define DESK_CASE_AT_EXECUTION 8u       /* 4: execution price, never none */
#define DESK_CASE_AT_CONTRACTS 12u      /* 4: contracts, 1 to DESK_MOST_CONTRACTS */
#define DESK_CASE_AT_EXECUTED 16u       /* 4: execution time, 0 to DESK_LAST_SECOND */
#define DESK_CASE_AT_BID 20u            /* 4: best bid, or none */
#define DESK_CASE_AT_OFFER 24u          /* 4: best offer, or none */
#define DESK_CASE_AT_BID_SIZE 28u       /* 4: bid size, 0 to DESK_MOST_CONTRACTS; 0 if no bid, 1 or more if the bid is above 0 */
#define DESK_CASE_AT_OFFER_SIZE 32u     /* 4: offer size, likewise */
#define DESK_CASE_AT_ZERO 36u           /* 4: zero */
#define DESK_CASE_AT_OFFICIAL 40u       /* 4: official's price, or none */
#define DESK_CASE_AT_SIDE 44u           /* 1: side in error, DESK_BUY or DESK_SELL */
#define DESK_CASE_AT_OPENING 45u        /* 1: 1 on the opening, else 0 */
#define DESK_CASE_AT_EXPIRY 46u         /* 1: 1 if the same-day 5:00 pm expiry deadline holds, else 0 */
#define DESK_CASE_AT_PANEL 47u          /* 1: 1 if the panel has already decided, else 0 */
#define DESK_CASE_AT_BUYER_CODE 48u     /* 4: buyer's member code, each byte 'A' to 'Z' or '0' to '9' */
#define DESK_CASE_AT_BUYER_LIMIT 52u    /* 4: buyer's limit, or none */
#define DESK_CASE_AT_SELLER_CODE 56u    /* 4: seller's member code */
#define DESK_CASE_AT_SELLER_LIMIT 60u   /* 4: seller's limit, or none */
#define DESK_CASE_AT_BUYER_KIND 64u     /* 1: DESK_CUSTOMER, DESK_MARKET_MAKER or DESK_OTHER */
#define DESK_CASE_AT_SELLER_KIND 65u    /* 1: the same of the seller */
#define DESK_CASE_AT_DAY 66u            /* 1: filing day, DESK_TRADE_DATE, DESK_NEXT_DAY or DESK_LATER */
#define DESK_CASE_AT_AGREEMENT 67u      /* 1: DESK_AGREED_NOTHING, DESK_AGREED_PRICE or DESK_AGREED_NULLIFY */
#define DESK_CASE_AT_AGREED_PRICE 68u   /* 4: a price exactly with DESK_AGREED_PRICE, else none */
#define DESK_CASE_AT_FILED 72u          /* 4: filing time of that day, 0 to DESK_LAST_SECOND */
#define DESK_CASE_AT_AGREED_AFTER 76u   /* 4: agreement, seconds after notice, 0 to DESK_MOST_AFTER; 0 if none was made */
#define DESK_CASE_AT_ACCEPTED_AFTER 80u /* 4: a Customer's acceptance, seconds after notice, 0 to DESK_MOST_AFTER, or none */
#define DESK_CASE_AT_LAST_ZERO 84u      /* 4: zero */
#define DESK_CASE_AT_DIFFERENTIAL 88u   /* 4: kind 2 alone: permitted differential in mills, 1 to DESK_HIGHEST_PRICE */

#define DESK_HIGHEST_PRICE 9999999u
#define DESK_MOST_CONTRACTS 1000000u
#define DESK_LAST_SECOND 86399u
#define DESK_MOST_AFTER 86400u

#define DESK_BUY 1u
#define DESK_SELL 2u

#define DESK_CUSTOMER 1u
#define DESK_MARKET_MAKER 2u
#define DESK_OTHER 3u

#define DESK_TRADE_DATE 0u
#define DESK_NEXT_DAY 1u
#define DESK_LATER 2u

#define DESK_AGREED_NOTHING 0u
#define DESK_AGREED_PRICE 1u
#define DESK_AGREED_NULLIFY 2u

/* ---- The quote record: what an exchange sent, and when. A list of quotes is a row of them in the order of their times. Prices,
 * sizes and times are as in a case. */

#define DESK_QUOTE_AT_EXCHANGE 4u    /* 4: exchange number, 1 to DESK_EXCHANGES */
#define DESK_QUOTE_AT_TIME 8u        /* 4: time, 0 to DESK_LAST_SECOND */
#define DESK_QUOTE_AT_BID 12u        /* 4: bid, or none */
#define DESK_QUOTE_AT_OFFER 16u      /* 4: offer, or none */
#define DESK_QUOTE_AT_BID_SIZE 20u   /* 4: bid size, 0 to DESK_MOST_CONTRACTS; 0 if no bid, 1 or more if the bid is above 0 */
#define DESK_QUOTE_AT_OFFER_SIZE 24u /* 4: offer size, likewise */

#define DESK_EXCHANGES 16u

/* ---- The answer to a ruled case: three records of 32 bytes. */

#define DESK_ANSWER_AT_RULING 0u
#define DESK_ANSWER_AT_BUYER 32u  /* the buyer's notice */
#define DESK_ANSWER_AT_SELLER 64u /* the seller's notice */

#define DESK_RULING_AT_TRADE 4u      /* 4: trade number */
#define DESK_RULING_AT_OUTCOME 8u    /* 1: DESK_NO_RELIEF to DESK_WAITING */
#define DESK_RULING_AT_REASON 9u     /* 1: DESK_REASON_.. */
#define DESK_RULING_AT_ORIGIN 10u    /* 1: what gave the theoretical price, DESK_ORIGIN_NONE to DESK_ORIGIN_OFFICIAL */
#define DESK_RULING_AT_ONE_ZERO 11u  /* 1: zero */
#define DESK_RULING_AT_TP 12u        /* 4: theoretical price, or none (none also for reasons 2 and 3) */
#define DESK_RULING_AT_NEW_PRICE 16u /* 4: none unless adjusted */
#define DESK_RULING_AT_ADJUSTED 20u  /* 4: contracts adjusted */
#define DESK_RULING_AT_NULLIFIED 24u /* 4: contracts nullified */
#define DESK_RULING_AT_STANDING 28u  /* 4: contracts that stand */

#define DESK_NOTICE_AT_TRADE 4u       /* 4: trade number */
#define DESK_NOTICE_AT_OUTCOME 8u     /* 1: as in the ruling */
#define DESK_NOTICE_AT_REASON 9u      /* 1: as in the ruling */
#define DESK_NOTICE_AT_RECIPIENT 10u  /* 1: DESK_TO_BUYER or DESK_TO_SELLER */
#define DESK_NOTICE_AT_ZERO 11u       /* 1: zero */
#define DESK_NOTICE_AT_NEW_PRICE 12u  /* 4: as in the ruling */
#define DESK_NOTICE_AT_ADJUSTED 16u   /* 4: as in the ruling */
#define DESK_NOTICE_AT_NULLIFIED 20u  /* 4: as in the ruling */
#define DESK_NOTICE_AT_OTHER_CODE 24u /* 4: the other party's code if adjusted or nullified, else zeros */
#define DESK_NOTICE_AT_OWN_CODE 28u   /* 4: the recipient's code */

#define DESK_TO_BUYER 1u
#define DESK_TO_SELLER 2u

#define DESK_NO_RELIEF 0u
#define DESK_ADJUSTED 1u
#define DESK_NULLIFIED 2u
#define DESK_WAITING 3u

/* What gave TP. In a case of kind 2 the quotes are wide where both are there and the offer is at least the bid plus twice the
 * differential; then neither gives TP. A crossed market is not wide, and a case of kind 1 never. */
#define DESK_ORIGIN_NONE 0u     /* TP is none: for reasons 2, 3 and 14, and no other; quotes may stand in the case all the same */
#define DESK_ORIGIN_QUOTE 1u    /* TP is the best offer of a buy, the best bid of a sell, and the quotes are not wide */
#define DESK_ORIGIN_OFFICIAL 2u /* that quote is none or the quotes are wide, and TP is the official's price */

#define DESK_REASON_NO_ERROR 1u                   /* no relief: execution is not off TP by the minimum, in the side's direction */
#define DESK_REASON_LATE 2u                       /* no relief: no way is open */
#define DESK_REASON_PANEL_DECIDED 3u              /* no relief: catastrophic way, and the panel has already decided */
#define DESK_REASON_CUSTOMERS_LIMIT 4u            /* no relief: opening, other a Market Maker, TP violates the Customer's limit */
#define DESK_REASON_OTHERS_LIMIT 5u               /* no relief: opening, other no Market Maker, TP violates the other's limit */
#define DESK_REASON_OBVIOUS 6u                    /* adjusted: obvious, no Customer */
#define DESK_REASON_OPENING 7u                    /* adjusted: opening, to TP */
#define DESK_REASON_CATASTROPHIC 8u               /* adjusted: catastrophic, no Customer's limit violated */
#define DESK_REASON_CATASTROPHIC_ACCEPTED 9u      /* adjusted: past a Customer's limit, and accepted in time */
#define DESK_REASON_AGREED_PRICE 10u              /* adjusted: to an agreed price */
#define DESK_REASON_OBVIOUS_WITH_CUSTOMER 11u     /* nullified: obvious, with a Customer */
#define DESK_REASON_CATASTROPHIC_NOT_ACCEPTED 12u /* nullified: past a Customer's limit, and not accepted in time */
#define DESK_REASON_AGREED_NULLIFICATION 13u      /* nullified: agreed */
#define DESK_REASON_NO_PRICE 14u                  /* waiting: no quote that gives TP, and no official's price */

/* ---- The answer to a refused case of a sheet, DESK_REFUSED_BYTES long. */

#define DESK_REFUSED_AT_INDEX 4u  /* 4: which case of the sheet, from 0 */
#define DESK_REFUSED_AT_NUMBER 8u /* 2: DESK_REFUSAL_.., 3 to 9 */
#define DESK_REFUSED_AT_ZERO 10u  /* 2: zero */

/* ---- The numbers given back instead of a ruling: each of the first test that fails. 0 is none of them. */

#define DESK_REFUSAL_CASE_LENGTH 1u        /* the case is neither 88 nor 92 bytes long */
#define DESK_REFUSAL_LENGTH_OR_KIND 2u     /* it begins with another pair of length and kind than that of its bytes */
#define DESK_REFUSAL_ZERO_OR_CODED_BYTE 3u /* a zero byte isn't zero, or a coded byte is not in its list */
#define DESK_REFUSAL_MEMBER_CODE 4u        /* a byte of a member code is not allowed */
#define DESK_REFUSAL_PRICE 5u              /* a price is above DESK_HIGHEST_PRICE and no permitted none, or a differential isn't 1 to that */
#define DESK_REFUSAL_CONTRACTS_OR_SIZE 6u  /* contracts or a size break their rule */
#define DESK_REFUSAL_TIME 7u               /* a time or count of seconds is out of range, or on day 0 filed before executed */
#define DESK_REFUSAL_LIMIT 8u              /* the execution price is above the buyer's limit or below the seller's */
#define DESK_REFUSAL_AGREEMENT 9u          /* the agreement's fields contradict byte 67 */
#define DESK_REFUSAL_SHEET_LENGTH 10u      /* the sheet isn't a row of whole cases of kinds 1 and 2, or is above DESK_SHEET_BYTES */
#define DESK_REFUSAL_ANSWER_BUFFER 11u     /* the answer buffer is under 96 bytes (case) or 96 per case (sheet) */
#define DESK_REFUSAL_QUOTES_LENGTH 20u     /* the list isn't a whole number of quotes, or has more than 2,000 */
#define DESK_REFUSAL_QUOTE_FIELD 21u       /* a field of a quote is bad: length, kind, exchange, time, a price or a size */
#define DESK_REFUSAL_QUOTE_ORDER 22u       /* a quote's time is before that of the quote before it */
#define DESK_REFUSAL_TRADE_TIME 23u        /* the trade's time is above DESK_LAST_SECOND */
#define DESK_REFUSAL_QUOTES_BEFORE 28u     /* the number brought is not that of the quotes before the trade */

/* ---- The functions */

/* What ruling a sheet gives back. If the sheet is refused whole, `refusal` is the number (10, then 11) and the rest is 0: one case
 * that begins otherwise than a case does is enough. */
struct desk_sheet {
    uint64_t refusal; /* 0 if the sheet is ruled */
    uint64_t written; /* bytes written */
    uint64_t ruled;   /* cases answered with 96 bytes */
    uint64_t refused; /* cases answered with 12 bytes */
};

/* What looking up quotes gives back: prices are in mills or DESK_NONE, and none has size 0. If the list, the time or the number
 * brought is refused, `refusal` is the number (20 to 23 or 28), both prices are DESK_NONE and the rest is 0. */
struct desk_best {
    uint64_t refusal;    /* 0 if the quotes are looked up */
    uint64_t bid;        /* the best bid */
    uint64_t offer;      /* the best offer */
    uint64_t bid_size;   /* the sum of sizes at the best bid, at most DESK_MOST_CONTRACTS */
    uint64_t offer_size; /* the same at the best offer */
    uint64_t examined;   /* the quotes examined, at most those before the trade */
};

/* Reads a case of either kind: 0 if it is accepted, else the number of the first test that fails (1, then 2 to 9). */
uint32_t desk_check_case(const uint8_t *record, size_t len);

/* Rules a case of either kind: 0, and 96 bytes at `out` (the ruling, the buyer's and the seller's notice), the bytes after them
 * kept; or the number of the first test that fails (1, 11, then 2 to 9), and `out` as it was. */
uint32_t desk_rule_case(const uint8_t *record, size_t len, uint8_t *out, size_t out_len);

/* Rules a sheet, case by case and in order, stepping by the length of each: 96 bytes for each ruled case, 12 for each refused one,
 * the bytes after them kept. `out` must have room for 96 bytes per case, whatever the cases are; a sheet refused whole leaves it as
 * it was. It is walked to its end before anything is ruled. */
struct desk_sheet desk_rule_sheet(const uint8_t *sheet, size_t len, uint8_t *out, size_t out_len);

/* Prints the rulings of a sheet at `out`, as lines of text, and gives the bytes of text. No zero byte ends them; the bytes
 * after them are kept. The first line is
 *
 *     TRADE OUTCOME REASON TP NEW ADJ NUL OLD FROM
 *
 * and a ruled case has a line of these fields, FROM being the number at DESK_RULING_AT_ORIGIN. Such a line is reckoned at 96
 * bytes at most (eight numbers of ten digits at most and the outcome's seven letters, each with the byte after it), so that
 * DESK_TEXT_BYTES have room for DESK_SHEET_CASES of them. A sheet refused whole prints one line that says so. */
uint64_t desk_print_sheet(const uint8_t *sheet, size_t len, uint8_t (*out)[DESK_TEXT_BYTES]);

/* Of libcounter.a. Explains a case (docs/RULE.md, R17): gives back how many bytes of `out` are its text, always at most DESK_EXPLANATION_BYTES, and keeps
 * every byte of `out` behind them. The text is lines of ASCII, each ended by a line feed. Of a case that is ruled it has the outcome and
 * the reason, each step of the ruling that was reached, with the numbers that decided it and the bytes of the record where they stand,
 * and the contracts; of a refused one its number and the field that broke the test; of any other bytes the number (1, 2) and what was
 * expected. Behind that stand the prices that read high byte first would be nearer to the execution.
 *
 * It shows both parties' limits and what they agreed, so it is for the desk alone: nothing of it may go to a party. */
uint64_t desk_explain_case(const uint8_t *record, size_t len, uint8_t (*out)[DESK_EXPLANATION_BYTES]);

/* Looks up the best bid and offer at a trade: of each exchange the last quote strictly before `trade_time` counts, the later
 * record of one second; the highest bid and the lowest offer among them are given, each with the sum of the sizes at it. An
 * exchange whose last bid is none has no say on the bid, and likewise on the offer. An empty list gives none.
 *
 * `before` is the number of quotes strictly before the trade, as desk_quotes_before tells it; another number is refused (28, after
 * 20 to 23). Examined are the quotes from the last of them backwards, down to and including the one by which all DESK_EXCHANGES
 * exchanges are known, or to the first if that never comes; any quote makes its exchange known, one of none too. The tests 20 to
 * 23 look at the whole list in every call; that is not counted. */
struct desk_best desk_best_quotes(const uint8_t *quotes, size_t len, uint32_t trade_time, uint64_t before);

/* Tells the number of quotes strictly before `trade_time`: 0 also where the list or the time is refused (20 to 23). */
uint64_t desk_quotes_before(const uint8_t *quotes, size_t len, uint32_t trade_time);

/* Fills the best bid and offer at a case's execution into the case, of either kind: 0, and DESK_CASE_AT_BID to
 * DESK_CASE_AT_OFFER_SIZE (bytes 20 to 35 of `record`) written, every other byte kept; or the number of the first test that fails
 * (1, 2 to 9, then 20 to 22), and `record` as it was. It finds the number of quotes before the trade itself, and does not tell how
 * many it examined. */
uint32_t desk_fill_case(const uint8_t *quotes, size_t len, uint8_t *record, size_t record_len);

#ifdef __cplusplus
}
#endif

#endif
