/*
 * Credit-risk relief of a book of deals, or of one deal: haircuts, recognised
 * values and what was lost on the way to them, covered portions and weighted
 * amounts under CRE20 and CRE22, with the tables of 2019 or of 2023; and the exposure
 * and weighted amount of a netting set of repo-style transactions.
 *
 * Link with libhadlephoga.a, and compare HADLEPHOGA_LAYOUT with
 * hadlephoga_layout() before anything else: where they differ, header and
 * library do not belong together. All calls take any bytes and any numbers: the
 * answer to every input is a figure or a refusal by number. A pointer is not
 * null, points to as many bytes or numbers as the length beside it says, and
 * nothing that is written overlaps anything else that is passed. The library holds no state and
 * allocates nothing, so calls may run side by side in any number of threads.
 */
#ifndef HADLEPHOGA_H
#define HADLEPHOGA_H

#include <stddef.h>
#include <stdint.h>

#ifdef __cplusplus
extern "C" {
#endif

/*
 * The layout of numbers that this header describes. Layouts until now:
 *
 *   1  document 01: terms 10, guarantee 9, record 332. It had no number that
 *      could be asked for, so a program that has this header does not link with
 *      a library of that layout.
 *   2  a party's sovereign's step behind its step, the edition behind the terms:
 *      terms 12, guarantee 10, record 350. Refusal 2 now falls on an unknown
 *      edition too, 3 on a wrong sovereign's step. A program built for layout 1
 *      is refused, by 11, 13 or 40, wherever it passes terms, a guarantee or a
 *      record. Edition 3 came with this layout: it was refused before.
 *   3  credit default swaps in the list of guarantees, and an item's instrument as
 *      the last of its numbers in a record: item 11, record 366. A guarantee is
 *      still added by ten numbers. Refusal 40 now falls on an unknown instrument
 *      too; a book's line S, which was 11, is taken. A program built for layout 2
 *      is refused, by 13 or 40, wherever it passes a record.
 *   4  where an item's value went: behind its value and ground stand what the
 *      haircut, the maturity and a swap's cut took of it, and what is left out; a
 *      portion stands behind these: outcome 6, cover 7, report 211. Figures,
 *      grounds, records and refusals are as they were. A program built for layout 3
 *      lends 83 numbers for a report, which is refused by 13, and nothing is written.
 *      hadlephoga_repair_book came with this layout, and refusals 20 and 41 with it;
 *      hadlephoga_net_set likewise, with refusals 15, 16 and 17.
 *
 * The rule of change. The layout is how many numbers there are of terms, of an
 * item, of a record, of a report, of a set's terms and of a position, their order and
 * what each of them means; the arguments of the operations; and what the numbers of
 * refusals and grounds mean. Whenever any of it changes, the number rises by 1, in the
 * same landing, and the list above says what changed. While the number stays, a program
 * that was built for it gets, for every call that was taken, the answer it would have
 * got before; what was refused may be taken later. An operation that is new beside the
 * others leaves the number alone.
 */
#define HADLEPHOGA_LAYOUT 4

/* The layout of numbers that the library has. */
uint64_t hadlephoga_layout(void);

#define HADLEPHOGA_BOOK_LIMIT 65536 /* bytes of a book */
#define HADLEPHOGA_ITEMS 16         /* places of collateral, and of guarantees and swaps together */
#define HADLEPHOGA_POSITIONS 32     /* the most of a netting set */

/* How many numbers there are of each. */
#define HADLEPHOGA_ANSWER_LENGTH 4 /* that answer a deal of a book */
#define HADLEPHOGA_TERMS_WIDTH 12
#define HADLEPHOGA_COLLATERAL_WIDTH 11
#define HADLEPHOGA_GUARANTEE_WIDTH 10                                    /* as it is sent */
#define HADLEPHOGA_SWAP_WIDTH (HADLEPHOGA_GUARANTEE_WIDTH + 1)           /* as it is sent */
#define HADLEPHOGA_HELD_GUARANTEE_WIDTH (HADLEPHOGA_GUARANTEE_WIDTH + 1) /* either, in a record */
#define HADLEPHOGA_OUTCOME_WIDTH 6                                       /* that report an item of collateral */
#define HADLEPHOGA_COVER_WIDTH (HADLEPHOGA_OUTCOME_WIDTH + 1)            /* that report a guarantee or a swap */
#define HADLEPHOGA_SET_TERMS_WIDTH 6                                     /* of a netting set, without positions */
#define HADLEPHOGA_POSITION_WIDTH 7

/* Of a record: the terms, and each list's count and places. */
#define HADLEPHOGA_RECORD_LENGTH \
  (HADLEPHOGA_TERMS_WIDTH + 1 + HADLEPHOGA_ITEMS * HADLEPHOGA_COLLATERAL_WIDTH + \
   1 + HADLEPHOGA_ITEMS * HADLEPHOGA_HELD_GUARANTEE_WIDTH)

/* Of a report: E*, both lists' places, the rest and the weighted amount. */
#define HADLEPHOGA_REPORT_LENGTH \
  (1 + HADLEPHOGA_ITEMS * HADLEPHOGA_OUTCOME_WIDTH + HADLEPHOGA_ITEMS * HADLEPHOGA_COVER_WIDTH + 2)

/* Of a netting set with so many positions. */
#define HADLEPHOGA_SET_LENGTH(positions) (HADLEPHOGA_SET_TERMS_WIDTH + (positions) * HADLEPHOGA_POSITION_WIDTH)

/*
 * Answers a book. Returns 0, or the refusal of the whole book, the first met:
 *
 *   10  longer than 65,536 bytes
 *    9  the first line is no header: C, R, M, tab, the edition (1 to 3), line feed
 *   12  there is a second line, and it does not begin with D and a tab
 *   13  fewer than four numbers in results for each deal
 *
 * Four numbers are written for each deal, from the front of results (struct
 * hadlephoga_answer), and nothing behind them; *deals is the count of deals.
 * Where the book is refused, results is untouched and *deals is 0.
 */
uint64_t hadlephoga_answer_book(const uint8_t *book, size_t book_length,
                                uint64_t *results, size_t results_length,
                                uint64_t *deals);

/*
 * Repairs a book that came by mail: each run of spaces becomes one tab, and every
 * carriage return of a run that ends at a line feed is dropped; any other byte, and
 * any other carriage return, stays. Returns 0, or the refusal, the first met:
 *
 *   10  longer than 65,536 bytes
 *   20  repaired_length is below the repaired book's bytes
 *   41  altered_length is below the count of altered lines
 *
 * The repaired book is written from the front of repaired, the numbers of the lines
 * it altered from the front of altered, rising, each once, the first line being 1,
 * and nothing behind either; *bytes and *lines are how many. Where the book is
 * refused, repaired and altered are untouched and *bytes and *lines are 0.
 *
 * As many bytes as the book has, and as many numbers as it has lines, are always
 * enough. Lines keep their numbers, a book without spaces and such carriage returns
 * is copied, and repairing what was repaired alters nothing.
 */
uint64_t hadlephoga_repair_book(const uint8_t *book, size_t book_length,
                                uint8_t *repaired, size_t repaired_length,
                                uint64_t *altered, size_t altered_length,
                                uint64_t *bytes, uint64_t *lines);

/*
 * Opens a deal. Returns the first that applies:
 *
 *   13  record_length is below HADLEPHOGA_RECORD_LENGTH: nothing is written
 *   11  terms_length is not HADLEPHOGA_TERMS_WIDTH
 *   1 to 5, as below, of the terms
 *    0  otherwise: the record of a deal with empty lists is written
 *
 * With 11 and 1 to 5 a record of zeros is written, which no other call accepts.
 * terms has the layout of struct hadlephoga_terms, record that of struct
 * hadlephoga_deal. Numbers behind a record's are untouched.
 */
uint64_t hadlephoga_open_deal(const uint64_t *terms, size_t terms_length,
                              uint64_t *record, size_t record_length);

/*
 * Adds an item of collateral to a record. Returns the first that applies:
 *
 *   11  item_length is not HADLEPHOGA_COLLATERAL_WIDTH
 *   40  as hadlephoga_report_deal, of the record
 *   6, 1 to 5, 7, 8, as below, of the list and the item
 *    0  otherwise: the item is in the list's next place, and its count one more
 *
 * With a refusal the record is untouched. item has the layout of struct
 * hadlephoga_collateral.
 */
uint64_t hadlephoga_add_collateral(uint64_t *record, size_t record_length,
                                   const uint64_t *item, size_t item_length);

/* The same of a guarantee, HADLEPHOGA_GUARANTEE_WIDTH and struct
 * hadlephoga_guarantee. Its place has the instrument 0. */
uint64_t hadlephoga_add_guarantee(uint64_t *record, size_t record_length,
                                  const uint64_t *item, size_t item_length);

/* The same of a credit default swap, HADLEPHOGA_SWAP_WIDTH and struct
 * hadlephoga_swap. Guarantees and swaps share the sixteen places, in one order of
 * adding: 6 where together they are sixteen. 8 falls on the further condition as on
 * the others. Its place has the instrument 1 + that condition's entry. */
uint64_t hadlephoga_add_swap(uint64_t *record, size_t record_length,
                             const uint64_t *item, size_t item_length);

/*
 * Reports one deal. Returns the first that applies:
 *
 *   13  report_length is below HADLEPHOGA_REPORT_LENGTH: nothing is written
 *   40  record_length is not HADLEPHOGA_RECORD_LENGTH, a list count is above
 *       sixteen, a field of the deal or of a counted item is one that opening or
 *       adding refuses (1 to 5, 7, 8), or a counted item's instrument is above 2:
 *       a report of zeros is written
 *    0  otherwise: the report is written
 *
 * record has the layout of struct hadlephoga_deal, report that of struct
 * hadlephoga_report. Numbers behind a report's are untouched.
 */
uint64_t hadlephoga_report_deal(const uint64_t *record, size_t record_length,
                                uint64_t *report, size_t report_length);

/*
 * Nets a set of repo-style transactions under a master netting agreement (CRE22.71 to
 * CRE22.73). Returns the first that applies:
 *
 *   11  set_length is not HADLEPHOGA_SET_LENGTH of a count of positions
 *    2, 3, 4, 5, as below, of the set's terms
 *    6  there are more than HADLEPHOGA_POSITIONS positions
 *    1, 2, 3, 4, 5, as below, of the first position that is refused
 *   15  two positions of one security, not 0, differ in type, step, life or currency
 *   16  received goods are not eligible as collateral: type 6; type 2 at steps 0, 5, 6;
 *       types 3, 4, 5 at 0 or above 3. An amount of 0 makes no difference, nor that
 *       as much or more of the security was lent
 *   17  the amounts of all positions, lent and received, sum to more than
 *       1,000,000,000,000
 *    0  otherwise: *exposure is E*, *rwa the weighted amount
 *
 * With a refusal both are written as 0. set has the layout of struct
 * hadlephoga_set_terms and behind it, for each position, that of struct
 * hadlephoga_position; positions may stand in any order, and there may be none.
 *
 * A net is what was lent less what was received, with its sign. E* is the net of all
 * positions, plus each security's absolute net times its haircut, plus the absolute net
 * of each currency other than the settlement currency times the currency haircut, 8
 * percent. Cash is in the net of its currency, and in none of a security. The haircut of
 * a security is that of collateral by the set's table; of goods that are not eligible,
 * which can only have been lent, it is that of such lent goods. Every haircut is scaled
 * by itself to n = interval + 4 business days: H millionths become the least h with
 * 10 x h x h at or above H x H x n. The sum is rounded up once; E* is not below 0 and
 * not above all that was lent. The weighted amount is E* times the counterparty's
 * weight, with its floor, divided by 100 and rounded up.
 */
uint64_t hadlephoga_net_set(const uint64_t *set, size_t set_length,
                            uint64_t *exposure, uint64_t *rwa);

/* Refusals of a line of a book, of opening and of adding: 11 malformed (unknown
 * letter, wrong number of fields, bad number, no line feed), before all others; 6
 * that list is full; 1 amount over the limit; 2 unknown edition, class, kind or
 * type; 3 step or sovereign's step above 6, or not 0 where 0 is due; 4 currency; 5
 * interval, term or issue life outside its range; 7 residual term above original;
 * 8 a condition neither 0 nor 1.
 *
 * Of a netting set, 1 to 5 say the same of its fields: 2 falls on an unknown table or
 * side too, 5 on an interval above 60 and on a wrong security number. */

/* The answer to a deal of a book. */
struct hadlephoga_answer {
  uint64_t serial;          /* from 1 */
  uint64_t refusal;         /* of the deal's first refused line (1 to 8, 11), or 0 */
  uint64_t exposure;        /* E*; where refused, that line's number (header: 1) */
  uint64_t weighted_amount; /* where refused, 0 */
};

/* An amount is 0 to 1,000,000,000,000; a step 1 to 6, or 0 unrated; a currency
 * its ISO 4217 number, 1 to 999; a term or life 1 to 100,000 days, an item's
 * residual term not above its original one; a condition 1 met or 0 not met. */

/* The edition is what the header of a book says, 1, 2 or 3. Under editions 2 and 3
 * an unrated bank or corporate weighs at least what its sovereign of incorporation
 * weighs, whose step is the sovereign's step: 0 for the class sovereign and for
 * retail, under every edition. Under edition 1 it has no effect, and the lines
 * of a book leave it out, so that it reads 0. Editions 1 and 2 have the tables of
 * 2019, edition 3 those of 2023: other haircuts of other issuers' and bank debt, of
 * equity, of gold and of lent goods that are not eligible; other weights of banks at
 * step 2 and unrated, and of class 3 at step 3. */

/* Goods: 1 cash, 2 sovereign debt, 3 other issuers' debt, 4 bank debt, 5
 * securitisation, 6 re-securitisation, 7 main index equity, 8 other listed
 * equity, 9 gold. Types 1, 7, 8, 9 have step 0 and issue life 0. */

/* An item of collateral. */
struct hadlephoga_collateral {
  uint64_t amount;
  uint64_t type;          /* of goods */
  uint64_t step;
  uint64_t issue_life;    /* of the security itself */
  uint64_t currency;
  uint64_t residual_term; /* of the pledge */
  uint64_t original_term; /* of the pledge */
  uint64_t lawful;
  uint64_t unrelated;     /* to the counterparty */
  uint64_t unreflected;   /* not already in the rating used */
  uint64_t listed;        /* senior bank paper; counts for type 4 at step 0 alone */
};

/* A guarantee, as it is sent. */
struct hadlephoga_guarantee {
  uint64_t amount;
  uint64_t provider_class; /* 1 sovereign, 2 bank or securities firm, 3 other entity */
  uint64_t step;
  uint64_t sovereign_step; /* of the provider's sovereign */
  uint64_t currency;
  uint64_t residual_term;
  uint64_t original_term;
  uint64_t lawful;
  uint64_t direct;
  uint64_t unreflected; /* not already in the rating used */
};

/* A credit default swap, as it is sent: the numbers of a guarantee and one
 * condition more. Where that is not met, the swap's amount is first cut to
 * min(swap's amount, deal's amount) x 60 / 100, rounded down, the deal's amount
 * being the one in its terms; currency and maturity follow as for a guarantee.
 * Where it is met, the whole amount counts, above the deal's too. In all else a
 * swap is a guarantee: its grounds, and its turn in the order of weight. */
struct hadlephoga_swap {
  uint64_t amount;
  uint64_t provider_class;
  uint64_t step;
  uint64_t sovereign_step;
  uint64_t currency;
  uint64_t residual_term;
  uint64_t original_term;
  uint64_t lawful;
  uint64_t direct;
  uint64_t unreflected;
  uint64_t restructuring; /* is a credit event */
};

/* Instruments: what a place of the list of guarantees holds. */
#define HADLEPHOGA_GUARANTEE_INSTRUMENT 0
#define HADLEPHOGA_SWAP_WITHOUT_RESTRUCTURING 1
#define HADLEPHOGA_SWAP_WITH_RESTRUCTURING 2

/* A guarantee or a swap, as a record holds it. */
struct hadlephoga_held_guarantee {
  uint64_t amount;
  uint64_t provider_class;
  uint64_t step;
  uint64_t sovereign_step;
  uint64_t currency;
  uint64_t residual_term;
  uint64_t original_term;
  uint64_t lawful;
  uint64_t direct;
  uint64_t unreflected;
  uint64_t instrument; /* 0, 1 or 2; another is 40 */
};

/* The terms of a deal. */
struct hadlephoga_terms {
  uint64_t amount;
  uint64_t counterparty_class; /* 1 sovereign, 2 bank, 3 corporate, 4 retail (step 0) */
  uint64_t step;
  uint64_t sovereign_step; /* of the counterparty's sovereign */
  uint64_t currency;
  uint64_t kind;     /* 1 repo-style, 2 other capital market, 3 secured lending */
  uint64_t interval; /* of revaluation, 1 to 250 business days */
  uint64_t residual_term;
  uint64_t lent_type; /* a loan lends cash: 1, 0, 0 */
  uint64_t lent_step;
  uint64_t lent_issue_life;
  uint64_t edition; /* 1; 2 with the floor of the sovereign's weight; 3 with the tables of 2023 too */
};

/* A deal's record. Places at or past a count are not looked at. */
struct hadlephoga_deal {
  struct hadlephoga_terms terms;
  uint64_t collateral_count;
  struct hadlephoga_collateral collateral[HADLEPHOGA_ITEMS];
  uint64_t guarantee_count; /* of guarantees and swaps together */
  struct hadlephoga_held_guarantee guarantees[HADLEPHOGA_ITEMS];
};

/* What an item of collateral is worth, and where the rest of its amount went. From
 * the amount that was sent to the value there are three steps: a swap's cut, the
 * haircut, the maturity. A loss is what its step took of what it found, what was
 * rounded down included. Where the item is valued, the ground and left_out are 0 and
 *
 *   value + haircut_loss + maturity_loss + cut_loss = the amount that was sent.
 *
 * Where it is left out, left_out is the whole amount that was sent, value and losses
 * are 0, and the ground is the first that applies: 21 not lawful, 22 related, 23
 * already in the rating, 24 not eligible by type and step, 25 mismatch with original
 * term under 360, 26 mismatch with residual term of 90 or less. */
struct hadlephoga_outcome {
  uint64_t value;
  uint64_t ground;
  uint64_t haircut_loss;  /* by the haircuts of the goods and of another currency */
  uint64_t maturity_loss; /* by a term that is shorter than the deal's */
  uint64_t cut_loss;      /* 0: collateral is not cut */
  uint64_t left_out;
};

/* The same of a guarantee or a swap, and the part of E* that it covers, 0 where it is
 * left out. A swap without its condition loses by the cut all but the 60 percent that
 * count, what stands above the deal's amount included; a guarantee, and a swap with
 * the condition, lose 0. Grounds: 21, 27 not direct, 23, 28 other entity unrated, 25,
 * 26, 29 provider's weight not below the counterparty's, both with their floors. */
struct hadlephoga_cover {
  uint64_t value;
  uint64_t ground;
  uint64_t haircut_loss; /* by the haircut of another currency */
  uint64_t maturity_loss;
  uint64_t cut_loss;
  uint64_t left_out;
  uint64_t portion;
};

/* A deal's report: items in order of adding, zeros in every number past a count. */
struct hadlephoga_report {
  uint64_t exposure; /* E* */
  struct hadlephoga_outcome collateral[HADLEPHOGA_ITEMS];
  struct hadlephoga_cover guarantees[HADLEPHOGA_ITEMS];
  uint64_t rest; /* of E*, uncovered */
  uint64_t weighted_amount;
};

/* The terms of a netting set. Under both tables an unrated bank or corporate weighs at
 * least what its sovereign weighs. */
struct hadlephoga_set_terms {
  uint64_t table;              /* 2 haircuts and weights of 2019, 3 those of 2023 */
  uint64_t counterparty_class; /* 1 sovereign, 2 bank, 3 corporate, 4 retail (step 0) */
  uint64_t step;
  uint64_t sovereign_step; /* of the counterparty's sovereign */
  uint64_t settlement_currency;
  uint64_t interval; /* of revaluation, 1 to 60 business days */
};

/* Sides of a position. */
#define HADLEPHOGA_LENT 1
#define HADLEPHOGA_RECEIVED 2

/* A position of a netting set. */
struct hadlephoga_position {
  uint64_t side;       /* 1 lent, 2 received */
  uint64_t amount;
  uint64_t security;   /* its number, 1 to 999, by which it is netted; 0 for cash and nothing else */
  uint64_t type;       /* of goods */
  uint64_t step;
  uint64_t issue_life; /* of the security itself */
  uint64_t currency;
};

/* A netting set with a place for every position it may have. */
struct hadlephoga_set {
  struct hadlephoga_set_terms terms;
  struct hadlephoga_position positions[HADLEPHOGA_POSITIONS];
};

/* The structs are their numbers, one behind the other. C99 has no static assertion to check it. */
#if defined(__cplusplus) && __cplusplus >= 201103L
#define HADLEPHOGA_ASSERT static_assert
#elif defined(__STDC_VERSION__) && __STDC_VERSION__ >= 201112L
#define HADLEPHOGA_ASSERT _Static_assert
#endif
#ifdef HADLEPHOGA_ASSERT
HADLEPHOGA_ASSERT(sizeof(struct hadlephoga_answer) == HADLEPHOGA_ANSWER_LENGTH * sizeof(uint64_t), "an answer");
HADLEPHOGA_ASSERT(sizeof(struct hadlephoga_terms) == HADLEPHOGA_TERMS_WIDTH * sizeof(uint64_t), "terms");
HADLEPHOGA_ASSERT(sizeof(struct hadlephoga_collateral) == HADLEPHOGA_COLLATERAL_WIDTH * sizeof(uint64_t),
                  "an item of collateral");
HADLEPHOGA_ASSERT(sizeof(struct hadlephoga_guarantee) == HADLEPHOGA_GUARANTEE_WIDTH * sizeof(uint64_t), "a guarantee");
HADLEPHOGA_ASSERT(sizeof(struct hadlephoga_swap) == HADLEPHOGA_SWAP_WIDTH * sizeof(uint64_t), "a swap");
HADLEPHOGA_ASSERT(sizeof(struct hadlephoga_held_guarantee) == HADLEPHOGA_HELD_GUARANTEE_WIDTH * sizeof(uint64_t),
                  "a guarantee or a swap in a record");
HADLEPHOGA_ASSERT(sizeof(struct hadlephoga_deal) == HADLEPHOGA_RECORD_LENGTH * sizeof(uint64_t), "a record");
HADLEPHOGA_ASSERT(sizeof(struct hadlephoga_outcome) == HADLEPHOGA_OUTCOME_WIDTH * sizeof(uint64_t), "an outcome");
HADLEPHOGA_ASSERT(sizeof(struct hadlephoga_cover) == HADLEPHOGA_COVER_WIDTH * sizeof(uint64_t), "a cover");
HADLEPHOGA_ASSERT(sizeof(struct hadlephoga_report) == HADLEPHOGA_REPORT_LENGTH * sizeof(uint64_t), "a report");
HADLEPHOGA_ASSERT(sizeof(struct hadlephoga_set_terms) == HADLEPHOGA_SET_TERMS_WIDTH * sizeof(uint64_t),
                  "terms of a netting set");
HADLEPHOGA_ASSERT(sizeof(struct hadlephoga_position) == HADLEPHOGA_POSITION_WIDTH * sizeof(uint64_t), "a position");
HADLEPHOGA_ASSERT(sizeof(struct hadlephoga_set) == HADLEPHOGA_SET_LENGTH(HADLEPHOGA_POSITIONS) * sizeof(uint64_t),
                  "a netting set");
#undef HADLEPHOGA_ASSERT
#endif

/* hadlephoga_answer_book into a list of answers. */
static inline uint64_t hadlephoga_answers(const uint8_t *book, size_t book_length,
                                          struct hadlephoga_answer *answers, size_t answers_length,
                                          uint64_t *deals)
{
  return hadlephoga_answer_book(book, book_length, (uint64_t *)answers,
                                answers_length * HADLEPHOGA_ANSWER_LENGTH, deals);
}

/* hadlephoga_open_deal of structs; 0 or 1 to 5. */
static inline uint64_t hadlephoga_open_with(const struct hadlephoga_terms *terms, struct hadlephoga_deal *deal)
{
  return hadlephoga_open_deal((const uint64_t *)terms, HADLEPHOGA_TERMS_WIDTH,
                              (uint64_t *)deal, HADLEPHOGA_RECORD_LENGTH);
}

/* hadlephoga_add_collateral of structs; 0, 40 or 1 to 8. */
static inline uint64_t hadlephoga_add_collateral_to(struct hadlephoga_deal *deal,
                                                    const struct hadlephoga_collateral *item)
{
  return hadlephoga_add_collateral((uint64_t *)deal, HADLEPHOGA_RECORD_LENGTH,
                                   (const uint64_t *)item, HADLEPHOGA_COLLATERAL_WIDTH);
}

/* hadlephoga_add_guarantee of structs; 0, 40 or 1 to 8. */
static inline uint64_t hadlephoga_add_guarantee_to(struct hadlephoga_deal *deal,
                                                   const struct hadlephoga_guarantee *item)
{
  return hadlephoga_add_guarantee((uint64_t *)deal, HADLEPHOGA_RECORD_LENGTH,
                                  (const uint64_t *)item, HADLEPHOGA_GUARANTEE_WIDTH);
}

/* hadlephoga_add_swap of structs; 0, 40 or 1 to 8. */
static inline uint64_t hadlephoga_add_swap_to(struct hadlephoga_deal *deal, const struct hadlephoga_swap *item)
{
  return hadlephoga_add_swap((uint64_t *)deal, HADLEPHOGA_RECORD_LENGTH,
                             (const uint64_t *)item, HADLEPHOGA_SWAP_WIDTH);
}

/* hadlephoga_report_deal of a struct; 0 or 40. */
static inline uint64_t hadlephoga_report_of(const struct hadlephoga_deal *deal, struct hadlephoga_report *report)
{
  return hadlephoga_report_deal((const uint64_t *)deal, HADLEPHOGA_RECORD_LENGTH,
                                (uint64_t *)report, HADLEPHOGA_REPORT_LENGTH);
}

/* hadlephoga_net_set of a struct whose first count positions are the set's; 0, 1 to 5
 * or 15 to 17. count is at most HADLEPHOGA_POSITIONS: more positions, which are 6, are
 * passed as numbers. */
static inline uint64_t hadlephoga_net(const struct hadlephoga_set *set, size_t count, uint64_t *exposure, uint64_t *rwa)
{
  return hadlephoga_net_set((const uint64_t *)set, HADLEPHOGA_SET_LENGTH(count), exposure, rwa);
}

#ifdef __cplusplus
}
#endif

#endif
