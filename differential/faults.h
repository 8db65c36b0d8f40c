/* Faults of the proved library, one at a time, chosen by HADLEPHOGA_FAULT. */
#include <stddef.h>
#include <stdint.h>

#include "hadlephoga.h"

/* The library's own calls, renamed by differential/faults. */
uint64_t exact_layout(void);
uint64_t exact_answer_book(const uint8_t *book, size_t book_length,
                           uint64_t *results, size_t results_length,
                           uint64_t *deals);
uint64_t exact_repair_book(const uint8_t *book, size_t book_length,
                           uint8_t *repaired, size_t repaired_length,
                           uint64_t *altered, size_t altered_length,
                           uint64_t *bytes, uint64_t *lines);
uint64_t exact_net_set(const uint64_t *set, size_t set_length,
                       uint64_t *exposure, uint64_t *rwa);
uint64_t exact_open_deal(const uint64_t *terms, size_t terms_length,
                         uint64_t *record, size_t record_length);
uint64_t exact_add_collateral(uint64_t *record, size_t record_length,
                              const uint64_t *item, size_t item_length);
uint64_t exact_add_guarantee(uint64_t *record, size_t record_length,
                             const uint64_t *item, size_t item_length);
uint64_t exact_add_swap(uint64_t *record, size_t record_length,
                        const uint64_t *item, size_t item_length);
uint64_t exact_report_deal(const uint64_t *record, size_t record_length,
                           uint64_t *report, size_t report_length);

/* Whether this fault is chosen; or one of a list, of a field or of a call; or any
 * of such. */
int fault(const char *name);
int fault_of(const char *of, const char *name);
int fault_among(const char *of);

/* What the name of the chosen fault has behind this, or NULL. */
const char *fault_behind(const char *of);

/* What the library is passed in place of what it was sent, so that it seems to
 * take it for something else. Days: cut to 16 bits, or held to a limit that is a
 * day too low or too high. */
void mistake_terms_days(struct hadlephoga_terms *terms);
void mistake_collateral_days(struct hadlephoga_collateral *item);
void mistake_guarantee_days(struct hadlephoga_guarantee *item);
void mistake_swap_days(struct hadlephoga_swap *item);
void mistake_record_days(struct hadlephoga_deal *deal);
void mistake_book_days(uint8_t *book, size_t length);

/* Parties and editions: another floor, another entry, another edition. */
void mistake_terms_party(struct hadlephoga_terms *terms);
void mistake_guarantee_party(struct hadlephoga_guarantee *item);
void mistake_swap_party(struct hadlephoga_swap *item);
void mistake_record_parties(struct hadlephoga_deal *deal);
void mistake_book_parties(uint8_t *book, size_t length);
uint64_t mistaken_edition(const char *call, uint64_t edition);

/* Swaps: another entry of their condition, another instrument, another letter. What
 * is so mistaken of a book is no longer than it was. A record's instruments are
 * mistaken while an item is added, and then put back. */
void mistake_swap_entry(struct hadlephoga_swap *item);
void mistake_record_instruments(const char *call, struct hadlephoga_deal *deal);
void put_back_instruments(const struct hadlephoga_deal *before, struct hadlephoga_deal *deal);
size_t mistake_book_swaps(uint8_t *book, size_t length);
void mistake_held(const char *list, struct hadlephoga_held_guarantee *item);
/* Whether a full list is taken for one that has room, as if guarantees and swaps had
 * places of their own: of a deal, of the answers to a book. */
int has_room_apart(const char *list, const struct hadlephoga_deal *deal, int swap);
void mistake_full_lists(const uint8_t *book, size_t length, struct hadlephoga_answer *answers);

/* Tables, stored figures and cuts: what is written in place of the report of an accepted
 * deal; and, so mistaken, in place of the answers to a book that is not refused. */
typedef void mistake_report(const char *of, struct hadlephoga_deal deal, struct hadlephoga_report *report);
mistake_report mistake_tables;
mistake_report mistake_figures;
mistake_report mistake_swaps;
void mistake_answers(const char *of, mistake_report *mistake, const uint8_t *book, size_t length,
                     struct hadlephoga_answer *answers);
/* Losses and amounts left out, which no answer shows; and such beside a refusal. */
mistake_report mistake_losses;
void mistake_refused(const char *of, struct hadlephoga_report *report);

/* Orders: figures that hang on an item's place or on how many items an amount is in; lines
 * of a book that hang on those before them, and such as are overlooked. */
mistake_report mistake_order;
void mistake_book_lines(uint8_t *book, size_t length);
void overlook_last_lines(const uint8_t *book, size_t length, struct hadlephoga_answer *answers);

/* What these are put together from: the report of an accepted deal; cash that is
 * worth its whole amount in the deal; the deal with guarantees of what is left of
 * its swaps in place of these; the deal, without swaps, with the exposure that its
 * collateral leaves, lent in cash without any. In the report of a deal so passed each
 * item then gets back what it lost before: by the cut until its swaps were settled, by
 * the haircut from then on. */
struct hadlephoga_report exact_report(const struct hadlephoga_deal *deal);
struct hadlephoga_collateral cash(const struct hadlephoga_terms *terms, uint64_t amount);
void settle_swaps(struct hadlephoga_deal *deal);
void leave_exposure(struct hadlephoga_deal *deal, uint64_t exposure);
void put_losses(const struct hadlephoga_deal *sent, const struct hadlephoga_deal *settled,
                const struct hadlephoga_deal *passed, struct hadlephoga_report *report);
