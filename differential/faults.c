/* The proved library with one number spoiled, or with some days, a party, an
 * edition, a table, a stored figure, a swap, a loss or an order mistaken, chosen by
 * HADLEPHOGA_FAULT. */
#include <stdlib.h>
#include <string.h>

#include "faults.h"

/* Numbers of a report before there were losses. */
#define EARLIER_REPORT_LENGTH 83

static const char *chosen(void)
{
  static const char *name;

  if (name == NULL) {
    const char *set = getenv("HADLEPHOGA_FAULT");

    name = set == NULL ? "" : set;
  }
  return name;
}

int fault(const char *name)
{
  return strcmp(chosen(), name) == 0;
}

int fault_of(const char *of, const char *name)
{
  size_t length = strlen(of);

  return strncmp(chosen(), of, length) == 0 && strcmp(chosen() + length, name) == 0;
}

int fault_among(const char *of)
{
  return fault_behind(of) != NULL;
}

const char *fault_behind(const char *of)
{
  size_t length = strlen(of);

  return strncmp(chosen(), of, length) == 0 ? chosen() + length : NULL;
}

/* The last deal's answer that is, or is not, a refusal. */
static uint64_t *last_answer(uint64_t *results, uint64_t deals, int refused)
{
  while (deals > 0) {
    uint64_t *answer = results + --deals * HADLEPHOGA_ANSWER_LENGTH;

    if ((answer[1] != 0) == refused)
      return answer;
  }
  return NULL;
}

static void lower(uint64_t *number)
{
  if (*number > 0)
    *number -= 1;
}

/* One of a list of numbers that lie some places apart: the last that is not 0. */
static void lower_last(uint64_t *first, size_t apart)
{
  for (size_t i = HADLEPHOGA_ITEMS; i-- > 0;)
    if (first[i * apart] != 0) {
      first[i * apart] -= 1;
      return;
    }
}

/* Terms or an item as the library is to take them; another count of numbers is 11. */
static const uint64_t *terms_taken(const uint64_t *terms, size_t length, struct hadlephoga_terms *copy)
{
  if (length != HADLEPHOGA_TERMS_WIDTH)
    return terms;
  memcpy(copy, terms, sizeof *copy);
  mistake_terms_days(copy);
  mistake_terms_party(copy);
  return (const uint64_t *)copy;
}

static const uint64_t *collateral_taken(const uint64_t *item, size_t length, struct hadlephoga_collateral *copy)
{
  if (length != HADLEPHOGA_COLLATERAL_WIDTH)
    return item;
  memcpy(copy, item, sizeof *copy);
  mistake_collateral_days(copy);
  return (const uint64_t *)copy;
}

static const uint64_t *guarantee_taken(const uint64_t *item, size_t length, struct hadlephoga_guarantee *copy)
{
  if (length != HADLEPHOGA_GUARANTEE_WIDTH)
    return item;
  memcpy(copy, item, sizeof *copy);
  mistake_guarantee_days(copy);
  mistake_guarantee_party(copy);
  return (const uint64_t *)copy;
}

/* A swap of ten numbers, or a guarantee of eleven, may be taken too. */
static const uint64_t *swap_taken(const uint64_t *item, size_t *length, struct hadlephoga_swap *copy)
{
  if (*length == HADLEPHOGA_GUARANTEE_WIDTH && fault("swap-ten")) {
    *copy = (struct hadlephoga_swap){.restructuring = 0};
    memcpy(copy, item, HADLEPHOGA_GUARANTEE_WIDTH * sizeof *item);
    *length = HADLEPHOGA_SWAP_WIDTH;
    return (const uint64_t *)copy;
  }
  if (*length != HADLEPHOGA_SWAP_WIDTH)
    return item;
  memcpy(copy, item, sizeof *copy);
  mistake_swap_days(copy);
  mistake_swap_party(copy);
  mistake_swap_entry(copy);
  return (const uint64_t *)copy;
}

static const uint64_t *record_taken(const uint64_t *record, size_t length, struct hadlephoga_deal *copy)
{
  if (length != HADLEPHOGA_RECORD_LENGTH)
    return record;
  memcpy(copy, record, sizeof *copy);
  mistake_record_days(copy);
  mistake_record_parties(copy);
  mistake_record_instruments("report", copy);
  return (const uint64_t *)copy;
}

static int headed(const uint8_t *book, size_t length, char edition)
{
  static const char before[] = "CRM\t";

  return length >= 6 && memcmp(book, before, 4) == 0 && book[4] == (uint8_t)edition && book[5] == '\n';
}

static const uint8_t *book_taken(const uint8_t *book, size_t *length, uint8_t *copy)
{
  if (*length > HADLEPHOGA_BOOK_LIMIT)
    return book;
  memcpy(copy, book, *length);
  if (fault("book-header-3-as-2") && headed(book, *length, '3'))
    copy[4] = '2';
  if (fault("book-header-4") && headed(book, *length, '4'))
    copy[4] = '3';
  mistake_book_days(copy, *length);
  mistake_book_parties(copy, *length);
  mistake_book_lines(copy, *length);
  *length = mistake_book_swaps(copy, *length);
  return copy;
}

uint64_t hadlephoga_layout(void)
{
  return exact_layout() + (uint64_t)fault("layout");
}

static void spoil_answers(uint64_t *results, uint64_t deals)
{
  uint64_t *accepted = last_answer(results, deals, 0);
  uint64_t *refused = last_answer(results, deals, 1);

  if (accepted != NULL && fault("book-serial"))
    accepted[0] += 1;
  if (accepted != NULL && fault("book-exposure"))
    lower(&accepted[2]);
  if (accepted != NULL && fault("book-weighted-amount"))
    lower(&accepted[3]);
  if (refused != NULL && fault("book-deal-refusal"))
    refused[1] = refused[1] == 11 ? 2 : 11;
  if (refused != NULL && fault("book-line-number"))
    refused[2] += 1;
}

uint64_t hadlephoga_answer_book(const uint8_t *book, size_t book_length,
                                uint64_t *results, size_t results_length,
                                uint64_t *deals)
{
  uint8_t copy[HADLEPHOGA_BOOK_LIMIT];
  size_t taken_length = book_length;
  const uint8_t *taken = book_taken(book, &taken_length, copy);
  struct hadlephoga_answer *answers = (struct hadlephoga_answer *)results;
  uint64_t refusal;

  *deals = 0;
  if ((fault("book-header-2") && headed(book, book_length, '2')) ||
      (fault("book-header-3") && headed(book, book_length, '3')))
    return 9;
  refusal = exact_answer_book(taken, taken_length, results, results_length, deals);
  if (refusal != 0) {
    if (fault("book-refusal") && refusal == 13)
      return 12;
    if (fault("book-refused-count"))
      *deals = 1;
    if (fault("book-refused-list") && results_length > 0)
      results[0] = 0;
    return refusal;
  }
  mistake_answers("book-2023", mistake_tables, taken, taken_length, answers);
  mistake_answers("book-daily", mistake_figures, taken, taken_length, answers);
  mistake_answers("book-swaps", mistake_swaps, taken, taken_length, answers);
  mistake_answers("book-order", mistake_order, taken, taken_length, answers);
  overlook_last_lines(taken, taken_length, answers);
  mistake_full_lists(taken, taken_length, answers);
  spoil_answers(results, *deals);
  if (fault("book-behind-answers") && results_length / HADLEPHOGA_ANSWER_LENGTH > *deals)
    results[*deals * HADLEPHOGA_ANSWER_LENGTH] = 0;
  /* Outside the list, where the comparison has its margin. */
  if (fault("book-behind-list"))
    results[results_length] = 0;
  if (fault("book-count"))
    *deals += 1;
  return 0;
}

uint64_t hadlephoga_open_deal(const uint64_t *terms, size_t terms_length,
                              uint64_t *record, size_t record_length)
{
  struct hadlephoga_terms copy;
  const uint64_t *taken = terms_taken(terms, terms_length, &copy);
  uint64_t refusal = exact_open_deal(taken, terms_length, record, record_length);

  if (fault("open-behind-list"))
    record[record_length] = 0;
  if (refusal == 13)
    return fault("open-short") ? 11 : 13;
  if (fault("open-behind-record") && record_length > HADLEPHOGA_RECORD_LENGTH)
    record[HADLEPHOGA_RECORD_LENGTH] = 0;
  if (refusal != 0) {
    if (fault("open-refused-list"))
      record[HADLEPHOGA_TERMS_WIDTH] = 1;
    if (refusal == 11)
      return fault("open-fields") ? 5 : 11;
    return fault("open-refusal") && refusal == 4 ? 5 : refusal;
  }
  if (fault("open-terms"))
    lower(&record[HADLEPHOGA_TERMS_WIDTH - 1]);
  if (fault("open-lists"))
    record[HADLEPHOGA_RECORD_LENGTH - 1] = 1;
  return 0;
}

/* What adding answered and left, with the place of the list's count. */
static uint64_t added(const char *list, uint64_t refusal, uint64_t *record, size_t record_length,
                      size_t count, size_t width)
{
  if (fault_of(list, "-behind-list"))
    record[record_length] = 0;
  if (refusal != 0) {
    if (fault_of(list, "-refused-record") && record_length > 0)
      record[record_length - 1] += 1;
    if (refusal == 11)
      return fault_of(list, "-fields") ? 40 : 11;
    if (refusal == 40)
      return fault_of(list, "-record") ? 6 : 40;
    if (refusal == 6)
      return fault_of(list, "-full") ? 40 : 6;
    return fault_of(list, "-refusal") && refusal == 7 ? 8 : refusal;
  }
  if (fault_of(list, "-item"))
    record[count + 1 + (record[count] - 1) * width] ^= 1;
  if (fault_of(list, "-count"))
    record[count] -= 1;
  return 0;
}

/* The record's edition and instruments are mistaken while an item is added, and then
 * put back. */
static void put_mistaken(const char *list, uint64_t *record, size_t length, struct hadlephoga_deal *before)
{
  struct hadlephoga_deal *deal = (struct hadlephoga_deal *)record;

  if (length != HADLEPHOGA_RECORD_LENGTH)
    return;
  *before = *deal;
  deal->terms.edition = mistaken_edition(list, deal->terms.edition);
  mistake_record_instruments(list, deal);
}

static void put_back(uint64_t *record, size_t length, const struct hadlephoga_deal *before)
{
  struct hadlephoga_deal *deal = (struct hadlephoga_deal *)record;

  if (length != HADLEPHOGA_RECORD_LENGTH)
    return;
  deal->terms.edition = before->terms.edition;
  put_back_instruments(before, deal);
}

/* What adding a guarantee or a swap answered and left. */
static uint64_t added_guarantee(const char *list, uint64_t refusal, uint64_t *record, size_t record_length)
{
  struct hadlephoga_deal *deal = (struct hadlephoga_deal *)record;

  if (refusal == 0)
    mistake_held(list, &deal->guarantees[deal->guarantee_count - 1]);
  if (refusal == 6 && has_room_apart(list, deal, strcmp(list, "swap") == 0))
    return 0;
  return added(list, refusal, record, record_length,
               HADLEPHOGA_RECORD_LENGTH - HADLEPHOGA_ITEMS * HADLEPHOGA_HELD_GUARANTEE_WIDTH - 1,
               HADLEPHOGA_HELD_GUARANTEE_WIDTH);
}

uint64_t hadlephoga_add_collateral(uint64_t *record, size_t record_length,
                                   const uint64_t *item, size_t item_length)
{
  struct hadlephoga_collateral copy;
  const uint64_t *taken = collateral_taken(item, item_length, &copy);
  struct hadlephoga_deal before;
  uint64_t refusal;

  put_mistaken("collateral", record, record_length, &before);
  refusal = exact_add_collateral(record, record_length, taken, item_length);
  put_back(record, record_length, &before);
  return added("collateral", refusal, record, record_length, HADLEPHOGA_TERMS_WIDTH, HADLEPHOGA_COLLATERAL_WIDTH);
}

uint64_t hadlephoga_add_guarantee(uint64_t *record, size_t record_length,
                                  const uint64_t *item, size_t item_length)
{
  struct hadlephoga_guarantee copy;
  const uint64_t *taken = guarantee_taken(item, item_length, &copy);
  struct hadlephoga_deal before;
  uint64_t refusal;

  if (item_length == HADLEPHOGA_SWAP_WIDTH && fault("guarantee-eleven"))
    item_length = HADLEPHOGA_GUARANTEE_WIDTH;
  put_mistaken("guarantee", record, record_length, &before);
  refusal = exact_add_guarantee(record, record_length, taken, item_length);
  put_back(record, record_length, &before);
  return added_guarantee("guarantee", refusal, record, record_length);
}

uint64_t hadlephoga_add_swap(uint64_t *record, size_t record_length,
                             const uint64_t *item, size_t item_length)
{
  struct hadlephoga_swap copy;
  const uint64_t *taken = swap_taken(item, &item_length, &copy);
  struct hadlephoga_deal before;
  uint64_t refusal;

  put_mistaken("swap", record, record_length, &before);
  refusal = exact_add_swap(record, record_length, taken, item_length);
  put_back(record, record_length, &before);
  return added_guarantee("swap", refusal, record, record_length);
}

/* One number of the report of an accepted deal, but for those of faults-losses.c. */
static void spoil_report(struct hadlephoga_report *report)
{
  if (fault("report-exposure"))
    lower(&report->exposure);
  if (fault("report-collateral-value"))
    lower_last(&report->collateral[0].value, HADLEPHOGA_OUTCOME_WIDTH);
  if (fault("report-collateral-ground"))
    lower_last(&report->collateral[0].ground, HADLEPHOGA_OUTCOME_WIDTH);
  if (fault("report-guarantee-value"))
    lower_last(&report->guarantees[0].value, HADLEPHOGA_COVER_WIDTH);
  if (fault("report-guarantee-ground"))
    lower_last(&report->guarantees[0].ground, HADLEPHOGA_COVER_WIDTH);
  if (fault("report-portion"))
    lower_last(&report->guarantees[0].portion, HADLEPHOGA_COVER_WIDTH);
  if (fault("report-rest"))
    lower(&report->rest);
  if (fault("report-weighted-amount"))
    lower(&report->weighted_amount);
}

uint64_t hadlephoga_report_deal(const uint64_t *record, size_t record_length,
                                uint64_t *report, size_t report_length)
{
  struct hadlephoga_deal copy;
  const uint64_t *taken = record_taken(record, record_length, &copy);
  const struct hadlephoga_deal *deal = (const struct hadlephoga_deal *)taken;
  struct hadlephoga_report *reported = (struct hadlephoga_report *)report;
  uint64_t refusal = exact_report_deal(taken, record_length, report, report_length);

  if (refusal == 13) {
    if (fault("report-short-earlier") && report_length == EARLIER_REPORT_LENGTH)
      return 0;
    return fault("report-short") ? 40 : 13;
  }
  if (refusal == 40) {
    if (fault("report-refused-list"))
      report[1] = 1;
    mistake_refused("report-losses", reported);
    return fault(record_length == HADLEPHOGA_RECORD_LENGTH ? "report-refusal" : "report-record-length") ? 0 : 40;
  }
  mistake_tables("report-2023", *deal, reported);
  mistake_figures("report-daily", *deal, reported);
  mistake_swaps("report-swaps", *deal, reported);
  mistake_losses("report-losses", *deal, reported);
  mistake_order("report-order", *deal, reported);
  spoil_report(reported);
  if (fault("report-behind-report") && report_length > HADLEPHOGA_REPORT_LENGTH)
    report[HADLEPHOGA_REPORT_LENGTH] = 0;
  if (fault("report-behind-list"))
    report[report_length] = 0;
  return 0;
}
