/* Days mistaken: cut to 16 bits, or held to a limit that is a day too low or too
 * high. */
#include <string.h>

#include "faults.h"

#define DAYS_LIMIT 100000

enum mistake { NONE, CUT, LOW, HIGH };

static enum mistake mistake_of(const char *field)
{
  return fault_of(field, "-cut") ? CUT : fault_of(field, "-low") ? LOW : fault_of(field, "-high") ? HIGH : NONE;
}

static void mistake_days(const char *field, uint64_t *days)
{
  switch (mistake_of(field)) {
  case CUT:
    *days &= 0xFFFF;
    break;
  case LOW:
    if (*days == DAYS_LIMIT)
      *days = DAYS_LIMIT + 1;
    break;
  case HIGH:
    if (*days == DAYS_LIMIT + 1)
      *days = DAYS_LIMIT;
    break;
  case NONE:
    break;
  }
}

void mistake_terms_days(struct hadlephoga_terms *terms)
{
  mistake_days("open-term", &terms->residual_term);
  mistake_days("open-life", &terms->lent_issue_life);
}

void mistake_collateral_days(struct hadlephoga_collateral *item)
{
  mistake_days("collateral-life", &item->issue_life);
  mistake_days("collateral-residual", &item->residual_term);
  mistake_days("collateral-original", &item->original_term);
}

void mistake_guarantee_days(struct hadlephoga_guarantee *item)
{
  mistake_days("guarantee-residual", &item->residual_term);
  mistake_days("guarantee-original", &item->original_term);
}

void mistake_swap_days(struct hadlephoga_swap *item)
{
  mistake_days("swap-residual", &item->residual_term);
  mistake_days("swap-original", &item->original_term);
}

/* All fields of a record at once. */
void mistake_record_days(struct hadlephoga_deal *deal)
{
  if (mistake_of("report-days") == NONE)
    return;
  mistake_days("report-days", &deal->terms.residual_term);
  mistake_days("report-days", &deal->terms.lent_issue_life);
  for (size_t i = 0; i < HADLEPHOGA_ITEMS; i++) {
    mistake_days("report-days", &deal->collateral[i].issue_life);
    mistake_days("report-days", &deal->collateral[i].residual_term);
    mistake_days("report-days", &deal->collateral[i].original_term);
    mistake_days("report-days", &deal->guarantees[i].residual_term);
    mistake_days("report-days", &deal->guarantees[i].original_term);
  }
}

/* The days at the limit in every field but a line's last. An amount of as many is
 * mistaken too, but next to none is one. */
void mistake_book_days(uint8_t *book, size_t length)
{
  enum mistake mistake = mistake_of("book-days");
  const char *from = mistake == LOW ? "\t100000\t" : "\t100001\t";
  const char *to = mistake == LOW ? "\t100001\t" : "\t100000\t";

  if (mistake == NONE)
    return;
  for (size_t at = 0; at + strlen(from) <= length; at++)
    if (memcmp(book + at, from, strlen(from)) == 0)
      memcpy(book + at, to, strlen(to));
}
