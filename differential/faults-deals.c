/* What reports are put together from, and the accepted deals of a book. */
#include <string.h>

#include "faults.h"

struct hadlephoga_report exact_report(const struct hadlephoga_deal *deal)
{
  struct hadlephoga_report report;

  exact_report_deal((const uint64_t *)deal, HADLEPHOGA_RECORD_LENGTH, (uint64_t *)&report, HADLEPHOGA_REPORT_LENGTH);
  return report;
}

struct hadlephoga_collateral cash(const struct hadlephoga_terms *terms, uint64_t amount)
{
  struct hadlephoga_collateral item = {
      .amount = amount, .type = 1, .currency = terms->currency,
      .residual_term = terms->residual_term, .original_term = terms->residual_term,
      .lawful = 1, .unrelated = 1, .unreflected = 1,
  };

  return item;
}

void settle_swaps(struct hadlephoga_deal *deal)
{
  for (size_t i = 0; i < deal->guarantee_count; i++) {
    struct hadlephoga_held_guarantee *item = &deal->guarantees[i];
    uint64_t smaller = item->amount < deal->terms.amount ? item->amount : deal->terms.amount;

    if (item->instrument == HADLEPHOGA_SWAP_WITHOUT_RESTRUCTURING)
      item->amount = smaller * 60 / 100;
    item->instrument = HADLEPHOGA_GUARANTEE_INSTRUMENT;
  }
}

void leave_exposure(struct hadlephoga_deal *deal, uint64_t exposure)
{
  deal->terms.amount = exposure;
  deal->terms.lent_type = 1;
  deal->terms.lent_step = deal->terms.lent_issue_life = 0;
  deal->collateral_count = 0;
}

void put_losses(const struct hadlephoga_deal *sent, const struct hadlephoga_deal *settled,
                const struct hadlephoga_deal *passed, struct hadlephoga_report *report)
{
  for (size_t i = 0; i < sent->collateral_count; i++) {
    struct hadlephoga_outcome *item = &report->collateral[i];

    if (item->ground != 0)
      item->left_out = sent->collateral[i].amount;
    else
      item->haircut_loss += sent->collateral[i].amount - passed->collateral[i].amount;
  }
  for (size_t i = 0; i < sent->guarantee_count; i++) {
    struct hadlephoga_cover *item = &report->guarantees[i];

    if (item->ground != 0) {
      item->left_out = sent->guarantees[i].amount;
    } else {
      item->cut_loss += sent->guarantees[i].amount - settled->guarantees[i].amount;
      item->haircut_loss += settled->guarantees[i].amount - passed->guarantees[i].amount;
    }
  }
}

/* The numbers of an accepted line, behind its letter; the one in the place left out
 * reads 0. */
static void read_numbers(const uint8_t *line, uint64_t *numbers, size_t count, size_t left_out)
{
  for (size_t place = 0; place < count; place++) {
    numbers[place] = 0;
    if (place == left_out)
      continue;
    for (line += 2; *line >= '0' && *line <= '9'; line++)
      numbers[place] = numbers[place] * 10 + (uint64_t)(*line - '0');
    line--;
  }
}

/* The record of the accepted deal whose lines begin here. */
static struct hadlephoga_deal read_deal(const uint8_t *line, const uint8_t *end, uint64_t edition)
{
  size_t left_out = edition == 1 ? 3 : SIZE_MAX;
  struct hadlephoga_deal deal;

  memset(&deal, 0, sizeof deal);
  read_numbers(line, (uint64_t *)&deal.terms, HADLEPHOGA_TERMS_WIDTH - 1, left_out);
  deal.terms.edition = edition;
  while ((line = (const uint8_t *)memchr(line, '\n', (size_t)(end - line)) + 1) < end && line[0] != 'D') {
    if (line[0] == 'C') {
      read_numbers(line, (uint64_t *)&deal.collateral[deal.collateral_count++], HADLEPHOGA_COLLATERAL_WIDTH, SIZE_MAX);
    } else if (line[0] == 'G') {
      read_numbers(line, (uint64_t *)&deal.guarantees[deal.guarantee_count++], HADLEPHOGA_GUARANTEE_WIDTH, left_out);
    } else {
      struct hadlephoga_held_guarantee *item = &deal.guarantees[deal.guarantee_count++];

      read_numbers(line, (uint64_t *)item, HADLEPHOGA_SWAP_WIDTH, left_out);
      item->instrument += HADLEPHOGA_SWAP_WITHOUT_RESTRUCTURING;
    }
  }
  return deal;
}

void mistake_answers(const char *of, mistake_report *mistake, const uint8_t *book, size_t length,
                     struct hadlephoga_answer *answers)
{
  const uint8_t *end = book + length;
  const uint8_t *line = book;
  struct hadlephoga_report report;

  if (!fault_among(of))
    return;
  while ((line = (const uint8_t *)memchr(line, '\n', (size_t)(end - line))) != NULL && ++line < end) {
    if (end - line < 2 || line[0] != 'D' || line[1] != '\t')
      continue;
    if (answers->refusal == 0) {
      mistake(of, read_deal(line, end, (uint64_t)(book[4] - '0')), &report);
      answers->exposure = report.exposure;
      answers->weighted_amount = report.weighted_amount;
    }
    answers++;
  }
}
