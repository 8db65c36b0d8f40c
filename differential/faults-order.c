/* Figures mistaken by where an item stands or by how many items an amount is in. What is left
 * of collateral is passed to the exact library in place of it; the cover is worked out here,
 * from the values and weights that the exact library gives. Of books, a line that is mistaken
 * by what stands before it, or overlooked as the last one. */
#include <string.h>

#include "faults.h"

/* One that weighs more than every provider who is recognised. */
#define HEAVIEST_STEP 6

static uint64_t smaller(uint64_t one, uint64_t other)
{
  return one < other ? one : other;
}

static uint64_t rounded_up(uint64_t hundredfold)
{
  return (hundredfold + 99) / 100;
}

static int is_plain_cash(const struct hadlephoga_terms *terms, const struct hadlephoga_collateral *item)
{
  return item->type == 1 && item->currency == terms->currency && item->residual_term >= terms->residual_term;
}

/* What stands before this place in the list of collateral: lawful cash of the same sort; an item
 * that is the same in every field; one without an amount. And behind it: one that is the same but
 * for the amount, as if it corrected it. */
static int cash_before(const struct hadlephoga_deal *deal, size_t place)
{
  while (place-- > 0)
    if (is_plain_cash(&deal->terms, &deal->collateral[place]) && deal->collateral[place].lawful == 1)
      return 1;
  return 0;
}

static int same_before(const struct hadlephoga_deal *deal, size_t place)
{
  for (size_t i = 0; i < place; i++)
    if (memcmp(&deal->collateral[i], &deal->collateral[place], sizeof deal->collateral[i]) == 0)
      return 1;
  return 0;
}

static int none_before(const struct hadlephoga_deal *deal, size_t place)
{
  while (place-- > 0)
    if (deal->collateral[place].amount == 0)
      return 1;
  return 0;
}

static int corrected_behind(const struct hadlephoga_deal *deal, size_t place)
{
  struct hadlephoga_collateral item = deal->collateral[place];

  for (size_t i = place + 1; i < deal->collateral_count; i++) {
    item.amount = deal->collateral[i].amount;
    if (memcmp(&item, &deal->collateral[i], sizeof item) == 0)
      return 1;
  }
  return 0;
}

/* What the mistake leaves of the amount in this place. */
static uint64_t mistaken_amount(const char *of, const struct hadlephoga_deal *deal, size_t place)
{
  const struct hadlephoga_collateral *item = &deal->collateral[place];
  uint64_t less = item->amount - smaller(item->amount, 1);
  int plain = is_plain_cash(&deal->terms, item);

  if (fault_of(of, "-cash-tens") && plain)
    return item->amount / 10 * 10;
  if (fault_of(of, "-cash-unit") && plain)
    return less;
  if (fault_of(of, "-one-unit") && plain && item->amount == 1)
    return 0;
  if (fault_of(of, "-later-less") && place > 0)
    return less;
  if ((fault_of(of, "-cash-once") && plain && cash_before(deal, place)) ||
      (fault_of(of, "-same-once") && same_before(deal, place)) ||
      (fault_of(of, "-corrected") && corrected_behind(deal, place)) ||
      (fault_of(of, "-none-ends") && none_before(deal, place)) ||
      (fault_of(of, "-last-place") && place == HADLEPHOGA_ITEMS - 1))
    return 0;
  return item->amount;
}

/* What a hundred weighs that is lent to the counterparty, without any protection. */
static uint64_t own_weight(struct hadlephoga_deal deal)
{
  leave_exposure(&deal, 100);
  deal.guarantee_count = 0;
  return exact_report(&deal).weighted_amount;
}

/* The same under a guarantee of this provider, who is recognised in the deal. */
static uint64_t weight_of(struct hadlephoga_deal deal, size_t place)
{
  struct hadlephoga_held_guarantee item = deal.guarantees[place];

  leave_exposure(&deal, 100);
  deal.terms.counterparty_class = 1;
  deal.terms.step = HEAVIEST_STEP;
  deal.terms.sovereign_step = 0;
  item.amount = 100;
  item.instrument = HADLEPHOGA_GUARANTEE_INSTRUMENT;
  item.currency = deal.terms.currency;
  item.residual_term = deal.terms.residual_term;
  if (item.original_term < item.residual_term)
    item.original_term = item.residual_term;
  deal.guarantee_count = 1;
  deal.guarantees[0] = item;
  return exact_report(&deal).weighted_amount;
}

/* Recognised guarantees and swaps: their places in the order of cover, and what they weigh. */
struct cover {
  size_t count;
  size_t places[HADLEPHOGA_ITEMS];
  uint64_t weights[HADLEPHOGA_ITEMS];
};

static void exchange(struct cover *of, size_t one, size_t other)
{
  size_t place = of->places[one];
  uint64_t weight = of->weights[one];

  of->places[one] = of->places[other];
  of->weights[one] = of->weights[other];
  of->places[other] = place;
  of->weights[other] = weight;
}

/* By weight, and of equal ones as they came. One pass over neighbours leaves some in disorder. */
static void order_cover(const char *of, struct cover *cover)
{
  size_t passes = fault_of(of, "-by-arrival") ? 0 : fault_of(of, "-one-pass") ? 1 : HADLEPHOGA_ITEMS;

  while (passes-- > 0)
    for (size_t i = 1; i < cover->count; i++)
      if (cover->weights[i] < cover->weights[i - 1])
        exchange(cover, i, i - 1);
}

static int weighs_as_one_before(const struct cover *cover, uint64_t weight)
{
  for (size_t i = 0; i < cover->count; i++)
    if (cover->weights[i] == weight)
      return 1;
  return 0;
}

/* Those that are recognised; of equal weights perhaps the first alone. */
static struct cover recognised(const char *of, const struct hadlephoga_deal *deal,
                               const struct hadlephoga_report *report)
{
  struct cover cover = {.count = 0};

  for (size_t i = 0; i < deal->guarantee_count; i++) {
    uint64_t weight;

    if (report->guarantees[i].ground != 0)
      continue;
    weight = weight_of(*deal, i);
    if (fault_of(of, "-equal-once") && weighs_as_one_before(&cover, weight))
      continue;
    cover.places[cover.count] = i;
    cover.weights[cover.count++] = weight;
  }
  return cover;
}

/* The exposure shared out; either all of it weighed and then rounded, or each share. */
static void put_cover(const char *of, const struct hadlephoga_deal *deal, struct hadlephoga_report *report)
{
  struct cover cover = recognised(of, deal, report);
  uint64_t own = fault_of(of, "-rest-at-first") && cover.count > 0 ? cover.weights[0] : own_weight(*deal);
  uint64_t hundredfold = 0, each = 0;

  for (size_t i = 0; i < deal->guarantee_count; i++)
    report->guarantees[i].portion = 0;
  order_cover(of, &cover);
  report->rest = report->exposure;
  for (size_t i = 0; i < cover.count; i++) {
    struct hadlephoga_cover *item = &report->guarantees[cover.places[i]];

    item->portion = smaller(item->value, report->rest);
    report->rest -= item->portion;
    hundredfold += item->portion * cover.weights[i];
    each += rounded_up(item->portion * cover.weights[i]);
  }
  hundredfold += report->rest * own;
  each += rounded_up(report->rest * own);
  report->weighted_amount = fault_of(of, "-each-rounded") ? each : rounded_up(hundredfold);
}

void mistake_order(const char *of, struct hadlephoga_deal deal, struct hadlephoga_report *report)
{
  struct hadlephoga_deal passed = deal;

  if (!fault_among(of))
    return;
  for (size_t i = 0; i < deal.collateral_count; i++)
    passed.collateral[i].amount = mistaken_amount(of, &deal, i);
  *report = exact_report(&passed);
  put_losses(&deal, &deal, &passed, report);
  put_cover(of, &deal, report);
}

static const uint8_t *end_of_line(const uint8_t *line, const uint8_t *end)
{
  const uint8_t *feed = memchr(line, '\n', (size_t)(end - line));

  return feed == NULL ? end : feed + 1;
}

static int opens_deal(const uint8_t *line, const uint8_t *end)
{
  return end - line >= 2 && line[0] == 'D' && line[1] == '\t';
}

/* The condition lawful of a line that was met is not any more: a single digit, so many fields
 * before the end. */
static void leave_out_line(uint8_t *line, uint8_t *end)
{
  int fields = line[0] == 'G' ? 3 : 4;

  for (uint8_t *at = end - 1; at > line; at--)
    if (*at == '\t' && --fields == 0) {
      if (at[1] == '1' && (at[2] == '\t' || at[2] == '\n'))
        at[1] = '0';
      return;
    }
}

void mistake_book_lines(uint8_t *book, size_t length)
{
  int pledged = 0, guaranteed = 0;
  uint8_t *end = book + length;
  uint8_t *next;

  if (!fault_among("book-lines"))
    return;
  for (uint8_t *line = book; line < end; line = next) {
    next = book + (end_of_line(line, end) - book);
    if (opens_deal(line, end)) {
      pledged = guaranteed = 0;
    } else if (line[0] == 'C') {
      if (guaranteed && fault("book-lines-collateral-behind"))
        leave_out_line(line, next);
      pledged = 1;
    } else if (line[0] == 'G' || line[0] == 'S') {
      if (pledged && fault("book-lines-guarantee-behind"))
        leave_out_line(line, next);
      guaranteed = 1;
    }
  }
}

/* The deal from its first line to before its last one, answered as the only one of a book. */
static void answer_without(const uint8_t *book, const uint8_t *first, const uint8_t *last,
                           struct hadlephoga_answer *answer)
{
  uint8_t copy[HADLEPHOGA_BOOK_LIMIT];
  size_t header = (size_t)(end_of_line(book, first) - book);
  struct hadlephoga_answer alone;
  uint64_t deals;

  memcpy(copy, book, header);
  memcpy(copy + header, first, (size_t)(last - first));
  exact_answer_book(copy, header + (size_t)(last - first), (uint64_t *)&alone, HADLEPHOGA_ANSWER_LENGTH, &deals);
  answer->refusal = alone.refusal;
  answer->exposure = alone.exposure;
  answer->weighted_amount = alone.weighted_amount;
}

/* Of a book that is not refused: a deal that is refused for its last line is answered without. */
void overlook_last_lines(const uint8_t *book, size_t length, struct hadlephoga_answer *answers)
{
  const uint8_t *end = book + length;
  const uint8_t *line = end_of_line(book, end);
  uint64_t number = 1;

  if (!fault("book-lines-last-overlooked"))
    return;
  /* Each deal in turn, of whose lines the last has this number. */
  for (; line < end; answers++) {
    const uint8_t *first = line, *last;

    do {
      last = line;
      line = end_of_line(line, end);
      number++;
    } while (line < end && !opens_deal(line, end));
    if (answers->refusal != 0 && answers->exposure == number && last != first)
      answer_without(book, first, last, answers);
  }
}
