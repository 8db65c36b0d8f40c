/* Swaps mistaken. What a mistaken cut leaves of one is worked out here, and passed to
 * the exact library in place of it: a guarantee of that amount. A mistaken entry or
 * instrument is passed as another one; a mistaken order of cover is put together from
 * the exact library's reports of guarantees alone and of swaps alone. */
#include <string.h>

#include "faults.h"

#define WITHOUT HADLEPHOGA_SWAP_WITHOUT_RESTRUCTURING
#define WITH HADLEPHOGA_SWAP_WITH_RESTRUCTURING

typedef struct hadlephoga_held_guarantee item;

static uint64_t smaller(uint64_t one, uint64_t other)
{
  return one < other ? one : other;
}

/* What has no haircut for its currency, and no mismatch. */
static void in_currency(const struct hadlephoga_deal *deal, item *of)
{
  of->currency = deal->terms.currency;
}

static void without_mismatch(const struct hadlephoga_deal *deal, item *of)
{
  of->residual_term = deal->terms.residual_term;
  if (of->original_term < of->residual_term)
    of->original_term = of->residual_term;
}

/* Alone in the deal, as a guarantee of this amount. */
static struct hadlephoga_cover cover_of(struct hadlephoga_deal deal, item of, uint64_t amount)
{
  of.amount = amount;
  of.instrument = HADLEPHOGA_GUARANTEE_INSTRUMENT;
  deal.guarantee_count = 1;
  deal.guarantees[0] = of;
  return exact_report(&deal).guarantees[0];
}

/* The cut of a swap without the condition; the exposure is E*. */
static uint64_t mistaken_cut(const char *of, const struct hadlephoga_terms *terms, uint64_t amount, uint64_t exposure)
{
  uint64_t least = smaller(amount, terms->amount);

  if (fault_of(of, "-no-cut"))
    return amount;
  if (fault_of(of, "-held-to-deal"))
    return least;
  if (fault_of(of, "-of-swap-alone"))
    return amount * 60 / 100;
  if (fault_of(of, "-of-deal-alone"))
    return terms->amount * 60 / 100;
  if (fault_of(of, "-of-larger"))
    return (amount + terms->amount - least) * 60 / 100;
  if (fault_of(of, "-of-exposure"))
    return smaller(amount, exposure) * 60 / 100;
  if (fault_of(of, "-rounded-up"))
    return (least * 60 + 99) / 100;
  if (fault_of(of, "-59"))
    return least * 59 / 100;
  if (fault_of(of, "-61"))
    return least * 61 / 100;
  return least * 60 / 100;
}

/* The cut behind the currency haircut, or behind the maturity step too. What is left
 * out stays so. */
static void cut_behind(const char *of, const struct hadlephoga_deal *deal, item *swap)
{
  uint64_t least = smaller(swap->amount, deal->terms.amount);
  struct hadlephoga_cover cover = cover_of(*deal, *swap, least);

  if (cover.ground != 0)
    return;
  if (fault_of(of, "-behind-maturity")) {
    swap->amount = cover.value * 60 / 100;
    without_mismatch(deal, swap);
  } else {
    item whole = *swap;

    without_mismatch(deal, &whole);
    swap->amount = cover_of(*deal, whole, least).value * 60 / 100;
  }
  in_currency(deal, swap);
}

/* A condition, the currency or the terms of swaps that are not looked at. */
static void overlook(const char *of, const struct hadlephoga_deal *deal, item *swap)
{
  if (fault_of(of, "-lawful"))
    swap->lawful = 1;
  if (fault_of(of, "-direct"))
    swap->direct = 1;
  if (fault_of(of, "-unreflected"))
    swap->unreflected = 1;
  if (fault_of(of, "-currency"))
    in_currency(deal, swap);
  if (fault_of(of, "-maturity"))
    without_mismatch(deal, swap);
}

/* Each swap, and a guarantee that is taken for one, as what the mistake leaves of it. */
static void mistake_item(const char *of, const struct hadlephoga_deal *deal, uint64_t exposure, item *held)
{
  uint64_t instrument = held->instrument;
  uint64_t least = smaller(held->amount, deal->terms.amount);

  held->instrument = HADLEPHOGA_GUARANTEE_INSTRUMENT;
  if (instrument == HADLEPHOGA_GUARANTEE_INSTRUMENT) {
    if (fault_of(of, "-guarantee-cut"))
      held->amount = least * 60 / 100;
    if (fault_of(of, "-guarantee-held"))
      held->amount = least;
    return;
  }
  if (fault_of(of, "-entry-turned"))
    instrument = instrument == WITH ? WITHOUT : WITH;
  overlook(of, deal, held);
  if (instrument == WITHOUT && (fault_of(of, "-behind-currency") || fault_of(of, "-behind-maturity")))
    cut_behind(of, deal, held);
  else if (instrument == WITHOUT)
    held->amount = mistaken_cut(of, &deal->terms, held->amount, exposure);
  else if (fault_of(of, "-cut-where-met"))
    held->amount = least * 60 / 100;
  else if (fault_of(of, "-held-where-met"))
    held->amount = least;
}

/* Either all guarantees or all swaps are not lawful, and so are left out. */
static void leave_out(const struct hadlephoga_deal *sent, int swaps, struct hadlephoga_deal *deal)
{
  for (size_t i = 0; i < deal->guarantee_count; i++)
    if ((sent->guarantees[i].instrument != HADLEPHOGA_GUARANTEE_INSTRUMENT) == swaps)
      deal->guarantees[i].lawful = 0;
}

/* The cover of an exposure by guarantees alone, or by swaps alone. */
static struct hadlephoga_report cover_by(const struct hadlephoga_deal *sent, int swaps, uint64_t exposure)
{
  struct hadlephoga_deal deal = *sent;

  leave_out(sent, !swaps, &deal);
  settle_swaps(&deal);
  leave_exposure(&deal, exposure);
  return exact_report(&deal);
}

/* The ones cover before the others, whatever they weigh. The portions that come of it
 * are passed as guarantees of no more than the exposure, so that their order no longer
 * counts. */
static void cover_in_turn(struct hadlephoga_deal deal, int swaps_first, struct hadlephoga_report *report)
{
  struct hadlephoga_report exact = exact_report(&deal);
  struct hadlephoga_report first = cover_by(&deal, swaps_first, exact.exposure);
  struct hadlephoga_report second = cover_by(&deal, !swaps_first, first.rest);

  settle_swaps(&deal);
  for (size_t i = 0; i < deal.guarantee_count; i++) {
    if (exact.guarantees[i].ground != 0)
      continue;
    deal.guarantees[i].amount = first.guarantees[i].portion + second.guarantees[i].portion;
    in_currency(&deal, &deal.guarantees[i]);
    without_mismatch(&deal, &deal.guarantees[i]);
  }
  *report = exact_report(&deal);
  for (size_t i = 0; i < HADLEPHOGA_ITEMS; i++) {
    uint64_t portion = report->guarantees[i].portion;

    report->guarantees[i] = exact.guarantees[i];
    report->guarantees[i].portion = portion;
  }
}

/* The deal as if all guarantees, or all swaps, had been added first: so it is with
 * equal weights alone. */
static void add_in_turn(const struct hadlephoga_deal *deal, int swaps_first, struct hadlephoga_report *report)
{
  struct hadlephoga_deal turned = *deal;
  size_t places[HADLEPHOGA_ITEMS];
  size_t count = 0;

  for (int turn = 0; turn < 2; turn++)
    for (size_t i = 0; i < deal->guarantee_count; i++)
      if ((deal->guarantees[i].instrument != HADLEPHOGA_GUARANTEE_INSTRUMENT) == (swaps_first ^ turn)) {
        turned.guarantees[count] = deal->guarantees[i];
        places[count++] = i;
      }
  *report = exact_report(&turned);
  for (struct hadlephoga_report covered = *report; count-- > 0;)
    report->guarantees[places[count]] = covered.guarantees[count];
}

void mistake_swaps(const char *of, struct hadlephoga_deal deal, struct hadlephoga_report *report)
{
  struct hadlephoga_deal mistaken = deal;

  if (!fault_among(of))
    return;
  if (fault_of(of, "-before-guarantees") || fault_of(of, "-after-guarantees")) {
    cover_in_turn(deal, fault_of(of, "-before-guarantees"), report);
  } else if (fault_of(of, "-added-before") || fault_of(of, "-added-after")) {
    add_in_turn(&deal, fault_of(of, "-added-before"), report);
  } else {
    uint64_t exposure = exact_report(&deal).exposure;

    for (size_t i = 0; i < deal.guarantee_count; i++)
      mistake_item(of, &deal, exposure, &mistaken.guarantees[i]);
    *report = exact_report(&mistaken);
    put_losses(&deal, &mistaken, &mistaken, report);
  }
}

/* Cut to 8, 16 or 32 bits. */
static uint64_t cut_off(const char *of, uint64_t number)
{
  if (fault_of(of, "-cut-8"))
    return number & 0xFF;
  if (fault_of(of, "-cut-16"))
    return number & 0xFFFF;
  if (fault_of(of, "-cut-32"))
    return number & 0xFFFFFFFF;
  return number;
}

static uint64_t mistaken_entry(const char *of, uint64_t entry)
{
  if ((fault_of(of, "-2") && entry == 2) || (fault_of(of, "-3") && entry == 3))
    return 1;
  return cut_off(of, entry);
}

void mistake_swap_entry(struct hadlephoga_swap *swap)
{
  swap->restructuring = mistaken_entry("swap-condition", swap->restructuring);
}

/* What a record holds of an item that was added. */
void mistake_held(const char *list, item *held)
{
  if (fault_of(list, "-instrument-lost"))
    held->instrument = HADLEPHOGA_GUARANTEE_INSTRUMENT;
  if (fault_of(list, "-instrument-turned"))
    held->instrument = held->instrument == WITH ? WITHOUT : WITH;
  if (fault_of(list, "-instrument-swapped"))
    held->instrument = WITHOUT;
}

/* An unknown instrument that is taken for a known one, or one that is looked at past
 * the count. */
void mistake_record_instruments(const char *call, struct hadlephoga_deal *deal)
{
  for (size_t i = 0; i < HADLEPHOGA_ITEMS; i++) {
    uint64_t *instrument = &deal->guarantees[i].instrument;

    if (fault_of(call, "-instrument-3") && *instrument == 3)
      *instrument = WITH;
    else if (fault_of(call, "-instrument-any") && *instrument > WITH)
      *instrument = HADLEPHOGA_GUARANTEE_INSTRUMENT;
    else if (fault_of(call, "-instrument-cut-8"))
      *instrument &= 0xFF;
    else if (fault_of(call, "-instrument-cut-16"))
      *instrument &= 0xFFFF;
    else if (fault_of(call, "-instrument-cut-32"))
      *instrument &= 0xFFFFFFFF;
    else if (fault_of(call, "-instrument-past") && i >= deal->guarantee_count && *instrument > WITH)
      deal->terms.currency = 0;
  }
}

/* Those that the call did not write. */
void put_back_instruments(const struct hadlephoga_deal *before, struct hadlephoga_deal *deal)
{
  int added = deal->guarantee_count != before->guarantee_count;

  deal->terms.currency = before->terms.currency;
  for (size_t i = 0; i < HADLEPHOGA_ITEMS; i++)
    if (!added || i != before->guarantee_count)
      deal->guarantees[i].instrument = before->guarantees[i].instrument;
}

int has_room_apart(const char *list, const struct hadlephoga_deal *deal, int swap)
{
  size_t own = 0;

  for (size_t i = 0; i < HADLEPHOGA_ITEMS; i++)
    own += (deal->guarantees[i].instrument != HADLEPHOGA_GUARANTEE_INSTRUMENT) == swap;
  return fault_of(list, "-apart") && own < HADLEPHOGA_ITEMS;
}

static const uint8_t *next_line(const uint8_t *line, const uint8_t *end)
{
  const uint8_t *feed = memchr(line, '\n', (size_t)(end - line));

  return feed == NULL ? end : feed + 1;
}

/* How many lines of each letter a deal has before it is refused as full; if guarantees
 * and swaps did not share their places, it were not. The figures do not matter. */
void mistake_full_lists(const uint8_t *book, size_t length, struct hadlephoga_answer *answers)
{
  const uint8_t *end = book + length;
  uint64_t number = 1, of_letter['S' + 1] = {0};

  if (!fault("book-apart"))
    return;
  answers--;
  for (const uint8_t *line = next_line(book, end); line < end; line = next_line(line, end)) {
    number++;
    if (end - line >= 2 && line[0] == 'D' && line[1] == '\t') {
      answers++;
      memset(of_letter, 0, sizeof of_letter);
    } else if (line[0] == 'G' || line[0] == 'S') {
      if (answers->refusal == 6 && answers->exposure == number && of_letter[line[0]] < HADLEPHOGA_ITEMS)
        answers->refusal = 0;
      of_letter[line[0]]++;
    }
  }
}

/* The last field of a line S, if it is a number; and a shorter one in its place. */
static uint8_t *last_number(uint8_t *line, const uint8_t *end, uint64_t *number)
{
  uint8_t *digit = line + (end - line);
  uint64_t ten = 1;

  *number = 0;
  if (end - line < 3 || *--digit != '\n')
    return NULL;
  for (; digit > line + 1 && digit[-1] >= '0' && digit[-1] <= '9' && ten <= 1000000000000; ten *= 10)
    *number += (uint64_t)(*--digit - '0') * ten;
  return digit[-1] == '\t' && *digit != '\n' ? digit : NULL;
}

static size_t put_number(uint8_t *at, uint64_t number)
{
  size_t digits = number >= 10 ? put_number(at, number / 10) : 0;

  at[digits] = (uint8_t)('0' + number % 10);
  return digits + 1;
}

/* What is left of a line S behind its last tab; how many bytes it has lost. */
static size_t mistake_line_entry(uint8_t *line, const uint8_t *line_end, const uint8_t *book_end)
{
  uint64_t entry;
  uint8_t *field = last_number(line, line_end, &entry);
  uint64_t mistaken;
  size_t digits;

  if (field == NULL)
    return 0;
  mistaken = mistaken_entry("book-condition", entry);
  if (mistaken == entry)
    return 0;
  digits = put_number(field, mistaken);
  memmove(field + digits, line_end - 1, (size_t)(book_end - line_end) + 1);
  return (size_t)(line_end - 1 - field) - digits;
}

size_t mistake_book_swaps(uint8_t *book, size_t length)
{
  uint8_t *line = book;

  if (!fault("book-letter") && !fault("book-letter-g") && !fault_among("book-condition-"))
    return length;
  while (line < book + length) {
    const uint8_t *end = next_line(line, book + length);

    if (line[0] == 'S' && fault("book-letter"))
      line[0] = 'X';
    if (line[0] == 'S' && fault("book-letter-g"))
      line[0] = 'G';
    if (line[0] == 'S' && fault_among("book-condition-"))
      length -= mistake_line_entry(line, end, book + length);
    line += next_line(line, book + length) - line;
  }
  return length;
}
