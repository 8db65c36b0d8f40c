/* Losses and amounts left out mistaken, of an item in one place of a report, past a count
 * or beside a refusal. The value stays; the steps to it are worked out here, from what the
 * exact library leaves of a million. */
#include <inttypes.h>
#include <stdio.h>
#include <string.h>

#include "faults.h"

#define WHOLE 1000000
/* Beside the instruments of guarantees and swaps. */
#define COLLATERAL 3

typedef struct hadlephoga_outcome outcome;

struct place {
  int of_guarantees;
  size_t index;
};

/* From the amount that was sent to the value: the deal's amount, where a cut is due; what
 * the haircut leaves of a million; the part of a whole that the terms leave. */
struct steps {
  uint64_t sent, deal, keep, part, whole;
  uint64_t sort;
};

static uint64_t smaller(uint64_t one, uint64_t other)
{
  return one < other ? one : other;
}

static int is(const char *what, const char *name)
{
  return strcmp(what, name) == 0;
}

static outcome outcome_at(const struct hadlephoga_report *report, const struct place *at)
{
  const struct hadlephoga_cover *of = &report->guarantees[at->index];

  if (!at->of_guarantees)
    return report->collateral[at->index];
  return (outcome){of->value, of->ground, of->haircut_loss, of->maturity_loss, of->cut_loss, of->left_out};
}

static void put_outcome(struct hadlephoga_report *report, const struct place *at, const outcome *item)
{
  struct hadlephoga_cover *of = &report->guarantees[at->index];

  if (!at->of_guarantees) {
    report->collateral[at->index] = *item;
    return;
  }
  *of = (struct hadlephoga_cover){item->value,    item->ground,   item->haircut_loss, item->maturity_loss,
                                  item->cut_loss, item->left_out, of->portion};
}

static uint64_t count_of(const struct hadlephoga_deal *deal, const struct place *at)
{
  return at->of_guarantees ? deal->guarantee_count : deal->collateral_count;
}

/* What the haircut leaves of a million of collateral; goods that are not eligible are
 * taken for cash. */
static uint64_t keep_of_collateral(struct hadlephoga_deal deal, size_t index)
{
  struct hadlephoga_collateral *first = &deal.collateral[0];
  struct hadlephoga_collateral sent = deal.collateral[index];
  struct hadlephoga_report report;

  *first = cash(&deal.terms, WHOLE);
  first->type = sent.type;
  first->step = sent.step;
  first->issue_life = sent.issue_life;
  first->listed = sent.listed;
  first->currency = sent.currency;
  deal.collateral_count = 1;
  deal.guarantee_count = 0;
  report = exact_report(&deal);
  if (report.collateral[0].ground != 0) {
    first->type = 1;
    first->step = first->issue_life = 0;
    report = exact_report(&deal);
  }
  return report.collateral[0].value;
}

/* The same of a guarantee or a swap, of one that weighs nothing for one that weighs most. */
static uint64_t keep_of_guarantee(struct hadlephoga_deal deal, size_t index)
{
  struct hadlephoga_held_guarantee first = {
      .amount = WHOLE, .provider_class = 1, .step = 1, .currency = deal.guarantees[index].currency,
      .residual_term = deal.terms.residual_term, .original_term = deal.terms.residual_term,
      .lawful = 1, .direct = 1, .unreflected = 1,
  };

  deal.terms.counterparty_class = 1;
  deal.terms.step = 6;
  deal.terms.sovereign_step = 0;
  deal.collateral_count = 0;
  deal.guarantee_count = 1;
  deal.guarantees[0] = first;
  return exact_report(&deal).guarantees[0].value;
}

static uint64_t days_that_count(uint64_t days)
{
  return smaller(days, 1800) - smaller(days, 90);
}

static struct steps steps_of(const struct hadlephoga_deal *deal, const struct place *at)
{
  const struct hadlephoga_collateral *pledge = &deal->collateral[at->index];
  const struct hadlephoga_held_guarantee *held = &deal->guarantees[at->index];
  uint64_t days = at->of_guarantees ? held->residual_term : pledge->residual_term;
  uint64_t due = deal->terms.residual_term;
  struct steps of = {.deal = deal->terms.amount, .part = 1, .whole = 1};

  of.sent = at->of_guarantees ? held->amount : pledge->amount;
  of.sort = at->of_guarantees ? held->instrument : COLLATERAL;
  of.keep = at->of_guarantees ? keep_of_guarantee(*deal, at->index) : keep_of_collateral(*deal, at->index);
  if (days < due && due > 90) {
    of.part = days_that_count(days);
    of.whole = days_that_count(due);
  }
  return of;
}

/* What each step leaves. */
static uint64_t after_cut(const struct steps *of, uint64_t amount)
{
  return of->sort == HADLEPHOGA_SWAP_WITHOUT_RESTRUCTURING ? smaller(amount, of->deal) * 60 / 100 : amount;
}

static uint64_t after_haircut(const struct steps *of, uint64_t amount)
{
  return amount * of->keep / WHOLE;
}

static uint64_t after_terms(const struct steps *of, uint64_t amount)
{
  return amount * of->part / of->whole;
}

/* What is due of an item: of its amount, on this ground or on none. */
static outcome due_of(const struct steps *of, uint64_t ground)
{
  uint64_t cut = after_cut(of, of->sent);
  uint64_t kept = after_haircut(of, cut);
  uint64_t value = after_terms(of, kept);

  if (ground != 0)
    return (outcome){.ground = ground, .left_out = of->sent};
  return (outcome){value, 0, cut - kept, kept - value, of->sent - cut, 0};
}

/* One number too high or too low: a loss of a valued item, or an amount left out. */
static void spoil(const char *what, outcome *item)
{
  const struct {
    const char *high, *low;
    uint64_t *number;
    int valued;
  } numbers[] = {
      {"haircut-high", "haircut-low", &item->haircut_loss, 1},
      {"maturity-high", "maturity-low", &item->maturity_loss, 1},
      {"cut-high", "cut-low", &item->cut_loss, 1},
      {"left-out-high", "left-out-low", &item->left_out, 0},
  };

  for (size_t i = 0; i < sizeof numbers / sizeof numbers[0]; i++) {
    if (numbers[i].valued != (item->ground == 0))
      continue;
    if (is(what, numbers[i].high))
      *numbers[i].number += 1;
    if (is(what, numbers[i].low) && *numbers[i].number > 0)
      *numbers[i].number -= 1;
  }
}

static void exchange(uint64_t *one, uint64_t *other)
{
  uint64_t first = *one;

  *one = *other;
  *other = first;
}

static void count_into(uint64_t *one, uint64_t *other)
{
  *other += *one;
  *one = 0;
}

/* Numbers of a valued item in place of others, or besides. */
static void mistake_numbers(const char *what, const struct steps *of, outcome *item)
{
  if (is(what, "haircut-for-maturity"))
    exchange(&item->haircut_loss, &item->maturity_loss);
  else if (is(what, "haircut-for-cut"))
    exchange(&item->haircut_loss, &item->cut_loss);
  else if (is(what, "maturity-for-cut"))
    exchange(&item->maturity_loss, &item->cut_loss);
  else if (is(what, "maturity-in-haircut"))
    count_into(&item->maturity_loss, &item->haircut_loss);
  else if (is(what, "haircut-in-maturity"))
    count_into(&item->haircut_loss, &item->maturity_loss);
  else if (is(what, "cut-in-haircut"))
    count_into(&item->cut_loss, &item->haircut_loss);
  else if (is(what, "cut-in-maturity"))
    count_into(&item->cut_loss, &item->maturity_loss);
  else if (is(what, "losses-missing"))
    item->haircut_loss = item->maturity_loss = item->cut_loss = 0;
  else if (is(what, "value-left-out"))
    item->left_out = item->value;
  else if (is(what, "losses-left-out"))
    item->left_out = of->sent - item->value;
  else if (is(what, "amount-left-out"))
    item->left_out = of->sent;
}

/* A cut of what has none: of one sort of item. */
static int is_cut_too(const char *what, uint64_t sort)
{
  return (is(what, "cut-of-collateral") && sort == COLLATERAL) ||
         (is(what, "cut-of-guarantee") && sort == HADLEPHOGA_GUARANTEE_INSTRUMENT) ||
         (is(what, "cut-where-met") && sort == HADLEPHOGA_SWAP_WITH_RESTRUCTURING);
}

/* Losses of a valued item that are taken of something else than what is due, or in another
 * order, or rounded down. */
static void mistake_steps(const char *what, const struct steps *of, outcome *item)
{
  uint64_t cut = after_cut(of, of->sent);
  uint64_t least = smaller(of->sent, of->deal);
  uint64_t found = after_haircut(of, cut);

  if (is(what, "maturity-of-sent"))
    item->maturity_loss = of->sent - after_terms(of, of->sent);
  else if (is(what, "maturity-of-cut"))
    item->maturity_loss = cut - after_terms(of, cut);
  else if (is(what, "haircut-of-sent"))
    item->haircut_loss = of->sent - after_haircut(of, of->sent);
  else if (is(what, "haircut-rounded-down"))
    item->haircut_loss = cut * (WHOLE - of->keep) / WHOLE;
  else if (is(what, "maturity-rounded-down"))
    item->maturity_loss = found * (of->whole - of->part) / of->whole;
  else if (is(what, "cut-rounded-down") && item->cut_loss > 0)
    item->cut_loss = of->sent - least + least * 40 / 100;
  else if (is(what, "cut-without-above") && item->cut_loss > 0)
    item->cut_loss = least - cut;
  else if (is_cut_too(what, of->sort))
    item->cut_loss = of->sent - least * 60 / 100;
  else if (is(what, "maturity-first")) {
    found = after_terms(of, cut);
    item->maturity_loss = cut - found;
    item->haircut_loss = found - after_haircut(of, found);
  } else if (is(what, "cut-last")) {
    found = after_haircut(of, of->sent);
    item->haircut_loss = of->sent - found;
    item->maturity_loss = found - after_terms(of, found);
    item->cut_loss = after_terms(of, found) - after_cut(of, after_terms(of, found));
  }
}

/* Of an item that is left out. */
static void mistake_left_out(const char *what, const struct steps *of, outcome *item)
{
  outcome valued = due_of(of, 0);

  if (is(what, "left-out-missing")) {
    item->left_out = 0;
  } else if (is(what, "left-out-with-losses")) {
    item->haircut_loss = valued.haircut_loss;
    item->maturity_loss = valued.maturity_loss;
    item->cut_loss = valued.cut_loss;
  } else if (is(what, "left-out-behind-cut")) {
    item->left_out = after_cut(of, of->sent);
  } else if (is(what, "left-out-by-value")) {
    item->left_out = valued.value;
  } else if (is(what, "left-out-as-haircut")) {
    count_into(&item->left_out, &item->haircut_loss);
  } else if (is(what, "left-out-as-value")) {
    item->value = item->left_out;
  }
}

static void mistake_item(const char *what, const struct hadlephoga_deal *deal, const struct place *at,
                         struct hadlephoga_report *report)
{
  struct steps of = steps_of(deal, at);
  outcome item = due_of(&of, outcome_at(report, at).ground);

  spoil(what, &item);
  if (item.ground == 0) {
    mistake_numbers(what, &of, &item);
    mistake_steps(what, &of, &item);
  } else {
    mistake_left_out(what, &of, &item);
  }
  put_outcome(report, at, &item);
}

/* The losses of this place at the next one, or at the one before. */
static void move_losses(const struct place *at, const struct place *to, struct hadlephoga_report *report)
{
  outcome from = outcome_at(report, at);
  outcome other = outcome_at(report, to);

  other.haircut_loss = from.haircut_loss;
  other.maturity_loss = from.maturity_loss;
  other.cut_loss = from.cut_loss;
  from.haircut_loss = from.maturity_loss = from.cut_loss = 0;
  put_outcome(report, at, &from);
  put_outcome(report, to, &other);
}

/* One in the number of this name. */
static void put_one(const char *name, const struct place *at, struct hadlephoga_report *report)
{
  outcome item = outcome_at(report, at);

  if (is(name, "haircut"))
    item.haircut_loss = 1;
  else if (is(name, "maturity"))
    item.maturity_loss = 1;
  else if (is(name, "cut"))
    item.cut_loss = 1;
  else if (is(name, "left-out"))
    item.left_out = 1;
  put_outcome(report, at, &item);
}

/* What would be reported of a place past a count, but for the ground. */
static void count_place(struct hadlephoga_deal deal, const struct place *at, struct hadlephoga_report *report)
{
  struct hadlephoga_report longer;
  outcome item;

  if (at->of_guarantees)
    deal.guarantee_count = HADLEPHOGA_ITEMS;
  else
    deal.collateral_count = HADLEPHOGA_ITEMS;
  longer = exact_report(&deal);
  item = outcome_at(&longer, at);
  item.ground = item.value = 0;
  put_outcome(report, at, &item);
}

static void mistake_past_count(const char *what, const struct hadlephoga_deal *deal, const struct place *at,
                               struct hadlephoga_report *report)
{
  if (is(what, "past-counted"))
    count_place(*deal, at, report);
  else if (strncmp(what, "past-", 5) == 0)
    put_one(what + 5, at, report);
}

/* A fault in one place is named LIST-PLACE-WHAT. */
static const char *named(const char *name, struct place *at)
{
  char list[16], place[16];
  int end = 0;

  if (sscanf(name, "-%15[a-z]-%15[a-z]-%n", list, place, &end) != 2 || end == 0)
    return NULL;
  at->of_guarantees = is(list, "guarantees");
  at->index = is(place, "first") ? 0 : is(place, "middle") ? HADLEPHOGA_ITEMS / 2 - 1 : HADLEPHOGA_ITEMS - 1;
  return at->of_guarantees || is(list, "collateral") ? name + end : NULL;
}

/* In every place: the amount left out on one ground missing; a number cut to 32 bits; all
 * losses missing under one edition and with one kind. */
static void mistake_everywhere(const char *name, const struct hadlephoga_terms *terms, outcome *item)
{
  uint64_t ground, edition, kind;

  if (sscanf(name, "ground-%" SCNu64, &ground) == 1 && item->ground == ground)
    item->left_out = 0;
  if (is(name, "bits-haircut"))
    item->haircut_loss &= UINT32_MAX;
  if (is(name, "bits-maturity"))
    item->maturity_loss &= UINT32_MAX;
  if (is(name, "bits-cut"))
    item->cut_loss &= UINT32_MAX;
  if (is(name, "bits-left-out"))
    item->left_out &= UINT32_MAX;
  if (sscanf(name, "under-%" SCNu64 "-%" SCNu64, &edition, &kind) == 2 && terms->edition == edition &&
      terms->kind == kind)
    item->haircut_loss = item->maturity_loss = item->cut_loss = item->left_out = 0;
}

/* Each counted item of a list, as it is worked out here, but for the mistake. */
static void mistake_list(const char *name, int of_guarantees, const struct hadlephoga_deal *deal,
                         struct hadlephoga_report *report)
{
  for (struct place at = {of_guarantees, 0}; at.index < count_of(deal, &at); at.index++) {
    struct steps steps = steps_of(deal, &at);
    outcome item = due_of(&steps, outcome_at(report, &at).ground);

    mistake_everywhere(name, &deal->terms, &item);
    put_outcome(report, &at, &item);
  }
}

/* A fault in every place is named all-LIST-WHAT; without any, both lists are worked out. */
static void mistake_lists(const char *name, const struct hadlephoga_deal *deal, struct hadlephoga_report *report)
{
  static const char *const lists[] = {"-all-collateral-", "-all-guarantees-"};

  for (int list = 0; list < 2; list++) {
    size_t length = strlen(lists[list]);

    if (is(name, "-none"))
      mistake_list("", list, deal, report);
    else if (strncmp(name, lists[list], length) == 0)
      mistake_list(name + length, list, deal, report);
  }
}

void mistake_losses(const char *of, struct hadlephoga_deal deal, struct hadlephoga_report *report)
{
  const char *what;
  struct place at, to;

  if (!fault_among(of))
    return;
  what = named(fault_behind(of), &at);
  if (what == NULL) {
    mistake_lists(fault_behind(of), &deal, report);
  } else if (at.index >= count_of(&deal, &at)) {
    mistake_past_count(what, &deal, &at, report);
  } else if (is(what, "moved")) {
    to = at;
    to.index = at.index + 1 < HADLEPHOGA_ITEMS ? at.index + 1 : at.index - 1;
    move_losses(&at, &to, report);
  } else {
    mistake_item(what, &deal, &at, report);
  }
}

/* Beside a refusal. */
void mistake_refused(const char *of, struct hadlephoga_report *report)
{
  const char *what;
  struct place at;

  if (!fault_among(of))
    return;
  what = named(fault_behind(of), &at);
  if (what != NULL && strncmp(what, "refused-", 8) == 0)
    put_one(what + 8, &at, report);
}
