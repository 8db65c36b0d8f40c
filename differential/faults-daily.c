/* Figures of daily deals mistaken: a stored figure one too low or too high, that of
 * another haircut or that of another period. What such figures leave of collateral and
 * of guarantees is worked out here, and passed to the exact library in place of them:
 * cash and guarantees in the deal's currency, which have no haircut. */
#include <inttypes.h>
#include <stdio.h>
#include <string.h>

#include "faults.h"

#define WHOLE 1000000
#define CURRENCY_HAIRCUT 80000

/* What a figure is used for. */
#define OWN "own"
#define LENT "lent"
#define CURRENCY "currency"
#define GUARANTEE "guarantee"
/* All of these but the last. */
#define DEAL "deal"

/* Where something is mistaken: a use, its period and, of a single figure, its haircut;
 * and what is taken there. */
struct mistake {
  char use[16];
  uint64_t days, haircut;
  uint64_t as_days, as_haircut;
  uint64_t too_low, too_high;
  int whole_row;
};

/* Behind "book-daily" or "report-daily" a fault is named USE-DAYS-HAIRCUT-low or -high;
 * USE-DAYS-HAIRCUT-as-HAIRCUT, that haircut's figure; or USE-DAYS-as-DAYS, that period's
 * row. */
static struct mistake mistake_named(const char *name)
{
  struct mistake of = {.use = ""};
  char what[8] = "";

  if (sscanf(name, "-%15[a-z]-%" SCNu64 "-as-%" SCNu64, of.use, &of.days, &of.as_days) == 3) {
    of.whole_row = 1;
  } else if (sscanf(name, "-%15[a-z]-%" SCNu64 "-%" SCNu64 "-%7[a-z]-%" SCNu64, of.use, &of.days, &of.haircut, what,
                    &of.as_haircut) >= 4) {
    of.too_low = strcmp(what, "low") == 0;
    of.too_high = strcmp(what, "high") == 0;
    of.as_days = of.days;
    if (of.too_low || of.too_high)
      of.as_haircut = of.haircut;
  } else {
    of.use[0] = '\0';
  }
  return of;
}

static int is_mistaken(const struct mistake *of, const char *use, uint64_t haircut, uint64_t days)
{
  int of_use = strcmp(of->use, use) == 0 || (strcmp(of->use, DEAL) == 0 && strcmp(use, GUARANTEE) != 0);

  return of_use && days == of->days && (of->whole_row || haircut == of->haircut);
}

/* The least h with 10 x h x h at or above haircut x haircut x days. */
static uint64_t scaled(uint64_t haircut, uint64_t days)
{
  uint64_t low = 0, high = 4 * WHOLE;

  while (low < high) {
    uint64_t middle = (low + high) / 2;

    if (10 * middle * middle >= haircut * haircut * days)
      high = middle;
    else
      low = middle + 1;
  }
  return low;
}

static uint64_t figure(const struct mistake *of, const char *use, uint64_t haircut, uint64_t days)
{
  if (!is_mistaken(of, use, haircut, days))
    return scaled(haircut, days);
  return scaled(of->whole_row ? haircut : of->as_haircut, of->as_days) + of->too_high - of->too_low;
}

/* The period of a deal; or the row of its kind, whatever the interval. */
static uint64_t deal_days(const char *of, const struct hadlephoga_terms *terms)
{
  uint64_t least = terms->kind == 1 ? 5 : terms->kind == 2 ? 10 : 20;

  return fault_of(of, "-row-by-kind") ? least : terms->interval + least - 1;
}

/* That of its guarantees; or the deal's, where that is a daily one. */
static uint64_t guarantee_days(const char *of, const struct hadlephoga_terms *terms)
{
  return fault_of(of, "-guarantee-by-kind") && terms->interval == 1 ? deal_days(of, terms) : terms->interval + 9;
}

/* At a period of ten days a haircut is its own figure, so that values and exposures of
 * a million show it. */
static struct hadlephoga_deal at_ten_days(const struct hadlephoga_deal *deal)
{
  struct hadlephoga_deal million = *deal;

  million.terms.amount = WHOLE;
  million.terms.kind = 2;
  million.terms.interval = 1;
  return million;
}

static uint64_t lent_haircut(const struct hadlephoga_deal *deal)
{
  struct hadlephoga_deal million = at_ten_days(deal);

  million.collateral_count = 1;
  million.collateral[0] = cash(&million.terms, WHOLE / 2);
  return exact_report(&million).exposure - WHOLE / 2;
}

/* Each item as one of a million that is recognised wherever it is eligible. */
static struct hadlephoga_report collateral_of_a_million(const struct hadlephoga_deal *deal)
{
  struct hadlephoga_deal million = at_ten_days(deal);

  for (size_t i = 0; i < deal->collateral_count; i++) {
    struct hadlephoga_collateral *item = &million.collateral[i];
    const struct hadlephoga_collateral *sent = &deal->collateral[i];

    *item = cash(&deal->terms, WHOLE);
    item->type = sent->type;
    item->step = sent->step;
    item->issue_life = sent->issue_life;
    item->listed = sent->listed;
  }
  return exact_report(&million);
}

static uint64_t left(uint64_t amount, uint64_t haircuts)
{
  return haircuts < WHOLE ? amount * (WHOLE - haircuts) / WHOLE : 0;
}

/* What is not eligible has no haircut, and stays. */
static void cut_collateral(const struct mistake *of, uint64_t days, struct hadlephoga_deal *deal)
{
  struct hadlephoga_report million = collateral_of_a_million(deal);

  for (size_t i = 0; i < deal->collateral_count; i++) {
    struct hadlephoga_collateral *item = &deal->collateral[i];
    uint64_t haircuts;

    if (million.collateral[i].ground != 0)
      continue;
    haircuts = figure(of, OWN, WHOLE - million.collateral[i].value, days);
    if (item->currency != deal->terms.currency)
      haircuts += figure(of, CURRENCY, CURRENCY_HAIRCUT, days);
    item->amount = left(item->amount, haircuts);
    item->type = 1;
    item->step = item->issue_life = 0;
    item->currency = deal->terms.currency;
  }
}

static void cut_guarantees(const struct mistake *of, uint64_t days, struct hadlephoga_deal *deal)
{
  for (size_t i = 0; i < deal->guarantee_count; i++) {
    struct hadlephoga_held_guarantee *item = &deal->guarantees[i];

    if (item->currency != deal->terms.currency)
      item->amount = left(item->amount, figure(of, GUARANTEE, CURRENCY_HAIRCUT, days));
    item->currency = deal->terms.currency;
  }
}

/* The amount raised by the figure, rounded up, less the values; at most the amount. */
static uint64_t exposure_left(uint64_t amount, uint64_t haircut, const struct hadlephoga_report *report)
{
  uint64_t exposure = (amount * (WHOLE + haircut) + WHOLE - 1) / WHOLE;

  for (size_t i = 0; i < HADLEPHOGA_ITEMS; i++)
    exposure -= report->collateral[i].value < exposure ? report->collateral[i].value : exposure;
  return exposure < amount ? exposure : amount;
}

void mistake_figures(const char *of, struct hadlephoga_deal deal, struct hadlephoga_report *report)
{
  struct hadlephoga_deal sent = deal, settled;
  struct hadlephoga_report valued;
  struct mistake mistake;
  uint64_t days, lent;

  if (!fault_among(of))
    return;
  mistake = mistake_named(fault_behind(of));
  days = deal_days(of, &deal.terms);
  lent = figure(&mistake, LENT, lent_haircut(&deal), days);
  cut_collateral(&mistake, days, &deal);
  settle_swaps(&deal);
  settled = deal;
  cut_guarantees(&mistake, guarantee_days(of, &deal.terms), &deal);
  valued = exact_report(&deal);
  leave_exposure(&deal, exposure_left(deal.terms.amount, lent, &valued));
  *report = exact_report(&deal);
  memcpy(report->collateral, valued.collateral, sizeof valued.collateral);
  put_losses(&sent, &settled, &deal, report);
}
