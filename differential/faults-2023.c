/* The tables of 2023 mistaken: an edge of a band a day off, a figure of 2019
 * under edition 3, figures of 2023 under an earlier edition. The exact library
 * reports the deal under several editions, and a mistaken report is put together
 * from these: each item, the goods lent and the parties as the edition has them
 * that they are taken for. */
#include <string.h>

#include "faults.h"

/* The editions whose tables are looked into. */
struct looked_into {
  uint64_t collateral[HADLEPHOGA_ITEMS];
  uint64_t lent;
  uint64_t parties;
};

static struct hadlephoga_report report_under(uint64_t edition, const struct hadlephoga_deal *deal)
{
  struct hadlephoga_deal copy = *deal;

  copy.terms.edition = edition;
  return exact_report(&copy);
}

/* Edition 1 has no floor, whatever tables it is given. */
static void drop_sovereigns(struct hadlephoga_deal *deal)
{
  deal->terms.sovereign_step = 0;
  for (size_t i = 0; i < deal->guarantee_count; i++)
    deal->guarantees[i].sovereign_step = 0;
}

/* Items first; then E*, the items being cash of their value; then the cover of E*,
 * which is lent without any items. */
static struct hadlephoga_report put_together(const struct looked_into *editions, struct hadlephoga_deal deal)
{
  struct hadlephoga_report under[] = {report_under(1, &deal), report_under(2, &deal), report_under(3, &deal)};
  struct hadlephoga_deal sent = deal;
  struct hadlephoga_report report;
  uint64_t exposure;

  for (size_t i = 0; i < deal.collateral_count; i++)
    deal.collateral[i] = cash(&deal.terms, under[editions->collateral[i] - 1].collateral[i].value);
  exposure = report_under(editions->lent, &deal).exposure;
  if (deal.terms.edition == 1)
    drop_sovereigns(&deal);
  settle_swaps(&deal);
  leave_exposure(&deal, exposure);
  report = report_under(editions->parties, &deal);
  put_losses(&sent, &deal, &deal, &report);
  for (size_t i = 0; i < HADLEPHOGA_ITEMS; i++)
    report.collateral[i] = under[editions->collateral[i] - 1].collateral[i];
  return report;
}

static int is_eligible(uint64_t type, uint64_t step)
{
  if (type == 6)
    return 0;
  if (type < 2 || type > 5)
    return 1;
  return step >= 1 && step <= (type == 2 ? 4u : 3u);
}

/* The edition whose haircut these goods get in a deal of this edition. */
static uint64_t haircut_from(const char *of, uint64_t edition, uint64_t type, int eligible)
{
  if (edition != 3)
    return fault_of(of, edition == 1 ? "-haircuts-under-1" : "-haircuts-under-2") ? 3 : edition;
  if (!eligible)
    return fault_of(of, "-not-eligible") ? 2 : 3;
  switch (type) {
  case 3:
    return fault_of(of, "-other-debt") ? 2 : 3;
  case 4:
    return fault_of(of, "-bank-debt") ? 2 : 3;
  case 7:
    return fault_of(of, "-main-index-equity") ? 2 : 3;
  case 8:
    return fault_of(of, "-other-equity") ? 2 : 3;
  case 9:
    return fault_of(of, "-gold") ? 2 : 3;
  default:
    return 3;
  }
}

static uint64_t weights_from(const char *of, uint64_t edition)
{
  int mistaken = edition != 3 && fault_of(of, edition == 1 ? "-weights-under-1" : "-weights-under-2");

  return mistaken ? 3 : edition;
}

/* A band that ends a day early or late; or sovereign and securitised debt whose last
 * band begins where that of other issuers does. */
static void mistake_life(const char *of, uint64_t type, uint64_t *life)
{
  static const struct {
    uint64_t last;
    const char *early;
    const char *late;
  } bands[] = {
      {360, "-band-360-early", "-band-360-late"},
      {1080, "-band-1080-early", "-band-1080-late"},
      {1800, "-band-1800-early", "-band-1800-late"},
      {3600, "-band-3600-early", "-band-3600-late"},
  };

  if (type == 3 || type == 4)
    for (size_t i = 0; i < sizeof bands / sizeof bands[0]; i++) {
      if (*life == bands[i].last && fault_of(of, bands[i].early))
        *life += 1;
      else if (*life == bands[i].last + 1 && fault_of(of, bands[i].late))
        *life -= 1;
    }
  else if ((type == 2 || type == 5) && *life > 1800 && *life <= 3600 && fault_of(of, "-bands-of-all"))
    *life = 1800;
}

/* Parties that keep their weight of 2019 are passed as others that weigh so much
 * under edition 3: an unrated bank, with its floor, as a rated one. */
static void mistake_weight(const char *of, const char *const names[3], uint64_t party_class, uint64_t *step,
                           uint64_t sovereign_step)
{
  static const uint64_t unrated[7] = {4, 3, 3, 3, 4, 4, 6};

  if (party_class == 2 && *step == 0 && fault_of(of, names[0]))
    *step = unrated[sovereign_step];
  else if (party_class == 2 && *step == 2 && fault_of(of, names[1]))
    *step = 3;
  else if (party_class == 3 && *step == 3 && fault_of(of, names[2]))
    *step = 4;
}

/* What is mistaken of a deal under edition 3 alone. */
static void mistake_third(const char *of, struct hadlephoga_deal *deal)
{
  static const char *const counterparty[] = {"-unrated-bank", "-bank-2", "-corporate-3"};
  static const char *const provider[] = {"-unrated-bank-provides", "-bank-2-provides", "-entity-3-provides"};
  struct hadlephoga_terms *terms = &deal->terms;

  mistake_life(of, terms->lent_type, &terms->lent_issue_life);
  for (size_t i = 0; i < deal->collateral_count; i++)
    mistake_life(of, deal->collateral[i].type, &deal->collateral[i].issue_life);
  if (fault_of(of, "-no-floor") && terms->counterparty_class == 3 && terms->step == 0)
    terms->sovereign_step = 0;
  mistake_weight(of, counterparty, terms->counterparty_class, &terms->step, terms->sovereign_step);
  for (size_t i = 0; i < deal->guarantee_count; i++) {
    struct hadlephoga_held_guarantee *item = &deal->guarantees[i];

    mistake_weight(of, provider, item->provider_class, &item->step, item->sovereign_step);
  }
}

void mistake_tables(const char *of, struct hadlephoga_deal deal, struct hadlephoga_report *report)
{
  const struct hadlephoga_terms *terms = &deal.terms;
  uint64_t edition = terms->edition;
  struct looked_into editions;

  if (!fault_among(of))
    return;
  if (edition == 3)
    mistake_third(of, &deal);
  editions.parties = weights_from(of, edition);
  editions.lent = haircut_from(of, edition, terms->lent_type, is_eligible(terms->lent_type, terms->lent_step));
  for (size_t i = 0; i < HADLEPHOGA_ITEMS; i++)
    editions.collateral[i] = haircut_from(of, edition, deal.collateral[i].type, 1);
  *report = put_together(&editions, deal);
}
