/* Tests that the structs of the header hold each number in its place, and that
 * every name means what the library takes it for; and the calls on books and on netting
 * sets, with every list at its edges. Says the first wrong field and returns 1, or says
 * nothing and returns 0. Compiles as C11 and as C++. */
#include <stdio.h>
#include <stdlib.h>
#include <string.h>

#include "hadlephoga.h"

#define MARK UINT64_C(0xA5A5A5A5A5A5A5A5)

static void is(int line, const char *name, uint64_t found, uint64_t due)
{
  if (found == due)
    return;
  printf("layout.c:%d: %s is %llu, not %llu\n", line, name, (unsigned long long)found, (unsigned long long)due);
  exit(1);
}

#define IS(field, due) is(__LINE__, #field, (field), (due))

/* These numbers are all the same; one that is not is said with its place. */
static void all(int line, const void *numbers, size_t size, uint64_t due)
{
  char name[32];
  uint64_t number;
  size_t place;

  for (place = 0; place < size / sizeof number; place++) {
    memcpy(&number, (const unsigned char *)numbers + place * sizeof number, sizeof number);
    snprintf(name, sizeof name, "number %u", (unsigned)place);
    is(line, name, number, due);
  }
}

#define ZEROS(numbers) all(__LINE__, &(numbers), sizeof(numbers), 0)
#define MARKS(numbers) all(__LINE__, &(numbers), sizeof(numbers), MARK)

/* Places */

/* Fills a struct with 0, 1, 2, .. */
static void fill(void *numbers, size_t size, size_t length)
{
  uint64_t place;

  IS(size, length * sizeof place);
  for (place = 0; place < length; place++)
    memcpy((unsigned char *)numbers + place * sizeof place, &place, sizeof place);
}

static void collateral_from(const struct hadlephoga_collateral *item, uint64_t first)
{
  IS(item->amount, first);
  IS(item->type, first + 1);
  IS(item->step, first + 2);
  IS(item->issue_life, first + 3);
  IS(item->currency, first + 4);
  IS(item->residual_term, first + 5);
  IS(item->original_term, first + 6);
  IS(item->lawful, first + 7);
  IS(item->unrelated, first + 8);
  IS(item->unreflected, first + 9);
  IS(item->listed, first + 10);
}

/* The ten numbers that begin a guarantee and a swap, as they are sent and as they
 * are held. */
#define GUARANTEE_FROM(item, first) \
  do { \
    IS((item)->amount, (first)); \
    IS((item)->provider_class, (first) + 1); \
    IS((item)->step, (first) + 2); \
    IS((item)->sovereign_step, (first) + 3); \
    IS((item)->currency, (first) + 4); \
    IS((item)->residual_term, (first) + 5); \
    IS((item)->original_term, (first) + 6); \
    IS((item)->lawful, (first) + 7); \
    IS((item)->direct, (first) + 8); \
    IS((item)->unreflected, (first) + 9); \
  } while (0)

static void held_from(const struct hadlephoga_held_guarantee *item, uint64_t first)
{
  GUARANTEE_FROM(item, first);
  IS(item->instrument, first + 10);
}

static void places_of_sent_items(void)
{
  struct hadlephoga_guarantee guarantee;
  struct hadlephoga_swap swap;

  fill(&guarantee, sizeof guarantee, HADLEPHOGA_GUARANTEE_WIDTH);
  GUARANTEE_FROM(&guarantee, 0);
  fill(&swap, sizeof swap, HADLEPHOGA_SWAP_WIDTH);
  GUARANTEE_FROM(&swap, 0);
  IS(swap.restructuring, 10);
}

static void terms_from(const struct hadlephoga_terms *terms, uint64_t first)
{
  IS(terms->amount, first);
  IS(terms->counterparty_class, first + 1);
  IS(terms->step, first + 2);
  IS(terms->sovereign_step, first + 3);
  IS(terms->currency, first + 4);
  IS(terms->kind, first + 5);
  IS(terms->interval, first + 6);
  IS(terms->residual_term, first + 7);
  IS(terms->lent_type, first + 8);
  IS(terms->lent_step, first + 9);
  IS(terms->lent_issue_life, first + 10);
  IS(terms->edition, first + 11);
}

static void places_of_deal(void)
{
  const uint64_t collateral_count = HADLEPHOGA_TERMS_WIDTH;
  const uint64_t collateral = collateral_count + 1;
  const uint64_t guarantee_count = collateral + HADLEPHOGA_ITEMS * HADLEPHOGA_COLLATERAL_WIDTH;
  const uint64_t guarantees = guarantee_count + 1;
  struct hadlephoga_deal deal;
  size_t i;

  fill(&deal, sizeof deal, HADLEPHOGA_RECORD_LENGTH);
  terms_from(&deal.terms, 0);
  IS(deal.collateral_count, collateral_count);
  IS(deal.guarantee_count, guarantee_count);
  for (i = 0; i < HADLEPHOGA_ITEMS; i++) {
    collateral_from(&deal.collateral[i], collateral + i * HADLEPHOGA_COLLATERAL_WIDTH);
    held_from(&deal.guarantees[i], guarantees + i * HADLEPHOGA_HELD_GUARANTEE_WIDTH);
  }
}

/* The six numbers of an outcome, which begin a cover too. */
#define OUTCOME_FROM(item, first) \
  do { \
    IS((item)->value, (first)); \
    IS((item)->ground, (first) + 1); \
    IS((item)->haircut_loss, (first) + 2); \
    IS((item)->maturity_loss, (first) + 3); \
    IS((item)->cut_loss, (first) + 4); \
    IS((item)->left_out, (first) + 5); \
  } while (0)

static void outcome_from(const struct hadlephoga_outcome *outcome, uint64_t first)
{
  OUTCOME_FROM(outcome, first);
}

static void cover_from(const struct hadlephoga_cover *cover, uint64_t first)
{
  OUTCOME_FROM(cover, first);
  IS(cover->portion, first + 6);
}

static void places_of_report(void)
{
  const uint64_t collateral = 1;
  const uint64_t guarantees = collateral + HADLEPHOGA_ITEMS * HADLEPHOGA_OUTCOME_WIDTH;
  const uint64_t rest = guarantees + HADLEPHOGA_ITEMS * HADLEPHOGA_COVER_WIDTH;
  struct hadlephoga_report report;
  size_t i;

  fill(&report, sizeof report, HADLEPHOGA_REPORT_LENGTH);
  IS(report.exposure, 0);
  for (i = 0; i < HADLEPHOGA_ITEMS; i++) {
    outcome_from(&report.collateral[i], collateral + i * HADLEPHOGA_OUTCOME_WIDTH);
    cover_from(&report.guarantees[i], guarantees + i * HADLEPHOGA_COVER_WIDTH);
  }
  IS(report.rest, rest);
  IS(report.weighted_amount, rest + 1);
}

static void places_of_answer(void)
{
  struct hadlephoga_answer answer;

  fill(&answer, sizeof answer, HADLEPHOGA_ANSWER_LENGTH);
  IS(answer.serial, 0);
  IS(answer.refusal, 1);
  IS(answer.exposure, 2);
  IS(answer.weighted_amount, 3);
}

static void places_of_set(void)
{
  struct hadlephoga_set set;
  uint64_t first;
  size_t i;

  fill(&set, sizeof set, HADLEPHOGA_SET_LENGTH(HADLEPHOGA_POSITIONS));
  IS(set.terms.table, 0);
  IS(set.terms.counterparty_class, 1);
  IS(set.terms.step, 2);
  IS(set.terms.sovereign_step, 3);
  IS(set.terms.settlement_currency, 4);
  IS(set.terms.interval, 5);
  for (i = 0; i < HADLEPHOGA_POSITIONS; i++) {
    first = HADLEPHOGA_SET_LENGTH(i);
    IS(set.positions[i].side, first);
    IS(set.positions[i].amount, first + 1);
    IS(set.positions[i].security, first + 2);
    IS(set.positions[i].type, first + 3);
    IS(set.positions[i].step, first + 4);
    IS(set.positions[i].issue_life, first + 5);
    IS(set.positions[i].currency, first + 6);
  }
}

/* The layout that is described here, and what the library itself takes for
 * terms, a record and a report. */
static void lengths(void)
{
  static const uint64_t terms[HADLEPHOGA_TERMS_WIDTH] = {1, 3, 0, 0, 978, 3, 1, 90, 1, 0, 0, 1};
  uint64_t record[HADLEPHOGA_RECORD_LENGTH + 1];
  uint64_t report[HADLEPHOGA_REPORT_LENGTH];

  IS(hadlephoga_layout(), HADLEPHOGA_LAYOUT);
  IS(HADLEPHOGA_LAYOUT, 4);
  IS(HADLEPHOGA_TERMS_WIDTH, 12);
  IS(HADLEPHOGA_COLLATERAL_WIDTH, 11);
  IS(HADLEPHOGA_GUARANTEE_WIDTH, 10);
  IS(HADLEPHOGA_SWAP_WIDTH, 11);
  IS(HADLEPHOGA_HELD_GUARANTEE_WIDTH, 11);
  IS(HADLEPHOGA_OUTCOME_WIDTH, 6);
  IS(HADLEPHOGA_COVER_WIDTH, 7);
  IS(HADLEPHOGA_RECORD_LENGTH, 366);
  IS(HADLEPHOGA_REPORT_LENGTH, 211);
  IS(HADLEPHOGA_SET_TERMS_WIDTH, 6);
  IS(HADLEPHOGA_POSITION_WIDTH, 7);
  IS(HADLEPHOGA_SET_LENGTH(HADLEPHOGA_POSITIONS), 230);
  IS(hadlephoga_open_deal(terms, HADLEPHOGA_TERMS_WIDTH, record, HADLEPHOGA_RECORD_LENGTH - 1), 13);
  IS(hadlephoga_open_deal(terms, HADLEPHOGA_TERMS_WIDTH - 1, record, HADLEPHOGA_RECORD_LENGTH), 11);
  IS(hadlephoga_open_deal(terms, HADLEPHOGA_TERMS_WIDTH, record, HADLEPHOGA_RECORD_LENGTH), 0);
  IS(hadlephoga_report_deal(record, HADLEPHOGA_RECORD_LENGTH + 1, report, HADLEPHOGA_REPORT_LENGTH), 40);
  IS(hadlephoga_report_deal(record, HADLEPHOGA_RECORD_LENGTH, report, HADLEPHOGA_REPORT_LENGTH - 1), 13);
  IS(hadlephoga_report_deal(record, HADLEPHOGA_RECORD_LENGTH, report, HADLEPHOGA_REPORT_LENGTH), 0);
}

/* Meanings: a deal in which no two fields that could be exchanged are alike. */

/* Senior paper of a bank in euros, valued; every condition is met. */
static struct hadlephoga_collateral paper(uint64_t amount)
{
  struct hadlephoga_collateral item;

  item.amount = amount;
  item.type = 4;
  item.step = 3;
  item.issue_life = 400;
  item.currency = 978;
  item.residual_term = 2000;
  item.original_term = 2500;
  item.lawful = 1;
  item.unrelated = 1;
  item.unreflected = 1;
  item.listed = 1;
  return item;
}

/* Of a sovereign at step 3 in euros, recognised; every condition is met. */
static struct hadlephoga_guarantee promise(uint64_t amount)
{
  struct hadlephoga_guarantee item;

  item.amount = amount;
  item.provider_class = 1;
  item.step = 3;
  item.sovereign_step = 0;
  item.currency = 978;
  item.residual_term = 2000;
  item.original_term = 2500;
  item.lawful = 1;
  item.direct = 1;
  item.unreflected = 1;
  return item;
}

static struct hadlephoga_swap sent_swap(uint64_t amount, uint64_t restructuring)
{
  struct hadlephoga_guarantee guarantee = promise(amount);
  struct hadlephoga_swap item;

  memcpy(&item, &guarantee, sizeof guarantee);
  item.restructuring = restructuring;
  return item;
}

static struct hadlephoga_held_guarantee held_promise(uint64_t amount, uint64_t instrument)
{
  struct hadlephoga_guarantee guarantee = promise(amount);
  struct hadlephoga_held_guarantee item;

  memcpy(&item, &guarantee, sizeof guarantee);
  item.instrument = instrument;
  return item;
}

/* Adds an item by the operation of its instrument. */
static uint64_t add_held(struct hadlephoga_deal *deal, const struct hadlephoga_held_guarantee *held)
{
  struct hadlephoga_guarantee guarantee;
  struct hadlephoga_swap swap;

  memcpy(&guarantee, held, sizeof guarantee);
  if (held->instrument == HADLEPHOGA_GUARANTEE_INSTRUMENT)
    return hadlephoga_add_guarantee_to(deal, &guarantee);
  memcpy(&swap, &guarantee, sizeof guarantee);
  swap.restructuring = held->instrument == HADLEPHOGA_SWAP_WITH_RESTRUCTURING;
  return hadlephoga_add_swap_to(deal, &swap);
}

/* n is 6 + 5 - 1 = 10, so that table haircuts stay as they are. */
static struct hadlephoga_terms repo(void)
{
  struct hadlephoga_terms terms;

  terms.amount = 1000000;
  terms.counterparty_class = 3;
  terms.step = 5;
  terms.sovereign_step = 4;
  terms.currency = 978;
  terms.kind = 1;
  terms.interval = 6;
  terms.residual_term = 1800;
  terms.lent_type = 4;
  terms.lent_step = 2;
  terms.lent_issue_life = 720;
  terms.edition = 2;
  return terms;
}

static void pledge_all_grounds(struct hadlephoga_deal *deal)
{
  deal->collateral_count = 8;
  deal->collateral[0] = paper(10001);
  deal->collateral[0].lawful = 0;
  deal->collateral[1] = paper(10002);
  deal->collateral[1].unrelated = 0;
  deal->collateral[2] = paper(10003);
  deal->collateral[2].unreflected = 0;
  deal->collateral[3] = paper(10004);
  deal->collateral[3].step = 0;
  deal->collateral[3].listed = 0;
  deal->collateral[4] = paper(10005);
  deal->collateral[4].residual_term = 300;
  deal->collateral[4].original_term = 359;
  deal->collateral[5] = paper(10006);
  deal->collateral[5].residual_term = 90;
  deal->collateral[5].original_term = 400;
  deal->collateral[6] = paper(300000);
  deal->collateral[6].step = 0;
  deal->collateral[6].issue_life = 360;
  deal->collateral[6].currency = 840;
  deal->collateral[6].residual_term = 900;
  deal->collateral[6].original_term = 1080;
  deal->collateral[7] = paper(500000);
  deal->collateral[7].type = 2;
}

static void guarantee_all_grounds(struct hadlephoga_deal *deal)
{
  deal->guarantee_count = 9;
  deal->guarantees[0] = held_promise(20001, HADLEPHOGA_GUARANTEE_INSTRUMENT);
  deal->guarantees[0].lawful = 0;
  deal->guarantees[1] = held_promise(20002, HADLEPHOGA_GUARANTEE_INSTRUMENT);
  deal->guarantees[1].direct = 0;
  deal->guarantees[2] = held_promise(20003, HADLEPHOGA_GUARANTEE_INSTRUMENT);
  deal->guarantees[2].unreflected = 0;
  deal->guarantees[3] = held_promise(20004, HADLEPHOGA_GUARANTEE_INSTRUMENT);
  deal->guarantees[3].provider_class = 3;
  deal->guarantees[3].step = 0;
  deal->guarantees[3].sovereign_step = 2;
  deal->guarantees[4] = held_promise(20005, HADLEPHOGA_GUARANTEE_INSTRUMENT);
  deal->guarantees[4].residual_term = 300;
  deal->guarantees[4].original_term = 359;
  deal->guarantees[5] = held_promise(20006, HADLEPHOGA_GUARANTEE_INSTRUMENT);
  deal->guarantees[5].residual_term = 90;
  deal->guarantees[5].original_term = 400;
  deal->guarantees[6] = held_promise(20007, HADLEPHOGA_GUARANTEE_INSTRUMENT);
  deal->guarantees[6].provider_class = 3;
  deal->guarantees[6].step = 5;
  deal->guarantees[6].sovereign_step = 1;
}

/* The two that are recognised: a sovereign, and an other entity whose own step
 * decides and not its sovereign's. */
static struct hadlephoga_deal deal_of_all_grounds(uint64_t last_but_one)
{
  struct hadlephoga_deal deal;

  memset(&deal, 0, sizeof deal);
  deal.terms = repo();
  pledge_all_grounds(&deal);
  guarantee_all_grounds(&deal);
  deal.guarantees[7] = held_promise(last_but_one, HADLEPHOGA_GUARANTEE_INSTRUMENT);
  deal.guarantees[8] = held_promise(250000, HADLEPHOGA_GUARANTEE_INSTRUMENT);
  deal.guarantees[8].provider_class = 3;
  deal.guarantees[8].step = 1;
  deal.guarantees[8].sovereign_step = 6;
  deal.guarantees[8].currency = 840;
  deal.guarantees[8].residual_term = 1000;
  deal.guarantees[8].original_term = 1200;
  return deal;
}

/* A cover without its portion. */
static struct hadlephoga_outcome outcome_of(const struct hadlephoga_cover *cover)
{
  struct hadlephoga_outcome outcome;

  memcpy(&outcome, cover, sizeof outcome);
  return outcome;
}

/* Value and losses make up the amount that was sent, or all of it is left out. */
static void adds_up(struct hadlephoga_outcome outcome, uint64_t amount)
{
  if (outcome.ground == 0) {
    IS(outcome.value + outcome.haircut_loss + outcome.maturity_loss + outcome.cut_loss, amount);
    IS(outcome.left_out, 0);
    return;
  }
  IS(outcome.left_out, amount);
  outcome.ground = outcome.left_out = 0;
  ZEROS(outcome);
}

/* Every item that is counted adds up, nothing but a swap without its condition is cut,
 * and past a count there are zeros. */
static void adds_up_in(const struct hadlephoga_report *report, const struct hadlephoga_deal *deal)
{
  size_t i;

  for (i = 0; i < HADLEPHOGA_ITEMS; i++) {
    if (i < deal->collateral_count) {
      adds_up(report->collateral[i], deal->collateral[i].amount);
      IS(report->collateral[i].cut_loss, 0);
    } else {
      ZEROS(report->collateral[i]);
    }
    if (i < deal->guarantee_count) {
      adds_up(outcome_of(&report->guarantees[i]), deal->guarantees[i].amount);
      if (deal->guarantees[i].instrument != HADLEPHOGA_SWAP_WITHOUT_RESTRUCTURING)
        IS(report->guarantees[i].cut_loss, 0);
      if (report->guarantees[i].ground != 0)
        IS(report->guarantees[i].portion, 0);
    } else {
      ZEROS(report->guarantees[i]);
    }
  }
}

struct marked_report {
  struct hadlephoga_report report;
  uint64_t mark;
};

static void reported(const struct hadlephoga_deal *deal, struct marked_report *marked)
{
  memset(marked, 0xA5, sizeof *marked);
  IS(hadlephoga_report_of(deal, &marked->report), 0);
  IS(marked->mark, MARK);
  adds_up_in(&marked->report, deal);
}

static void grounds(const struct hadlephoga_report *report)
{
  static const uint64_t collateral_grounds[HADLEPHOGA_ITEMS] = {21, 22, 23, 24, 25, 26};
  static const uint64_t guarantee_grounds[HADLEPHOGA_ITEMS] = {21, 27, 23, 28, 25, 26, 29};
  size_t i;

  for (i = 0; i < HADLEPHOGA_ITEMS; i++) {
    IS(report->collateral[i].ground, collateral_grounds[i]);
    IS(report->collateral[i].left_out, collateral_grounds[i] == 0 ? 0 : 10001 + i);
    IS(report->guarantees[i].ground, guarantee_grounds[i]);
    IS(report->guarantees[i].left_out, guarantee_grounds[i] == 0 ? 0 : 20001 + i);
    if (i != 6 && i != 7)
      IS(report->collateral[i].value, 0);
    if (i != 7 && i != 8) {
      IS(report->guarantees[i].value, 0);
      IS(report->guarantees[i].portion, 0);
    }
  }
}

/* Value and losses of an item of either list that is valued. */
#define WENT(item, to_value, by_haircut, by_maturity, by_cut) \
  do { \
    IS((item).ground, 0); \
    IS((item).value, (to_value)); \
    IS((item).haircut_loss, (by_haircut)); \
    IS((item).maturity_loss, (by_maturity)); \
    IS((item).cut_loss, (by_cut)); \
  } while (0)

static void meanings(void)
{
  struct hadlephoga_deal deal = deal_of_all_grounds(400000);
  struct marked_report marked;
  const struct hadlephoga_report *report = &marked.report;

  reported(&deal, &marked);
  grounds(report);
  /* 300,000 less 20,000 and 80,000 millionths is 270,000; x 810 / 1,710. */
  WENT(report->collateral[6], 127894, 30000, 142106, 0);
  /* 500,000 less 30,000 millionths. */
  WENT(report->collateral[7], 485000, 15000, 0, 0);
  /* Raised by 60,000 millionths: 1,060,000 - 127,894 - 485,000. */
  IS(report->exposure, 447106);
  WENT(report->guarantees[7], 400000, 0, 0, 0);
  /* 80,000 at n 6 + 9 is 97,980: 225,505; x 910 / 1,710. */
  WENT(report->guarantees[8], 120005, 24495, 105500, 0);
  /* Weight 20 before weight 50, which covers what is left. */
  IS(report->guarantees[8].portion, 120005);
  IS(report->guarantees[7].portion, 327101);
  IS(report->rest, 0);
  /* (120,005 x 20 + 327,101 x 50) / 100 is 187,551.5. */
  IS(report->weighted_amount, 187552);

  deal = deal_of_all_grounds(150000);
  reported(&deal, &marked);
  IS(report->exposure, 447106);
  WENT(report->guarantees[7], 150000, 0, 0, 0);
  IS(report->guarantees[7].portion, 150000);
  IS(report->rest, 177101);
  /* (120,005 x 20 + 150,000 x 50 + 177,101 x 150) / 100 is 364,652.5. */
  IS(report->weighted_amount, 364653);
}

/* Records that nothing accepts: cash has no step, a list no seventeenth place,
 * a sovereign no sovereign; there is no edition 0, nor a fourth, nor a third swap.
 * Beside 40 every number is 0. */
static void records_not_accepted(void)
{
  struct hadlephoga_deal deal = deal_of_all_grounds(150000);
  struct hadlephoga_deal wrong[8];
  struct marked_report marked;
  size_t i;

  for (i = 0; i < sizeof wrong / sizeof wrong[0]; i++)
    wrong[i] = deal;
  wrong[0].terms.lent_type = 1;
  wrong[1].guarantee_count = HADLEPHOGA_ITEMS + 1;
  wrong[2].terms.sovereign_step = 7;
  wrong[3].guarantees[7].sovereign_step = 1;
  wrong[4].terms.edition = 0;
  wrong[5].terms.edition = 4;
  wrong[6].guarantees[0].instrument = 3;
  wrong[7].guarantees[8].instrument = UINT64_MAX;
  /* Past the count it is not looked at. */
  deal.guarantees[9].instrument = UINT64_MAX;
  reported(&deal, &marked);
  for (i = 0; i < sizeof wrong / sizeof wrong[0]; i++) {
    memset(&marked, 0xA5, sizeof marked);
    IS(hadlephoga_report_of(&wrong[i], &marked.report), 40);
    ZEROS(marked.report);
    IS(marked.mark, MARK);
  }
}

/* Opening and adding: the library builds the record that was filled by hand. */
static void built(void)
{
  struct hadlephoga_deal deal = deal_of_all_grounds(400000);
  struct {
    struct hadlephoga_deal deal;
    uint64_t mark;
  } lent;
  struct hadlephoga_terms terms = deal.terms;
  struct hadlephoga_collateral pledge = paper(1);
  struct hadlephoga_guarantee guarantee = promise(1);
  size_t i;

  memset(&lent, 0xA5, sizeof lent);
  terms.step = 7;
  IS(hadlephoga_open_with(&terms, &lent.deal), 3);
  IS(lent.deal.terms.amount, 0);
  IS(lent.mark, MARK);
  IS(hadlephoga_add_collateral_to(&lent.deal, &pledge), 40);
  IS(hadlephoga_open_deal((const uint64_t *)&deal, HADLEPHOGA_TERMS_WIDTH + 1, (uint64_t *)&lent.deal,
                          HADLEPHOGA_RECORD_LENGTH), 11);
  IS(hadlephoga_open_with(&deal.terms, &lent.deal), 0);
  for (i = 0; i < deal.collateral_count; i++)
    IS(hadlephoga_add_collateral_to(&lent.deal, &deal.collateral[i]), 0);
  for (i = 0; i < deal.guarantee_count; i++)
    IS(add_held(&lent.deal, &deal.guarantees[i]), 0);
  IS((uint64_t)memcmp(&lent.deal, &deal, sizeof deal), 0);
  /* Refused, each by its own number, with the record as it was. */
  pledge.currency = 1000;
  IS(hadlephoga_add_collateral_to(&lent.deal, &pledge), 4);
  guarantee.direct = 2;
  IS(hadlephoga_add_guarantee_to(&lent.deal, &guarantee), 8);
  IS(hadlephoga_add_guarantee((uint64_t *)&lent.deal, HADLEPHOGA_RECORD_LENGTH, (const uint64_t *)&guarantee,
                              HADLEPHOGA_GUARANTEE_WIDTH - 1), 11);
  IS(hadlephoga_add_guarantee((uint64_t *)&lent.deal, HADLEPHOGA_RECORD_LENGTH, (const uint64_t *)&pledge,
                              HADLEPHOGA_GUARANTEE_WIDTH + 1), 11);
  IS((uint64_t)memcmp(&lent.deal, &deal, sizeof deal), 0);
  IS(lent.mark, MARK);
}

/* Swaps: the deal of all grounds with the sovereign's guarantee of 400,000 as the
 * instrument that is given, which is then 400,000 or 60 percent of it. */
static void swap_among_guarantees(uint64_t instrument, uint64_t value, uint64_t rest, uint64_t weighted)
{
  struct hadlephoga_deal deal = deal_of_all_grounds(400000);
  struct hadlephoga_deal built;
  struct marked_report marked;
  size_t i;

  deal.guarantees[7].instrument = instrument;
  IS(hadlephoga_open_with(&deal.terms, &built), 0);
  for (i = 0; i < deal.collateral_count; i++)
    IS(hadlephoga_add_collateral_to(&built, &deal.collateral[i]), 0);
  for (i = 0; i < deal.guarantee_count; i++)
    IS(add_held(&built, &deal.guarantees[i]), 0);
  IS((uint64_t)memcmp(&built, &deal, sizeof deal), 0);
  reported(&built, &marked);
  grounds(&marked.report);
  WENT(marked.report.guarantees[7], value, 0, 0, 400000 - value);
  IS(marked.report.rest, rest);
  IS(marked.report.weighted_amount, weighted);
}

/* Each ground on a swap too, as `grounds` has them for guarantees. */
static void grounds_of_swaps(uint64_t instrument)
{
  struct hadlephoga_deal deal = deal_of_all_grounds(400000);
  struct marked_report marked;
  size_t i;

  for (i = 0; i < deal.guarantee_count; i++)
    deal.guarantees[i].instrument = instrument;
  reported(&deal, &marked);
  grounds(&marked.report);
  /* 250,000, or 150,000 less 97,980 millionths, 135,303; x 910 / 1,710. */
  if (instrument == HADLEPHOGA_SWAP_WITH_RESTRUCTURING)
    WENT(marked.report.guarantees[8], 120005, 24495, 105500, 0);
  else
    WENT(marked.report.guarantees[8], 72003, 14697, 63300, 100000);
}

/* Refused, each by its own number, with the record as it was; and the list's end. */
static void refused_swaps(void)
{
  struct hadlephoga_deal before = deal_of_all_grounds(400000);
  struct hadlephoga_deal deal = before;
  struct hadlephoga_swap swap = sent_swap(1, 2);
  size_t length;

  IS(hadlephoga_add_swap_to(&deal, &swap), 8);
  swap.restructuring = UINT64_MAX;
  IS(hadlephoga_add_swap_to(&deal, &swap), 8);
  swap.currency = 0;
  IS(hadlephoga_add_swap_to(&deal, &swap), 4);
  swap = sent_swap(1, 1);
  for (length = 0; length < HADLEPHOGA_SWAP_WIDTH; length++)
    IS(hadlephoga_add_swap((uint64_t *)&deal, HADLEPHOGA_RECORD_LENGTH, (const uint64_t *)&swap, length), 11);
  IS(hadlephoga_add_swap((uint64_t *)&deal, HADLEPHOGA_RECORD_LENGTH, (const uint64_t *)&before,
                         HADLEPHOGA_SWAP_WIDTH + 1), 11);
  IS(hadlephoga_add_swap((uint64_t *)&deal, HADLEPHOGA_RECORD_LENGTH - 1, (const uint64_t *)&swap,
                         HADLEPHOGA_SWAP_WIDTH), 40);
  IS((uint64_t)memcmp(&deal, &before, sizeof deal), 0);
  while (deal.guarantee_count < HADLEPHOGA_ITEMS)
    IS(hadlephoga_add_swap_to(&deal, &swap), 0);
  before = deal;
  IS(hadlephoga_add_swap_to(&deal, &swap), 6);
  IS(add_held(&deal, &before.guarantees[0]), 6);
  IS((uint64_t)memcmp(&deal, &before, sizeof deal), 0);
}

static void swaps(void)
{
  /* As in `meanings`: 327,101 of the 400,000 are needed. */
  swap_among_guarantees(HADLEPHOGA_GUARANTEE_INSTRUMENT, 400000, 0, 187552);
  swap_among_guarantees(HADLEPHOGA_SWAP_WITH_RESTRUCTURING, 400000, 0, 187552);
  /* (120,005 x 20 + 240,000 x 50 + 87,101 x 150) / 100 is 274,652.5. */
  swap_among_guarantees(HADLEPHOGA_SWAP_WITHOUT_RESTRUCTURING, 240000, 87101, 274653);
  grounds_of_swaps(HADLEPHOGA_SWAP_WITHOUT_RESTRUCTURING);
  grounds_of_swaps(HADLEPHOGA_SWAP_WITH_RESTRUCTURING);
  refused_swaps();
}

/* The cut of a swap in euros by the deal's amount of 1,000,000, not its exposure,
 * which is raised; what it takes is all that is not the value, above the deal's amount
 * too. With the condition the whole amount is the value. */
static void cut(void)
{
  static const uint64_t figures[][2] = {
      {0, 0}, {1, 0}, {2, 1}, {999998, 599998}, {999999, 599999}, {1000000, 600000}, {1000001, 600000},
      {UINT64_C(1000000000000), 600000},
  };
  struct hadlephoga_terms terms = repo();
  size_t i;

  for (i = 0; i < sizeof figures / sizeof figures[0]; i++) {
    struct hadlephoga_swap without = sent_swap(figures[i][0], 0);
    struct hadlephoga_swap with = sent_swap(figures[i][0], 1);
    struct hadlephoga_deal deal;
    struct marked_report marked;

    IS(hadlephoga_open_with(&terms, &deal), 0);
    IS(hadlephoga_add_swap_to(&deal, &without), 0);
    IS(hadlephoga_add_swap_to(&deal, &with), 0);
    IS(deal.guarantees[0].instrument, HADLEPHOGA_SWAP_WITHOUT_RESTRUCTURING);
    IS(deal.guarantees[1].instrument, HADLEPHOGA_SWAP_WITH_RESTRUCTURING);
    reported(&deal, &marked);
    WENT(marked.report.guarantees[0], figures[i][1], 0, 0, figures[i][0] - figures[i][1]);
    WENT(marked.report.guarantees[1], figures[i][0], 0, 0, 0);
  }
}

/* Where the value went: a loan revalued daily, against cash of 1,000,000 that is
 * short, in dollars, and both; with swaps of 1,500,000 without the condition, in euros
 * and in dollars for a shorter term. */
static void losses(void)
{
  struct hadlephoga_deal deal;
  struct marked_report marked;
  size_t i;

  memset(&deal, 0, sizeof deal);
  deal.terms = repo();
  deal.terms.kind = 3;
  deal.terms.interval = deal.terms.lent_type = 1;
  deal.terms.lent_step = deal.terms.lent_issue_life = 0;
  deal.collateral_count = 3;
  deal.guarantee_count = 2;
  for (i = 0; i < 3; i++) {
    deal.collateral[i] = paper(1000000);
    deal.collateral[i].type = 1;
    deal.collateral[i].step = deal.collateral[i].issue_life = 0;
  }
  deal.guarantees[0] = deal.guarantees[1] = held_promise(1500000, HADLEPHOGA_SWAP_WITHOUT_RESTRUCTURING);
  deal.collateral[0].residual_term = deal.collateral[2].residual_term = deal.guarantees[1].residual_term = 900;
  deal.collateral[1].currency = deal.collateral[2].currency = deal.guarantees[1].currency = 840;
  reported(&deal, &marked);
  /* x 810 / 1,710. */
  WENT(marked.report.collateral[0], 473684, 0, 526316, 0);
  /* 80,000 at n 20 is 113,138. */
  WENT(marked.report.collateral[1], 886862, 113138, 0, 0);
  WENT(marked.report.collateral[2], 420092, 113138, 466770, 0);
  WENT(marked.report.guarantees[0], 600000, 0, 0, 900000);
  /* 600,000 less 80,000 millionths is 552,000. */
  WENT(marked.report.guarantees[1], 261473, 48000, 290527, 900000);
  IS(marked.report.exposure, 0);
}

/* Every place of a report: deals of sixteen items in both lists, with every number of
 * their reports worked out here. */

#define FULL_DEALS 4

struct full_deal {
  struct hadlephoga_deal deal;
  struct hadlephoga_report due;
};

/* Cash and promises are in dollars, so that 8 percent go off at a holding period of
 * ten days, and for 900 of the deal's 1,800 days, which leaves 810 / 1,710. The
 * counterparty weighs 150, the providers 50. */
static struct full_deal filled(uint64_t pledged, uint64_t promised)
{
  struct full_deal full;
  uint64_t i;

  memset(&full, 0, sizeof full);
  full.deal.terms = repo();
  full.deal.terms.amount = 100000000;
  full.deal.terms.kind = 2;
  full.deal.terms.interval = full.deal.terms.lent_type = 1;
  full.deal.terms.lent_step = full.deal.terms.lent_issue_life = 0;
  full.deal.collateral_count = full.deal.guarantee_count = HADLEPHOGA_ITEMS;
  for (i = 0; i < HADLEPHOGA_ITEMS; i++) {
    struct hadlephoga_collateral *cash = &full.deal.collateral[i];
    struct hadlephoga_held_guarantee *held = &full.deal.guarantees[i];

    *cash = paper(pledged + 1009 * i);
    cash->type = 1;
    cash->step = cash->issue_life = 0;
    *held = held_promise(promised + 1013 * i, HADLEPHOGA_SWAP_WITHOUT_RESTRUCTURING);
    cash->currency = held->currency = 840;
    cash->residual_term = held->residual_term = 900;
    cash->original_term = held->original_term = 1080;
  }
  return full;
}

/* What becomes of an amount, each step taking its part of what the one before left. */
static struct hadlephoga_outcome valued(uint64_t amount, uint64_t after_cut)
{
  const uint64_t after_haircut = after_cut * 92 / 100;
  struct hadlephoga_outcome outcome;

  outcome.value = after_haircut * 810 / 1710;
  outcome.ground = outcome.left_out = 0;
  outcome.haircut_loss = after_cut - after_haircut;
  outcome.maturity_loss = after_haircut - outcome.value;
  outcome.cut_loss = amount - after_cut;
  return outcome;
}

/* E*, the portions, the rest and the weighted amount from the values that are due. */
static void cover(struct full_deal *full)
{
  struct hadlephoga_report *due = &full->due;
  uint64_t pledged = 0;
  uint64_t hundredfold = 0;
  size_t i;

  for (i = 0; i < HADLEPHOGA_ITEMS; i++)
    pledged += due->collateral[i].value;
  due->exposure = due->rest = pledged < full->deal.terms.amount ? full->deal.terms.amount - pledged : 0;
  for (i = 0; i < HADLEPHOGA_ITEMS; i++) {
    struct hadlephoga_cover *item = &due->guarantees[i];

    item->portion = item->value < due->rest ? item->value : due->rest;
    due->rest -= item->portion;
    hundredfold += item->portion * 50;
  }
  due->weighted_amount = (hundredfold + due->rest * 150 + 99) / 100;
}

/* Valued in every place; the instruments are mixed, or all have a cut. */
static struct full_deal all_valued(uint64_t pledged, uint64_t promised, int mixed)
{
  struct full_deal full = filled(pledged, promised);
  uint64_t i;

  for (i = 0; i < HADLEPHOGA_ITEMS; i++) {
    struct hadlephoga_held_guarantee *held = &full.deal.guarantees[i];
    struct hadlephoga_outcome outcome;

    if (mixed)
      held->instrument = i % 3;
    outcome = valued(held->amount, held->instrument == HADLEPHOGA_SWAP_WITHOUT_RESTRUCTURING
                                       ? held->amount * 60 / 100 : held->amount);
    memcpy(&full.due.guarantees[i], &outcome, sizeof outcome);
    full.due.collateral[i] = valued(full.deal.collateral[i].amount, full.deal.collateral[i].amount);
  }
  cover(&full);
  return full;
}

/* Makes an item fall under a ground, and gives that. */
static uint64_t leave_out_pledge(struct hadlephoga_collateral *item, uint64_t which)
{
  switch (which) {
  case 0:
    item->lawful = 0;
    return 21;
  case 1:
    item->unrelated = 0;
    return 22;
  case 2:
    item->unreflected = 0;
    return 23;
  case 3:
    item->type = 6;
    item->step = item->issue_life = 1;
    return 24;
  case 4:
    item->residual_term = item->original_term = 359;
    return 25;
  default:
    item->residual_term = 90;
    return 26;
  }
}

static uint64_t leave_out_promise(struct hadlephoga_held_guarantee *item, uint64_t which)
{
  switch (which) {
  case 0:
    item->lawful = 0;
    return 21;
  case 1:
    item->direct = 0;
    return 27;
  case 2:
    item->unreflected = 0;
    return 23;
  case 3:
    item->provider_class = 3;
    item->step = 0;
    return 28;
  case 4:
    item->residual_term = item->original_term = 359;
    return 25;
  case 5:
    item->residual_term = 90;
    return 26;
  default:
    item->step = 6;
    return 29;
  }
}

/* Left out in every place. A ground is that of several items, so that there are two
 * such deals: no two items have the same ground in both. */
static struct full_deal all_left_out(uint64_t pledged, uint64_t promised, int second)
{
  struct full_deal full = filled(pledged, promised);
  uint64_t i;

  for (i = 0; i < HADLEPHOGA_ITEMS; i++) {
    struct hadlephoga_collateral *cash = &full.deal.collateral[i];
    struct hadlephoga_held_guarantee *held = &full.deal.guarantees[i];

    held->instrument = i % 3;
    full.due.collateral[i].ground = leave_out_pledge(cash, second ? i / 6 : i % 6);
    full.due.collateral[i].left_out = cash->amount;
    full.due.guarantees[i].ground = leave_out_promise(held, second ? 3 + i / 7 : i % 7);
    full.due.guarantees[i].left_out = held->amount;
  }
  cover(&full);
  return full;
}

/* The report is the one that is due, place by place. */
static void every_number(const struct hadlephoga_report *found, const struct hadlephoga_report *due)
{
  uint64_t numbers[2][HADLEPHOGA_REPORT_LENGTH];
  char name[32];
  size_t place;

  memcpy(numbers[0], found, sizeof *found);
  memcpy(numbers[1], due, sizeof *due);
  for (place = 0; place < HADLEPHOGA_REPORT_LENGTH; place++) {
    snprintf(name, sizeof name, "place %u of a report", (unsigned)place);
    is(__LINE__, name, numbers[0][place], numbers[1][place]);
  }
}

/* Any two places differ in one of the reports that are due, so that a library which
 * exchanged them would be seen. Only what a cut takes from collateral is 0 in all. */
static void told_apart(const struct full_deal *full)
{
  uint64_t numbers[FULL_DEALS][HADLEPHOGA_REPORT_LENGTH];
  uint64_t alike = 0;
  size_t first, second, i;

  for (i = 0; i < FULL_DEALS; i++)
    memcpy(numbers[i], &full[i].due, sizeof full[i].due);
  for (first = 0; first < HADLEPHOGA_REPORT_LENGTH; first++)
    for (second = first + 1; second < HADLEPHOGA_REPORT_LENGTH; second++) {
      for (i = 0; i < FULL_DEALS && numbers[i][first] == numbers[i][second]; i++)
        continue;
      alike += i == FULL_DEALS;
    }
  IS(alike, HADLEPHOGA_ITEMS * (HADLEPHOGA_ITEMS - 1) / 2);
}

/* With fewer items counted, their numbers stand in the places where they stood. */
static void fewer_counted(struct full_deal full)
{
  struct marked_report marked;
  uint64_t count, i;

  for (count = 0; count <= HADLEPHOGA_ITEMS; count++) {
    full.deal.collateral_count = count;
    full.deal.guarantee_count = HADLEPHOGA_ITEMS - count;
    reported(&full.deal, &marked);
    for (i = 0; i < HADLEPHOGA_ITEMS; i++) {
      struct hadlephoga_outcome found = i < count ? marked.report.collateral[i]
                                                  : outcome_of(&marked.report.guarantees[i - count]);
      struct hadlephoga_outcome due = i < count ? full.due.collateral[i] : outcome_of(&full.due.guarantees[i - count]);

      IS((uint64_t)memcmp(&found, &due, sizeof due), 0);
    }
  }
}

static void every_place(void)
{
  struct full_deal full[FULL_DEALS];
  struct marked_report marked;
  size_t i;

  /* Covered by every item with a rest left, so that portions differ; and by collateral
   * alone, so that no portion is its item's value. */
  full[0] = all_valued(1000003, 3000017, 0);
  full[1] = all_valued(20000003, 2000003, 1);
  full[2] = all_left_out(5000011, 7000003, 0);
  full[3] = all_left_out(6000011, 8000009, 1);
  told_apart(full);
  for (i = 0; i < FULL_DEALS; i++) {
    reported(&full[i].deal, &marked);
    every_number(&marked.report, &full[i].due);
    fewer_counted(full[i]);
  }
  reported(&full[0].deal, &marked);
  /* 1,000,003 is 920,002 after the haircut; 3,000,017 is 1,800,010 after the cut and
   * 1,656,009 after the haircut. */
  WENT(marked.report.collateral[0], 435790, 80001, 484212, 0);
  WENT(marked.report.guarantees[0], 784425, 144001, 871584, 1200007);
  IS(marked.report.guarantees[0].portion, 784425);
}

/* A report has its numbers and no fewer, 83 being those of layout 3. A shorter list is
 * refused before the record is looked at, and untouched. */
static void report_lists(void)
{
  static const size_t shorter[] = {0, 1, 83, HADLEPHOGA_REPORT_LENGTH - 1};
  struct hadlephoga_deal deal = deal_of_all_grounds(400000);
  uint64_t record[HADLEPHOGA_RECORD_LENGTH];
  uint64_t list[HADLEPHOGA_REPORT_LENGTH + 1];
  uint64_t exact[HADLEPHOGA_REPORT_LENGTH];
  size_t i, length;

  memcpy(record, &deal, sizeof deal);
  memset(list, 0xA5, sizeof list);
  for (i = 0; i < sizeof shorter / sizeof shorter[0]; i++) {
    IS(hadlephoga_report_deal(record, HADLEPHOGA_RECORD_LENGTH, list, shorter[i]), 13);
    IS(hadlephoga_report_deal(record, HADLEPHOGA_RECORD_LENGTH - 1, list, shorter[i]), 13);
    MARKS(list);
  }
  IS(hadlephoga_report_deal(record, HADLEPHOGA_RECORD_LENGTH, exact, HADLEPHOGA_REPORT_LENGTH), 0);
  for (length = HADLEPHOGA_REPORT_LENGTH; length <= HADLEPHOGA_REPORT_LENGTH + 1; length++) {
    memset(list, 0xA5, sizeof list);
    IS(hadlephoga_report_deal(record, HADLEPHOGA_RECORD_LENGTH, list, length), 0);
    IS((uint64_t)memcmp(list, exact, sizeof exact), 0);
    IS(list[HADLEPHOGA_REPORT_LENGTH], MARK);
    IS(hadlephoga_report_deal(record, HADLEPHOGA_RECORD_LENGTH - 1, list, length), 40);
    all(__LINE__, list, sizeof exact, 0);
    IS(list[HADLEPHOGA_REPORT_LENGTH], MARK);
  }
}

/* The country's weight: what a loan of 1,000 to an unrated party of this class
 * weighs, or what the guarantee of an unrated bank makes it weigh. */

static uint64_t weighs(uint64_t edition, uint64_t party_class, uint64_t sovereign_step)
{
  struct hadlephoga_deal deal;
  struct marked_report marked;
  struct hadlephoga_terms terms = repo();

  terms.amount = 1000;
  terms.edition = edition;
  terms.counterparty_class = party_class;
  terms.step = 0;
  terms.sovereign_step = sovereign_step;
  IS(hadlephoga_open_with(&terms, &deal), 0);
  reported(&deal, &marked);
  return marked.report.weighted_amount / 10;
}

static uint64_t provides(uint64_t edition, uint64_t sovereign_step)
{
  struct hadlephoga_deal deal;
  struct marked_report marked;
  const struct hadlephoga_report *report = &marked.report;
  struct hadlephoga_terms terms = repo();
  struct hadlephoga_guarantee guarantee = promise(1000);

  terms.amount = 1000;
  terms.edition = edition;
  guarantee.provider_class = 2;
  guarantee.step = 0;
  guarantee.sovereign_step = sovereign_step;
  IS(hadlephoga_open_with(&terms, &deal), 0);
  IS(hadlephoga_add_guarantee_to(&deal, &guarantee), 0);
  reported(&deal, &marked);
  IS(report->guarantees[0].ground, report->weighted_amount == 1500 ? 29 : 0);
  return report->weighted_amount / 10;
}

static void floors(void)
{
  static const uint64_t bank[7] = {100, 50, 50, 50, 100, 100, 150};
  static const uint64_t corporate[7] = {100, 100, 100, 100, 100, 100, 150};
  uint64_t step;

  for (step = 0; step <= 6; step++) {
    IS(weighs(1, 2, step), 50);
    IS(weighs(2, 2, step), bank[step]);
    IS(weighs(1, 3, step), 100);
    IS(weighs(2, 3, step), corporate[step]);
    IS(provides(1, step), 50);
    IS(provides(2, step), bank[step]);
    /* Under edition 3 an unrated bank weighs no less than any sovereign. */
    IS(weighs(3, 2, step), 150);
    IS(weighs(3, 3, step), corporate[step]);
    IS(provides(3, step), 150);
  }
  IS(weighs(2, 4, 0), 75);
  IS(weighs(3, 4, 0), 75);
}

/* The tables of 2023: paper of other issuers at step 1 in each band, then equity and
 * gold, pledged for a deal that lends what is not eligible. The interval makes a
 * holding period of ten days, for which the tables stand. */
static void tables_of_2023(void)
{
  static const struct {
    uint64_t type;
    uint64_t life;
    uint64_t value;
  } pledges[] = {
      {3, 360, 990000}, {3, 361, 970000}, {4, 1080, 970000}, {4, 1081, 960000}, {3, 1800, 960000}, {3, 1801, 940000},
      {4, 3600, 940000}, {4, 3601, 880000}, {7, 0, 800000}, {8, 0, 700000}, {9, 0, 800000}, {2, 3601, 960000},
  };
  struct hadlephoga_terms terms = repo();
  size_t i;

  terms.edition = 3;
  terms.lent_type = 6;
  for (i = 0; i < sizeof pledges / sizeof pledges[0]; i++) {
    struct hadlephoga_collateral pledge = paper(1000000);
    struct hadlephoga_deal deal;
    struct marked_report marked;

    pledge.type = pledges[i].type;
    pledge.issue_life = pledges[i].life;
    pledge.step = pledges[i].life == 0 ? 0 : 1;
    IS(hadlephoga_open_with(&terms, &deal), 0);
    IS(hadlephoga_add_collateral_to(&deal, &pledge), 0);
    reported(&deal, &marked);
    WENT(marked.report.collateral[0], pledges[i].value, 1000000 - pledges[i].value, 0, 0);
    /* Raised by 300,000. */
    IS(marked.report.exposure, 1300000 - pledges[i].value);
    IS(deal.terms.edition, 3);
  }
}

/* Each refused by its own number. */
static void refused_sovereigns_and_editions(void)
{
  struct hadlephoga_deal deal = deal_of_all_grounds(400000);
  struct hadlephoga_guarantee guarantee = promise(1);
  struct hadlephoga_deal refused;
  struct hadlephoga_terms terms = repo();

  terms.sovereign_step = 7;
  IS(hadlephoga_open_with(&terms, &refused), 3);
  terms.counterparty_class = 1;
  terms.sovereign_step = 1;
  IS(hadlephoga_open_with(&terms, &refused), 3);
  terms.edition = 4;
  IS(hadlephoga_open_with(&terms, &refused), 2);
  terms.edition = 0;
  IS(hadlephoga_open_with(&terms, &refused), 2);
  guarantee.sovereign_step = 1;
  IS(hadlephoga_add_guarantee_to(&deal, &guarantee), 3);
  guarantee.provider_class = 3;
  IS(hadlephoga_add_guarantee_to(&deal, &guarantee), 0);
  guarantee.sovereign_step = 7;
  IS(hadlephoga_add_guarantee_to(&deal, &guarantee), 3);
}

/* Days: a life or term of 100,000 stands whole in each of its fields, one of
 * 100,001 is refused by 5. */

#define LONGEST 100000

static void refused_days(struct hadlephoga_deal *deal, struct hadlephoga_collateral pledge,
                         struct hadlephoga_guarantee guarantee, struct hadlephoga_swap swap)
{
  struct hadlephoga_terms terms = deal->terms;
  uint64_t *of_terms[] = {&terms.residual_term, &terms.lent_issue_life};
  uint64_t *of_pledge[] = {&pledge.issue_life, &pledge.residual_term, &pledge.original_term};
  uint64_t *of_guarantee[] = {&guarantee.residual_term, &guarantee.original_term};
  uint64_t *of_swap[] = {&swap.residual_term, &swap.original_term};
  struct hadlephoga_deal refused;
  size_t i;

  for (i = 0; i < sizeof of_terms / sizeof of_terms[0]; i++) {
    *of_terms[i] = LONGEST + 1;
    IS(hadlephoga_open_with(&terms, &refused), 5);
    *of_terms[i] = LONGEST;
  }
  for (i = 0; i < sizeof of_pledge / sizeof of_pledge[0]; i++) {
    *of_pledge[i] = LONGEST + 1;
    IS(hadlephoga_add_collateral_to(deal, &pledge), 5);
    *of_pledge[i] = LONGEST;
  }
  for (i = 0; i < sizeof of_guarantee / sizeof of_guarantee[0]; i++) {
    *of_guarantee[i] = LONGEST + 1;
    IS(hadlephoga_add_guarantee_to(deal, &guarantee), 5);
    *of_guarantee[i] = LONGEST;
    *of_swap[i] = LONGEST + 1;
    IS(hadlephoga_add_swap_to(deal, &swap), 5);
    *of_swap[i] = LONGEST;
  }
}

/* A swap with its condition met stands for every second guarantee. */
static void longest_days(void)
{
  struct hadlephoga_deal deal = deal_of_all_grounds(400000);
  struct hadlephoga_terms terms = deal.terms;
  struct hadlephoga_collateral pledge = paper(10000);
  struct hadlephoga_guarantee guarantee = promise(20000);
  struct hadlephoga_swap swap = sent_swap(20000, 1);
  struct marked_report marked;
  size_t i;

  terms.residual_term = terms.lent_issue_life = LONGEST;
  pledge.issue_life = pledge.residual_term = pledge.original_term = LONGEST;
  guarantee.residual_term = guarantee.original_term = LONGEST;
  swap.residual_term = swap.original_term = LONGEST;
  IS(hadlephoga_open_with(&terms, &deal), 0);
  refused_days(&deal, pledge, guarantee, swap);
  for (i = 0; i < HADLEPHOGA_ITEMS; i++) {
    IS(hadlephoga_add_collateral_to(&deal, &pledge), 0);
    IS(i % 2 == 0 ? hadlephoga_add_guarantee_to(&deal, &guarantee) : hadlephoga_add_swap_to(&deal, &swap), 0);
  }
  IS(deal.terms.residual_term, LONGEST);
  IS(deal.terms.lent_issue_life, LONGEST);
  for (i = 0; i < HADLEPHOGA_ITEMS; i++) {
    IS(deal.collateral[i].issue_life, LONGEST);
    IS(deal.collateral[i].residual_term, LONGEST);
    IS(deal.collateral[i].original_term, LONGEST);
    IS(deal.guarantees[i].residual_term, LONGEST);
    IS(deal.guarantees[i].original_term, LONGEST);
  }
  reported(&deal, &marked);
  /* Raised by 120,000 millionths, less 16 x 8,800. */
  IS(marked.report.exposure, 979200);
  /* (320,000 x 50 + 659,200 x 150) / 100. */
  IS(marked.report.weighted_amount, 1148800);
}

/* Books */

/* Two deals under each header, with the same answers. */
static const char two_deals[] =
    "CRM\t1\n"
    "D\t1000\t3\t5\t978\t3\t1\t1800\t1\t0\t0\n"
    "D\t500\t2\t7\t840\t1\t1\t30\t1\t0\t0\n";
static const char two_deals_with_sovereigns[] =
    "CRM\t2\n"
    "D\t1000\t3\t5\t6\t978\t3\t1\t1800\t1\t0\t0\n"
    "D\t500\t2\t7\t1\t840\t1\t1\t30\t1\t0\t0\n";
static const char two_deals_of_2023[] =
    "CRM\t3\n"
    "D\t1000\t2\t0\t1\t978\t3\t1\t1800\t1\t0\t0\n"
    "D\t500\t2\t7\t1\t840\t1\t1\t30\t1\t0\t0\n";

/* A line S under headers 1 and 2: 60 percent of the deal's 1,000, or with the
 * condition the whole, at weight 20; the rest at 150. */
static void answers_of_swaps(void)
{
  static const char *const books[] = {
      "CRM\t1\n"
      "D\t1000\t3\t5\t978\t3\t1\t1800\t1\t0\t0\n"
      "S\t1001\t2\t1\t978\t1800\t1800\t1\t1\t1\t0\n"
      "D\t1000\t3\t5\t978\t3\t1\t1800\t1\t0\t0\n"
      "S\t1001\t2\t1\t978\t1800\t1800\t1\t1\t1\t1\n",
      "CRM\t2\n"
      "D\t1000\t3\t5\t6\t978\t3\t1\t1800\t1\t0\t0\n"
      "S\t1001\t2\t1\t6\t978\t1800\t1800\t1\t1\t1\t0\n"
      "D\t1000\t3\t5\t6\t978\t3\t1\t1800\t1\t0\t0\n"
      "S\t1001\t2\t1\t6\t978\t1800\t1800\t1\t1\t1\t1\n",
  };
  struct hadlephoga_answer answers[2];
  uint64_t deals;
  size_t i;

  for (i = 0; i < sizeof books / sizeof books[0]; i++) {
    IS(hadlephoga_answers((const uint8_t *)books[i], strlen(books[i]), answers, 2, &deals), 0);
    IS(deals, 2);
    IS(answers[0].refusal, 0);
    IS(answers[0].weighted_amount, 720);
    IS(answers[1].refusal, 0);
    IS(answers[1].weighted_amount, 200);
  }
}

static void answers_of_two_deals(const char *text)
{
  const uint8_t *book = (const uint8_t *)text;
  struct hadlephoga_answer answers[3];
  uint64_t deals = MARK;

  memset(answers, 0xA5, sizeof answers);
  IS(hadlephoga_answers(book, strlen(text), answers, 1, &deals), 13);
  IS(deals, 0);
  IS(answers[0].serial, MARK);
  IS(hadlephoga_answers(book, strlen(text), answers, 3, &deals), 0);
  IS(deals, 2);
  /* A corporate at step 5 weighs 150, and so does an unrated bank under edition 3. */
  IS(answers[0].serial, 1);
  IS(answers[0].refusal, 0);
  IS(answers[0].exposure, 1000);
  IS(answers[0].weighted_amount, 1500);
  /* The step in line 3 is above 6. */
  IS(answers[1].serial, 2);
  IS(answers[1].refusal, 3);
  IS(answers[1].exposure, 3);
  IS(answers[1].weighted_amount, 0);
  IS(answers[2].serial, MARK);
  IS(answers[2].refusal, MARK);
  IS(answers[2].exposure, MARK);
  IS(answers[2].weighted_amount, MARK);
}

static void longest_book(void)
{
  static const char deal[] = "CRM\t1\nD\t1000\t3\t5\t978\t3\t1\t1800\t1\t0\t0\n";
  static uint8_t book[HADLEPHOGA_BOOK_LIMIT + 1];
  struct hadlephoga_answer answers[2];
  uint64_t deals = MARK;

  /* One malformed line up to the last byte. */
  memset(book, 'x', sizeof book);
  memcpy(book, deal, sizeof deal - 1);
  memset(answers, 0xA5, sizeof answers);
  IS(hadlephoga_answers(book, HADLEPHOGA_BOOK_LIMIT + 1, answers, 2, &deals), 10);
  IS(deals, 0);
  IS(answers[0].serial, MARK);
  IS(hadlephoga_answers(book, HADLEPHOGA_BOOK_LIMIT, answers, 2, &deals), 0);
  IS(deals, 1);
  IS(answers[0].serial, 1);
  IS(answers[0].refusal, 11);
  IS(answers[0].exposure, 3);
  IS(answers[0].weighted_amount, 0);
  IS(answers[1].serial, MARK);
}

/* Mail: both lists with margins, in every length at an edge, against a repair that is
 * worked out here. */

#define MARGIN 3
#define MOST (HADLEPHOGA_BOOK_LIMIT + 1) /* bytes of a book that is tried */
#define BYTE_MARK 0xA5

/* What a repair is due to give. */
struct mended {
  uint8_t bytes[MOST];
  uint64_t lines[MOST];
  size_t length;
  size_t count;
};

/* Static, for they are large. */
static struct mended due;
static uint8_t lent_bytes[MARGIN + MOST + 1 + MARGIN];
static uint64_t lent_lines[MARGIN + MOST + 1 + MARGIN];

static void mend_line(const uint8_t *line, size_t length, uint64_t number)
{
  const size_t start = due.length;
  const size_t feed = line[length - 1] == '\n';
  size_t kept = length - feed;
  size_t i;

  while (feed && kept > 0 && line[kept - 1] == '\r')
    kept--;
  for (i = 0; i < kept; i++)
    if (line[i] != ' ')
      due.bytes[due.length++] = line[i];
    else if (i == 0 || line[i - 1] != ' ')
      due.bytes[due.length++] = '\t';
  if (feed)
    due.bytes[due.length++] = '\n';
  if (due.length - start != length || memcmp(due.bytes + start, line, length) != 0)
    due.lines[due.count++] = number;
}

/* Gives how many lines there are. */
static size_t mend(const uint8_t *book, size_t length)
{
  size_t start = 0;
  size_t number = 0;
  size_t end;

  due.length = due.count = 0;
  for (end = 1; end <= length; end++)
    if (end == length || book[end - 1] == '\n') {
      mend_line(book + start, end - start, ++number);
      start = end;
    }
  return number;
}

static void untouched(const void *memory, size_t size)
{
  const uint8_t *bytes = (const uint8_t *)memory;
  size_t i;

  for (i = 0; i < size; i++)
    IS(bytes[i], BYTE_MARK);
}

/* The counts, with a mark on either side of each. */
struct counts {
  uint64_t before;
  uint64_t bytes;
  uint64_t between;
  uint64_t lines;
  uint64_t behind;
};

/* Calls with lists of these lengths, and looks at everything that was lent and
 * everything around it. */
static void repaired_into(const uint8_t *book, size_t length, size_t room, size_t places)
{
  const uint64_t refusal = length > HADLEPHOGA_BOOK_LIMIT ? 10 : room < due.length ? 20 : places < due.count ? 41 : 0;
  const size_t bytes = refusal == 0 ? due.length : 0;
  const size_t lines = refusal == 0 ? due.count : 0;
  struct counts counts;

  memset(&counts, BYTE_MARK, sizeof counts);
  memset(lent_bytes, BYTE_MARK, MARGIN + room + MARGIN);
  memset(lent_lines, BYTE_MARK, (MARGIN + places + MARGIN) * sizeof lent_lines[0]);
  IS(hadlephoga_repair_book(book, length, lent_bytes + MARGIN, room, lent_lines + MARGIN, places,
                            &counts.bytes, &counts.lines), refusal);
  IS(counts.bytes, bytes);
  IS(counts.lines, lines);
  IS(counts.before, MARK);
  IS(counts.between, MARK);
  IS(counts.behind, MARK);
  untouched(lent_bytes, MARGIN);
  IS((uint64_t)memcmp(lent_bytes + MARGIN, due.bytes, bytes), 0);
  untouched(lent_bytes + MARGIN + bytes, room - bytes + MARGIN);
  untouched(lent_lines, MARGIN * sizeof lent_lines[0]);
  IS((uint64_t)memcmp(lent_lines + MARGIN, due.lines, lines * sizeof lent_lines[0]), 0);
  untouched(lent_lines + MARGIN + lines, (places - lines + MARGIN) * sizeof lent_lines[0]);
}

/* None, one too few, as many as are due, one more, and as many as always suffice. */
#define EDGES 5

static size_t edge(size_t which, size_t exact, size_t enough)
{
  switch (which) {
  case 0:
    return 0;
  case 1:
    return exact == 0 ? 0 : exact - 1;
  case 2:
    return exact;
  case 3:
    return exact + 1;
  default:
    return enough;
  }
}

static void repaired(const uint8_t *book, size_t length)
{
  const size_t lines = mend(book, length);
  size_t i, j;

  IS(due.length <= length, 1);
  IS(due.count <= lines, 1);
  for (i = 0; i < EDGES; i++)
    for (j = 0; j < EDGES; j++)
      repaired_into(book, length, edge(i, due.length, length), edge(j, due.count, lines));
  for (i = 1; i < due.count; i++)
    IS(due.lines[i - 1] < due.lines[i], 1);
}

/* Nothing is altered in what was repaired. */
static void repaired_twice(const uint8_t *book, size_t length)
{
  static uint8_t once[MOST];
  size_t bytes;

  repaired(book, length);
  bytes = due.length;
  memcpy(once, due.bytes, bytes);
  repaired(once, bytes);
  IS(due.count, 0);
  IS(due.length, bytes);
  IS((uint64_t)memcmp(due.bytes, once, bytes), 0);
}

/* Worked out by hand, so that the repair above is looked at too. */
static void mail_by_hand(void)
{
  static const struct {
    const char *mailed;
    const char *book;
    uint64_t altered[3];
  } mails[] = {
      {"", "", {0}},
      {"CRM 1\r\n", "CRM\t1\n", {1}},
      {"CRM\t1\n", "CRM\t1\n", {0}},
      {"a\n b", "a\n\tb", {2}},
      {"a\r\n\n", "a\n\n", {1}},
      {"a   b \t c\n", "a\tb\t\t\tc\n", {1}},
      {"a\r\r\r\n\r\n", "a\n\n", {1, 2}},
      {"\ra\r\rb\n", "\ra\r\rb\n", {0}},
      {"a\r\n\r", "a\n\r", {1}},
      {"a\r \r\n", "a\r\t\n", {1}},
      {"\n\r\n\n \n\n", "\n\n\n\t\n\n", {2, 4}},
  };
  size_t i, count;

  for (i = 0; i < sizeof mails / sizeof mails[0]; i++) {
    repaired((const uint8_t *)mails[i].mailed, strlen(mails[i].mailed));
    IS(due.length, strlen(mails[i].book));
    IS((uint64_t)memcmp(due.bytes, mails[i].book, due.length), 0);
    for (count = 0; mails[i].altered[count] != 0; count++)
      IS(due.lines[count], mails[i].altered[count]);
    IS(due.count, count);
  }
}

/* Every book of up to six bytes, with one that stays; a line feed, which is not the
 * book's, stands behind it. */
static void every_short_mail(void)
{
  static const uint8_t letters[5] = {' ', '\t', '\r', '\n', 'x'};
  uint8_t book[7];
  size_t length, books, i, rest, place;

  for (length = 0, books = 1; length <= 6; length++, books *= 5)
    for (i = 0; i < books; i++) {
      for (place = 0, rest = i; place < length; place++, rest /= 5)
        book[place] = letters[rest % 5];
      book[length] = '\n';
      repaired_twice(book, length);
    }
}

/* Of the longest book, and of one byte more, which is refused whatever the lists are. */
static void longest_mails(void)
{
  static const char *const units[] = {"x", " ", "\r", "\n", " \n", "\r\n", "x \r\n"};
  static uint8_t book[MOST];
  size_t unit, i;

  for (unit = 0; unit < sizeof units / sizeof units[0]; unit++) {
    for (i = 0; i < MOST; i++)
      book[i] = (uint8_t)units[unit][i % strlen(units[unit])];
    repaired(book, MOST);
    repaired_twice(book, HADLEPHOGA_BOOK_LIMIT);
  }
  memset(book, ' ', sizeof book);
  repaired(book, HADLEPHOGA_BOOK_LIMIT);
  IS(due.length, 1);
  IS(due.bytes[0], '\t');
  IS(due.count, 1);
  memset(book, '\r', sizeof book);
  book[HADLEPHOGA_BOOK_LIMIT - 1] = '\n';
  repaired(book, HADLEPHOGA_BOOK_LIMIT);
  IS(due.length, 1);
  IS(due.bytes[0], '\n');
  IS(due.count, 1);
}

/* The text as it came by mail, with so many spaces for a tab and so many carriage
 * returns in front of a line feed. */
static size_t mangled(const char *text, size_t spaces, size_t returns, uint8_t *book)
{
  size_t length = 0;

  for (; *text != '\0'; text++) {
    const size_t times = *text == '\t' ? spaces : *text == '\n' ? returns : 0;

    memset(book + length, *text == '\t' ? ' ' : '\r', times);
    length += times;
    if (*text != '\t')
      book[length++] = (uint8_t)*text;
  }
  return length;
}

/* A mailed book is refused, and answered as ever once it is repaired; the layout is
 * the one it was. */
static void answers_of_mail(const char *text)
{
  uint8_t mailed[1024];
  char book[1024];
  struct hadlephoga_answer answers[2];
  uint64_t altered[3], deals, bytes, lines;
  size_t spaces, returns, length;

  for (spaces = 1; spaces <= 8; spaces++)
    for (returns = 0; returns <= 2; returns++) {
      length = mangled(text, spaces, returns, mailed);
      repaired(mailed, length);
      IS(hadlephoga_answers(mailed, length, answers, 2, &deals), 9);
      IS(hadlephoga_repair_book(mailed, length, (uint8_t *)book, sizeof book, altered, 3, &bytes, &lines), 0);
      IS(bytes, strlen(text));
      IS(lines, 3);
      IS(altered[0] == 1 && altered[1] == 2 && altered[2] == 3, 1);
      book[bytes] = '\0';
      IS((uint64_t)strcmp(book, text), 0);
      answers_of_two_deals(book);
      IS(hadlephoga_layout(), 4);
    }
}

/* Netting sets: with margins around the numbers, which stay as they are, and marks
 * around both figures. */

#define LIMIT UINT64_C(1000000000000)
#define LONGEST_SET HADLEPHOGA_SET_LENGTH(HADLEPHOGA_POSITIONS + 2)

struct figures {
  uint64_t before;
  uint64_t exposure;
  uint64_t between;
  uint64_t rwa;
  uint64_t behind;
};

/* Calls with these numbers, and looks at everything that was passed and everything
 * around it. Gives the figures, 0 beside a refusal. */
static struct figures replied(const uint64_t *numbers, size_t length, uint64_t refusal)
{
  static uint64_t passed[MARGIN + LONGEST_SET + MARGIN];
  static uint64_t copied[MARGIN + LONGEST_SET + MARGIN];
  struct figures figures;

  IS(length <= LONGEST_SET, 1);
  memset(passed, BYTE_MARK, sizeof passed);
  memcpy(passed + MARGIN, numbers, length * sizeof passed[0]);
  memcpy(copied, passed, sizeof passed);
  memset(&figures, BYTE_MARK, sizeof figures);
  IS(hadlephoga_net_set(passed + MARGIN, length, &figures.exposure, &figures.rwa), refusal);
  IS((uint64_t)memcmp(passed, copied, sizeof passed), 0);
  IS(figures.before, MARK);
  IS(figures.between, MARK);
  IS(figures.behind, MARK);
  if (refusal != 0) {
    IS(figures.exposure, 0);
    IS(figures.rwa, 0);
  }
  return figures;
}

static void netted(const struct hadlephoga_set *set, size_t count, uint64_t exposure, uint64_t rwa)
{
  uint64_t numbers[HADLEPHOGA_SET_LENGTH(HADLEPHOGA_POSITIONS)];
  uint64_t found[2] = {MARK, MARK};
  struct figures figures;

  memcpy(numbers, set, sizeof numbers);
  figures = replied(numbers, HADLEPHOGA_SET_LENGTH(count), 0);
  IS(figures.exposure, exposure);
  IS(figures.rwa, rwa);
  IS(hadlephoga_net(set, count, &found[0], &found[1]), 0);
  IS(found[0], exposure);
  IS(found[1], rwa);
}

/* A refusal, or 0. Positions past the count are not passed. */
static void reply_is(const struct hadlephoga_set *set, size_t count, uint64_t refusal)
{
  uint64_t numbers[HADLEPHOGA_SET_LENGTH(HADLEPHOGA_POSITIONS)];

  memcpy(numbers, set, sizeof numbers);
  replied(numbers, HADLEPHOGA_SET_LENGTH(count), refusal);
}

static struct hadlephoga_position position(uint64_t side, uint64_t amount, uint64_t security, uint64_t currency)
{
  struct hadlephoga_position made;

  made.side = side;
  made.amount = amount;
  made.security = security;
  made.type = 1;
  made.step = 0;
  made.issue_life = 0;
  made.currency = currency;
  return made;
}

/* The set of the example: a sovereign's bond lent and partly back, equity in dollars
 * lent, a corporate's bond in dollars received, cash of both currencies received; marks
 * in every place behind. n is 6 + 4 = 10, so that table haircuts stay as they are. */
static struct hadlephoga_set agreement(void)
{
  struct hadlephoga_set set;

  memset(&set, 0xA5, sizeof set);
  set.terms.table = 2;
  set.terms.counterparty_class = 2;
  set.terms.step = 2;
  set.terms.sovereign_step = 0;
  set.terms.settlement_currency = 978;
  set.terms.interval = 6;
  set.positions[0] = position(HADLEPHOGA_LENT, 1000000, 101, 978);
  set.positions[0].type = 2;
  set.positions[0].step = 1;
  set.positions[0].issue_life = 720;
  set.positions[1] = position(HADLEPHOGA_RECEIVED, 700000, 0, 978);
  set.positions[2] = set.positions[0];
  set.positions[2].side = HADLEPHOGA_RECEIVED;
  set.positions[2].amount = 400000;
  set.positions[3] = position(HADLEPHOGA_LENT, 500000, 202, 840);
  set.positions[3].type = 7;
  set.positions[4] = position(HADLEPHOGA_RECEIVED, 300000, 303, 840);
  set.positions[4].type = 3;
  set.positions[4].step = 2;
  set.positions[4].issue_life = 720;
  set.positions[5] = position(HADLEPHOGA_RECEIVED, 50000, 0, 840);
  return set;
}

/* Each number of the terms, and its part in the figures. */
static void meanings_of_set_terms(void)
{
  struct hadlephoga_set set = agreement();

  /* 50,000, and 600,000 at 2%, 500,000 at 15%, 300,000 at 6%, 150,000 at 8%; 50%. */
  netted(&set, 6, 167000, 83500);
  /* 20% and 4%; 30%. */
  set.terms.table = 3;
  netted(&set, 6, 186000, 55800);
  /* n 5: 132,732.75; half of 132,733. */
  set = agreement();
  set.terms.interval = 1;
  netted(&set, 6, 132733, 66367);
  /* In dollars the euros are netted: 100,000 received, at 8%. */
  set = agreement();
  set.terms.settlement_currency = 840;
  netted(&set, 6, 163000, 81500);
  /* A sovereign at step 2 weighs 20, retail 75, a corporate at step 5 150. */
  set = agreement();
  set.terms.counterparty_class = 1;
  netted(&set, 6, 167000, 33400);
  set.terms.counterparty_class = 4;
  set.terms.step = 0;
  netted(&set, 6, 167000, 125250);
  set.terms.counterparty_class = 3;
  set.terms.step = 5;
  netted(&set, 6, 167000, 250500);
  /* An unrated bank weighs 50, and no less than its sovereign. */
  set.terms.counterparty_class = 2;
  set.terms.step = 0;
  set.terms.sovereign_step = 1;
  netted(&set, 6, 167000, 83500);
  set.terms.sovereign_step = 4;
  netted(&set, 6, 167000, 167000);
  set.terms.sovereign_step = 6;
  netted(&set, 6, 167000, 250500);
}

/* Each number of a position, and its part in the figures; the set has fewer positions
 * at the end. */
static void meanings_of_positions(void)
{
  struct hadlephoga_set set = agreement();

  /* Lent less received is 1,500,000 - 700,000 = 800,000, the bond's net 1,000,000 + 400,000. */
  set.positions[2].side = HADLEPHOGA_LENT;
  netted(&set, 6, 983000, 491500);
  set = agreement();
  set.positions[2].amount = 399999;
  netted(&set, 6, 167002, 83501);
  /* Two bonds that are not netted, 357 being 101 in the lowest byte: 28,000 for 12,000. */
  set = agreement();
  set.positions[2].security = 357;
  netted(&set, 6, 183000, 91500);
  /* Equity of no main index at 25%. */
  set = agreement();
  set.positions[3].type = 8;
  netted(&set, 6, 217000, 108500);
  /* The corporate's bond at step 1: 4%; with a life above 1,800 days: 12%. */
  set = agreement();
  set.positions[4].step = 1;
  netted(&set, 6, 161000, 80500);
  set = agreement();
  set.positions[4].issue_life = 1801;
  netted(&set, 6, 185000, 92500);
  /* It is in pounds: the dollars' net is 450,000, the pounds' 300,000. */
  set = agreement();
  set.positions[4].currency = 826;
  netted(&set, 6, 215000, 107500);
  /* Without the dollars 100,000 + 105,000 + 200,000 at 8%. */
  set = agreement();
  netted(&set, 5, 221000, 110500);
  /* The first alone is all that was lent; with the cash 300,000 + 20,000. */
  netted(&set, 1, 1000000, 500000);
  netted(&set, 2, 320000, 160000);
  netted(&set, 0, 0, 0);
}

/* Equity of 100, which is 125 with its haircut, against cash: E* is not above what was
 * lent and not below 0. In another currency 8 percent are due besides. */
static void ends_of_netting(void)
{
  static const uint64_t figures[][3] = {
      {0, 100, 50}, {10, 100, 50}, {25, 100, 50}, {26, 99, 50}, {123, 2, 1}, {124, 1, 1}, {125, 0, 0}, {126, 0, 0},
  };
  struct hadlephoga_set set = agreement();
  size_t i;

  set.positions[0] = position(HADLEPHOGA_LENT, 100, 1, 978);
  set.positions[0].type = 8;
  for (i = 0; i < sizeof figures / sizeof figures[0]; i++) {
    set.positions[1] = position(HADLEPHOGA_RECEIVED, figures[i][0], 0, 978);
    netted(&set, 2, figures[i][1], figures[i][2]);
  }
  set.positions[1] = position(HADLEPHOGA_RECEIVED, 115, 0, 840);
  /* 100 - 115 + 25 + 9.2. */
  netted(&set, 2, 20, 10);
  /* At an interval of 60 n is 64: 63.2456 for 25. The whole is at the limit. */
  set.terms.interval = 60;
  set.positions[0].amount = 100000000;
  set.positions[1] = position(HADLEPHOGA_RECEIVED, 100000000, 0, 978);
  netted(&set, 2, 63245600, 31622800);
  set.terms.counterparty_class = 3;
  set.terms.step = 6;
  set.positions[0].amount = LIMIT;
  netted(&set, 1, LIMIT, LIMIT / 2 * 3);
}

/* A million of a security lent against a million of cash, and where it is eligible the
 * other way round: E* is its haircut in millionths. */
static void haircuts_in_sets(void)
{
  static const uint64_t haircuts[][5] = {
      /* table, type, step, issue life */
      {2, 2, 1, 360, 5000}, {2, 2, 3, 361, 30000}, {3, 2, 2, 1801, 60000}, {2, 2, 4, 1, 150000},
      {2, 3, 1, 360, 10000}, {2, 3, 1, 361, 40000}, {2, 4, 3, 1800, 60000}, {2, 4, 2, 1801, 120000},
      {3, 3, 1, 360, 10000}, {3, 4, 1, 361, 30000}, {3, 3, 2, 1080, 40000}, {3, 4, 3, 1081, 60000},
      {3, 3, 1, 1800, 40000}, {3, 4, 1, 1801, 60000}, {3, 3, 2, 3600, 120000}, {3, 4, 3, 3601, 200000},
      {2, 5, 1, 360, 20000}, {3, 5, 3, 100000, 240000}, {2, 7, 0, 0, 150000}, {3, 7, 0, 0, 200000},
      {2, 8, 0, 0, 250000}, {3, 8, 0, 0, 300000}, {2, 9, 0, 0, 150000}, {3, 9, 0, 0, 200000},
      {2, 6, 1, 1, 250000}, {3, 6, 1, 1, 300000}, {2, 4, 0, 1, 250000}, {3, 2, 5, 1, 300000},
  };
  struct hadlephoga_set set = agreement();
  size_t i;

  for (i = 0; i < sizeof haircuts / sizeof haircuts[0]; i++) {
    set.terms.table = haircuts[i][0];
    set.terms.step = 1;
    set.positions[0] = position(HADLEPHOGA_LENT, 1000000, 999, 978);
    set.positions[0].type = haircuts[i][1];
    set.positions[0].step = haircuts[i][2];
    set.positions[0].issue_life = haircuts[i][3];
    set.positions[1] = position(HADLEPHOGA_RECEIVED, 1000000, 0, 978);
    netted(&set, 2, haircuts[i][4], haircuts[i][4] / 5);
    set.positions[0].side = HADLEPHOGA_RECEIVED;
    set.positions[1].side = HADLEPHOGA_LENT;
    if (i < 24)
      netted(&set, 2, haircuts[i][4], haircuts[i][4] / 5);
    else
      reply_is(&set, 2, 16);
  }
}

/* The range of each number, the set's six and a position's seven, and its refusal. The
 * position is the bond, for which types 2 to 6 are taken; 7, 8, 9 have no step and 1 has
 * no number besides. */
static void ranges_of_netting(void)
{
  static const uint64_t ranges[][3] = {
      {2, 3, 2}, {1, 3, 2}, {0, 6, 3}, {0, 6, 3}, {1, 999, 4}, {1, 60, 5},
      {1, 2, 2}, {0, LIMIT, 1}, {1, 999, 5}, {2, 6, 2}, {0, 6, 3}, {1, 100000, 5}, {1, 999, 4},
  };
  const struct hadlephoga_set set = agreement();
  uint64_t numbers[HADLEPHOGA_SET_LENGTH(1)];
  size_t i;

  memcpy(numbers, &set, sizeof numbers);
  for (i = 0; i < HADLEPHOGA_SET_LENGTH(1); i++) {
    const uint64_t number = numbers[i];
    const int codes = i == 1 || i == 9;

    numbers[i] = ranges[i][0];
    replied(numbers, HADLEPHOGA_SET_LENGTH(1), 0);
    numbers[i] = ranges[i][1];
    replied(numbers, HADLEPHOGA_SET_LENGTH(1), 0);
    /* Retail is known, and so are equity and gold, but not with a step. */
    numbers[i] = ranges[i][1] + 1;
    replied(numbers, HADLEPHOGA_SET_LENGTH(1), codes ? 3 : ranges[i][2]);
    numbers[i] = codes ? 0 : ranges[i][0] - 1;
    replied(numbers, HADLEPHOGA_SET_LENGTH(1), ranges[i][2]);
    numbers[i] = (UINT64_C(1) << 32) + ranges[i][0];
    replied(numbers, HADLEPHOGA_SET_LENGTH(1), i == 7 ? 0 : ranges[i][2]);
    numbers[i] = UINT64_MAX;
    replied(numbers, HADLEPHOGA_SET_LENGTH(1), ranges[i][2]);
    numbers[i] = number;
  }
}

/* Numbers and steps that do not go with a type, each by its own refusal. */
static void refused_by_type(void)
{
  static const struct {
    uint64_t numbers[4]; /* security, type, step, issue life */
    uint64_t refusal;
  } entries[] = {
      {{0, 1, 0, 0}, 0}, {{1, 1, 0, 0}, 5}, {{0, 1, 1, 0}, 3}, {{0, 1, 0, 1}, 5}, {{0, 7, 0, 0}, 5}, {{1, 7, 0, 0}, 0},
      {{1, 7, 0, 1}, 5}, {{1, 8, 1, 0}, 3}, {{1, 9, 0, 0}, 0}, {{0, 2, 1, 1}, 5}, {{1, 2, 1, 0}, 5}, {{1, 6, 0, 1}, 0},
      {{1, 0, 0, 1}, 2}, {{1, 10, 0, 1}, 2},
  };
  struct hadlephoga_set set = agreement();
  size_t i;

  for (i = 0; i < sizeof entries / sizeof entries[0]; i++) {
    set.positions[0].security = entries[i].numbers[0];
    set.positions[0].type = entries[i].numbers[1];
    set.positions[0].step = entries[i].numbers[2];
    set.positions[0].issue_life = entries[i].numbers[3];
    reply_is(&set, 1, entries[i].refusal);
  }
  set = agreement();
  set.terms.counterparty_class = 4;
  reply_is(&set, 6, 3);
  set.terms.step = 0;
  set.terms.sovereign_step = 1;
  reply_is(&set, 6, 3);
  set.terms.counterparty_class = 1;
  reply_is(&set, 6, 3);
}

/* Every fault of a position at once, mended in the order of their refusals, with an
 * amount above the limit in the position behind. */
static void order_of_refusals(void)
{
  struct hadlephoga_set set = agreement();
  struct hadlephoga_position *first = &set.positions[0];

  memset(first, 0xFF, sizeof *first);
  set.positions[1].amount = LIMIT + 1;
  reply_is(&set, 6, 1);
  first->amount = 0;
  reply_is(&set, 6, 2);
  first->side = HADLEPHOGA_LENT;
  reply_is(&set, 6, 2);
  first->type = 2;
  reply_is(&set, 6, 3);
  first->step = 1;
  reply_is(&set, 6, 4);
  first->currency = 978;
  reply_is(&set, 6, 5);
  first->security = 101;
  reply_is(&set, 6, 5);
  first->issue_life = 720;
  reply_is(&set, 6, 1);
  set.positions[1].amount = 0;
  reply_is(&set, 6, 0);
}

/* The bond's second entry, in each number that has to agree with the first one. */
static void entries_that_disagree(void)
{
  struct hadlephoga_set set = agreement();

  set.positions[2].type = 3;
  reply_is(&set, 6, 15);
  set = agreement();
  set.positions[2].step = 3;
  reply_is(&set, 6, 15);
  set = agreement();
  set.positions[2].issue_life = 719;
  reply_is(&set, 6, 15);
  set = agreement();
  set.positions[2].currency = 840;
  reply_is(&set, 6, 15);
  set.positions[2].security = 102;
  reply_is(&set, 6, 0);
}

/* What is asked of all positions together, in its order, behind their own numbers. */
static void refused_together(void)
{
  struct hadlephoga_set set = agreement();

  /* Received, unrated bank debt and a re-securitisation, of amount 0 too; then it is lent. */
  set.positions[4].type = 4;
  set.positions[4].step = 0;
  reply_is(&set, 6, 16);
  set.positions[4].type = 6;
  set.positions[4].amount = 0;
  reply_is(&set, 6, 16);
  set.positions[4].side = HADLEPHOGA_LENT;
  reply_is(&set, 6, 0);
  /* All amounts are 2,950,000. */
  set = agreement();
  set.positions[1].amount += LIMIT - 2950000;
  netted(&set, 6, 0, 0);
  set.positions[1].amount++;
  reply_is(&set, 6, 17);
  set.positions[4].step = 0;
  reply_is(&set, 6, 16);
  set.positions[2].step = 0;
  reply_is(&set, 6, 15);
  set.positions[5].amount = LIMIT + 1;
  reply_is(&set, 6, 1);
  set.terms.interval = 61;
  reply_is(&set, 6, 5);
}

/* A list has six numbers and seven for each position, before anything else is asked; the
 * positions are no more than 32, behind the set's own numbers. */
static void lengths_of_sets(void)
{
  static uint64_t taken[LONGEST_SET], largest[LONGEST_SET];
  const struct hadlephoga_set set = agreement();
  const struct hadlephoga_position cash = position(HADLEPHOGA_LENT, 2, 0, 978);
  struct figures figures;
  size_t length, i;

  memcpy(taken, &set.terms, sizeof set.terms);
  for (i = 0; i < HADLEPHOGA_POSITIONS + 2; i++)
    memcpy(taken + HADLEPHOGA_SET_LENGTH(i), &cash, sizeof cash);
  memset(largest, 0xFF, sizeof largest);
  for (length = 0; length <= LONGEST_SET; length++) {
    const int whole = length >= 6 && (length - 6) % 7 == 0;

    figures = replied(taken, length, !whole ? 11 : length > 230 ? 6 : 0);
    if (whole && length <= 230) {
      IS(figures.exposure, 2 * ((length - 6) / 7));
      IS(figures.rwa, (length - 6) / 7);
    }
    replied(largest, length, whole ? 2 : 11);
  }
  replied(taken, 13, 0);
  replied(taken, 230, 0);
  replied(taken, 0, 11);
  replied(taken, 5, 11);
  replied(taken, 7, 11);
  replied(taken, 12, 11);
  replied(taken, 237, 6);
}

/* The largest number in each place of a full set, alone. */
static void largest_numbers_in_sets(void)
{
  static const uint64_t refusals[] = {2, 2, 3, 3, 4, 5, 2, 1, 5, 2, 3, 5, 4};
  struct hadlephoga_set set = agreement();
  uint64_t numbers[HADLEPHOGA_SET_LENGTH(HADLEPHOGA_POSITIONS)];
  size_t i;

  for (i = 6; i < HADLEPHOGA_POSITIONS; i++)
    set.positions[i] = set.positions[i % 6];
  memcpy(numbers, &set, sizeof set);
  replied(numbers, sizeof numbers / sizeof numbers[0], 0);
  for (i = 0; i < sizeof numbers / sizeof numbers[0]; i++) {
    const uint64_t number = numbers[i];

    numbers[i] = UINT64_MAX;
    replied(numbers, sizeof numbers / sizeof numbers[0], refusals[i < 6 ? i : 6 + (i - 6) % 7]);
    numbers[i] = number;
  }
  IS(hadlephoga_layout(), 4);
}

static void netting_sets(void)
{
  meanings_of_set_terms();
  meanings_of_positions();
  ends_of_netting();
  haircuts_in_sets();
  ranges_of_netting();
  refused_by_type();
  order_of_refusals();
  entries_that_disagree();
  refused_together();
  lengths_of_sets();
  largest_numbers_in_sets();
}

int main(void)
{
  lengths();
  places_of_sent_items();
  places_of_deal();
  places_of_report();
  places_of_answer();
  places_of_set();
  meanings();
  records_not_accepted();
  built();
  swaps();
  cut();
  losses();
  every_place();
  report_lists();
  floors();
  tables_of_2023();
  refused_sovereigns_and_editions();
  longest_days();
  answers_of_two_deals(two_deals);
  answers_of_two_deals(two_deals_with_sovereigns);
  answers_of_two_deals(two_deals_of_2023);
  answers_of_swaps();
  longest_book();
  mail_by_hand();
  every_short_mail();
  longest_mails();
  answers_of_mail(two_deals);
  answers_of_mail(two_deals_with_sovereigns);
  answers_of_mail(two_deals_of_2023);
  netting_sets();
  return 0;
}
