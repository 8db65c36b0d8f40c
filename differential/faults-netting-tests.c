/* The tests of a netting set, with one mistaken. */
#include <stdlib.h>
#include <string.h>

#include "faults-netting.h"

#define DAYS_LIMIT 100000

typedef uint64_t test(const struct netting *set);
typedef uint64_t position_test(const struct position *one);

int is_debt(uint64_t goods)
{
  return goods >= 2 && goods <= 6;
}

int is_eligible(uint64_t goods, uint64_t step)
{
  switch (goods) {
  case 2:
    return (step >= 1 && step <= 4 && !(step == 4 && netted("16-sovereign-4"))) ||
           (step == 5 && netted("16-sovereign-5-taken")) || (step == 0 && netted("16-sovereign-0-taken"));
  case 3:
  case 4:
  case 5:
    return (step >= 1 && step <= 3) || (step == 4 && netted("16-step-4-taken")) ||
           (step == 0 && goods == 4 && netted("16-unrated-bank-taken")) ||
           (step == 0 && goods != 4 && netted("16-unrated-taken"));
  case 6:
    return netted("16-resecuritised-taken") && step == 1;
  default:
    return 1;
  }
}

static int has_sovereign(uint64_t class)
{
  return class == 2 || class == 3 || (class == 1 && netted("sovereign-of-sovereign")) ||
         (class == 4 && netted("sovereign-of-retail"));
}

static uint64_t codes(const struct netting *set)
{
  return set->table < 2 || set->table > 3 || set->class < 1 || set->class > 4 ? 2 : 0;
}

static uint64_t steps(const struct netting *set)
{
  uint64_t most = set->class == 4 && !netted("step-of-retail") ? 0 : 6;

  return set->step > most || set->sovereign > (has_sovereign(set->class) ? 6 : 0) ? 3 : 0;
}

static uint64_t settlement(const struct netting *set)
{
  return set->settlement < 1 || set->settlement > 999 ? 4 : 0;
}

static uint64_t interval(const struct netting *set)
{
  return set->interval < 1 || set->interval > 60 ? 5 : 0;
}

static uint64_t too_many(const struct netting *set)
{
  size_t count = set->count;

  if (netted("count-8-bits"))
    count &= 0xff;
  if (netted("count-16-bits"))
    count &= 0xffff;
  if (netted("32-refused"))
    count++;
  if (netted("33-taken") && count == POSITIONS + 1)
    count--;
  return count > POSITIONS ? 6 : 0;
}

static uint64_t amount(const struct position *one)
{
  return one->amount > LIMIT ? 1 : 0;
}

static uint64_t position_codes(const struct position *one)
{
  return (one->side != LENT && one->side != RECEIVED) || one->goods < 1 || one->goods > 9 ? 2 : 0;
}

static uint64_t position_step(const struct position *one)
{
  int with_step = is_debt(one->goods) || (one->goods == CASH && netted("step-of-cash")) ||
                  (one->goods > 6 && netted("step-of-equity"));

  return one->step > (with_step ? 6u : 0u) ? 3 : 0;
}

static uint64_t currency(const struct position *one)
{
  return one->currency < 1 || one->currency > 999 ? 4 : 0;
}

static uint64_t numbers(const struct position *one)
{
  int cash = one->goods == CASH, numbered = one->security != 0;
  int paired = cash != numbered || (cash && netted("cash-numbered")) || (!cash && netted("security-without"));
  int alive = one->life >= 1 && one->life <= DAYS_LIMIT;

  if (one->security > 999 || !paired)
    return 5;
  if (is_debt(one->goods))
    return alive ? 0 : 5;
  if ((cash && netted("life-of-cash")) || (!cash && netted("life-of-equity")))
    return 0;
  return one->life != 0 ? 5 : 0;
}

/* Whether the test of this number is put off behind, or brought before, another one: of
 * netted-order-A-B test A comes right before test B. */
static size_t in_order(const char *order, size_t place, size_t tests)
{
  uint64_t moved[2];
  size_t left[16], at = 0;

  if (netted_numbers(order, moved, 2) != 2)
    return place;
  for (size_t i = 0; i < tests; i++) {
    if (i == moved[1])
      left[at++] = moved[0];
    if (i != moved[0])
      left[at++] = i;
  }
  return left[place];
}

static uint64_t position_refusal(const struct position *one)
{
  static position_test *const tests[] = {amount, position_codes, position_step, currency, numbers};
  uint64_t refusal = 0;

  for (size_t i = 0; i < 5 && refusal == 0; i++)
    refusal = tests[in_order("fields-", i, 5)](one);
  return refusal;
}

/* The first refused position decides. */
static uint64_t positions(const struct netting *set)
{
  uint64_t given = 0;

  for (size_t i = 0; i < set->count; i++) {
    uint64_t refusal = position_refusal(&set->positions[i]);

    if ((i > 0 && netted("first-position-alone")) || (i + 1 < set->count && netted("last-position-alone")) ||
        (i >= 16 && netted("sixteen-positions-alone")) || (set->positions[i].amount == 0 && netted("amounts-alone")))
      continue;
    if (refusal != 0 && (given == 0 || netted("last-refusal") || (netted("least-refusal") && refusal < given) ||
                         (netted("largest-refusal") && refusal > given)))
      given = refusal;
  }
  return given;
}

static int agree(const struct position *one, const struct position *other)
{
  return (one->goods == other->goods || netted("15-without-type")) &&
         (one->step == other->step || netted("15-without-step")) &&
         (one->life == other->life || netted("15-without-life")) &&
         (one->currency == other->currency || netted("15-without-currency"));
}

/* Whether two entries are compared. */
static int are_one(const struct netting *set, size_t i, size_t j)
{
  const struct position *one = &set->positions[i], *other = &set->positions[j];

  if (one->security == 0)
    return other->security == 0 && netted("15-of-cash");
  if ((j != i + 1 && netted("15-next-alone")) || (i > 0 && netted("15-first-alone")) ||
      (one->side != other->side && netted("15-by-side")) || (one->side == other->side && netted("15-across-alone")) ||
      ((one->amount == 0 || other->amount == 0) && netted("15-with-amount")))
    return 0;
  return one->security == other->security;
}

static uint64_t disagreement(const struct netting *set)
{
  for (size_t i = 0; i < set->count; i++)
    for (size_t j = i + 1; j < set->count; j++)
      if (are_one(set, i, j) && !agree(&set->positions[i], &set->positions[j]))
        return 15;
  return 0;
}

static int is_net_lent(const struct netting *set, uint64_t security)
{
  wide net = 0;

  for (size_t i = 0; i < set->count; i++)
    if (set->positions[i].security == security)
      net += set->positions[i].side == LENT ? (wide)set->positions[i].amount : -(wide)set->positions[i].amount;
  return net >= 0;
}

static uint64_t eligibility(const struct netting *set)
{
  for (size_t i = 0; i < set->count; i++) {
    const struct position *one = &set->positions[i];

    if ((one->side == RECEIVED || netted("16-lent-too")) && !is_eligible(one->goods, one->step) &&
        !(one->amount == 0 && netted("16-with-amount")) && !(is_net_lent(set, one->security) && netted("16-by-net")) &&
        !(i > 0 && netted("16-first-alone")) && !(i + 1 < set->count && netted("16-last-alone")))
      return 16;
  }
  return 0;
}

static uint64_t sum(const struct netting *set)
{
  wide all = 0, limit = LIMIT;

  for (size_t i = 0; i < set->count; i++) {
    uint64_t side = set->positions[i].side;

    if ((side == LENT && netted("17-of-received")) || (side == RECEIVED && netted("17-of-lent")))
      continue;
    all += side == RECEIVED && netted("17-of-balance") ? -(wide)set->positions[i].amount : (wide)set->positions[i].amount;
  }
  if (netted("17-at-limit"))
    limit--;
  if (netted("17-above-by-one"))
    limit++;
  if (netted("17-each-side"))
    limit *= 2;
  return all > limit && !netted("17-none") ? 17 : 0;
}

uint64_t set_refusal(const struct netting *set)
{
  static test *const tests[] = {codes, steps, settlement, interval, too_many, positions, disagreement, eligibility, sum};
  uint64_t refusal = 0;

  for (size_t i = 0; i < 9 && refusal == 0; i++)
    refusal = tests[in_order("order-", i, 9)](set);
  return refusal;
}
