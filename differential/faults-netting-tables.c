/* Haircuts and weights of netting sets, with one mistaken. */
#include <string.h>

#include "faults-netting.h"

/* Last days of bands, and haircuts at step 1 and at steps 2 and 3. */
struct band {
  uint64_t last, haircuts[2];
};

#define NO_END UINT64_MAX

static const struct band SOVEREIGN[] = {{360, {5000, 10000}}, {1800, {20000, 30000}}, {NO_END, {40000, 60000}}};
static const struct band SECURITISED[] = {{360, {20000, 40000}}, {1800, {80000, 120000}}, {NO_END, {160000, 240000}}};
static const struct band OTHER[] = {{360, {10000, 20000}}, {1800, {40000, 60000}}, {NO_END, {80000, 120000}}};
static const struct band OTHER_2023[] = {
    {360, {10000, 20000}}, {1080, {30000, 40000}}, {1800, {40000, 60000}}, {3600, {60000, 120000}}, {NO_END, {120000, 200000}}};

static const uint64_t WEIGHTS[3][7] = {
    {100, 0, 20, 50, 100, 100, 150}, {50, 20, 50, 50, 100, 100, 150}, {100, 20, 50, 100, 100, 150, 150}};

/* Whether the tables of 2023 hold, of haircuts or of weights. */
static int later(const struct netting *set, const char *other)
{
  return (set->table == 3) != netted(other);
}

/* A life that is taken for the day before or behind an edge. */
static uint64_t taken_life(uint64_t life)
{
  static const uint64_t edges[] = {360, 1080, 1800, 3600};
  uint64_t edge[1];

  for (size_t i = 0; i < 4; i++) {
    if (life == edges[i] && netted_numbers("band-early-", edge, 1) == 1 && edge[0] == life)
      return life + 1;
    if (life == edges[i] + 1 && netted_numbers("band-late-", edge, 1) == 1 && edge[0] + 1 == life)
      return life - 1;
  }
  return life;
}

static uint64_t in_band(const struct band *bands, uint64_t step, uint64_t life)
{
  while (taken_life(life) > bands->last)
    bands++;
  return bands->haircuts[step > 1];
}

static uint64_t not_eligible(const struct netting *set)
{
  int in_2023 = later(set, "other-haircuts") && !netted("kept-not-eligible");

  if (netted("not-eligible-without"))
    return 0;
  return in_2023 != netted("not-eligible-other") ? 300000 : 250000;
}

static uint64_t debt_haircut(const struct netting *set, const struct position *one, int in_2023)
{
  uint64_t step = one->step;

  if (one->goods == 4 && step == 0 && netted("unrated-bank-listed"))
    step = 2;
  else if (!is_eligible(one->goods, step) || one->goods == 6)
    return not_eligible(set);
  if (one->goods == 2)
    return step == 4 ? 150000 : in_band(SOVEREIGN, step, one->life);
  if (one->goods == 5)
    return in_band(SECURITISED, step, one->life);
  if ((one->goods == 3 && netted("kept-other-debt")) || (one->goods == 4 && netted("kept-bank-debt")))
    in_2023 = 0;
  return in_band(in_2023 ? OTHER_2023 : OTHER, step, one->life);
}

uint64_t table_haircut(const struct netting *set, const struct position *one)
{
  int in_2023 = later(set, "other-haircuts");

  if (is_debt(one->goods))
    return debt_haircut(set, one, in_2023);
  if (one->goods == CASH)
    return netted("cash-as-security") ? not_eligible(set) : 0;
  if ((one->goods == 7 && netted("kept-main-index-equity")) || (one->goods == 8 && netted("kept-other-equity")) ||
      (one->goods == 9 && netted("kept-gold")))
    in_2023 = 0;
  if (one->goods == 8)
    return in_2023 ? 300000 : 250000;
  return in_2023 ? 200000 : 150000;
}

uint64_t currency_haircut(void)
{
  return 80000;
}

/* The least number whose square is not below this one. */
uint64_t root_up(wide square)
{
  uint64_t low = 0, high = (uint64_t)1 << 62;

  while (low < high) {
    uint64_t middle = low + (high - low) / 2;

    if ((wide)middle * middle >= square)
      high = middle;
    else
      low = middle + 1;
  }
  return low;
}

/* Of netted-figure-N-H-low and -high, the figure of one period that is a millionth off. */
static uint64_t figure(uint64_t haircut, uint64_t days, uint64_t due)
{
  uint64_t of[2];

  if (netted_numbers("figure-low-", of, 2) == 2 && of[0] == days && of[1] == haircut)
    return due - 1;
  if (netted_numbers("figure-high-", of, 2) == 2 && of[0] == days && of[1] == haircut)
    return due + 1;
  return due;
}

uint64_t scaled_haircut(uint64_t haircut, uint64_t days)
{
  wide square = (wide)haircut * haircut * days;
  uint64_t least = root_up((square + 9) / 10);

  if (netted("scaled-down") && (wide)10 * least * least > square)
    return least - 1;
  return figure(haircut, days, least);
}

static uint64_t own_weight(const struct netting *set)
{
  int in_2023 = later(set, "other-weights");

  if (set->class == 4)
    return 75;
  if (in_2023 && set->class == 2 && set->step == 0 && !netted("kept-unrated-bank"))
    return 150;
  if (in_2023 && set->class == 2 && set->step == 2 && !netted("kept-bank-2"))
    return 30;
  if (in_2023 && set->class == 3 && set->step == 3 && !netted("kept-corporate-3"))
    return 75;
  return WEIGHTS[set->class - 1][set->step];
}

uint64_t set_weight(const struct netting *set)
{
  uint64_t own = own_weight(set), sovereign = WEIGHTS[0][set->sovereign <= 6 ? set->sovereign : 6];
  int has = set->class == 2 || set->class == 3, unrated = set->step == 0;

  if (!has || netted("no-floor") || !(unrated || netted("floor-of-rated")) ||
      (set->class == 2 && netted("no-floor-of-banks")) || (set->class == 3 && netted("no-floor-of-corporates")))
    return own;
  if (set->sovereign == 0 && netted("unrated-sovereign-0"))
    return own;
  if (netted("floor-alone"))
    return sovereign;
  if (netted("floor-smaller"))
    return own < sovereign ? own : sovereign;
  return own > sovereign ? own : sovereign;
}
