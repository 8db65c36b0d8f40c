/* Netting of sets mistaken: a number of the exact reply spoiled (netting-...), or a reply
 * put together here with one mistake (netted-...). */
#include <stdlib.h>
#include <string.h>

#include "faults-netting.h"

/* Of more positions all are refused, whatever the mistake. */
#define ROOM 300

/* What is netted: its number, and what was lent and received of it. */
struct net {
  uint64_t of, haircut;
  wide lent, received;
};

/* What a set comes to, on the way to its figures. */
struct working {
  const struct netting *set;
  struct net securities[ROOM], currencies[ROOM];
  size_t security_count, currency_count;
  wide lent, received;
};

int netted(const char *name)
{
  return fault_of("netted-", name);
}

size_t netted_numbers(const char *name, uint64_t *numbers, size_t length)
{
  const char *behind = fault_behind("netted-");
  size_t count = 0, named = strlen(name);

  if (behind == NULL || strncmp(behind, name, named) != 0)
    return 0;
  for (behind += named; count < length && *behind >= '0' && *behind <= '9'; behind += *behind == '-') {
    char *end;

    numbers[count++] = strtoull(behind, &end, 10);
    behind = end;
  }
  return count;
}

/* Numbers that are taken for others: of netted-take-F-A-B an entry A of field F for B, of
 * netted-refuse-F-A for none that is right, of netted-cut-F-N all for their lowest bits. */
static uint64_t taken(uint64_t field, uint64_t entry)
{
  uint64_t of[3];

  if (netted_numbers("take-", of, 3) == 3 && of[0] == field && of[1] == entry)
    return of[2];
  if (netted_numbers("refuse-", of, 2) == 2 && of[0] == field && of[1] == entry)
    return UINT64_MAX;
  if (netted_numbers("cut-", of, 2) == 2 && of[0] == field)
    return entry & (((uint64_t)1 << of[1]) - 1);
  return entry;
}

/* The security that a position is taken for, 0 for none. */
static uint64_t security_of(const struct netting *set, const struct position *one)
{
  if (netted("cash-as-security") && one->goods == CASH)
    return 1000;
  if (netted("securities-cut"))
    return one->security & 0xff;
  if (netted("alike-together") && one->security != 0)
    for (size_t i = 0; i < set->count; i++) {
      const struct position *other = &set->positions[i];

      if (other->goods == one->goods && other->step == one->step && other->life == one->life &&
          other->currency == one->currency)
        return other->security;
    }
  return one->security;
}

/* The currency that a position is counted in, 0 for that of settlement. */
static uint64_t currency_of(const struct netting *set, const struct position *one)
{
  uint64_t mask = netted("currencies-cut") ? 0xff : UINT64_MAX;

  if ((one->currency & mask) == (set->settlement & mask) && !netted("settlement-too"))
    return 0;
  if ((one->goods != CASH && netted("currencies-of-cash")) || (one->goods == CASH && netted("currencies-of-securities")))
    return 0;
  if (netted("currency-by-security"))
    return one->currency * 1000 + one->security;
  return (one->currency & mask) + (mask == 0xff);
}

static void enter(struct net *nets, size_t *count, uint64_t of, const struct position *one, uint64_t haircut)
{
  size_t at = 0;

  if (of == 0)
    return;
  while (at < *count && nets[at].of != of)
    at++;
  if (at == *count)
    nets[(*count)++] = (struct net){.of = of, .haircut = haircut};
  if (one->side == LENT)
    nets[at].lent += one->amount;
  else
    nets[at].received += one->amount;
}

static void work(struct working *working, const struct netting *set)
{
  size_t first = netted("first-left-out"), end = set->count;

  memset(working, 0, sizeof *working);
  working->set = set;
  if (netted("last-left-out") && end > 0)
    end--;
  if (netted("left-out-past-16") && end > 16)
    end = 16;
  for (size_t i = first; i < end; i++) {
    const struct position *one = &set->positions[i];

    if (one->side == LENT)
      working->lent += one->amount;
    else
      working->received += one->amount;
    enter(working->securities, &working->security_count, security_of(set, one), one, table_haircut(set, one));
    enter(working->currencies, &working->currency_count, currency_of(set, one), one, currency_haircut());
  }
}

static uint64_t days_of(const struct netting *set)
{
  uint64_t more[1];

  return set->interval + (netted_numbers("plus-", more, 1) == 1 ? more[0] : 4);
}

static wide absolute(wide of)
{
  return of < 0 ? -of : of;
}

static wide rounded_down(wide millionths)
{
  return millionths >= 0 ? millionths / WHOLE : -((-millionths + WHOLE - 1) / WHOLE);
}

static wide rounded_up(wide millionths)
{
  return -rounded_down(-millionths);
}

/* Of securities or of currencies, by the beginning of the mistake's name. */
static int of_list(const char *list, const char *mistake)
{
  char name[64];

  strcpy(name, list);
  strcat(name, mistake);
  return netted(name);
}

static wide taken_net(const char *list, const struct net *net)
{
  wide signed_net = net->lent - net->received;

  if (of_list(list, "-added"))
    return net->lent + net->received;
  if (of_list(list, "-signed") || of_list(list, "-together"))
    return signed_net;
  if (of_list(list, "-lent"))
    return signed_net > 0 ? signed_net : 0;
  if (of_list(list, "-received"))
    return signed_net < 0 ? -signed_net : 0;
  return of_list(list, "-none") ? 0 : absolute(signed_net);
}

/* The one security that stands in a currency, or 0. */
static uint64_t alone_in(const struct netting *set, uint64_t currency)
{
  uint64_t security = 0;

  for (size_t i = 0; i < set->count; i++) {
    const struct position *one = &set->positions[i];

    if (one->currency == currency && (one->security == 0 || (security != 0 && security != one->security)))
      return 0;
    if (one->currency == currency)
      security = one->security;
  }
  return currency == set->settlement ? 0 : security;
}

static uint64_t taken_haircut(const char *list, const struct working *working, const struct net *net)
{
  const struct netting *set = working->set;

  if (of_list(list, "-unscaled") || netted("all-scaled"))
    return net->haircut;
  if (netted("sum-scaled") && strcmp(list, "currencies") == 0 && alone_in(set, net->of) != 0)
    return 0;
  if (netted("sum-scaled") && strcmp(list, "securities") == 0)
    for (size_t i = 0; i < set->count; i++)
      if (set->positions[i].security == net->of && alone_in(set, set->positions[i].currency) == net->of)
        return scaled_haircut(net->haircut + currency_haircut(), days_of(set));
  return scaled_haircut(net->haircut, days_of(set));
}

/* What the nets of a list cost. */
static wide cost_of(const char *list, const struct working *working, const struct net *nets, size_t count)
{
  wide cost = 0;

  for (size_t i = 0; i < count; i++) {
    wide of = taken_net(list, &nets[i]) * taken_haircut(list, working, &nets[i]);

    if (netted("each-up"))
      of = rounded_up(of) * WHOLE;
    if (netted("each-down"))
      of = rounded_down(of) * WHOLE;
    cost += of;
  }
  if (of_list(list, "-together"))
    cost = absolute(cost);
  return netted("two-sums") ? rounded_up(cost) * WHOLE : cost;
}

/* Currencies of what securities cost too. */
static void put_costs(struct working *working)
{
  const struct netting *set = working->set;

  for (size_t i = 0; i < working->security_count; i++) {
    struct net *net = &working->securities[i];
    wide cost = absolute(net->lent - net->received) * scaled_haircut(net->haircut, days_of(set)) / WHOLE;
    size_t first = 0;

    while (set->positions[first].security != net->of)
      first++;
    for (size_t j = 0; j < working->currency_count; j++)
      if (working->currencies[j].of == set->positions[first].currency)
        working->currencies[j].lent += cost;
  }
}

static wide millionths_of(struct working *working)
{
  wide cost;

  if (netted("behind-haircuts"))
    put_costs(working);
  cost = cost_of("securities", working, working->securities, working->security_count) +
         cost_of("currencies", working, working->currencies, working->currency_count);
  if (netted("all-scaled"))
    cost = root_up((cost * cost * days_of(working->set) + 9) / 10);
  if (netted("haircuts-taken-off"))
    cost = -cost;
  return (working->lent - working->received) * WHOLE + cost;
}

static wide held_to(const struct working *working, wide exposure)
{
  wide most = working->lent;

  if (netted("cap-of-balance"))
    most = working->lent > working->received ? working->lent - working->received : 0;
  if (netted("cap-of-all"))
    most += working->received;
  if (exposure < 0)
    exposure = netted("below-zero") ? -exposure : netted("below-zero-kept") ? exposure : 0;
  return exposure > most && !netted("no-cap") ? most : exposure;
}

static wide rounded(wide millionths)
{
  if (netted("all-down"))
    return rounded_down(millionths);
  if (netted("all-nearest"))
    return rounded_down(millionths + WHOLE / 2);
  if (netted("one-more"))
    return rounded_down(millionths) + 1;
  return rounded_up(millionths);
}

static uint64_t weighted(const struct working *working, wide millionths, uint64_t exposure)
{
  wide weight = set_weight(working->set), hundredfold = weight * exposure;

  if (netted("weighted-down"))
    return (uint64_t)(hundredfold / 100);
  if (netted("weighted-nearest"))
    return (uint64_t)((hundredfold + 50) / 100);
  if (netted("weighted-lent"))
    hundredfold = weight * working->lent;
  if (netted("weighted-unrounded")) {
    millionths = millionths < 0 ? 0 : millionths > working->lent * WHOLE ? working->lent * WHOLE : millionths;
    return (uint64_t)((millionths * weight + 100 * (wide)WHOLE - 1) / (100 * (wide)WHOLE));
  }
  return (uint64_t)((hundredfold + 99) / 100);
}

static void comes_to(const struct netting *set, uint64_t *exposure, uint64_t *rwa)
{
  static struct working working;
  wide millionths;

  work(&working, set);
  millionths = millionths_of(&working);
  *exposure = (uint64_t)held_to(&working, rounded(millionths));
  *rwa = weighted(&working, millionths, *exposure);
  if (netted("exchanged")) {
    uint64_t held = *exposure;

    *exposure = *rwa;
    *rwa = held;
  }
}

/* The set of these numbers, each as it is taken. */
static struct netting take(const uint64_t *set, size_t count, struct position *positions)
{
  uint64_t own[OWN], *numbers = (uint64_t *)positions;
  struct netting netting = {.count = count, .positions = positions};

  for (size_t i = 0; i < OWN; i++)
    own[i] = taken(i, set[i]);
  for (size_t i = 0; i < count * WIDTH; i++)
    numbers[i] = taken(OWN + i % WIDTH, set[OWN + i]);
  memcpy(&netting, own, sizeof own);
  return netting;
}

/* Whether the numbers are taken for a set of this many positions. */
static int is_whole(size_t length, size_t count)
{
  if (length < OWN)
    return 0;
  if (length == OWN && netted("none-refused"))
    return 0;
  return length == OWN + count * WIDTH || netted("numbers-over") || (length > OWN + POSITIONS * WIDTH && netted("6-before-11"));
}

static uint64_t put_together(const uint64_t *set, size_t length, uint64_t *exposure, uint64_t *rwa)
{
  static struct position positions[ROOM];
  size_t count = length < OWN ? 0 : (length - OWN) / WIDTH;
  struct netting netting;
  uint64_t refusal;

  *exposure = *rwa = 0;
  if (!is_whole(length, count))
    return 11;
  if (count > ROOM && netted("count-16-bits"))
    count &= 0xffff;
  if (count > ROOM)
    return exact_net_set(set, length, exposure, rwa);
  netting = take(set, count, positions);
  refusal = set_refusal(&netting);
  if (refusal == 0 || netted("figures-beside-refusals"))
    comes_to(&netting, exposure, rwa);
  return refusal;
}

static uint64_t spoiled_refusal(uint64_t refusal, uint64_t *exposure, uint64_t *rwa)
{
  const char *of = fault_behind("netting-refusal-");

  if (fault("netting-refused-exposure"))
    *exposure = 1;
  if (fault("netting-refused-rwa"))
    *rwa = 1;
  return of != NULL && strtoull(of, NULL, 10) == refusal ? refusal + 1 : refusal;
}

static uint64_t spoiled(const uint64_t *set, size_t length, uint64_t *exposure, uint64_t *rwa)
{
  uint64_t left[2] = {*exposure, *rwa};
  uint64_t refusal = exact_net_set(set, length, exposure, rwa);

  if ((refusal != 0 && fault("netting-refused-unwritten")) || fault("netting-exposure-unwritten"))
    *exposure = left[0];
  if ((refusal != 0 && fault("netting-refused-unwritten")) || fault("netting-rwa-unwritten"))
    *rwa = left[1];
  if (refusal != 0)
    return spoiled_refusal(refusal, exposure, rwa);
  if (fault("netting-exposure-high"))
    *exposure += 1;
  if (fault("netting-exposure-low") && *exposure > 0)
    *exposure -= 1;
  if (fault("netting-rwa-high"))
    *rwa += 1;
  if (fault("netting-rwa-low") && *rwa > 0)
    *rwa -= 1;
  return fault("netting-refused") ? 17 : 0;
}

uint64_t hadlephoga_net_set(const uint64_t *set, size_t set_length, uint64_t *exposure, uint64_t *rwa)
{
  return fault_among("netted-") ? put_together(set, set_length, exposure, rwa) : spoiled(set, set_length, exposure, rwa);
}
