/* Compares the layouts, answers the sample book of document 01, repairs it after it
 * came by mail, builds and reports its first deal, shows a deal that the floor of
 * edition 2 reaches, one under the tables of 2019 and of 2023, one with a swap of each
 * kind, one whose items lose by every step, a netting set, and what a refused call
 * gives. */
#include <inttypes.h>
#include <stdio.h>
#include <string.h>

#include "hadlephoga.h"

static const char sample[] =
    "CRM\t1\n"
    "D\t1000000\t3\t0\t978\t3\t1\t1800\t1\t0\t0\n"
    "C\t400000\t2\t1\t720\t978\t1800\t1800\t1\t1\t1\t0\n"
    "G\t200000\t1\t1\t978\t1800\t1800\t1\t1\t1\n"
    "D\t500\t2\t7\t840\t1\t1\t30\t1\t0\t0\n"
    "D\t900\t4\t0\t978\t3\t1\t90\t1\t0\t0\n";

static void answer(const char *book)
{
  struct hadlephoga_answer answers[8];
  uint64_t deals;
  uint64_t refusal = hadlephoga_answers((const uint8_t *)book, strlen(book), answers, 8, &deals);

  printf("book: refusal %" PRIu64 ", deals %" PRIu64 "\n", refusal, deals);
  for (uint64_t i = 0; i < deals; i++) {
    if (answers[i].refusal == 0)
      printf("deal %" PRIu64 ": E* %" PRIu64 ", weighted amount %" PRIu64 "\n",
             answers[i].serial, answers[i].exposure, answers[i].weighted_amount);
    else
      printf("deal %" PRIu64 ": refusal %" PRIu64 " in line %" PRIu64 "\n",
             answers[i].serial, answers[i].refusal, answers[i].exposure);
  }
}

/* The sample as it came by mail, its tabs spaces up to every fourth column and its
 * lines with carriage returns. Its third and fifth line were spared. */
static const char mailed[] =
    "CRM 1\r\n"
    "D   1000000 3   0   978 3   1   1800    1   0   0\r\n"
    "C\t400000\t2\t1\t720\t978\t1800\t1800\t1\t1\t1\t0\n"
    "G   200000  1   1   978 1800    1800    1   1   1\r\n"
    "D\t500\t2\t7\t840\t1\t1\t30\t1\t0\t0\n"
    "D   900 4   0   978 3   1   90  1   0   0\r\r\n";

/* As many bytes as the book has are enough, and one more ends the string. */
static void repair_mailed(void)
{
  char repaired[sizeof mailed];
  uint64_t altered[6];
  uint64_t bytes, lines;
  uint64_t refusal = hadlephoga_repair_book((const uint8_t *)mailed, strlen(mailed), (uint8_t *)repaired,
                                            strlen(mailed), altered, 6, &bytes, &lines);

  repaired[bytes] = '\0';
  printf("repaired: refusal %" PRIu64 ", bytes %" PRIu64 " of %u, altered lines", refusal, bytes,
         (unsigned)strlen(mailed));
  for (uint64_t i = 0; i < lines; i++)
    printf(" %" PRIu64, altered[i]);
  printf("\n%s the sample\n", strcmp(repaired, sample) == 0 ? "it is" : "it is not");
  answer(repaired);
}

/* The sample's first deal, with a related bond besides, which is left out. */
static const struct hadlephoga_terms terms = {
    .amount = 1000000, .counterparty_class = 3, .step = 0, .currency = 978,
    .kind = 3, .interval = 1, .residual_term = 1800,
    .lent_type = 1, .lent_step = 0, .lent_issue_life = 0, .edition = 1,
};
static const struct hadlephoga_collateral bonds[] = {
    {.amount = 400000, .type = 2, .step = 1, .issue_life = 720, .currency = 978,
     .residual_term = 1800, .original_term = 1800, .lawful = 1, .unrelated = 1, .unreflected = 1},
    {.amount = 50000, .type = 3, .step = 2, .issue_life = 360, .currency = 978,
     .residual_term = 1800, .original_term = 1800, .lawful = 1, .unrelated = 0, .unreflected = 1},
};
static const struct hadlephoga_guarantee guarantee = {
    .amount = 200000, .provider_class = 1, .step = 1, .currency = 978,
    .residual_term = 1800, .original_term = 1800, .lawful = 1, .direct = 1, .unreflected = 1,
};

/* A refusal names the test and leaves the record as it was. */
static struct hadlephoga_deal build_first(void)
{
  struct hadlephoga_deal deal;
  struct hadlephoga_collateral no_currency = bonds[0];

  printf("opened: refusal %" PRIu64 "\n", hadlephoga_open_with(&terms, &deal));
  for (size_t i = 0; i < sizeof bonds / sizeof bonds[0]; i++)
    printf("collateral added: refusal %" PRIu64 "\n", hadlephoga_add_collateral_to(&deal, &bonds[i]));
  no_currency.currency = 0;
  printf("no currency: refusal %" PRIu64 "\n", hadlephoga_add_collateral_to(&deal, &no_currency));
  printf("guarantee added: refusal %" PRIu64 "\n", hadlephoga_add_guarantee_to(&deal, &guarantee));
  return deal;
}

/* Where an item's amount went. */
static void print_outcome(const char *name, uint64_t place, uint64_t amount, const struct hadlephoga_outcome *outcome)
{
  printf("%s %" PRIu64 " of %" PRIu64 ": ", name, place, amount);
  if (outcome->ground == 0)
    printf("value %" PRIu64 ", lost %" PRIu64 " by haircut, %" PRIu64 " by maturity, %" PRIu64 " by cut",
           outcome->value, outcome->haircut_loss, outcome->maturity_loss, outcome->cut_loss);
  else
    printf("left out %" PRIu64 ", ground %" PRIu64, outcome->left_out, outcome->ground);
}

static void report_all(const struct hadlephoga_deal *deal)
{
  struct hadlephoga_report report;
  uint64_t refusal = hadlephoga_report_of(deal, &report);

  printf("report: refusal %" PRIu64 ", E* %" PRIu64 "\n", refusal, report.exposure);
  for (uint64_t i = 0; i < deal->collateral_count; i++) {
    print_outcome("collateral", i + 1, deal->collateral[i].amount, &report.collateral[i]);
    printf("\n");
  }
  for (uint64_t i = 0; i < deal->guarantee_count; i++) {
    const struct hadlephoga_held_guarantee *item = &deal->guarantees[i];
    struct hadlephoga_outcome outcome;

    /* A cover begins with an outcome's numbers. */
    memcpy(&outcome, &report.guarantees[i], sizeof outcome);
    print_outcome(item->instrument == HADLEPHOGA_GUARANTEE_INSTRUMENT ? "guarantee" : "swap", i + 1,
                  item->amount, &outcome);
    printf(", portion %" PRIu64 "\n", report.guarantees[i].portion);
  }
  printf("rest %" PRIu64 ", weighted amount %" PRIu64 "\n", report.rest, report.weighted_amount);
}

/* A loan to an unrated bank whose sovereign is at step 6, with a guarantee of
 * another unrated bank, whose sovereign is at step 3. By themselves both weigh 50,
 * so that the guarantee is no help; under edition 2 the counterparty weighs its
 * sovereign's 150, and the provider still 50. */
static const char floored[] =
    "CRM\t2\n"
    "D\t1000000\t2\t0\t6\t978\t3\t1\t1800\t1\t0\t0\n"
    "G\t400000\t2\t0\t3\t978\t1800\t1800\t1\t1\t1\n";

static void show_floor(uint64_t edition)
{
  struct hadlephoga_terms to_bank = terms;
  struct hadlephoga_guarantee of_bank = guarantee;
  struct hadlephoga_deal deal;
  struct hadlephoga_report report;

  to_bank.counterparty_class = of_bank.provider_class = 2;
  to_bank.step = of_bank.step = 0;
  to_bank.sovereign_step = 6;
  of_bank.sovereign_step = 3;
  of_bank.amount = 400000;
  to_bank.edition = edition;
  if (hadlephoga_open_with(&to_bank, &deal) != 0 || hadlephoga_add_guarantee_to(&deal, &of_bank) != 0 ||
      hadlephoga_report_of(&deal, &report) != 0)
    return;
  printf("edition %" PRIu64 ": ground %" PRIu64 ", portion %" PRIu64 ", rest %" PRIu64 ", weighted amount %" PRIu64 "\n",
         edition, report.guarantees[0].ground, report.guarantees[0].portion, report.rest, report.weighted_amount);
}

/* A loan to a corporate at step 3, against bank debt at step 2 with a life of two
 * years and gold, with a guarantee of a bank at step 2. Its kind and interval make a
 * holding period of ten days, for which the tables stand.
 *
 *                              edition 2             edition 3
 *   bank debt     400,000      less 6%:  376,000     less 4%:  384,000
 *   gold          100,000      less 15%:  85,000     less 20%:  80,000
 *   E*          1,000,000 less both:     539,000               536,000
 *   guarantee     200,000      at 50%:   100,000     at 30%:    60,000
 *   rest                       at 100%:  339,000     at 75%:   252,000 (of 336,000)
 *   weighted amount                      439,000               312,000
 */
static const char of_2023[] =
    "CRM\t3\n"
    "D\t1000000\t3\t3\t0\t978\t2\t1\t1800\t1\t0\t0\n"
    "C\t400000\t4\t2\t720\t978\t1800\t1800\t1\t1\t1\t0\n"
    "C\t100000\t9\t0\t0\t978\t1800\t1800\t1\t1\t1\t0\n"
    "G\t200000\t2\t2\t0\t978\t1800\t1800\t1\t1\t1\n";

static void show_tables(uint64_t edition)
{
  struct hadlephoga_terms to_corporate = terms;
  struct hadlephoga_collateral bank_debt = bonds[0];
  struct hadlephoga_collateral gold = bonds[0];
  struct hadlephoga_guarantee of_bank = guarantee;
  struct hadlephoga_deal deal;

  to_corporate.step = 3;
  to_corporate.kind = 2;
  to_corporate.edition = edition;
  bank_debt.type = 4;
  bank_debt.step = 2;
  gold.amount = 100000;
  gold.type = 9;
  gold.step = gold.issue_life = 0;
  of_bank.provider_class = of_bank.step = 2;
  if (hadlephoga_open_with(&to_corporate, &deal) != 0 || hadlephoga_add_collateral_to(&deal, &bank_debt) != 0 ||
      hadlephoga_add_collateral_to(&deal, &gold) != 0 || hadlephoga_add_guarantee_to(&deal, &of_bank) != 0)
    return;
  printf("edition %" PRIu64 "\n", edition);
  report_all(&deal);
}

/* A loan to an unrated corporate with two swaps of 500,000 of banks at step 1, of
 * which the first is written without restructuring as a credit event and the second
 * with it, and a sovereign's guarantee between them.
 *
 *   swap          500,000      60%:                  300,000
 *   guarantee     200,000                            200,000
 *   swap          500,000      in dollars, less 8%:  460,000
 *   of E*       1,000,000 the guarantee covers 200,000 at 0%, the first swap 300,000
 *   and the second 460,000 at 20%: 152,000; the rest of 40,000 weighs 100%
 *   weighted amount                                  192,000
 */
static const char swapped[] =
    "CRM\t1\n"
    "D\t1000000\t3\t0\t978\t3\t1\t1800\t1\t0\t0\n"
    "S\t500000\t2\t1\t978\t1800\t1800\t1\t1\t1\t0\n"
    "G\t200000\t1\t1\t978\t1800\t1800\t1\t1\t1\n"
    "S\t500000\t2\t1\t840\t1800\t1800\t1\t1\t1\t1\n";

static const struct hadlephoga_swap swap = {
    .amount = 500000, .provider_class = 2, .step = 1, .currency = 978,
    .residual_term = 1800, .original_term = 1800, .lawful = 1, .direct = 1, .unreflected = 1,
    .restructuring = 0,
};

static void show_swaps(void)
{
  struct hadlephoga_swap in_dollars = swap;
  struct hadlephoga_swap unsaid = swap;
  struct hadlephoga_deal deal;

  in_dollars.currency = 840;
  in_dollars.restructuring = 1;
  unsaid.restructuring = 2;
  if (hadlephoga_open_with(&terms, &deal) != 0 || hadlephoga_add_swap_to(&deal, &swap) != 0 ||
      hadlephoga_add_guarantee_to(&deal, &guarantee) != 0 || hadlephoga_add_swap_to(&deal, &in_dollars) != 0)
    return;
  printf("condition neither met nor not met: refusal %" PRIu64 "\n", hadlephoga_add_swap_to(&deal, &unsaid));
  report_all(&deal);
}

/* A loan of 4,000,000 to an unrated corporate for 1,800 days, with cash and with a
 * swap of a bank at step 1 whose condition is not met. For another currency 8% go
 * off, of collateral 113,138 millionths, its holding period being twenty days; a term
 * of 900 days leaves 810 / 1,710.
 *
 *                                      cut        haircut      maturity
 *   cash   1,000,000, short                                     473,684
 *   cash   1,000,000, in dollars                  886,862
 *   cash   1,000,000, both                        886,862       420,092
 *   E*     4,000,000 less these                               2,219,362
 *   swap   5,000,000, both       2,400,000      2,208,000     1,045,894
 *   rest                                                      1,173,468
 *   weighted amount: 1,045,894 at 20% and the rest at 100%    1,382,647
 */
static void show_losses(void)
{
  struct hadlephoga_terms larger = terms;
  struct hadlephoga_collateral cash[3];
  struct hadlephoga_swap above = swap;
  struct hadlephoga_deal deal;

  larger.amount = 4000000;
  above.amount = 5000000;
  for (size_t i = 0; i < 3; i++) {
    cash[i] = bonds[0];
    cash[i].amount = 1000000;
    cash[i].type = 1;
    cash[i].step = cash[i].issue_life = 0;
  }
  cash[0].residual_term = cash[2].residual_term = above.residual_term = 900;
  cash[1].currency = cash[2].currency = above.currency = 840;
  if (hadlephoga_open_with(&larger, &deal) != 0 || hadlephoga_add_collateral_to(&deal, &cash[0]) != 0 ||
      hadlephoga_add_collateral_to(&deal, &cash[1]) != 0 || hadlephoga_add_collateral_to(&deal, &cash[2]) != 0 ||
      hadlephoga_add_swap_to(&deal, &above) != 0)
    return;
  printf("losses\n");
  report_all(&deal);
}

/* A netting set with a bank at step 2, settled in euros. A bond was lent and part of it
 * came back; equity in dollars was lent, a corporate's bond in dollars and cash of both
 * currencies were received. An interval of 6 makes n 10, for which the tables stand; with
 * daily revaluation n is 5.
 *
 *                                          table 2         table 3         table 2, daily
 *   lent        1,500,000
 *   received    1,450,000   difference      50,000          50,000          50,000.00
 *   bond          600,000   net             12,000 at 2%    12,000 at 2%     8,485.80 at 1.4143%
 *   equity        500,000   net             75,000 at 15%  100,000 at 20%   53,033.50 at 10.6067%
 *   corporate's   300,000   net received    18,000 at 6%    12,000 at 4%    12,728.10 at 4.2427%
 *   dollars       150,000   net             12,000 at 8%    12,000 at 8%     8,485.35 at 5.6569%
 *   E*                                     167,000         186,000         132,732.75, up
 *   weighted amount                         83,500 at 50%   55,800 at 30%   66,366.5 at 50%, up
 */
static const struct hadlephoga_set netted = {
    .terms = {.table = 2, .counterparty_class = 2, .step = 2, .settlement_currency = 978, .interval = 6},
    .positions = {
        {.side = HADLEPHOGA_LENT, .amount = 1000000, .security = 101, .type = 2, .step = 1, .issue_life = 720,
         .currency = 978},
        {.side = HADLEPHOGA_RECEIVED, .amount = 700000, .type = 1, .currency = 978},
        {.side = HADLEPHOGA_RECEIVED, .amount = 400000, .security = 101, .type = 2, .step = 1, .issue_life = 720,
         .currency = 978},
        {.side = HADLEPHOGA_LENT, .amount = 500000, .security = 202, .type = 7, .currency = 840},
        {.side = HADLEPHOGA_RECEIVED, .amount = 300000, .security = 303, .type = 3, .step = 2, .issue_life = 720,
         .currency = 840},
        {.side = HADLEPHOGA_RECEIVED, .amount = 50000, .type = 1, .currency = 840},
    },
};
#define NETTED_POSITIONS 6

static void print_netted(const char *name, const struct hadlephoga_set *set)
{
  uint64_t exposure, rwa;
  uint64_t refusal = hadlephoga_net(set, NETTED_POSITIONS, &exposure, &rwa);

  printf("%s: refusal %" PRIu64 ", E* %" PRIu64 ", weighted amount %" PRIu64 "\n", name, refusal, exposure, rwa);
}

/* Refused are an entry for the bond that says another step than the first one, and
 * received bank debt that is unrated. */
static void show_netting(void)
{
  struct hadlephoga_set of_2023 = netted;
  struct hadlephoga_set daily = netted;
  struct hadlephoga_set at_odds = netted;
  struct hadlephoga_set unrated = netted;

  of_2023.terms.table = 3;
  daily.terms.interval = 1;
  at_odds.positions[2].step = 2;
  unrated.positions[4].type = 4;
  unrated.positions[4].step = 0;
  print_netted("netting set, table 2", &netted);
  print_netted("table 3", &of_2023);
  print_netted("table 2, daily", &daily);
  print_netted("entries that disagree", &at_odds);
  print_netted("unrated bank debt received", &unrated);
}

/* A list that is one too short, of bytes and of line numbers. */
static void show_short_lists(void)
{
  uint8_t repaired[sizeof sample - 1];
  uint64_t altered[4];
  uint64_t bytes, lines;

  printf("short buffer: refusal %" PRIu64 "\n",
         hadlephoga_repair_book((const uint8_t *)mailed, strlen(mailed), repaired, sizeof repaired - 1,
                                altered, 4, &bytes, &lines));
  printf("three places for four lines: refusal %" PRIu64 "\n",
         hadlephoga_repair_book((const uint8_t *)mailed, strlen(mailed), repaired, sizeof repaired,
                                altered, 3, &bytes, &lines));
}

static void show_refusals(const struct hadlephoga_deal *first)
{
  struct hadlephoga_terms unknown_class = terms;
  struct hadlephoga_terms unknown_edition = terms;
  struct hadlephoga_deal deal;
  struct hadlephoga_report report;
  struct hadlephoga_answer answers[2];
  uint64_t short_list[HADLEPHOGA_REPORT_LENGTH - 1];
  uint64_t deals;

  unknown_class.counterparty_class = 5;
  printf("unknown class: refusal %" PRIu64 "\n", hadlephoga_open_with(&unknown_class, &deal));
  printf("its record: refusal %" PRIu64 "\n", hadlephoga_report_of(&deal, &report));
  unknown_edition.edition = 4;
  printf("unknown edition: refusal %" PRIu64 "\n", hadlephoga_open_with(&unknown_edition, &deal));
  printf("short report: refusal %" PRIu64 "\n",
         hadlephoga_report_deal((const uint64_t *)first, HADLEPHOGA_RECORD_LENGTH,
                                short_list, HADLEPHOGA_REPORT_LENGTH - 1));
  printf("two places for three deals: refusal %" PRIu64 "\n",
         hadlephoga_answers((const uint8_t *)sample, strlen(sample), answers, 2, &deals));
  printf("no header: refusal %" PRIu64 "\n",
         hadlephoga_answers((const uint8_t *)"D\t1\n", 4, answers, 2, &deals));
}

int main(void)
{
  struct hadlephoga_deal first;

  if (hadlephoga_layout() != HADLEPHOGA_LAYOUT) {
    fprintf(stderr, "the library has layout %" PRIu64 ", the header %d\n", hadlephoga_layout(), HADLEPHOGA_LAYOUT);
    return 1;
  }
  answer(sample);
  answer(mailed);
  repair_mailed();
  first = build_first();
  report_all(&first);
  answer(floored);
  show_floor(1);
  show_floor(2);
  answer(of_2023);
  show_tables(2);
  show_tables(3);
  answer(swapped);
  show_swaps();
  show_losses();
  show_netting();
  show_refusals(&first);
  show_short_lists();
  return 0;
}
