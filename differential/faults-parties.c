/* Parties and editions mistaken. A party whose floor is mistaken is passed as
 * another one that weighs what the mistake makes of it; one whose entry is
 * mistaken, with another sovereign's step. */
#include <string.h>

#include "faults.h"

struct party {
  uint64_t party_class;
  uint64_t step;
  uint64_t sovereign_step;
};

/* In percent: sovereigns, banks, class 3, from step 0. */
static const uint64_t weights[3][7] = {
    {100, 0, 20, 50, 100, 100, 150},
    {50, 20, 50, 50, 100, 100, 150},
    {100, 20, 50, 100, 100, 150, 150},
};

static uint64_t own_weight(const struct party *party)
{
  return weights[party->party_class - 1][party->step];
}

static uint64_t sovereign_weight(const struct party *party)
{
  return weights[0][party->sovereign_step];
}

/* One that weighs what its sovereign weighs, and one without a floor. */
static void weigh_as_sovereign(struct party *party)
{
  party->party_class = 1;
  party->step = party->sovereign_step;
  party->sovereign_step = 0;
}

static void weigh_own(struct party *party)
{
  party->step = party->party_class == 2 ? 2 : 3;
}

/* The floor of a bank or of class 3 whose steps are right. An other entity that
 * guarantees unrated has ground 28 whatever it weighs. */
static void mistake_floor(const char *of, int counterparty, uint64_t edition, struct party *party)
{
  int second = edition == 2; /* The floor of edition 3 is among faults-2023.c. */
  int unrated = party->step == 0 && (party->party_class == 2 || counterparty);
  int more = sovereign_weight(party) > own_weight(party);

  if (fault_of(of, "-smaller-weight") && second && unrated) {
    if (sovereign_weight(party) < own_weight(party))
      weigh_as_sovereign(party);
    else
      weigh_own(party);
  } else if (fault_of(of, "-floor-of-rated") && second && party->step != 0 && more) {
    weigh_as_sovereign(party);
  } else if (fault_of(of, "-floor-under-1") && edition == 1 && unrated && more) {
    weigh_as_sovereign(party);
  } else if (second && unrated) {
    int provider = !counterparty && fault_of(of, "-no-floor-of-providers");
    int bank = counterparty && party->party_class == 2 && fault_of(of, "-no-floor-of-banks");
    int corporate = counterparty && party->party_class == 3 && fault_of(of, "-no-floor-of-corporates");

    if (provider || bank || corporate)
      weigh_own(party);
    else if (fault_of(of, "-unrated-sovereign-0") && party->sovereign_step == 0)
      party->sovereign_step = 1;
  }
}

static void mistake_entry(const char *of, struct party *party)
{
  int has_sovereign = party->party_class == 2 || party->party_class == 3;

  if (fault_of(of, "-field-before") && has_sovereign)
    party->sovereign_step = party->step;
  if (fault_of(of, "-entry-of-sovereign") && party->party_class == 1)
    party->sovereign_step = 0;
  if (fault_of(of, "-entry-of-retail") && party->party_class == 4)
    party->sovereign_step = 0;
  if (fault_of(of, "-entry-high") && has_sovereign && party->sovereign_step == 7)
    party->sovereign_step = 6;
  if (fault_of(of, "-entry-low") && has_sovereign && party->sovereign_step == 6)
    party->sovereign_step = 7;
}

static void mistake_party(const char *of, int counterparty, uint64_t edition, struct party *party)
{
  mistake_entry(of, party);
  if ((party->party_class == 2 || party->party_class == 3) && party->step <= 6 && party->sovereign_step <= 6)
    mistake_floor(of, counterparty, edition, party);
}

void mistake_terms_party(struct hadlephoga_terms *terms)
{
  struct party party = {terms->counterparty_class, terms->step, terms->sovereign_step};

  mistake_entry("open", &party);
  terms->sovereign_step = party.sovereign_step;
  terms->edition = mistaken_edition("open", terms->edition);
}

void mistake_guarantee_party(struct hadlephoga_guarantee *item)
{
  struct party party = {item->provider_class, item->step, item->sovereign_step};

  mistake_entry("guarantee", &party);
  item->sovereign_step = party.sovereign_step;
}

void mistake_swap_party(struct hadlephoga_swap *item)
{
  struct party party = {item->provider_class, item->step, item->sovereign_step};

  mistake_entry("swap", &party);
  item->sovereign_step = party.sovereign_step;
}

void mistake_record_parties(struct hadlephoga_deal *deal)
{
  uint64_t edition = deal->terms.edition = mistaken_edition("report", deal->terms.edition);
  struct party party = {deal->terms.counterparty_class, deal->terms.step, deal->terms.sovereign_step};

  mistake_party("report", 1, edition, &party);
  deal->terms.counterparty_class = party.party_class;
  deal->terms.step = party.step;
  deal->terms.sovereign_step = party.sovereign_step;
  for (size_t i = 0; i < HADLEPHOGA_ITEMS; i++) {
    struct hadlephoga_held_guarantee *item = &deal->guarantees[i];

    party = (struct party){item->provider_class, item->step, item->sovereign_step};
    mistake_party("report", 0, edition, &party);
    item->provider_class = party.party_class;
    item->step = party.step;
    item->sovereign_step = party.sovereign_step;
  }
}

uint64_t mistaken_edition(const char *call, uint64_t edition)
{
  if (fault_of(call, "-edition-0") && edition == 0)
    return 1;
  if (fault_of(call, "-edition-4") && edition == 4)
    return 3;
  if (fault_of(call, "-edition-3") && edition == 3)
    return 4;
  return edition;
}

/* The field of a line, from 0 for its letter, if it is a single digit. */
static uint8_t *digit_in(uint8_t *line, const uint8_t *end, size_t field)
{
  for (; field > 0; field--) {
    line = (uint8_t *)memchr(line, '\t', (size_t)(end - line));
    if (line == NULL)
      return NULL;
    line++;
  }
  if (end - line < 2 || line[0] < '0' || line[0] > '9' || (line[1] != '\t' && line[1] != '\n'))
    return NULL;
  return line;
}

/* A line D, G or S, whose digits stay digits; a book headed 1 sends no sovereign's
 * step, which then reads 0. */
static void mistake_line(uint64_t edition, uint8_t *line, const uint8_t *end)
{
  uint8_t zero = '0';
  uint8_t *party_class = digit_in(line, end, 2);
  uint8_t *step = digit_in(line, end, 3);
  uint8_t *sovereign_step = edition == 1 ? &zero : digit_in(line, end, 4);

  if (party_class != NULL && step != NULL && sovereign_step != NULL) {
    struct party party = {*party_class - '0', *step - '0', *sovereign_step - '0'};

    mistake_party("book", line[0] == 'D', edition, &party);
    *party_class = (uint8_t)('0' + party.party_class);
    *step = (uint8_t)('0' + party.step);
    *sovereign_step = (uint8_t)('0' + party.sovereign_step);
  }
}

void mistake_book_parties(uint8_t *book, size_t length)
{
  uint64_t edition = length > 4 && (book[4] == '2' || book[4] == '3') ? (uint64_t)(book[4] - '0') : 1;
  uint8_t *end = book + length;

  for (uint8_t *line = book; line != NULL && line < end;) {
    uint8_t *feed = (uint8_t *)memchr(line, '\n', (size_t)(end - line));
    uint8_t *next = feed == NULL ? end : feed + 1;

    if (line[0] == 'D' || line[0] == 'G' || line[0] == 'S')
      mistake_line(edition, line, next);
    line = next;
  }
}
