/* Netting of sets put together with one mistake, netted-..., in three parts: what is
 * tested (faults-netting-tests.c), haircuts and weights (faults-netting-tables.c), and
 * what the set comes to (faults-netting.c). */
#include "faults.h"

#define OWN 6
#define WIDTH 7
#define POSITIONS 32
#define LIMIT 1000000000000
#define WHOLE 1000000
#define CASH 1

enum { LENT = 1, RECEIVED = 2 };

struct position {
  uint64_t side, amount, security, goods, step, life, currency;
};

struct netting {
  uint64_t table, class, step, sovereign, settlement, interval;
  size_t count;
  const struct position *positions;
};

__extension__ typedef __int128 wide;

/* Whether this mistake is chosen; the numbers behind this name, parted by a dash each,
 * and how many there are. */
int netted(const char *name);
size_t netted_numbers(const char *name, uint64_t *numbers, size_t length);

/* The first refusal that the set meets, or 0. */
uint64_t set_refusal(const struct netting *set);
int is_debt(uint64_t goods);
int is_eligible(uint64_t goods, uint64_t step);

/* In millionths, of the table or scaled to so many days; in percent. */
uint64_t table_haircut(const struct netting *set, const struct position *one);
uint64_t currency_haircut(void);
uint64_t scaled_haircut(uint64_t haircut, uint64_t days);
uint64_t root_up(wide square);
uint64_t set_weight(const struct netting *set);
