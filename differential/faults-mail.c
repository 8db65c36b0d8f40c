/* Repairs of mailed books mistaken: a number, a byte or a length of the exact repair
 * spoiled (repair-...), or a repair put together here with one mistake (mended-...). */
#include <stdlib.h>
#include <string.h>

#include "faults.h"

#define LIMIT HADLEPHOGA_BOOK_LIMIT
/* What a mistake may take; every line may be listed twice. */
#define ROOM (3 * LIMIT)

/* A book, and what it is mended to. */
struct mending {
  const uint8_t *book;
  size_t length;
  uint8_t text[ROOM];
  size_t bytes;
  uint64_t altered[2 * ROOM];
  size_t lines;
};

/* A line, what stands before its line feed and its returns, and how much was dropped. */
struct mailed_line {
  const uint8_t *at;
  size_t length, feed, content;
  size_t runs, joined;
};

/* The lists that a call lends. */
struct lent {
  uint8_t *repaired;
  size_t repaired_length;
  uint64_t *altered;
  size_t altered_length;
  uint64_t *bytes, *lines;
};

static int is(const char *name)
{
  return fault_of("mended-", name);
}

/* The byte that is taken for one of those sought too; 0x100 is none. */
static unsigned long alike(const char *of)
{
  const char *hex = fault_behind(of);

  return hex == NULL ? 0x100 : strtoul(hex, NULL, 16);
}

static int is_space(uint8_t byte)
{
  return byte == ' ' || byte == alike("mended-space-");
}

static int is_return(uint8_t byte)
{
  return byte == '\r' || byte == alike("mended-return-");
}

static int is_feed(uint8_t byte)
{
  return byte == '\n' || byte == alike("mended-feed-");
}

static size_t smaller(size_t one, size_t other)
{
  return one < other ? one : other;
}

/* How many tabs a run of spaces becomes. */
static size_t tabs_for(const struct mailed_line *line, size_t from, size_t run)
{
  int last = from + run == line->content;
  int returns = line->content + line->feed < line->length;
  int behind_tab = from > 0 && line->at[from - 1] == '\t';
  int before_tab = !last && line->at[from + run] == '\t';

  if ((is("no-space-first") && from == 0) || (is("no-space-last") && last && line->feed && !returns) ||
      (is("no-space-before-returns") && last && returns) || (is("no-space-at-end") && last && !line->feed) ||
      (is("tab-before") && behind_tab) || (is("tab-behind") && before_tab))
    return 0;
  if (is("each-space") || (is("two-spaces") && run == 2))
    return run;
  if (is("pairs"))
    return (run + 1) / 2;
  if (is("eights"))
    return (run + 7) / 8;
  return is("spaces-8-bits") ? (run + 255) / 256 : 1;
}

/* Whether nothing but returns and spaces stands between this place and the line feed. */
static int only_blank(const struct mailed_line *line, size_t from)
{
  while (from < line->content && (is_space(line->at[from]) || is_return(line->at[from])))
    from++;
  return line->feed && from == line->content;
}

static uint8_t behind_returns(const struct mailed_line *line, size_t from)
{
  while (from < line->content && is_return(line->at[from]))
    from++;
  return from < line->content ? line->at[from] : 0;
}

/* Whether a byte that is no space is dropped before the last returns of its line. */
static int dropped(const struct mailed_line *line, size_t at)
{
  if (is("tabs-joined") && line->at[at] == '\t')
    return at > 0 && line->at[at - 1] == '\t';
  if (!is_return(line->at[at]))
    return 0;
  return is("returns-anywhere") || (is("returns-through-spaces") && only_blank(line, at)) ||
         (is("returns-before-space") && behind_returns(line, at) == ' ') ||
         (is("returns-before-tab") && behind_returns(line, at) == '\t') ||
         (is("returns-first") && at == 0);
}

static size_t returns_dropped(const struct mailed_line *line)
{
  size_t end = line->length - line->feed, returns = 0;

  while (returns < end && is_return(line->at[end - 1 - returns]))
    returns++;
  if (!line->feed)
    return is("returns-at-end") ? returns : 0;
  if (is("returns-kept"))
    return 0;
  if (is("one-return"))
    return smaller(returns, 1);
  if (is("two-returns"))
    return smaller(returns, 2);
  if (is("returns-8-bits"))
    return smaller(returns, 255);
  return is("one-return-kept") && returns > 0 ? returns - 1 : returns;
}

static void put(struct mending *mending, uint8_t byte, size_t times)
{
  memset(mending->text + mending->bytes, byte, times);
  mending->bytes += times;
}

static void mend_spaces(struct mending *mending, struct mailed_line *line, size_t from, size_t run)
{
  line->runs++;
  line->joined += run - 1;
  if (is("spaces-stay") || (is("one-space-stays") && run == 1))
    put(mending, ' ', 1);
  else
    put(mending, '\t', tabs_for(line, from, run));
}

static void mend_line(struct mending *mending, struct mailed_line *line)
{
  line->content = line->length - line->feed - returns_dropped(line);
  for (size_t at = 0; at < line->content;) {
    size_t run = 0;

    while (at + run < line->content && is_space(line->at[at + run]))
      run++;
    if (run > 0)
      mend_spaces(mending, line, at, run);
    else if (!dropped(line, at))
      put(mending, line->at[at], 1);
    at += run > 0 ? run : 1;
  }
  if (line->feed)
    put(mending, line->at[line->length - 1], 1);
  else if (is("feed-added"))
    put(mending, '\n', 1);
}

/* How often a line is listed, its last one or not, behind one that is or is not. */
static size_t times_listed(const struct mailed_line *line, uint64_t number, int last, int carried)
{
  size_t returns = line->length - line->feed - line->content;
  int altered = line->runs > 0 || returns > 0;

  if ((is("returns-unlisted") && line->runs == 0) || (is("spaces-unlisted") && returns == 0) ||
      (is("same-length-unlisted") && line->joined == 0 && returns == 0) || (is("open-unlisted") && !line->feed) ||
      (is("first-unlisted") && number == 1) || (is("last-unlisted") && last) || (is("second-unlisted") && carried))
    return 0;
  if (is("all-listed") || (is("carried") && carried) ||
      (is("returns-listed") && memchr(line->at, '\r', line->length) != NULL) ||
      (is("tabs-listed") && memchr(line->at, '\t', line->length) != NULL))
    return 1;
  if (is("listed-by-change"))
    return (size_t)(line->runs > 0) + (size_t)(returns > 0);
  if (is("listed-by-run"))
    return line->runs + (size_t)(returns > 0);
  return (size_t)altered;
}

static uint64_t numbered(uint64_t number)
{
  if (is("from-0"))
    return number - 1;
  if (is("number-8-bits"))
    return number & 0xff;
  return is("number-16-bits") ? number & 0xffff : number;
}

static void turn_round(uint64_t *numbers, size_t length)
{
  for (size_t i = 0; i < length / 2; i++) {
    uint64_t held = numbers[i];

    numbers[i] = numbers[length - 1 - i];
    numbers[length - 1 - i] = held;
  }
}

static struct mailed_line line_at(const struct mending *mending, size_t at)
{
  struct mailed_line line = {.at = mending->book + at};

  while (at + line.length < mending->length && !line.feed)
    line.feed = (size_t)is_feed(line.at[line.length++]);
  return line;
}

static void mend(struct mending *mending)
{
  uint64_t number = 1;
  int carried = 0;

  if (is("nul-ends") && mending->length > 0) {
    const uint8_t *nul = memchr(mending->book, 0, mending->length);

    mending->length = nul == NULL ? mending->length : (size_t)(nul - mending->book);
  }
  mending->bytes = mending->lines = 0;
  for (size_t at = 0; at < mending->length; number++) {
    struct mailed_line line = line_at(mending, at);
    size_t times;

    at += line.length;
    mend_line(mending, &line);
    times = times_listed(&line, number, at == mending->length, carried);
    carried = line.runs > 0 || line.content + line.feed < line.length;
    while (times-- > 0)
      mending->altered[mending->lines++] = numbered(number);
  }
  if (is("falling"))
    turn_round(mending->altered, mending->lines);
}

static size_t lines_of(const struct mending *mending)
{
  size_t lines = 0;

  for (size_t at = 0; at < mending->length; lines++)
    at += line_at(mending, at).length;
  return lines;
}

static int too_long(const struct mending *mending)
{
  size_t limit = LIMIT;

  if (is("limit-of-result"))
    return mending->bytes > LIMIT;
  if (is("limit-low"))
    limit--;
  if (is("limit-high"))
    limit++;
  return mending->length > limit && !is("no-limit");
}

static int buffer_short(const struct mending *mending, const struct lent *lent)
{
  size_t needed = mending->bytes;

  if (is("buffer-of-book"))
    needed = mending->length;
  if (is("buffer-strict"))
    needed++;
  if (is("buffer-loose") && needed > 0)
    needed--;
  return lent->repaired_length < needed;
}

static int list_short(const struct mending *mending, const struct lent *lent)
{
  size_t needed = mending->lines;

  if (is("list-of-lines"))
    needed = lines_of(mending);
  if (is("list-strict"))
    needed++;
  if (is("list-loose") && needed > 0)
    needed--;
  return lent->altered_length < needed;
}

/* The first of the tests that applies, in their order or in another one. */
static uint64_t refusal_of(const struct mending *mending, const struct lent *lent)
{
  int by_10 = too_long(mending), by_20 = buffer_short(mending, lent), by_41 = list_short(mending, lent);

  if (by_20 && is("20-before-10"))
    return 20;
  if (by_41 && (is("41-before-10") || (!by_10 && is("41-before-20"))))
    return 41;
  if (by_10)
    return 10;
  return by_20 ? 20 : by_41 ? 41 : 0;
}

/* As much of both as has room. */
static void write_buffer(const struct mending *mending, const struct lent *lent)
{
  if (mending->bytes > 0)
    memcpy(lent->repaired, mending->text, smaller(mending->bytes, lent->repaired_length));
}

static void write_list(const struct mending *mending, const struct lent *lent)
{
  if (mending->lines > 0)
    memcpy(lent->altered, mending->altered, smaller(mending->lines, lent->altered_length) * sizeof *mending->altered);
}

static void write_refused(const struct mending *mending, const struct lent *lent, uint64_t refusal)
{
  if ((refusal == 10 && is("10-writes-buffer")) || (refusal == 20 && is("20-writes-buffer")) ||
      (refusal == 41 && is("41-writes-buffer")))
    write_buffer(mending, lent);
  if ((refusal == 10 && is("10-writes-list")) || (refusal == 20 && is("20-writes-list")) ||
      (refusal == 41 && is("41-writes-list")))
    write_list(mending, lent);
}

static uint64_t mended(const uint8_t *book, size_t length, const struct lent *lent)
{
  static struct mending mending;
  uint64_t refusal;

  mending.book = book;
  mending.length = length;
  mend(&mending);
  refusal = refusal_of(&mending, lent);
  *lent->bytes = refusal == 0 ? mending.bytes : 0;
  *lent->lines = refusal == 0 ? mending.lines : 0;
  if (refusal != 0) {
    write_refused(&mending, lent, refusal);
    return refusal;
  }
  write_buffer(&mending, lent);
  write_list(&mending, lent);
  return 0;
}

/* Outside both lists, where the comparison has its margins. */
static void spoil_margins(const struct lent *lent)
{
  if (fault("repair-before-buffer"))
    lent->repaired[-1] = 0;
  if (fault("repair-behind-buffer"))
    lent->repaired[lent->repaired_length] = 0;
  if (fault("repair-before-list"))
    lent->altered[-1] = 0;
  if (fault("repair-behind-list"))
    lent->altered[lent->altered_length] = 0;
}

static uint64_t spoiled_refusal(const struct lent *lent, uint64_t refusal)
{
  if (fault("repair-refused-bytes"))
    *lent->bytes = 1;
  if (fault("repair-refused-lines"))
    *lent->lines = 1;
  if (fault("repair-refused-buffer") && lent->repaired_length > 0)
    lent->repaired[lent->repaired_length - 1] = 0;
  if (fault("repair-refused-list") && lent->altered_length > 0)
    lent->altered[lent->altered_length - 1] = 0;
  if ((refusal == 10 && fault("repair-refusal-10")) || (refusal == 20 && fault("repair-refusal-20")) ||
      (refusal == 41 && fault("repair-refusal-41")))
    return refusal + 1;
  return refusal;
}

static void spoil_lists(const struct lent *lent)
{
  size_t bytes = *lent->bytes, lines = *lent->lines;

  if (fault("repair-behind-bytes") && lent->repaired_length > bytes)
    lent->repaired[bytes] = 0;
  if (fault("repair-behind-numbers") && lent->altered_length > lines)
    lent->altered[lines] = 0;
  if (fault("repair-first-byte") && bytes > 0)
    lent->repaired[0] ^= 1;
  if (fault("repair-last-byte") && bytes > 0)
    lent->repaired[bytes - 1] ^= 1;
  if (fault("repair-first-number") && lines > 0)
    lent->altered[0] += 1;
  if (fault("repair-last-number") && lines > 0)
    lent->altered[lines - 1] += 1;
}

static uint64_t spoiled(const uint8_t *book, size_t length, const struct lent *lent)
{
  uint64_t refusal = exact_repair_book(book, length, lent->repaired, lent->repaired_length, lent->altered,
                                       lent->altered_length, lent->bytes, lent->lines);

  spoil_margins(lent);
  if (refusal != 0)
    return spoiled_refusal(lent, refusal);
  spoil_lists(lent);
  if (fault("repair-bytes-high"))
    *lent->bytes += 1;
  if (fault("repair-bytes-low") && *lent->bytes > 0)
    *lent->bytes -= 1;
  if (fault("repair-lines-high"))
    *lent->lines += 1;
  if (fault("repair-lines-low") && *lent->lines > 0)
    *lent->lines -= 1;
  return fault("repair-refused") ? 41 : 0;
}

uint64_t hadlephoga_repair_book(const uint8_t *book, size_t book_length,
                                uint8_t *repaired, size_t repaired_length,
                                uint64_t *altered, size_t altered_length,
                                uint64_t *bytes, uint64_t *lines)
{
  struct lent lent = {repaired, repaired_length, altered, altered_length, bytes, lines};

  return fault_among("mended-") && book_length <= ROOM / 3 * 2 ? mended(book, book_length, &lent)
                                                               : spoiled(book, book_length, &lent);
}
