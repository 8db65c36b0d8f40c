//! Sample deals, the lines of a book, a generator of random ones, and the program.

#![allow(dead_code)] // each test file uses some of these

pub mod netting;

use std::io::Write;
use std::process::{Command, Output, Stdio};

use reference::{
    add_collateral, add_guarantee, add_swap, answer_book, open, printed_reports, repair_book,
    report, Collateral, Cover, Guarantee, Outcome, Record, RepairReply, Swap, Terms, Valuation,
};

pub const EDITIONS: [u64; 3] = [1, 2, 3];
/// Editions whose lines send the sovereign's step and whose rules have a floor.
pub const WITH_SOVEREIGN: [u64; 2] = [2, 3];

/// An unrated corporate's loan of cash for 1,800 days, revalued daily.
pub const TERMS: Terms = Terms {
    amount: 1_000_000,
    class: 3,
    step: 0,
    sovereign_step: 0,
    currency: 978,
    kind: 3,
    interval: 1,
    residual: 1_800,
    lent_goods: 1,
    lent_step: 0,
    lent_life: 0,
    edition: 1,
};

/// Cash in the deal's currency and for its whole term.
pub const CASH: Collateral = Collateral {
    amount: 1_000,
    goods: 1,
    step: 0,
    life: 0,
    currency: 978,
    residual: 1_800,
    original: 1_800,
    lawful: 1,
    unrelated: 1,
    unreflected: 1,
    listed: 0,
};

/// A guarantee at weight 0 in the deal's currency and for its whole term.
pub const GUARANTEE: Guarantee = Guarantee {
    amount: 1_000,
    class: 1,
    step: 1,
    sovereign_step: 0,
    currency: 978,
    residual: 1_800,
    original: 1_800,
    lawful: 1,
    direct: 1,
    unreflected: 1,
};

/// A swap that pays like the guarantee, save after a restructuring.
pub const SWAP: Swap = Swap {
    guarantee: GUARANTEE,
    restructuring: 0,
};

/// A counterparty or provider: class, step and sovereign's step.
pub type Party = [u64; 3];

pub fn terms_of([class, step, sovereign_step]: Party, edition: u64) -> Terms {
    Terms {
        class,
        step,
        sovereign_step,
        edition,
        ..TERMS
    }
}

pub fn guarantee_of([class, step, sovereign_step]: Party) -> Guarantee {
    Guarantee {
        class,
        step,
        sovereign_step,
        ..GUARANTEE
    }
}

/// The swap that sends what the guarantee does.
pub fn swap_for(guarantee: Guarantee) -> Swap {
    Swap { guarantee, ..SWAP }
}

/// The swap with restructuring as a credit event.
pub fn met(swap: Swap) -> Swap {
    Swap {
        restructuring: 1,
        ..swap
    }
}

/// Goods: type, step, issue life and the listed entry.
pub type Goods = [u64; 4];

/// Goods in the deal's currency and for its whole term.
pub fn pledged([goods, step, life, listed]: Goods, amount: u64) -> Collateral {
    Collateral {
        amount,
        goods,
        step,
        life,
        listed,
        ..CASH
    }
}

/// Opens a deal and adds the items, none of which may be refused.
pub fn deal(terms: Terms, collateral: &[Collateral], guarantees: &[Guarantee]) -> Record {
    let mut record = open(terms).expect("accepted terms");
    for item in collateral {
        assert_eq!(add_collateral(&mut record, *item), 0);
    }
    for item in guarantees {
        assert_eq!(add_guarantee(&mut record, *item), 0);
    }
    record
}

/// Adds a guarantee or a swap.
pub fn add_cover(record: &mut Record, item: Cover) -> u64 {
    match item {
        Cover::Guarantee(item) => add_guarantee(record, item),
        Cover::Swap(item) => add_swap(record, item),
    }
}

/// Opens a deal and adds guarantees and swaps, none of which may be refused.
pub fn covered(terms: Terms, items: &[Cover]) -> Record {
    let mut record = open(terms).expect("accepted terms");
    for item in items {
        assert_eq!(add_cover(&mut record, *item), 0);
    }
    record
}

/// What a guarantee and a swap send alike.
pub fn shared(item: &mut Cover) -> &mut Guarantee {
    match item {
        Cover::Guarantee(item) => item,
        Cover::Swap(item) => &mut item.guarantee,
    }
}

/// The same deal under the edition.
pub fn under(record: &Record, edition: u64) -> Record {
    let mut changed = record.clone();
    changed.terms.edition = edition;
    changed
}

/// An item's value or ground alone.
#[derive(Clone, Copy, Debug, PartialEq, Eq)]
pub enum Bare {
    Valued(u64),
    LeftOut(u8),
}

/// The value or ground of an item of the amount, all of which its outcome must
/// account for.
pub fn bare(outcome: Outcome, amount: u64) -> Bare {
    match outcome {
        Outcome::Valued(valuation) => {
            assert_eq!(sum(valuation), amount);
            Bare::Valued(valuation.value)
        }
        Outcome::LeftOut {
            ground,
            amount: left_out,
        } => {
            assert_eq!(left_out, amount);
            Bare::LeftOut(ground)
        }
    }
}

/// Value and losses together.
pub fn sum(valuation: Valuation) -> u64 {
    let Valuation {
        value,
        haircut_loss,
        maturity_loss,
        cut_loss,
    } = valuation;
    value + haircut_loss + maturity_loss + cut_loss
}

/// The outcome of an item that loses nothing.
pub fn whole(value: u64) -> Outcome {
    Outcome::Valued(Valuation {
        value,
        ..Valuation::default()
    })
}

/// The outcome of a swap that loses by its cut alone.
pub fn cut_to(value: u64, amount: u64) -> Outcome {
    Outcome::Valued(Valuation {
        value,
        cut_loss: amount - value,
        ..Valuation::default()
    })
}

pub fn left_out(ground: u8, amount: u64) -> Outcome {
    Outcome::LeftOut { ground, amount }
}

/// Value or ground of a single item of collateral.
pub fn outcome_of_collateral(terms: Terms, item: Collateral) -> Bare {
    let report = report(&deal(terms, &[item], &[]));
    bare(report.collateral[0], item.amount)
}

/// Value or ground of a single guarantee.
pub fn outcome_of_guarantee(terms: Terms, item: Guarantee) -> Bare {
    outcome_of_cover(terms, item.into())
}

/// Value or ground of a single swap.
pub fn outcome_of_swap(terms: Terms, item: Swap) -> Bare {
    outcome_of_cover(terms, item.into())
}

fn outcome_of_cover(terms: Terms, item: Cover) -> Bare {
    let report = report(&covered(terms, &[item]));
    bare(report.guarantees[0].0, item.guarantee().amount)
}

/// The printed reports of a book as they were before L2, in form 1: without
/// losses and amounts left out.
pub fn reports_in_form_1(book: &str) -> String {
    let printed = String::from_utf8(printed_reports(book.as_bytes())).expect("plain text");
    let lines = printed.strip_prefix("REPORT\t2\n").expect("reports");
    let mut reports = "REPORT\t1\n".to_string();
    for line in lines.lines() {
        let mut fields: Vec<&str> = line.split('\t').collect();
        fields.drain(match fields.get(3) {
            Some(&"VALUE") => 5..8,
            Some(&"GROUND") => 5..6,
            _ => 0..0,
        });
        reports += &(fields.join("\t") + "\n");
    }
    reports
}

/// Holds a book's answers against the reports that were recorded for it in form
/// 1: exposures, values, grounds, portions, rests, weighted amounts, refusals.
pub fn assert_recorded(book: &str, recorded: &str) {
    let found = reports_in_form_1(book);
    for (now, before) in found.lines().zip(recorded.lines()) {
        assert_eq!(now, before);
    }
    assert_eq!(found.len(), recorded.len());
}

/// Refusals of the record by reporting and by every way of adding.
pub fn refusals(record: &Record) -> [u64; 4] {
    let mut same = record.clone();
    let added = add_collateral(&mut same, CASH);
    let guaranteed = add_guarantee(&mut same, GUARANTEE);
    let swapped = add_swap(&mut same, SWAP);
    if [added, guaranteed, swapped] == [40; 3] {
        assert_eq!(&same, record);
    }
    [report(record).refusal, added, guaranteed, swapped]
}

/// The four numbers of a book of one deal.
pub fn four_numbers(book: &str) -> [u64; 4] {
    let mut results = [0; 4];
    let reply = answer_book(book.as_bytes(), &mut results);
    assert_eq!([reply.refusal, reply.deals as u64], [0, 1], "{book:?}");
    results
}

pub fn terms_fields(t: &Terms) -> [u64; 12] {
    [
        t.amount,
        t.class,
        t.step,
        t.sovereign_step,
        t.currency,
        t.kind,
        t.interval,
        t.residual,
        t.lent_goods,
        t.lent_step,
        t.lent_life,
        t.edition,
    ]
}

pub fn collateral_fields(c: &Collateral) -> [u64; 11] {
    [
        c.amount,
        c.goods,
        c.step,
        c.life,
        c.currency,
        c.residual,
        c.original,
        c.lawful,
        c.unrelated,
        c.unreflected,
        c.listed,
    ]
}

pub fn guarantee_fields(g: &Guarantee) -> [u64; 10] {
    [
        g.amount,
        g.class,
        g.step,
        g.sovereign_step,
        g.currency,
        g.residual,
        g.original,
        g.lawful,
        g.direct,
        g.unreflected,
    ]
}

pub fn swap_fields(s: &Swap) -> [u64; 11] {
    let mut fields = [s.restructuring; 11];
    fields[..10].copy_from_slice(&guarantee_fields(&s.guarantee));
    fields
}

/// Whether the sovereign's step is accepted: 0 to 6 for class 2 and class 3, 0
/// for the others.
pub fn sovereign_fits(class: u64, sovereign_step: u64) -> bool {
    match class {
        2 | 3 => sovereign_step <= 6,
        _ => sovereign_step == 0,
    }
}

/// The papers' risk weights of a class and step by themselves. The papers print
/// the unrated column last; here it is the first, step 0.
pub fn weight(class: u64, step: u64, edition: u64) -> u64 {
    let by_step = match (class, edition) {
        (1, _) => [100, 0, 20, 50, 100, 100, 150],
        (2, 3) => [150, 20, 30, 50, 100, 100, 150],
        (2, _) => [50, 20, 50, 50, 100, 100, 150],
        (3, 3) => [100, 20, 50, 75, 100, 150, 150],
        (3, _) => [100, 20, 50, 100, 100, 150, 150],
        _ => [75; 7],
    };
    by_step[step as usize]
}

/// The weight of a class, step and sovereign's step, where editions 2 and 3 have
/// a floor for the unrated of some classes.
pub fn weight_with_floor(party: Party, floored: &[u64], edition: u64) -> u64 {
    let [class, step, sovereign_step] = party;
    let own = weight(class, step, edition);
    if WITH_SOVEREIGN.contains(&edition) && step == 0 && floored.contains(&class) {
        own.max(weight(1, sovereign_step, edition))
    } else {
        own
    }
}

/// The table of document 01: rows of steps, bands of life, columns of issuers.
const DEBT_HAIRCUTS: [[[u64; 3]; 3]; 2] = [
    [
        [5_000, 10_000, 20_000],
        [20_000, 40_000, 80_000],
        [40_000, 80_000, 160_000],
    ],
    [
        [10_000, 20_000, 40_000],
        [30_000, 60_000, 120_000],
        [60_000, 120_000, 240_000],
    ],
];

/// The column of other issuers in the tables of 2023: rows of steps, bands of
/// life.
const OTHER_ISSUERS_2023: [[u64; 5]; 2] = [
    [10_000, 30_000, 40_000, 60_000, 120_000],
    [20_000, 40_000, 60_000, 120_000, 200_000],
];

/// How many of the days the life is above.
fn bands_below(life: u64, days: &[u64]) -> usize {
    days.iter().filter(|&&last| life > last).count()
}

/// Whether ground 24 spares the goods.
pub fn is_eligible([goods, step, _, listed]: Goods) -> bool {
    match goods {
        2 => (1..=4).contains(&step),
        4 if step == 0 => listed == 1,
        3..=5 => (1..=3).contains(&step),
        _ => goods != 6,
    }
}

/// The papers' table haircut of eligible goods.
pub fn table_haircut([goods, step, life, _]: Goods, edition: u64) -> u64 {
    let row = usize::from(step != 1);
    let band = bands_below(life, &[360, 1_800]);
    match (goods, edition) {
        (1, _) => 0,
        (2, _) if step == 4 => 150_000,
        (2, _) => DEBT_HAIRCUTS[row][band][0],
        (3 | 4, 3) => OTHER_ISSUERS_2023[row][bands_below(life, &[360, 1_080, 1_800, 3_600])],
        (3 | 4, _) => DEBT_HAIRCUTS[row][band][1],
        (5, _) => DEBT_HAIRCUTS[row][band][2],
        (7 | 9, 3) => 200_000,
        (7 | 9, _) => 150_000,
        _ => not_eligible(edition),
    }
}

/// The haircut of lent goods that are not eligible, and of other equity.
fn not_eligible(edition: u64) -> u64 {
    if edition == 3 {
        300_000
    } else {
        250_000
    }
}

/// The papers' table haircut of goods lent, which have no listed entry.
pub fn lent_haircut([goods, step, life, _]: Goods, edition: u64) -> u64 {
    let lent = [goods, step, life, 0];
    if is_eligible(lent) {
        table_haircut(lent, edition)
    } else {
        not_eligible(edition)
    }
}

/// The least h with 10 × h × h at or above H × H × n, by halving.
pub fn scaled_haircut(haircut: u64, n: u64) -> u64 {
    let (mut low, mut high) = (0, 2_000_000);
    while low < high {
        let middle = (low + high) / 2;
        if 10 * middle * middle >= haircut * haircut * n {
            high = middle;
        } else {
            low = middle + 1;
        }
    }
    low
}

/// The holding period of the deal's own haircuts.
pub fn days_of(terms: &Terms) -> u64 {
    terms.interval + [5, 10, 20][terms.kind as usize - 1] - 1
}

fn currency_haircut(terms: &Terms, currency: u64, n: u64) -> u64 {
    if currency == terms.currency {
        0
    } else {
        scaled_haircut(80_000, n)
    }
}

/// The sent amount of an item that is not left out, and what is left of it after
/// the cut, after the haircuts and after the maturity step.
pub type Steps = [u64; 4];

/// Steps 1 and 2 of the way from items to the weighted amount.
fn steps([sent, cut]: [u64; 2], haircuts: u64, residual: u64, deal_term: u64) -> Steps {
    let kept = cut * (1_000_000 - haircuts.min(1_000_000)) / 1_000_000;
    if residual >= deal_term {
        return [sent, cut, kept, kept];
    }
    let longest = deal_term.min(1_800);
    let value = kept * (residual.min(longest) - 90) / (longest - 90);
    [sent, cut, kept, value]
}

pub fn steps_of_collateral(terms: &Terms, item: &Collateral) -> Steps {
    let n = days_of(terms);
    let goods = [item.goods, item.step, item.life, item.listed];
    let own = scaled_haircut(table_haircut(goods, terms.edition), n);
    let haircuts = own + currency_haircut(terms, item.currency, n);
    steps([item.amount; 2], haircuts, item.residual, terms.residual)
}

/// A swap without the condition starts from 60 percent of the smaller of its own
/// and the deal's amount.
pub fn steps_of_cover(terms: &Terms, item: &Cover) -> Steps {
    let sent = item.guarantee();
    let cut = match item {
        Cover::Swap(Swap {
            restructuring: 0, ..
        }) => sent.amount.min(terms.amount) * 60 / 100,
        _ => sent.amount,
    };
    let haircut = currency_haircut(terms, sent.currency, terms.interval + 9);
    steps([sent.amount, cut], haircut, sent.residual, terms.residual)
}

/// The numbers of a D line; the edition stands in the header.
pub fn sent_terms(terms: &Terms) -> Vec<u64> {
    let fields = terms_fields(terms);
    sent(&fields[..fields.len() - 1], terms.edition)
}

/// The numbers of a G line in a book of the edition.
pub fn sent_guarantee(item: &Guarantee, edition: u64) -> Vec<u64> {
    sent(&guarantee_fields(item), edition)
}

/// The numbers of an S line in a book of the edition.
pub fn sent_swap(item: &Swap, edition: u64) -> Vec<u64> {
    sent(&swap_fields(item), edition)
}

/// Lines of edition 1 leave the sovereign's step out.
fn sent(fields: &[u64], edition: u64) -> Vec<u64> {
    let mut sent = fields.to_vec();
    if edition == 1 {
        sent.remove(3);
    }
    sent
}

pub fn header(edition: u64) -> String {
    format!("CRM\t{edition}\n")
}

/// A line of the book with its line feed.
pub fn line(letter: char, fields: &[u64]) -> String {
    let fields: String = fields.iter().map(|field| format!("\t{field}")).collect();
    format!("{letter}{fields}\n")
}

pub fn terms_line(terms: &Terms) -> String {
    line('D', &sent_terms(terms))
}

pub fn collateral_line(item: &Collateral) -> String {
    line('C', &collateral_fields(item))
}

pub fn guarantee_line(item: &Guarantee, edition: u64) -> String {
    line('G', &sent_guarantee(item, edition))
}

pub fn swap_line(item: &Swap, edition: u64) -> String {
    line('S', &sent_swap(item, edition))
}

/// The G or S line of the item.
pub fn cover_line(item: &Cover, edition: u64) -> String {
    match item {
        Cover::Guarantee(item) => guarantee_line(item, edition),
        Cover::Swap(item) => swap_line(item, edition),
    }
}

/// A book of one deal with guarantees and swaps.
pub fn covered_book(terms: &Terms, items: &[Cover]) -> String {
    let items = items.iter().map(|item| cover_line(item, terms.edition));
    header(terms.edition) + &terms_line(terms) + &items.collect::<String>()
}

/// A book of one deal with collateral.
pub fn book_of(terms: &Terms, items: &[Collateral]) -> String {
    let items: String = items.iter().map(collateral_line).collect();
    header(terms.edition) + &terms_line(terms) + &items
}

/// The example book of document 01.
pub const EXAMPLE: &str = "\
CRM 1
D 1000000 3 0 978 3 1 1800 1 0 0
C 400000 2 1 720 978 1800 1800 1 1 1 0
G 200000 1 1 978 1800 1800 1 1 1
D 500 2 7 840 1 1 30 1 0 0
D 900 4 0 978 3 1 90 1 0 0
";

/// The paper shows tabs as spaces.
pub fn tabbed(text: &str) -> Vec<u8> {
    text.replace(' ', "\t").into_bytes()
}

/// A byte and a number that no repaired book of the tests holds.
pub const FILL: (u8, u64) = (0xEE, u64::MAX);

/// Repairs with buffers of the lengths; gives the reply, and both as they are
/// then.
pub fn repair_with(book: &[u8], room: [usize; 2]) -> (RepairReply, Vec<u8>, Vec<u64>) {
    let mut repaired = vec![FILL.0; room[0]];
    let mut altered = vec![FILL.1; room[1]];
    let reply = repair_book(book, &mut repaired, &mut altered);
    (reply, repaired, altered)
}

/// The repaired book and the altered lines. Room is left in both buffers, where
/// nothing may be written.
pub fn repaired(book: &[u8]) -> (Vec<u8>, Vec<u64>) {
    let (reply, mut text, mut lines) = repair_with(book, [book.len() + 9; 2]);
    assert_eq!(reply.refusal, 0);
    assert!(text[reply.bytes..].iter().all(|&byte| byte == FILL.0));
    assert!(lines[reply.lines..].iter().all(|&line| line == FILL.1));
    text.truncate(reply.bytes);
    lines.truncate(reply.lines);
    (text, lines)
}

/// What the program with the arguments prints for what it reads.
pub fn program(arguments: &[&str], input: &[u8]) -> Output {
    let mut program = Command::new(env!("CARGO_BIN_EXE_reference"))
        .args(arguments)
        .stdin(Stdio::piped())
        .stdout(Stdio::piped())
        .stderr(Stdio::piped())
        .spawn()
        .expect("the program starts");
    let mut stdin = program.stdin.take().expect("piped input");
    stdin.write_all(input).expect("input is read");
    drop(stdin);
    program.wait_with_output().expect("the program ends")
}

/// Marsaglia's xorshift generator.
pub struct Random(u64);

impl Random {
    pub fn new(seed: u64) -> Self {
        Random(seed.max(1))
    }

    pub fn any(&mut self) -> u64 {
        self.0 ^= self.0 << 13;
        self.0 ^= self.0 >> 7;
        self.0 ^= self.0 << 17;
        self.0.wrapping_mul(0x2545_F491_4F6C_DD1D)
    }

    /// From `low` to `high`, both included.
    pub fn within(&mut self, low: u64, high: u64) -> u64 {
        low + self.any() % (high - low + 1)
    }

    pub fn chance(&mut self, one_in: u64) -> bool {
        self.any() % one_in == 0
    }

    pub fn pick(&mut self, from: &[u64]) -> u64 {
        from[(self.any() % from.len() as u64) as usize]
    }

    pub fn amount(&mut self) -> u64 {
        match self.within(0, 3) {
            0 => self.within(0, 300),
            1 => self.within(0, 1_000_000),
            2 => self.within(0, 1_000_000_000_000),
            _ => self.pick(&[0, 1, 100, 1_000_000, 999_999_999_999, 1_000_000_000_000]),
        }
    }

    pub fn days(&mut self) -> u64 {
        match self.within(0, 3) {
            0 => self.within(1, 400),
            1 => self.within(1, 2_000),
            2 => self.within(1, 100_000),
            _ => self.pick(&[
                1, 89, 90, 91, 92, 359, 360, 361, 1_079, 1_080, 1_081, 1_799, 1_800, 1_801, 3_599,
                3_600, 3_601, 35_999, 36_000, 36_001, 99_999, 100_000,
            ]),
        }
    }

    fn currency(&mut self) -> u64 {
        self.pick(&[978, 978, 978, 840, 1, 999])
    }

    fn interval(&mut self) -> u64 {
        match self.within(0, 2) {
            0 => self.within(1, 250),
            1 => self.within(1, 20),
            _ => self.pick(&[1, 2, 249, 250]),
        }
    }

    fn met(&mut self) -> u64 {
        u64::from(!self.chance(12))
    }

    pub fn edition(&mut self) -> u64 {
        self.pick(&EDITIONS)
    }

    /// A sovereign's step that fits the class.
    fn sovereign_step(&mut self, class: u64) -> u64 {
        match class {
            2 | 3 => self.within(0, 6),
            _ => 0,
        }
    }

    /// Type, step and issue life that fit each other.
    fn goods(&mut self) -> (u64, u64, u64) {
        let goods = self.within(1, 9);
        match goods {
            1 | 7 | 8 | 9 => (goods, 0, 0),
            _ => (goods, self.within(0, 6), self.days()),
        }
    }

    /// Residual and original term that fit each other.
    fn maturity(&mut self) -> (u64, u64) {
        let (one, other) = (self.days(), self.days());
        (one.min(other), one.max(other))
    }

    pub fn terms(&mut self) -> Terms {
        let class = self.within(1, 4);
        let step = if class == 4 { 0 } else { self.within(0, 6) };
        let (lent_goods, lent_step, lent_life) = self.goods();
        Terms {
            amount: self.amount(),
            class,
            step,
            sovereign_step: self.sovereign_step(class),
            currency: self.currency(),
            kind: self.within(1, 3),
            interval: self.interval(),
            residual: self.days(),
            lent_goods,
            lent_step,
            lent_life,
            edition: self.edition(),
        }
    }

    pub fn collateral(&mut self) -> Collateral {
        let (goods, step, life) = self.goods();
        let (residual, original) = self.maturity();
        Collateral {
            amount: self.amount(),
            goods,
            step,
            life,
            currency: self.currency(),
            residual,
            original,
            lawful: self.met(),
            unrelated: self.met(),
            unreflected: self.met(),
            listed: self.within(0, 1),
        }
    }

    pub fn guarantee(&mut self) -> Guarantee {
        let (residual, original) = self.maturity();
        let class = self.within(1, 3);
        Guarantee {
            amount: self.amount(),
            class,
            step: self.within(0, 6),
            sovereign_step: self.sovereign_step(class),
            currency: self.currency(),
            residual,
            original,
            lawful: self.met(),
            direct: self.met(),
            unreflected: self.met(),
        }
    }

    pub fn swap(&mut self) -> Swap {
        Swap {
            guarantee: self.guarantee(),
            restructuring: self.within(0, 1),
        }
    }

    /// A guarantee or a swap.
    pub fn cover(&mut self) -> Cover {
        if self.chance(2) {
            self.guarantee().into()
        } else {
            self.swap().into()
        }
    }

    /// An accepted deal.
    pub fn deal(&mut self) -> Record {
        let terms = self.terms();
        let most = self.pick(&[2, 6, 16]);
        let collateral: Vec<_> = (0..self.within(0, most))
            .map(|_| self.collateral())
            .collect();
        let mut record = deal(terms, &collateral, &[]);
        for _ in 0..self.within(0, most) {
            let item = self.cover();
            assert_eq!(add_cover(&mut record, item), 0);
        }
        record
    }

    /// Sets one number to one that is likely to be refused.
    pub fn spoil(&mut self, numbers: &mut [u64]) {
        let place = (self.any() % numbers.len() as u64) as usize;
        numbers[place] = self.pick(&[
            0,
            1,
            2,
            3,
            4,
            5,
            7,
            10,
            251,
            1_000,
            36_001,
            100_001,
            1_000_000_000_001,
            9_999_999_999_999,
        ]);
    }
}
