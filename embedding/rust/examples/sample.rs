//! Answers the sample book of document 01, repairs it after it came by mail, builds and
//! reports a deal of its own, and reports one without and with the floor of edition 2,
//! one by the tables of 2019 and of 2023, one with a swap of each kind, and one whose
//! items lose by every step; and nets a set of repo-style transactions.

use hadlephoga::{
    add_collateral, add_guarantee, add_swap, answer_book, net_set, open, repair_book, report,
    Collateral, Guarantee, NettingSet, Outcome, Position, Refusal, Report, SetTerms, Swap, Terms,
    Valuation, ANSWER_LENGTH, LENT, RECEIVED,
};

const SAMPLE: &[u8] = b"CRM\t1\n\
    D\t1000000\t3\t0\t978\t3\t1\t1800\t1\t0\t0\n\
    C\t400000\t2\t1\t720\t978\t1800\t1800\t1\t1\t1\t0\n\
    G\t200000\t1\t1\t978\t1800\t1800\t1\t1\t1\n\
    D\t500\t2\t7\t840\t1\t1\t30\t1\t0\t0\n\
    D\t900\t4\t0\t978\t3\t1\t90\t1\t0\t0\n";

/// The sample as it came by mail, its tabs spaces up to every fourth column and its
/// lines with carriage returns. Its third and fifth line were spared.
const MAILED: &[u8] = b"CRM 1\r\n\
    D   1000000 3   0   978 3   1   1800    1   0   0\r\n\
    C\t400000\t2\t1\t720\t978\t1800\t1800\t1\t1\t1\t0\n\
    G   200000  1   1   978 1800    1800    1   1   1\r\n\
    D\t500\t2\t7\t840\t1\t1\t30\t1\t0\t0\n\
    D   900 4   0   978 3   1   90  1   0   0\r\r\n";

fn main() -> Result<(), Refusal> {
    answer(SAMPLE)?;
    repair_mailed()?;
    report_loan()?;
    for edition in [1, 2] {
        let report = floored(edition)?;
        let weighted = report.weighted_amount;
        match report.guarantees[0].outcome {
            Outcome::Valued(Valuation { value, .. }) => {
                println!("edition {edition}: {weighted}, {value} guaranteed")
            }
            Outcome::LeftOut { ground, .. } => println!("edition {edition}: {weighted}, {ground}"),
        }
    }
    for edition in [2, 3] {
        let report = by_tables(edition)?;
        let [debt, gold] = [0, 1].map(|place| report.collateral[place].value());
        println!(
            "edition {edition}: bank debt {debt}, gold {gold}, E* {}, rest {}, weighted amount {}",
            report.exposure, report.rest, report.weighted_amount
        );
    }
    let report = swapped()?;
    let [without, guarantee, with] = [0, 1, 2].map(|place| report.guarantees[place].portion);
    println!(
        "swaps {without} and {with}, guarantee {guarantee}, rest {}, weighted amount {}",
        report.rest, report.weighted_amount
    );
    report_losses()?;
    show_netting()
}

/// Where an item's amount went.
fn told(outcome: Outcome) -> String {
    match outcome {
        Outcome::Valued(valuation) => format!(
            "{} of {}, lost {} by haircut, {} by maturity, {} by cut",
            valuation.value,
            valuation.amount(),
            valuation.haircut_loss,
            valuation.maturity_loss,
            valuation.cut_loss
        ),
        Outcome::LeftOut { ground, amount } => format!("{amount} left out, {ground}"),
    }
}

fn answer(book: &[u8]) -> Result<(), Refusal> {
    let mut results = [0; ANSWER_LENGTH * 8];
    let deals = answer_book(book, &mut results)?;
    for answer in results.chunks_exact(ANSWER_LENGTH).take(deals) {
        match answer[1] {
            0 => println!(
                "deal {}: E* {}, weighted amount {}",
                answer[0], answer[2], answer[3]
            ),
            refusal => println!(
                "deal {}: {} (line {})",
                answer[0],
                Refusal(refusal),
                answer[2]
            ),
        }
    }
    Ok(())
}

fn repair_mailed() -> Result<(), Refusal> {
    if let Err(refusal) = answer(MAILED) {
        println!("mailed, {refusal}");
    }
    let repaired = repair_book(MAILED)?;
    let sample = if repaired.book == SAMPLE {
        "is"
    } else {
        "is not"
    };
    println!(
        "repaired, it {sample} the sample, altered lines {:?}",
        repaired.altered
    );
    answer(&repaired.book)
}

/// To an unrated corporate, for 1,800 days.
fn loan() -> Terms {
    Terms {
        amount: 1_000_000,
        class: 3,
        currency: 978,
        kind: 3,
        interval: 1,
        residual_term: 1800,
        lent_type: 1,
        edition: 1,
        ..Terms::default()
    }
}

/// Of a sovereign at step 1, with a life of two years.
fn bond() -> Collateral {
    Collateral {
        amount: 400_000,
        goods: 2,
        step: 1,
        issue_life: 720,
        currency: 978,
        residual_term: 1800,
        original_term: 1800,
        lawful: 1,
        unrelated: 1,
        unreflected: 1,
        listed: 0,
    }
}

fn report_loan() -> Result<(), Refusal> {
    let bond = bond();
    let short = Collateral {
        residual_term: 90,
        ..bond
    };
    let mut deal = open(&loan())?;
    add_collateral(&mut deal, &bond)?;
    add_collateral(&mut deal, &short)?;
    // A refusal names the test and leaves the deal as it was.
    let unknown = Collateral { goods: 10, ..bond };
    if let Err(refusal) = add_collateral(&mut deal, &unknown) {
        println!("not added, {refusal}");
    }
    let report = report(&deal)?;
    println!("exposure after collateral: {}", report.exposure);
    for outcome in &report.collateral[..2] {
        println!("collateral: {}", told(*outcome));
    }
    println!("weighted amount: {}", report.weighted_amount);
    Ok(())
}

/// A loan to an unrated bank whose sovereign is at step 6, with the guarantee of
/// another, whose sovereign is at step 3. By themselves both weigh 50; under
/// edition 2 the counterparty weighs its sovereign's 150.
fn floored(edition: u64) -> Result<Report, Refusal> {
    let to_bank = Terms {
        class: 2,
        sovereign_step: 6,
        edition,
        ..loan()
    };
    let of_bank = Guarantee {
        sovereign_step: 3,
        ..of_bank(400_000)
    };
    let mut deal = open(&to_bank)?;
    add_guarantee(&mut deal, &of_bank)?;
    report(&deal)
}

/// Of an unrated bank, for 1,800 days.
fn of_bank(amount: u64) -> Guarantee {
    Guarantee {
        amount,
        class: 2,
        currency: 978,
        residual_term: 1800,
        original_term: 1800,
        lawful: 1,
        direct: 1,
        unreflected: 1,
        ..Guarantee::default()
    }
}

/// A loan to a corporate at step 3, against bank debt at step 2 and gold, with the
/// guarantee of a bank at step 2. Its kind and interval make a holding period of
/// ten days, for which the tables stand.
///
/// Edition 2: 400,000 less 6% is 376,000, 100,000 less 15% is 85,000; of E*
/// 539,000 the bank covers 200,000 at 50%, and 339,000 weigh 100%: 439,000.
/// Edition 3: 400,000 less 4% is 384,000, 100,000 less 20% is 80,000; of E*
/// 536,000 the bank covers 200,000 at 30%, and 336,000 weigh 75%: 312,000.
fn by_tables(edition: u64) -> Result<Report, Refusal> {
    let to_corporate = Terms {
        step: 3,
        kind: 2,
        edition,
        ..loan()
    };
    let bank_debt = Collateral {
        goods: 4,
        step: 2,
        ..bond()
    };
    let gold = Collateral {
        amount: 100_000,
        goods: 9,
        step: 0,
        issue_life: 0,
        ..bond()
    };
    let of_bank = Guarantee {
        step: 2,
        ..of_bank(200_000)
    };
    let mut deal = open(&to_corporate)?;
    add_collateral(&mut deal, &bank_debt)?;
    add_collateral(&mut deal, &gold)?;
    add_guarantee(&mut deal, &of_bank)?;
    report(&deal)
}

/// Of a bank at step 1, without restructuring as a credit event.
fn swap() -> Swap {
    Swap {
        amount: 500_000,
        class: 2,
        step: 1,
        currency: 978,
        residual_term: 1800,
        original_term: 1800,
        lawful: 1,
        direct: 1,
        unreflected: 1,
        ..Swap::default()
    }
}

/// The loan with two swaps of 500,000 of banks at step 1 and a sovereign's guarantee
/// of 200,000 between them. For the first swap restructuring is no credit event: 60%
/// is 300,000. The second is in dollars, so that 8% go off: 460,000. The guarantee
/// weighs 0%, the swaps 20%, the rest of 40,000 weighs 100%: 192,000.
fn swapped() -> Result<Report, Refusal> {
    let without = swap();
    let with = Swap {
        currency: 840,
        restructuring: 1,
        ..without
    };
    let of_sovereign = Guarantee {
        class: 1,
        step: 1,
        ..of_bank(200_000)
    };
    let mut deal = open(&loan())?;
    add_swap(&mut deal, &without)?;
    add_guarantee(&mut deal, &of_sovereign)?;
    add_swap(&mut deal, &with)?;
    report(&deal)
}

/// A loan of 4,000,000 with a million of cash for 900 of its 1,800 days, one in dollars
/// and one with both, and a swap of 5,000,000 with both.
///
/// The days leave 810 / 1,710. For dollars 8% go off, of collateral 113,138 millionths,
/// its holding period being twenty days. Cash: 473,684; 886,862; of these 420,092. Swap:
/// 60% of the loan are 2,400,000; less 8% 2,208,000; of these 1,045,894.
fn report_losses() -> Result<(), Refusal> {
    let cash = |currency, residual_term| Collateral {
        amount: 1_000_000,
        goods: 1,
        step: 0,
        issue_life: 0,
        currency,
        residual_term,
        ..bond()
    };
    let above = Swap {
        amount: 5_000_000,
        currency: 840,
        residual_term: 900,
        ..swap()
    };
    let mut deal = open(&Terms {
        amount: 4_000_000,
        ..loan()
    })?;
    for (currency, residual_term) in [(978, 900), (840, 1800), (840, 900)] {
        add_collateral(&mut deal, &cash(currency, residual_term))?;
    }
    add_swap(&mut deal, &above)?;
    let report = report(&deal)?;
    for outcome in &report.collateral[..3] {
        println!("cash: {}", told(*outcome));
    }
    println!("swap: {}", told(report.guarantees[0].outcome));
    Ok(())
}

/// A netting set with a bank at step 2, settled in euros. A bond was lent and part of it
/// came back; equity in dollars was lent, a corporate's bond in dollars and cash of both
/// currencies were received.
///
/// Lent less received, 1,500,000 less 1,450,000, is 50,000. The bond's net is 600,000, the
/// equity's 500,000, that of the corporate's bond 300,000 received, the dollars' 150,000.
/// An interval of 6 makes n 10, for which the tables stand; with daily revaluation n is 5.
///
/// Table 2: 2% of the bond 12,000, 15% of the equity 75,000, 6% of the corporate's 18,000,
/// 8% of the dollars 12,000: E* 167,000, at 50% 83,500.
/// Table 3: 12,000, 20% of the equity 100,000, 4% of the corporate's 12,000, 12,000: E*
/// 186,000, at 30% 55,800.
/// Table 2, daily: 1.4143%, 10.6067%, 4.2427% and 5.6569% give 8,485.80, 53,033.50,
/// 12,728.10 and 8,485.35: E* 132,732.75, up to 132,733, at 50% 66,366.5, up to 66,367.
fn netting_set() -> NettingSet {
    let bond = position(1_000_000, 101, [2, 1, 720]);
    let in_dollars = |position| Position {
        currency: 840,
        ..position
    };
    let received = |position| Position {
        side: RECEIVED,
        ..position
    };
    NettingSet {
        terms: SetTerms {
            table: 2,
            class: 2,
            step: 2,
            settlement_currency: 978,
            interval: 6,
            ..SetTerms::default()
        },
        positions: vec![
            bond,
            received(position(700_000, 0, [1, 0, 0])),
            received(Position {
                amount: 400_000,
                ..bond
            }),
            in_dollars(position(500_000, 202, [7, 0, 0])),
            received(in_dollars(position(300_000, 303, [3, 2, 720]))),
            received(in_dollars(position(50_000, 0, [1, 0, 0]))),
        ],
    }
}

/// Lent, in euros.
fn position(amount: u64, security: u64, [goods, step, issue_life]: [u64; 3]) -> Position {
    Position {
        side: LENT,
        amount,
        security,
        goods,
        step,
        issue_life,
        currency: 978,
    }
}

fn show_netting() -> Result<(), Refusal> {
    for (table, interval) in [(2, 6), (3, 6), (2, 1)] {
        let mut set = netting_set();
        (set.terms.table, set.terms.interval) = (table, interval);
        let netted = net_set(&set)?;
        println!(
            "netting set, table {table}, interval {interval}: E* {}, weighted amount {}",
            netted.exposure, netted.rwa
        );
    }
    // An entry for the bond that says another step than the first one, and received
    // bank debt that is unrated.
    let (mut at_odds, mut unrated) = (netting_set(), netting_set());
    at_odds.positions[2].step = 2;
    (unrated.positions[4].goods, unrated.positions[4].step) = (4, 0);
    for set in [at_odds, unrated] {
        if let Err(refusal) = net_set(&set) {
            println!("not netted, {refusal}");
        }
    }
    Ok(())
}
