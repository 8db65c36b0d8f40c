//! The sample book of document 01, and plain deals and items that a test
//! changes in a field or two.

use hadlephoga::{Collateral, Ground, Guarantee, HeldGuarantee, Outcome, Terms, Valuation};

pub const SAMPLE: &[u8] = b"CRM\t1\n\
    D\t1000000\t3\t0\t978\t3\t1\t1800\t1\t0\t0\n\
    C\t400000\t2\t1\t720\t978\t1800\t1800\t1\t1\t1\t0\n\
    G\t200000\t1\t1\t978\t1800\t1800\t1\t1\t1\n\
    D\t500\t2\t7\t840\t1\t1\t30\t1\t0\t0\n\
    D\t900\t4\t0\t978\t3\t1\t90\t1\t0\t0\n";

pub const SAMPLE_RESULTS: [u64; 12] = [1, 0, 611314, 411314, 2, 3, 5, 0, 3, 0, 900, 675];

/// The sample as it came by mail, with these for each tab and each line feed.
pub fn mailed(tab: &str, feed: &str) -> Vec<u8> {
    let sample = std::str::from_utf8(SAMPLE).expect("a book in ASCII");
    let mailed = sample.replace('\t', tab).replace('\n', feed);
    mailed.into_bytes()
}

/// A loan of 1,000,000 for 1,800 days to an unrated corporate, revalued daily.
pub const LOAN: Terms = Terms {
    amount: 1_000_000,
    class: 3,
    step: 0,
    sovereign_step: 0,
    currency: 978,
    kind: 3,
    interval: 1,
    residual_term: 1800,
    lent_type: 1,
    lent_step: 0,
    lent_issue_life: 0,
    edition: 1,
};

/// Cash of 1,000,000 for the loan's whole term.
pub const CASH: Collateral = Collateral {
    amount: 1_000_000,
    goods: 1,
    step: 0,
    issue_life: 0,
    currency: 978,
    residual_term: 1800,
    original_term: 1800,
    lawful: 1,
    unrelated: 1,
    unreflected: 1,
    listed: 0,
};

/// A guarantee of 200,000 by a sovereign of step 1 for the loan's whole term.
pub const GUARANTEE: Guarantee = Guarantee {
    amount: 200_000,
    class: 1,
    step: 1,
    sovereign_step: 0,
    currency: 978,
    residual_term: 1800,
    original_term: 1800,
    lawful: 1,
    direct: 1,
    unreflected: 1,
};

/// An item that is worth this after losses by haircut, maturity and cut.
pub fn valued(value: u64, [haircut_loss, maturity_loss, cut_loss]: [u64; 3]) -> Outcome {
    Outcome::Valued(Valuation {
        value,
        haircut_loss,
        maturity_loss,
        cut_loss,
    })
}

/// An item that is worth its amount.
pub fn whole(amount: u64) -> Outcome {
    valued(amount, [0; 3])
}

/// An item of this amount that is left out on this ground.
pub fn left_out(ground: u64, amount: u64) -> Outcome {
    let ground = Ground(ground);
    Outcome::LeftOut { ground, amount }
}

/// These items as a record holds them.
pub fn held<Item: Copy + Into<HeldGuarantee>>(items: &[Item]) -> Vec<HeldGuarantee> {
    items.iter().map(|item| (*item).into()).collect()
}
