//! Netting sets as lines of numbers, and what the program prints for them.

mod common;

use common::netting::*;
use common::*;
use reference::{net_set, printed_netting, NettingReply, NettingSet};

/// Tabs shown as spaces. Cash lent for a bond and gold, a repo of shares, a set
/// without positions, an interval of 61, a thirteenth number missing.
const SETS: &str = "\
2 3 0 1 978 6 1 1000 0 1 0 0 978 2 600 7 2 1 720 978 2 200 8 9 0 0 840
3 4 0 0 978 1 1 1000 5 8 0 0 978 2 900 0 1 0 0 978
3 1 1 0 999 60
2 2 0 6 978 61
2 2 0 6 978 60 1 1 0 1 0 0
";

/// 200 + 600 × 0.02 + 200 × (0.15 + 0.08) = 258 at weight 100. 100 + 1,000 ×
/// 0.212133 = 312.133 at 75 percent, 234.75.
const REPLIES: &str = "\
0 258 258
0 313 235
0 0 0
5 0 0
11 0 0
";

/// What is printed for lines whose tabs are shown as spaces, shown that way too.
fn printed_for(lines: &str) -> String {
    let printed = String::from_utf8(printed_netting(&tabbed(lines))).expect("plain text");
    printed.replace('\t', " ")
}

#[test]
fn a_line_for_each_set() {
    assert_eq!(printed_for(SETS), REPLIES);
    assert_eq!(printed_for(""), "");
    // The last line feed may be missing.
    assert_eq!(printed_for("3 1 1 0 999 60"), "0 0 0\n");
    assert_eq!(
        printed_for("3 1 1 0 999 60\n3 1 1 0 999 0"),
        "0 0 0\n5 0 0\n"
    );
}

#[test]
fn lines_that_cannot_be_read() {
    let good = "2 3 0 1 978 6 1 1000 0 1 0 0 978";
    assert_eq!(printed_for(good), "0 1000 1000\n");
    for bad in [
        "\n",
        "2\n",
        "2 3 0 1 978\n",
        "2 3 0 1 978 6 \n",
        " 2 3 0 1 978 6\n",
        "2 3 0 1  978 6\n",
        "2 3 0 1 978 6 1\n",
        "2 3 0 1 978 6 1 1000 0 1 0 0\n",
        "2 3 0 1 978 6 1 1000 0 1 0 0 978 1\n",
        "2 3 0 1 978 6\r\n",
        "2 3 0 1 978 +6\n",
        "2 3 0 1 978 -6\n",
        "2 3 0 1 978 6.0\n",
        "2 3 0 1 978 x\n",
        "2 3 0 1 978 18446744073709551616\n",
        "2 3 0 1 978 6 | 1 1000 0 1 0 0 978\n",
    ] {
        assert_eq!(printed_for(bad), "11 0 0\n", "{bad:?}");
        // Other lines are answered as before.
        let among = format!("{good}\n{bad}{good}\n");
        let expected = "0 1000 1000\n11 0 0\n0 1000 1000\n";
        assert_eq!(printed_for(&among), expected, "{bad:?}");
    }
    // Spaces part nothing, and other bytes are no digits.
    for bad in [
        &b"2 3 0 1 978 6\n"[..],
        b"\xff\n",
        b"2\t3\t0\t1\t978\t\xb2\n",
    ] {
        assert_eq!(printed_netting(bad), b"11\t0\t0\n", "{bad:?}");
    }
}

#[test]
fn numbers_go_up_to_64_bits() {
    let largest = u64::MAX;
    assert_eq!(printed_for(&format!("2 3 0 1 978 {largest}")), "5 0 0\n");
    let amount = format!("2 3 0 1 978 6 1 {largest} 0 1 0 0 978");
    assert_eq!(printed_for(&amount), "1 0 0\n");
    let all = vec![largest.to_string(); 13].join(" ");
    assert_eq!(printed_for(&all), "2 0 0\n");
}

/// The set as a line.
fn line_of(set: &NettingSet) -> String {
    let numbers: Vec<String> = set_numbers(set).iter().map(u64::to_string).collect();
    numbers.join("\t") + "\n"
}

#[test]
fn printed_replies_are_those_of_the_library() {
    let mut random = Random::new(71);
    let (mut lines, mut replies) = (String::new(), String::new());
    for round in 0..2_000 {
        let mut set = random.netting_set();
        if round % 4 == 0 {
            let mut numbers = set_numbers(&set);
            random.spoil(&mut numbers);
            set = set_from(&numbers);
        }
        let NettingReply {
            refusal,
            exposure,
            weighted,
        } = net_set(&set);
        lines += &line_of(&set);
        replies += &format!("{refusal}\t{exposure}\t{weighted}\n");
    }
    assert_eq!(printed_netting(lines.as_bytes()), replies.as_bytes());
}

#[test]
fn the_program_answers_sets() {
    let printed = program(&["netting"], &tabbed(SETS));
    assert!(printed.status.success());
    assert_eq!((printed.stdout, printed.stderr), (tabbed(REPLIES), vec![]));
    let printed = program(&["netting"], b"");
    assert!(printed.status.success());
    assert_eq!((printed.stdout, printed.stderr), (vec![], vec![]));
    for arguments in [&["netting", "report"][..], &["netting", ""], &["sets"]] {
        let printed = program(arguments, b"");
        assert_eq!(printed.status.code(), Some(2));
        assert!(printed.stderr.starts_with(b"usage: "));
    }
}
