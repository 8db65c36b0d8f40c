//! What the command line asks for.

use std::path::PathBuf;

use crate::heading::EDITIONS;
use crate::sides::{Side, SIDES};

pub const USAGE: &str = "\
usage: differential [--seed S] [--deals N] [--seconds T] [--require-all]
       differential --seed S --book K
       differential sets [--seed S] [--sets N] [--require-all]
       differential orders [--seed S] [--deals N] [--require-all]
       differential conformance DIR
       differential bench [--rounds R] [--headed 1|2|3]
       differential books DIR [--headed 1|2|3]
       differential once proved|reference FILE N";

const SEED: u64 = 1;
const DEALS: u64 = 200_000;
const SETS: u64 = 100_000;
const ROUNDS: u64 = 31;

#[derive(Debug, PartialEq, Eq)]
pub enum Command {
    Run(Run),
    OneBook {
        seed: u64,
        book: u64,
    },
    Sets(Sets),
    Orders(Orders),
    Conformance(PathBuf),
    Bench {
        rounds: u64,
        editions: Vec<u64>,
    },
    Books {
        folder: PathBuf,
        editions: Vec<u64>,
    },
    Once {
        side: Side,
        book: PathBuf,
        calls: u64,
    },
}

#[derive(Debug, PartialEq, Eq)]
pub struct Run {
    pub seed: u64,
    /// None where the seconds alone decide.
    pub deals: Option<u64>,
    pub seconds: Option<u64>,
    pub require_all: bool,
}

#[derive(Debug, PartialEq, Eq)]
pub struct Sets {
    pub seed: u64,
    pub sets: u64,
    pub require_all: bool,
}

#[derive(Debug, PartialEq, Eq)]
pub struct Orders {
    pub seed: u64,
    pub deals: u64,
    pub require_all: bool,
}

/// None where the arguments are not understood.
pub fn command(arguments: &[String]) -> Option<Command> {
    let arguments: Vec<&str> = arguments.iter().map(String::as_str).collect();
    match arguments[..] {
        ["conformance", folder] => Some(Command::Conformance(folder.into())),
        ["books", folder] => books(folder, EDITIONS.to_vec()),
        ["books", folder, "--headed", edition] => books(folder, headed(edition)?),
        ["bench", ref options @ ..] => bench(options),
        ["sets", ref options @ ..] => sets(options),
        ["orders", ref options @ ..] => orders(options),
        ["once", side, book, calls] => Some(Command::Once {
            side: SIDES.into_iter().find(|known| known.name() == side)?,
            book: book.into(),
            calls: calls.parse().ok()?,
        }),
        _ => run(&arguments),
    }
}

/// The one header under which the books are measured.
fn headed(edition: &str) -> Option<Vec<u64>> {
    let edition = edition.parse().ok()?;
    EDITIONS.contains(&edition).then(|| vec![edition])
}

fn books(folder: &str, editions: Vec<u64>) -> Option<Command> {
    let folder = folder.into();
    Some(Command::Books { folder, editions })
}

fn bench(options: &[&str]) -> Option<Command> {
    let (mut rounds, mut editions) = (ROUNDS, EDITIONS.to_vec());
    for option in options.chunks(2) {
        match *option {
            ["--rounds", of] => rounds = of.parse().ok().filter(|rounds| *rounds > 0)?,
            ["--headed", edition] => editions = headed(edition)?,
            _ => return None,
        }
    }
    Some(Command::Bench { rounds, editions })
}

fn sets(options: &[&str]) -> Option<Command> {
    let (seed, sets, require_all) = counted(options, "--sets", SETS)?;
    Some(Command::Sets(Sets {
        seed,
        sets,
        require_all,
    }))
}

fn orders(options: &[&str]) -> Option<Command> {
    let (seed, deals, require_all) = counted(options, "--deals", DEALS)?;
    Some(Command::Orders(Orders {
        seed,
        deals,
        require_all,
    }))
}

/// The seed, how many of what this option counts, and whether all cases are demanded.
fn counted(options: &[&str], counts: &str, all: u64) -> Option<(u64, u64, bool)> {
    let (mut seed, mut count, mut require_all) = (SEED, all, false);
    let mut rest = options.iter();
    while let Some(option) = rest.next() {
        match *option {
            "--require-all" => require_all = true,
            "--seed" => seed = rest.next()?.parse().ok()?,
            option if option == counts => count = rest.next()?.parse().ok()?,
            _ => return None,
        }
    }
    Some((seed, count, require_all))
}

fn run(arguments: &[&str]) -> Option<Command> {
    let (mut seed, mut deals, mut seconds, mut book) = (None, None, None, None);
    let mut require_all = false;
    let mut rest = arguments.iter();
    while let Some(option) = rest.next() {
        let place = match *option {
            "--require-all" => {
                require_all = true;
                continue;
            }
            "--seed" => &mut seed,
            "--deals" => &mut deals,
            "--seconds" => &mut seconds,
            "--book" => &mut book,
            _ => return None,
        };
        *place = Some(rest.next()?.parse::<u64>().ok()?);
    }
    let seed = seed.unwrap_or(SEED);
    if let Some(book) = book {
        return Some(Command::OneBook { seed, book });
    }
    let deals = deals.or(match seconds {
        None => Some(DEALS),
        Some(_) => None,
    });
    Some(Command::Run(Run {
        seed,
        deals,
        seconds,
        require_all,
    }))
}

#[cfg(test)]
mod tests {
    use super::*;

    fn parsed(line: &str) -> Option<Command> {
        let words: Vec<String> = line.split_whitespace().map(String::from).collect();
        command(&words)
    }

    #[test]
    fn runs() {
        let run = |seed, deals, seconds, require_all| {
            Some(Command::Run(Run {
                seed,
                deals,
                seconds,
                require_all,
            }))
        };
        assert_eq!(parsed(""), run(SEED, Some(DEALS), None, false));
        assert_eq!(
            parsed("--seed 7 --require-all"),
            run(7, Some(DEALS), None, true)
        );
        assert_eq!(parsed("--seconds 5"), run(SEED, None, Some(5), false));
        assert_eq!(
            parsed("--seconds 5 --deals 9"),
            run(SEED, Some(9), Some(5), false)
        );
    }

    #[test]
    fn others() {
        assert_eq!(
            parsed("--seed 7 --book 3"),
            Some(Command::OneBook { seed: 7, book: 3 })
        );
        let sets = |seed, sets, require_all| {
            Some(Command::Sets(Sets {
                seed,
                sets,
                require_all,
            }))
        };
        assert_eq!(parsed("sets"), sets(SEED, SETS, false));
        assert_eq!(
            parsed("sets --sets 9 --require-all --seed 7"),
            sets(7, 9, true)
        );
        let orders = |seed, deals, require_all| {
            Some(Command::Orders(Orders {
                seed,
                deals,
                require_all,
            }))
        };
        assert_eq!(parsed("orders"), orders(SEED, DEALS, false));
        assert_eq!(
            parsed("orders --require-all --deals 9 --seed 7"),
            orders(7, 9, true)
        );
        for wrong in [
            "--seed",
            "--seed x",
            "once both a 1",
            "conformance",
            "sets --deals 9",
            "orders --sets 9",
        ] {
            assert_eq!(parsed(wrong), None);
        }
    }

    #[test]
    fn measuring() {
        let bench = |rounds, editions: &[u64]| {
            let editions = editions.to_vec();
            Some(Command::Bench { rounds, editions })
        };
        assert_eq!(parsed("bench"), bench(ROUNDS, &[1, 2, 3]));
        assert_eq!(parsed("bench --rounds 5"), bench(5, &[1, 2, 3]));
        assert_eq!(parsed("bench --headed 3 --rounds 5"), bench(5, &[3]));
        let books = |editions: &[u64]| {
            let (folder, editions) = ("a".into(), editions.to_vec());
            Some(Command::Books { folder, editions })
        };
        assert_eq!(parsed("books a"), books(&[1, 2, 3]));
        assert_eq!(parsed("books a --headed 2"), books(&[2]));
        for wrong in [
            "bench --rounds 0",
            "bench --rounds",
            "bench --headed 4",
            "books a --headed x",
            "books",
        ] {
            assert_eq!(parsed(wrong), None);
        }
    }
}
