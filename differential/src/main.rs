//! Compares the proved library with the second implementation on random books,
//! records, mailed texts and netting sets and on the conformance books, and measures both.

mod alike;
mod altered_lines;
mod answers;
mod arguments;
mod asked;
mod bands;
mod bench;
mod book_splits;
mod books;
mod cells;
mod changes;
mod compare;
mod conformance;
mod cuts;
mod damage;
mod days;
mod deal;
mod debt;
mod disagreeing;
mod draft;
mod due_tests;
mod editions;
mod entries;
mod entry_books;
mod entry_laws;
mod entry_orders;
mod entry_records;
mod first_lines;
mod floors;
mod full_list;
mod furnished;
mod haircuts;
mod heading;
mod held;
mod items;
mod laid;
mod left_out;
mod lent;
mod life_edges;
mod line;
mod losing;
mod loss_mistakes;
mod losses;
mod mail;
mod mail_laws;
mod mail_limits;
mod mail_runs;
mod mailed;
mod malformed;
mod mangled;
mod measured;
mod mistaken_costs;
mod mistaken_nets;
mod mistaken_weights;
mod net_bounds;
mod net_figures;
mod net_shapes;
mod nets;
mod netting;
mod netting_mistakes;
mod nettings;
mod operations;
mod order;
mod other_splits;
mod outside;
mod parties;
mod periods;
mod proved_prints;
mod random;
mod received;
mod record_splits;
mod records;
mod repair_bench;
mod repairs;
mod report_places;
mod restructuring;
mod revalued;
mod reweighed;
mod run;
mod set;
mod set_betterments;
mod set_bounds;
mod set_entries;
mod set_figures;
mod set_goods;
mod set_laws;
mod set_nets;
mod set_orders;
mod set_sizes;
mod set_sums;
mod sets;
mod shapes;
mod sides;
mod sovereign;
mod split_items;
mod splits;
mod steps;
mod stored;
mod sums;
mod swapped;
mod table;
mod table_haircuts;
mod tally;
mod unrated;
mod values;
mod weighing;
mod wrong;
mod wrong_sets;

use std::process::ExitCode;

use arguments::{Command, USAGE};

fn main() -> ExitCode {
    let arguments: Vec<String> = std::env::args().skip(1).collect();
    let Some(command) = arguments::command(&arguments) else {
        eprintln!("{USAGE}");
        return ExitCode::from(2);
    };
    let fine = match command {
        Command::Run(options) => run::run(&options),
        Command::OneBook { seed, book } => run::one_book(seed, book),
        Command::Sets(options) => run::sets(&options),
        Command::Orders(options) => run::orders(&options),
        Command::Conformance(folder) => told(conformance::run(&folder)),
        Command::Bench { rounds, editions } => told(bench::run(rounds, &editions)),
        Command::Books { folder, editions } => told(shapes::write(&folder, &editions)),
        Command::Once { side, book, calls } => told(measured::once(side, &book, calls)),
    };
    match fine {
        true => ExitCode::SUCCESS,
        false => ExitCode::FAILURE,
    }
}

/// Says what went wrong, if anything did.
fn told(result: Result<(), String>) -> bool {
    if let Err(words) = &result {
        eprintln!("{words}");
    }
    result.is_ok()
}
