//! `solve` and `check` of a folder, with the words that bench's scripts give them, by the crates as `rustc` compiles them.
//!
//! `solve` writes plan.csv and proof.txt, and prints a summary as JSON, without fleets and rotations. By `--search free` the free search is asked,
//! and where the judge of its tree says none, or without that word, the fixed one.

use bound_cert::{read_proof, write_proof};
use cert_check::{Checked, check_with_cost};
use dual_bound::Solved;
use entries::Entries;
use exact_ends::DualSimplex;
use fleet_model::{Settings, TableOptions, Tables};
use plan_judge::{Verdict, judge};
use plan_text::{read_plan, write_plan};
use stand_in::Global;
use std::fs;
use std::process::exit;

struct Words {
    command: String,
    folder: String,
    day_start: u16,
    period: u16,
    windows: bool,
    optional: bool,
    free: bool,
    nodes: u64,
    pivots: Option<u64>,
}

fn words() -> Words {
    let given: Vec<String> = std::env::args().skip(1).flat_map(|word| word.split('=').map(String::from).collect::<Vec<_>>()).collect();
    let folder = given.iter().position(|word| word == "--").map_or(1, |place| place + 1);
    let after = |name: &str| given.iter().position(|word| word == name).and_then(|place| given.get(place + 1));
    let number = |name: &str, other: u64| after(name).map_or(other, |word| word.parse().unwrap());
    let clock = after("--day-start").map_or("03:00", |word| word);
    Words {
        command: given[0].clone(),
        folder: given[folder].clone(),
        day_start: clock[..2].parse::<u16>().unwrap() * 60 + clock[3..].parse::<u16>().unwrap(),
        period: number("--period", 1) as u16,
        windows: given.iter().any(|word| word == "--windows"),
        optional: given.iter().any(|word| word == "--optional"),
        free: after("--search").is_some_and(|word| word == "free"),
        nodes: number("--nodes", 1_000_000),
        pivots: Some(number("--pivots", 1_000_000)),
    }
}

fn read(words: &Words, name: &str) -> Vec<u8> {
    fs::read(format!("{}/{name}", words.folder)).unwrap_or_default()
}

fn tables(words: &Words) -> Tables {
    let table = |name: &str| Entries::from_vec(stand_in::Vec(read(words, &format!("{name}.csv"))));
    let texts = sched_read::TableTexts {
        stations: table("stations"),
        fleets: table("fleets"),
        legs: table("legs"),
        costs: table("costs"),
        throughs: table("throughs"),
        windows: table("windows"),
        optional: table("optional"),
    };
    let settings = Settings { day_start: words.day_start, through_max: 90, period: words.period, least_night: 0 };
    let options = TableOptions { settings, windows: words.windows, optional: words.optional };
    match sched_read::load_files(Global, &texts, options) {
        Ok(tables) => tables,
        Err(error) => {
            println!("{error:?}");
            exit(6)
        }
    }
}

fn free(tables: &Tables, words: &Words) -> Option<Solved> {
    let found = free_search::find(Global, tables, words.nodes, words.pivots).unwrap()?;
    branch_bound::hinted_trees::solved_by_texts(Global, tables, words.nodes, found.plan.as_slice(), found.proof.as_slice()).unwrap()
}

fn solve(words: &Words) -> i32 {
    let tables = tables(words);
    let found = if words.free { free(&tables, words) } else { None };
    if words.free && found.is_none() {
        eprintln!("by the fixed search");
    }
    let solved = found.unwrap_or_else(|| branch_bound::solve::<DualSimplex>(Global, &tables, words.nodes, words.pivots).unwrap());
    let proof = write_proof(Global, &tables, matches!(solved, Solved::Planned { .. }), solved.tree()).unwrap();
    fs::write(format!("{}/proof.txt", words.folder), proof.as_slice()).unwrap();
    let (outcome, cost, bound, status) = match &solved {
        Solved::Planned { assignment, cost, bound, .. } => {
            let plan = write_plan(Global, &tables, assignment).unwrap();
            fs::write(format!("{}/plan.csv", words.folder), plan.as_slice()).unwrap();
            let (outcome, status) = if cost == bound { ("optimal", 0) } else { ("gap", 3) };
            (outcome, format!("\"{cost}\""), format!("\"{bound}\""), status)
        }
        Solved::Infeasible { .. } => ("infeasible", "null".into(), "null".into(), 4),
        Solved::Unsettled { bound, .. } => ("unsettled", "null".into(), format!("\"{bound}\""), 5),
    };
    let counts = solved.tree().counts();
    let open = format!(r#"{{"nodes":{},"pivots":{},"grew":{}}}"#, counts.open_nodes, counts.open_pivots, counts.open_grew);
    let rest = format!(r#""splits":{},"open":{open},"fleets":[],"rotations":[]"#, counts.splits);
    println!(r#"{{"outcome":"{outcome}","cost":{cost},"bound":{bound},{rest}}}"#);
    status
}

fn check(words: &Words) -> i32 {
    let tables = tables(words);
    let proof = read_proof(Global, &tables, &read(words, "proof.txt")).unwrap();
    let mut cost = None;
    if proof.planned {
        let plan = read_plan(Global, &tables, &read(words, "plan.csv")).unwrap();
        match judge(&tables, &plan) {
            Verdict::Legal { cost: legal } => cost = Some(legal),
            _ => {
                println!("the plan isn't legal");
                return 9;
            }
        }
    }
    match (check_with_cost(&tables, cost, &proof.tree), cost) {
        (Checked::Holds { bound: Some(bound) }, Some(cost)) => println!("holds: cost {cost} bound {bound}"),
        (Checked::Holds { bound: Some(bound) }, None) => println!("holds: bound {bound}"),
        (Checked::Holds { bound: None }, _) => println!("holds: infeasible"),
        _ => {
            println!("the proof doesn't hold");
            return 9;
        }
    }
    0
}

fn main() {
    let words = words();
    exit(if words.command == "check" { check(&words) } else { solve(&words) })
}
