//! Runs the reference's own tests and compares the product with it.
//!
//!     runner [--only reference|board|compile|programs] [--seed N] [--soak SECONDS]
//!
//! The last line is `N passed, M failed`; the exit status is 1 where M > 0.

mod acting;
mod board_examples;
mod by_format;
mod byte_examples;
mod census_examples;
mod compare_board;
mod compare_census;
mod compare_compile;
mod compare_factor;
mod compare_lines;
mod compare_mounted;
mod compare_programs;
mod effort;
mod entry;
mod examples;
mod expected_output;
mod extra_books;
mod factor_examples;
mod grammar;
mod last_case;
mod limits;
mod planted_boards;
mod planted_census;
mod planted_compilers;
mod planted_factors;
mod planted_lines;
mod planted_mounted;
mod planted_recipes;
mod product;
mod program;
mod random_books;
mod random_cards;
mod rng;
mod self_board;
mod self_census;
mod self_coverage;
mod self_examples;
mod self_factor;
mod self_meaning;
mod self_mounted;
mod self_planted;
mod shrink;
mod sister_examples;
mod tally;

use effort::Effort;
use program::Program;
use reference::mounted::{BEFORE_W2, BEFORE_W3};
use std::process::ExitCode;
use std::time::{Duration, Instant};
use tally::Tally;

const PARTS: [&str; 4] = ["reference", "board", "compile", "programs"];

struct Options {
    only: Option<String>,
    seed: u64,
    soak: Option<Duration>,
}

fn main() -> ExitCode {
    let arguments: Vec<String> = std::env::args().skip(1).collect();
    if let [act, part, fault] = &arguments[..] {
        if act == "--act" {
            match part.as_str() {
                "judge" => acting::judge(fault),
                _ => acting::compile(fault),
            }
            return ExitCode::SUCCESS;
        }
    }
    let options = match options(&arguments) {
        Ok(options) => options,
        Err(why) => {
            eprintln!("{why}");
            return ExitCode::from(2);
        }
    };
    println!("seed {}", options.seed);
    let mut tally = Tally::new(options.seed);
    run(&mut tally, &options, Effort::USUAL);
    if let Some(time) = options.soak {
        let since = Instant::now();
        while since.elapsed() < time {
            let before = tally.passed + tally.failed;
            tally.seed += 1;
            println!("seed {}", tally.seed);
            run(&mut tally, &options, Effort::ROUND);
            if tally.passed + tally.failed == before {
                break;
            }
        }
    }
    println!("{} passed, {} failed", tally.passed, tally.failed);
    if tally.failed > 0 {
        ExitCode::FAILURE
    } else {
        ExitCode::SUCCESS
    }
}

fn options(arguments: &[String]) -> Result<Options, String> {
    let mut options = Options { only: None, seed: 1, soak: None };
    let mut rest = arguments.iter();
    while let Some(name) = rest.next() {
        let value = rest.next().ok_or(format!("{name} needs a value"))?;
        let number = || value.parse::<u64>().map_err(|_| format!("{name}: {value} is no number"));
        match name.as_str() {
            "--only" if PARTS.contains(&value.as_str()) => options.only = Some(value.clone()),
            "--only" => return Err(format!("--only takes one of {}", PARTS.join(", "))),
            "--seed" => options.seed = number()?,
            "--soak" => options.soak = Some(Duration::from_secs(number()?)),
            _ => return Err(format!("{name} isn't known")),
        }
    }
    Ok(options)
}

fn run(tally: &mut Tally, options: &Options, effort: Effort) {
    let wanted = |part: &str| options.only.as_deref().is_none_or(|only| only == part);
    if wanted("reference") {
        if effort.fixed {
            self_examples::run(tally);
            self_planted::run(tally);
            self_coverage::run(tally);
        }
        self_meaning::run(tally, effort);
        self_board::run(tally, effort);
        self_mounted::run(tally, effort);
        self_factor::run(tally, effort);
        self_census::run(tally, effort);
    }
    if wanted("board") {
        match product::board() {
            Some(board) => {
                compare_board::run(tally, &*board, effort);
                compare_factor::run(tally, &*board, effort);
                compare_census::run(tally, &*board, effort);
                compare_mounted::run(tally, &*board, &BEFORE_W2, compare_mounted::BEFORE_W2, effort);
                compare_mounted::run(tally, &*board, &BEFORE_W3, compare_mounted::BEFORE_W3, effort);
                if effort.fixed {
                    by_format::run(tally, &*board);
                }
            }
            None => tally.skip("board", "no static library is linked"),
        }
        if let Some(product) = product::judge_lines() {
            compare_lines::run(tally, product, effort);
        }
    }
    if wanted("compile") {
        match product::compiler() {
            Some(compiler) => compare_compile::run(tally, &*compiler, effort),
            None => tally.skip("compile", "no static library is linked"),
        }
    }
    if wanted("programs") {
        programs(tally, effort);
    }
}

fn programs(tally: &mut Tally, effort: Effort) {
    let judge = Program::named_by("PIER_JUDGE");
    let compiler = Program::named_by("PIER_COMPILE");
    match &judge {
        Some(judge) => compare_programs::judge(tally, judge, effort),
        None => tally.skip("programs: judging", "PIER_JUDGE isn't set"),
    }
    match &compiler {
        Some(compiler) => compare_programs::compiler(tally, compiler, effort),
        None => tally.skip("programs: compiling", "PIER_COMPILE isn't set"),
    }
    if let (Some(compiler), Some(judge)) = (&compiler, &judge) {
        compare_programs::both(tally, compiler, judge, effort);
    }
}
