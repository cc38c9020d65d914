//! What the definitions say of a hall file.
//!
//!     oracle read FILE                   HALL n rows, or REFUSED number row
//!     oracle check FILE ROWS             JOINS, MISSES with the shore, or REFUSED
//!     oracle tight FILE ROWS JUNCTION    AROUND with the set, MISSES, or REFUSED
//!     oracle route FILE ROWS FROM TO     ROUTE with the rows, below 0 if run backward, MISSES, or REFUSED
//!     oracle figure FILE ROWS FIGURE     OVER or WITHIN, and how many rows are read, or REFUSED
//!     oracle totals FILE                 ROWS n, and a line for each: its number and the least totals with it and without
//!                                        it, or NONE, or FIXED; or REFUSED
//!     oracle plan FILE                   the first joining choice: OPEN, its rows, TOTAL; or REFUSED
//!     oracle site WORD...                a history of one site, a line for each word: a number starts it with so many kits,
//!                                        PLACE=NUMBER puts a number into a place (SET), any other word is the FILE of a
//!                                        hall to admit; after a call STOCK, LEFT and PLANS with their rows, or REFUSED
//!     oracle list FILE                   a right printed list
//!     oracle judge FILE LIST             RIGHT, or what is wrong with a printed list
//!     oracle lines PROGRAM               what trychoices or tryroutes has to print
//!
//! ROWS is a list of row numbers with commas, or - for none. Without words, each line of standard input is a request.

mod choices;
mod drawn;
mod history;
mod plans;
mod routes;

use std::process::ExitCode;

use oracle::{hall_in, holds, words, Told, SMALL};

const USAGE: &str =
    "usage: oracle read|check|tight|route|figure|totals|plan|site|list|judge|lines ..., as src/bin/oracle/main.rs says";

/// The answer, or what is wrong.
fn answer(request: &[&str]) -> Result<String, String> {
    Ok(match *request {
        ["read", name] => match hall_in(&file(name)?) {
            Ok(hall) => format!("HALL {} {}\n", hall.n, hall.rows.len()),
            Err(refusal) => plans::refused(refusal),
        },
        ["check", name, rows] => told(oracle::check(&file(name)?, &choice(rows)?)),
        ["tight", name, rows, junction] => tight(&file(name)?, &choice(rows)?, number(junction)?),
        ["route", name, rows, from, to] => route(&file(name)?, &choice(rows)?, number(from)?, number(to)?),
        ["figure", name, rows, figure] => screened(&file(name)?, &choice(rows)?, number(figure)?),
        ["totals", name] => plans::figures(&file(name)?),
        ["plan", name] => plans::choice(&file(name)?),
        ["site", ref steps @ ..] => history::lines(steps)?,
        ["list", name] => plans::list(&file(name)?),
        ["judge", name, list] => judge(name, &String::from_utf8_lossy(&file(list)?))?,
        ["lines", "trychoices"] => choices::lines(),
        ["lines", "tryroutes"] => routes::lines(),
        _ => return Err(USAGE.to_string()),
    })
}

fn file(name: &str) -> Result<Vec<u8>, String> {
    std::fs::read(name).map_err(|error| format!("{name}: {error}"))
}

fn judge(name: &str, text: &str) -> Result<String, String> {
    match plans::judge(&file(name)?, text).first() {
        Some(fault) => Err(format!("{name}: {fault}")),
        None => Ok("RIGHT\n".to_string()),
    }
}

fn number(word: &str) -> Result<u32, String> {
    word.parse().map_err(|error| format!("{word}: {error}"))
}

fn choice(rows: &str) -> Result<Vec<u32>, String> {
    match rows {
        "-" => Ok(vec![]),
        _ => rows.split(',').map(number).collect(),
    }
}

fn told([number, row, outcome, set]: Told) -> String {
    let members = words((1..=64).filter(|&j| holds(set, j)));
    match outcome {
        1 => "JOINS\n".to_string(),
        2 => format!("MISSES{members}\n"),
        3 => format!("AROUND{members}\n"),
        _ => format!("REFUSED {number} {row}\n"),
    }
}

/// By two paths, and in small halls by every shore too.
fn tight(file: &[u8], choice: &[u32], junction: u32) -> String {
    let reply = oracle::tight(file, choice, junction);
    match hall_in(file) {
        Ok(hall) if hall.n <= SMALL && reply[2] == 3 && reply[3] != 0 => {
            let around = oracle::neighbourhood_by_shores(&hall, choice, junction.into());
            assert_eq!(reply[3], around, "two paths and every shore");
        }
        _ => {}
    }
    told(reply)
}

/// Number of rows by number of rows, and in small halls by every sequence of steps too.
fn route(file: &[u8], choice: &[u32], from: u32, to: u32) -> String {
    let ([number, row, outcome, set, _], rows) = oracle::route(file, choice, from, to);
    match hall_in(file) {
        Ok(hall) if hall.n <= 8 && outcome == 4 => {
            let tried = oracle::route_by_trying(&hall, choice, from.into(), to.into());
            assert_eq!(rows, tried, "number of rows by number of rows and every sequence");
        }
        _ => {}
    }
    match outcome {
        4 => format!("ROUTE{}\n", words(&rows)),
        _ => told([number, row, outcome, set]),
    }
}

fn screened(file: &[u8], choice: &[u32], figure: u32) -> String {
    match oracle::over_figure(file, choice, figure) {
        [0, _, 1, read] => format!("OVER {read}\n"),
        [0, _, _, read] => format!("WITHIN {read}\n"),
        refused => told(refused),
    }
}

fn main() -> ExitCode {
    let words: Vec<String> = std::env::args().skip(1).collect();
    let requests: Vec<String> = match words.is_empty() {
        true => std::io::stdin().lines().map_while(Result::ok).collect(),
        false => vec![words.join(" ")],
    };
    for request in requests {
        match answer(&request.split(' ').collect::<Vec<&str>>()) {
            Ok(text) => print!("{text}"),
            Err(fault) => {
                eprintln!("{fault}");
                return ExitCode::FAILURE;
            }
        }
    }
    ExitCode::SUCCESS
}
