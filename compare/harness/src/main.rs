//! The network layer of zigbee-rs, driven by a trace: what it answers, traces to ask it, and what they reach.
#![allow(unexpected_cfgs)] // the source's features, all off

#[macro_use]
mod probe;
mod bench;
mod cover;
mod driver;
mod hooks;
#[allow(dead_code, unused_imports, unused_variables, async_fn_in_trait, unknown_lints)]
mod nwk;
mod pairs;
mod scenarios;
mod security;
mod selfcheck;
mod trace;

use std::io::{Read, Write};
use std::process::ExitCode;

const USAGE: &str = "usage: harness run < in > out
       harness gen SEED N [FROM] [refresh] > in
       harness pairs first|second SEED N [FROM] [leaves|requests|notifications] > in
       harness cover [each] < in
       harness bench
       harness work choice|join|rejoin|scan TIMES
       harness selfcheck";

// What isn't UTF-8 stands in no good line, so it may be replaced.
fn input() -> String {
    let mut bytes = Vec::new();
    std::io::stdin().read_to_end(&mut bytes).expect("standard input");
    String::from_utf8_lossy(&bytes).into_owned()
}

fn print(text: &str) {
    std::io::stdout().write_all(text.as_bytes()).expect("standard output");
}

fn run() {
    let input = input();
    let (calls, mut bad) = trace::parse(&input);
    let mut driver = driver::Driver::new();
    let mut out = std::io::BufWriter::new(std::io::stdout().lock());
    for (line, call) in &calls {
        match driver.feed(call) {
            Ok(lines) => {
                for l in lines {
                    writeln!(out, "{l}").expect("standard output");
                }
            }
            Err(why) => {
                bad = Some((*line, why));
                break;
            }
        }
    }
    if let Some((line, why)) = bad {
        writeln!(out, "bad\t{line}").expect("standard output");
        eprintln!("line {line}: {why}");
    }
    out.flush().expect("standard output");
}

fn cover(each: bool) -> Result<(), String> {
    let input = input();
    let (calls, bad) = trace::parse(&input);
    let reached = cover::cover(&calls).and_then(|reached| bad.map_or(Ok(reached), Err));
    let reached = reached.map_err(|(line, why)| format!("line {line}: {why}"))?;
    print(&if each { reached.each() } else { reached.together() });
    Ok(())
}

fn number(word: &str) -> Result<u64, String> {
    word.parse().map_err(|_| format!("{word} is no number\n{USAGE}"))
}

fn command(words: &[&str]) -> Result<(), String> {
    match words {
        ["run"] => run(),
        ["gen", seed, n, rest @ ..] => {
            let (mut from, mut refresh) = (0, false);
            for word in rest {
                match *word {
                    "refresh" => refresh = true,
                    word => from = number(word)?,
                }
            }
            print(&scenarios::generate(number(seed)?, number(n)?, from, refresh));
        }
        ["pairs", node @ ("first" | "second"), seed, n, rest @ ..] => {
            let (mut from, mut leaves) = (0, pairs::Leaves::None);
            for word in rest {
                match *word {
                    "leaves" => leaves = pairs::Leaves::All,
                    "requests" => leaves = pairs::Leaves::Requests,
                    "notifications" => leaves = pairs::Leaves::Notifications,
                    word => from = number(word)?,
                }
            }
            print(&pairs::generate(*node == "first", number(seed)?, number(n)?, from, leaves));
        }
        ["cover"] => cover(false)?,
        ["cover", "each"] => cover(true)?,
        ["bench"] => bench::bench(),
        ["work", name, times] => print(&bench::work(name, number(times)?).ok_or(USAGE)?),
        ["selfcheck"] => print(&selfcheck::selfcheck()),
        _ => return Err(USAGE.to_string()),
    }
    Ok(())
}

fn main() -> ExitCode {
    let words: Vec<String> = std::env::args().skip(1).collect();
    let words: Vec<&str> = words.iter().map(String::as_str).collect();
    match command(&words) {
        Ok(()) => ExitCode::SUCCESS,
        Err(why) => {
            eprintln!("{why}");
            ExitCode::FAILURE
        }
    }
}
