// A sample of the Rust's answers: record STREAMS SEED FOLDER writes FOLDER/stdin, a script, and FOLDER/stdout, what the Rust answers. Of the first
// cases of every kind it keeps those that show something that none before showed.
mod cases;
#[allow(dead_code)] // one binary reads scripts, the others write them
mod session;
use cases::*;
use session::Listed;
use std::collections::{HashMap, HashSet};

/// What a line shows, numbers made coarse: the answer, and what the record went through.
fn shown(group: &str, before: &str, line: &str) -> String {
    fn number(line: &str, name: &str) -> u64 {
        line.find(name).map_or(0, |at| line[at + name.len()..].bytes().take_while(u8::is_ascii_digit).fold(0, |n, b| n * 10 + (b - b'0') as u64))
    }
    fn coarse(n: u64) -> u64 {
        match n {
            0..=8 => n,
            9..=15 => 15,
            16 => 16,
            17..=23 => n,
            24..=33 => 33,
            34..=63 => 63,
            _ => 64,
        }
    }
    match group {
        "reader" => {
            let (answer, record) = line.split_once(" | ").unwrap_or((line, ""));
            let words: Vec<&str> = answer.split(' ').collect();
            let name = match words.as_slice() {
                ["next", "unit", ..] => format!("unit {} {}", if answer.contains("major") { "major" } else { "minor" }, answer.contains("rate")),
                ["next", "5", ..] => format!("5 {}", words[5]),
                _ => words[..2.min(words.len())].join(" "),
            };
            format!(
                "{name} {} {} {} {} {} {} {}",
                before.contains(" locked"),
                record.contains("locked"),
                before.contains(" seen"),
                record.contains("rate"),
                before.contains("rate"),
                coarse(number(line, "| at ").wrapping_sub(number(before, "| at ")).min(99)),
                number(line, " errors ").wrapping_sub(number(before, " errors ")).min(3),
            )
        }
        "timing" => {
            let state = number(line, "state ");
            let was = number(before, "state ");
            let fault = line.split("fault ").nth(1).unwrap_or("-").chars().take(9).collect::<String>();
            format!("{was} {state} {} {} {fault} {}", number(line, "counter "), line.contains("start -"), number(line, "bits ") == 65535)
        }
        "window" => {
            let held = number(line, "held ");
            format!("{} {} {}", line.split(" report").next().unwrap_or(""), coarse(held), coarse(number(before, "held ")))
        }
        // the number of a refused timestamp, or the rate of a good one
        _ => match line.find("rate") {
            Some(at) => line[at..line.find("reserved").unwrap_or(line.len())].to_string(),
            None => line.to_string(),
        },
    }
}

fn group_of(kind: &str) -> &'static str {
    match kind {
        "check" | "caps" => "plain",
        _ if kind.starts_with("timestamp,") => "plain",
        _ if kind.starts_with("timing") => "timing",
        _ if kind.starts_with("window") => "window",
        _ => "reader",
    }
}

fn main() {
    let args: Vec<String> = std::env::args().collect();
    let world = World::new(Some(&args[1]));
    let seed: u64 = args[2].parse().expect("SEED");
    let folder = &args[3];
    let mut seen = HashSet::new();
    let (mut script, mut answers) = (String::new(), String::new());
    let mut calls = 0;
    let mut kinds: HashMap<&str, usize> = HashMap::new();
    for (kind, _) in plan_of(600) {
        *kinds.entry(group_of(kind)).or_insert(0) += 1;
    }
    for (kind, many) in plan_of(600) {
        let group = group_of(kind);
        // Every kind has its share of the group's size: a part that is chosen early must not leave a later one without a case.
        let share = match group {
            "reader" => 800_000,
            "timing" => 400_000,
            "window" => 180_000,
            _ => 60_000,
        } / kinds[group];
        let (mut kept, mut used) = (0, 0);
        for i in 0..many {
            let Some(case) = make(&world, seed, kind, i, &mut Listed::default()) else { break };
            let most = if group == "window" { 12_000 } else { 7_000 };
            if case.answers.len() > most || case.calls.iter().any(|c| matches!(c, session::Call::Push(b) if b.len() > 1500)) {
                continue;
            }
            let mut fresh = false;
            let mut before = "";
            for line in case.answers.lines() {
                fresh |= seen.insert(format!("{group} {}", shown(group, before, line)));
                before = line;
            }
            // a few of every kind in any case, and more of those that are one line
            if !fresh && kept >= if group == "plain" { 60 } else { 6 } {
                continue;
            }
            kept += 1;
            if used > share {
                break;
            }
            let title = format!("# {kind}, case {i}\n");
            script.push_str(&title);
            answers.push_str(&title);
            for c in &case.calls {
                c.write(&mut script);
            }
            calls += case.calls.len();
            answers.push_str(&case.answers);
            used += case.answers.len() + case.answers.len() / 3;
        }
    }
    std::fs::write(format!("{folder}/stdin"), &script).expect("stdin");
    std::fs::write(format!("{folder}/stdout"), &answers).expect("stdout");
    println!("record: {calls} calls, {} bytes of script, {} of answers", script.len(), answers.len());
}
