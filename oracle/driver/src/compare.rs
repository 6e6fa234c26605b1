// The comparison: cases of every kind from a seed, each run by the Rust here and by the program `replay`, line against line. A disagreement is
// made as small as it goes and printed with both sides' lines.
mod cases;
#[allow(dead_code)] // one binary reads scripts, the other writes them
mod session;
use cases::*;
use session::{Call, Listed, Session};
use std::collections::BTreeMap;
use std::io::{Read, Write};
use std::process::{Command, Stdio};
use std::sync::mpsc::sync_channel;

#[derive(Default)]
struct Count {
    cases: u64,
    calls: u64,
    disagree: u64,
}

/// What `replay` writes for a script.
fn replayed(program: &str, script: &[u8]) -> Vec<u8> {
    let mut child = Command::new(program)
        .stdin(Stdio::piped())
        .stdout(Stdio::piped())
        .spawn()
        .unwrap_or_else(|e| panic!("{program}: {e}"));
    let mut stdin = child.stdin.take().unwrap();
    let mut stdout = child.stdout.take().unwrap();
    let mut out = Vec::with_capacity(script.len() * 2);
    std::thread::scope(|scope| {
        scope.spawn(move || {
            let _ = stdin.write_all(script);
        });
        stdout.read_to_end(&mut out).expect("read");
    });
    let status = child.wait().expect("wait");
    if !status.success() {
        eprintln!("compare: {program} ended with {status}");
    }
    out
}

/// The lines of each case, which a line `#` ends.
fn split(out: &[u8]) -> Vec<&[u8]> {
    let mut parts = vec![];
    let mut from = 0;
    let mut line = 0;
    for i in 0..out.len() {
        if out[i] == b'\n' {
            if &out[line..i] == b"#" {
                parts.push(&out[from..line]);
                from = i + 1;
            }
            line = i + 1;
        }
    }
    parts
}

/// The answers of the Rust; none where a call is outside its domain.
fn answers(calls: &[Call]) -> Option<String> {
    let mut s = Session::default();
    let mut out = String::new();
    for c in calls {
        s.run(c, &mut out);
        if s.outside {
            return None;
        }
    }
    Some(out)
}

/// The first of the candidates on which the two still disagree.
fn first_bad(program: &str, candidates: &[Vec<Call>]) -> Option<usize> {
    let mut script = String::new();
    let mut wanted = vec![];
    for (i, calls) in candidates.iter().enumerate() {
        if let Some(a) = answers(calls) {
            for c in calls {
                c.write(&mut script);
            }
            script.push_str("#\n");
            wanted.push((i, a));
        }
    }
    let out = replayed(program, script.as_bytes());
    let parts = split(&out);
    for (k, (i, a)) in wanted.iter().enumerate() {
        if parts.get(k).is_none_or(|p| *p != a.as_bytes()) {
            return Some(*i);
        }
    }
    None
}

/// Smaller scripts, the boldest first.
fn smaller(calls: &[Call]) -> Vec<Vec<Call>> {
    let mut out = vec![];
    let n = calls.len();
    let mut size = n / 2;
    while size >= 1 {
        let mut at = 1;
        while at + size <= n {
            let mut c = calls.to_vec();
            c.drain(at..at + size);
            out.push(c);
            at += size;
        }
        size /= 2;
    }
    for i in 0..n {
        match &calls[i] {
            Call::Push(bytes) | Call::Timestamp(bytes) | Call::Check(_, _, _, bytes) => {
                let with = |b: Vec<u8>| {
                    let mut c = calls.to_vec();
                    c[i] = match &calls[i] {
                        Call::Push(_) => Call::Push(b),
                        Call::Check(p, s, z, _) => Call::Check(*p, *s, *z, b),
                        _ => Call::Timestamp(b),
                    };
                    c
                };
                if let (Call::Push(a), Some(Call::Push(b))) = (&calls[i], calls.get(i + 1)) {
                    let mut c = calls.to_vec();
                    c[i] = Call::Push([&a[..], b].concat());
                    c.remove(i + 1);
                    out.push(c);
                }
                let mut size = bytes.len();
                while size >= 1 {
                    let mut at = 0;
                    while at + size <= bytes.len() {
                        let mut b = bytes.clone();
                        b.drain(at..at + size);
                        out.push(with(b));
                        at += size.max(1);
                    }
                    size /= 2;
                }
                for k in 0..bytes.len() {
                    if bytes[k] != 0 {
                        let mut b = bytes.clone();
                        b[k] = 0;
                        out.push(with(b));
                    }
                }
            }
            Call::Open(room) if *room != 8192 => {
                let mut c = calls.to_vec();
                c[i] = Call::Open(8192);
                out.push(c);
            }
            Call::TimingStep(bit, unit, samples, output) => {
                for (u, s, o) in [(0, 0, 0), (0, *samples, *output), (*unit, 0, *output), (*unit, *samples, 0), (*unit / 2, *samples / 2, *output / 2)] {
                    if (u, s, o) != (*unit, *samples, *output) {
                        let mut c = calls.to_vec();
                        c[i] = Call::TimingStep(*bit, u, s, o);
                        out.push(c);
                    }
                }
            }
            Call::WindowStep(playhead, removal, bytes) => {
                let mut with = |p: u64, r: u64, b: [u32; 14]| {
                    if (p, r, b) != (*playhead, *removal, *bytes) {
                        let mut c = calls.to_vec();
                        c[i] = Call::WindowStep(p, r, b);
                        out.push(c);
                    }
                };
                with(*playhead, *removal, [0; 14]);
                with(0, *removal, *bytes);
                with(*playhead, 0, *bytes);
                with(*playhead / 2, *removal / 2, *bytes);
                with(playhead.saturating_sub(1), *removal, *bytes);
                with(*playhead, removal.saturating_sub(1), *bytes);
                for k in 0..14 {
                    for less in [0, bytes[k] / 2, bytes[k].saturating_sub(1)] {
                        let mut b = *bytes;
                        b[k] = less;
                        with(*playhead, *removal, b);
                    }
                }
            }
            _ => {}
        }
    }
    // what is tried at once stays within some 30 MB
    let size: usize = calls.iter().map(|c| if let Call::Push(b) = c { 200 + 2 * b.len() } else { 200 }).sum();
    out.truncate((30_000_000 / size.max(1)).clamp(20, 6000));
    out
}

fn shrink(program: &str, calls: Vec<Call>) -> Vec<Call> {
    let mut calls = calls;
    if calls.len() > 3000 {
        return calls;
    }
    for _ in 0..400 {
        let candidates = smaller(&calls);
        match first_bad(program, &candidates) {
            Some(i) => calls = candidates[i].clone(),
            None => break,
        }
    }
    calls
}

fn tell(program: &str, kind: &str, calls: Vec<Call>) {
    let calls = shrink(program, calls);
    let wanted = answers(&calls).unwrap_or_default();
    let mut script = String::new();
    for c in &calls {
        c.write(&mut script);
    }
    let out = replayed(program, script.as_bytes());
    println!("DISAGREE in kind '{kind}'; the smallest script:");
    for l in script.lines() {
        println!("    {l}");
    }
    let got = String::from_utf8_lossy(&out).into_owned();
    let (mut a, mut b) = (wanted.lines(), got.lines());
    loop {
        match (a.next(), b.next()) {
            (Some(x), Some(y)) if x == y => continue,
            (None, None) => break,
            (x, y) => {
                println!("  Rust  {}", x.unwrap_or("(nothing)"));
                println!("  ours  {}", y.unwrap_or("(nothing)"));
                break;
            }
        }
    }
}

fn judge(program: &str, cases: Vec<Case>, counts: &mut BTreeMap<&'static str, Count>, told: &mut BTreeMap<&'static str, u32>) {
    let mut script = String::new();
    for c in &cases {
        for call in &c.calls {
            call.write(&mut script);
        }
        script.push_str("#\n");
    }
    let out = replayed(program, script.as_bytes());
    let parts = split(&out);
    for (i, c) in cases.into_iter().enumerate() {
        let count = counts.entry(c.kind).or_default();
        count.cases += 1;
        count.calls += c.calls.len() as u64;
        if parts.get(i).is_none_or(|p| *p != c.answers.as_bytes()) {
            count.disagree += 1;
            let t = told.entry(c.kind).or_default();
            *t += 1;
            let most = std::env::var("ORACLE_TELL").ok().and_then(|n| n.parse().ok()).unwrap_or(usize::MAX);
            if *t <= 1 && told.len() <= most {
                tell(program, c.kind, c.calls);
            }
        }
    }
}

fn main() {
    let args: Vec<String> = std::env::args().collect();
    let program = args.get(1).expect("compare REPLAY STREAMS N SEED [KIND [FROM]]").clone();
    let world = World::new(args.get(2).map(|s| s.as_str()));
    let n: u64 = args.get(3).and_then(|s| s.parse().ok()).unwrap_or(1000);
    let seed: u64 = args.get(4).and_then(|s| s.parse().ok()).unwrap_or(1);
    let group = args.get(5).cloned().unwrap_or_default();
    // the number of the first case of each kind, so that a long run can be done in parts
    let from: u64 = args.get(6).and_then(|s| s.parse().ok()).unwrap_or(0);

    let mut plan = plan_of(n);
    plan.retain(|(k, _)| group.is_empty() || k.contains(&group));

    let (send, receive) = sync_channel::<Vec<Case>>(2);
    let judge_thread = std::thread::spawn(move || {
        let mut counts = BTreeMap::new();
        let mut told = BTreeMap::new();
        for cases in receive {
            judge(&program, cases, &mut counts, &mut told);
        }
        counts
    });
    let mut listed = Listed::default();
    let mut skipped = vec![];
    let mut batch = vec![];
    let mut size = 0;
    for (kind, many) in &plan {
        let first = from * *many / n.max(1);
        for i in first..first + *many {
            match make(&world, seed, kind, i, &mut listed) {
                Some(c) => {
                    size += c.answers.len();
                    batch.push(c);
                }
                None => {
                    skipped.push(*kind);
                    break;
                }
            }
            if size > 4_000_000 {
                send.send(std::mem::take(&mut batch)).expect("judge");
                size = 0;
            }
        }
    }
    send.send(batch).expect("judge");
    drop(send);
    let counts = judge_thread.join().expect("judge");

    println!("compare: {n} cases of a reader's kind, from case {from}, seed {seed}");
    println!("{:<36}{:>10}{:>13}{:>12}", "kind", "cases", "calls", "disagree");
    let mut total = Count::default();
    let mut groups = [("reader", 0u64, 0u64), ("timing", 0, 0), ("window", 0, 0), ("timestamp", 0, 0), ("check", 0, 0), ("caps", 0, 0)];
    for (kind, _) in &plan {
        let Some(c) = counts.get(kind) else { continue };
        println!("{:<36}{:>10}{:>13}{:>12}", kind, c.cases, c.calls, c.disagree);
        total.cases += c.cases;
        total.calls += c.calls;
        total.disagree += c.disagree;
        let at = (1..6).find(|g| kind.starts_with(groups[*g].0) && !kind.starts_with("timestamps good")&& !kind.starts_with("check broken")).unwrap_or(0);
        groups[at].1 += c.cases;
        groups[at].2 += c.calls;
    }
    println!("{:<36}{:>10}{:>13}{:>12}", "all", total.cases, total.calls, total.disagree);
    for (name, cases, calls) in groups {
        println!("  {name}: {cases} cases, {calls} calls");
    }
    println!("listed differences met:");
    println!("  4-byte units, on which the Rust's is_major_sync panics: {}", listed.four_byte_units);
    println!("  timing steps with a bit count past 65,535: {}", listed.bit_counts_past_65535);
    println!("  window steps after a restart whose report the Rust's kept slots change: {}", listed.steps_unlike_after_a_restart);
    for kind in skipped {
        println!("skipped, for want of streams: {kind}");
    }
    println!("compare: {} cases, {} disagreements", total.cases, total.disagree);
    if total.disagree != 0 {
        std::process::exit(1);
    }
}
