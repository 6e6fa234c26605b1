// The driver: reads a script of calls on standard input and writes the lines that `replay` writes, answered by the Rust.
#[allow(dead_code)] // one binary reads scripts, the other writes them
mod session;
use session::{Call, Session};
use std::io::{BufRead, Write};

fn main() {
    let mut session = Session::default();
    let mut input = std::io::stdin().lock();
    let mut output = std::io::BufWriter::with_capacity(1 << 16, std::io::stdout().lock());
    let (mut line, mut out, mut refused) = (Vec::new(), String::new(), 0u64);
    loop {
        line.clear();
        if input.read_until(b'\n', &mut line).expect("read") == 0 {
            break;
        }
        if line.last() == Some(&b'\n') {
            line.pop();
        }
        let text = String::from_utf8_lossy(&line);
        let words = text.trim_matches(' ');
        out.clear();
        if words.starts_with('#') {
            out.push_str(&text);
            out.push('\n');
        } else if !words.is_empty() {
            match Call::read(&text) {
                Some(call) => session.run(&call, &mut out),
                None => {
                    eprintln!("oracle: no call: {text}");
                    refused += 1;
                }
            }
        }
        output.write_all(out.as_bytes()).expect("write");
    }
    output.flush().expect("write");
    if refused != 0 {
        eprintln!("oracle: lines that are no call: {refused}");
    }
}
