//! The oracle: what the Rust original (rtcp-types, its xr module, unchanged) answers.
//!
//!     oracle answer                packets in, answers out (answer.rs)
//!     oracle generate SEED COUNT   COUNT packets out, made from SEED (generate.rs)
//!     oracle record SEED           the recorded list out (record.rs)
//!     oracle write                 job lists in, packets out, by XrBuilder (write.rs)
//!     oracle word KIND VALUE       one chunk word as XrBuilder writes it (write.rs)
//!
//! Packets and job lists come and go as four bytes of length, little-endian, and the bytes. Every
//! answer is text and ends with a line that is a single `.`.

mod answer;
mod generate;
mod make;
mod record;
mod record_blocks;
mod record_refusals;
mod write;

use std::io::{self, BufRead, BufReader, BufWriter, Read, Write};

fn main() {
    // A panic of the original is an answer; it is not to be told on stderr as well.
    std::panic::set_hook(Box::new(|_| {}));
    let args: Vec<String> = std::env::args().skip(1).collect();
    let words: Vec<&str> = args.iter().map(String::as_str).collect();
    let done = match words[..] {
        ["answer"] => each_frame(answer::answer),
        ["write"] => each_frame(write::write),
        ["generate", seed, count] => generate(number(seed), number(count)),
        ["word", kind, value] => io::stdout().write_all(write::word(kind, number(value)).as_bytes()),
        ["record", seed] => io::stdout().write_all(record::record(number(seed)).as_bytes()),
        _ => stop("usage: oracle answer | generate SEED COUNT | record SEED | write | word KIND VALUE"),
    };
    if let Err(e) = done {
        stop(&format!("oracle: {e}"));
    }
}

fn stop(why: &str) -> ! {
    eprintln!("{why}");
    std::process::exit(1)
}

fn number(text: &str) -> u64 {
    text.parse().unwrap_or_else(|_| stop(&format!("oracle: not a number: {text}")))
}

/// Answers each frame of standard input. A frame that the input cuts short is an error.
fn each_frame(answer: fn(&[u8]) -> String) -> io::Result<()> {
    let mut input = BufReader::with_capacity(1 << 16, io::stdin().lock());
    let mut output = BufWriter::with_capacity(1 << 16, io::stdout().lock());
    loop {
        if input.buffer().is_empty() {
            output.flush()?; // whoever waits for the answers so far gets them
        }
        if input.fill_buf()?.is_empty() {
            return output.flush();
        }
        let mut length = [0; 4];
        input.read_exact(&mut length)?;
        let mut frame = vec![0; u32::from_le_bytes(length) as usize];
        input.read_exact(&mut frame)?;
        output.write_all(answer(&frame).as_bytes())?;
        output.write_all(b".\n")?;
    }
}

fn generate(seed: u64, count: u64) -> io::Result<()> {
    let mut output = BufWriter::with_capacity(1 << 16, io::stdout().lock());
    for packet in generate::packets(seed, count) {
        output.write_all(&(packet.len() as u32).to_le_bytes())?;
        output.write_all(&packet)?;
    }
    output.flush()
}
