//! The oracle: a second program for masked AES and the pool of strips, written from the documents and
//! sharing nothing with the library. It checks itself, writes cases for the replay, and counts the points.

mod aes;
mod calls;
mod case;
mod case_block;
mod case_expand;
mod case_sbox;
mod cipher;
mod count;
mod message;
mod openssl;
mod pair;
mod points;
mod pool;
mod pool_call;
mod pool_selftest;
mod refusal;
mod rng;
mod sbox;
mod selftest;
mod show;
mod strip;
mod svg;
mod tally;
mod tower;
mod vectors;
mod walk;
mod walk_stray;

use std::process::ExitCode;

const USAGE: &str = "usage:
  oracle selftest
  oracle cases sbox|expand|block|pool COUNT SEED
  oracle count A      (A a tower byte in hex)
  oracle wrong A
  oracle svg
  oracle points DIRECTION BLOCK MASK ROUND_KEYS STRIP      (buffers in hex)";

fn main() -> ExitCode {
    let arguments: Vec<String> = std::env::args().skip(1).collect();
    let words: Vec<&str> = arguments.iter().map(String::as_str).collect();
    match run(&words) {
        Some(true) => ExitCode::SUCCESS,
        Some(false) => ExitCode::FAILURE,
        None => {
            eprintln!("{USAGE}");
            ExitCode::from(2)
        }
    }
}

/// None means that the words are no command; otherwise whether all went well.
fn run(words: &[&str]) -> Option<bool> {
    match words {
        ["selftest"] => Some(selftest::run()),
        ["cases", kind, count, seed] => case::write_file(kind, count.parse().ok()?, seed.parse().ok()?),
        ["count", a] => Some(count::report(show::byte(a)?)),
        ["wrong", a] => Some(count::report_wrong(show::byte(a)?)),
        ["svg"] => Some(svg::print()),
        ["points", direction, block, mask, round_keys, strip] => {
            show::block_points(direction.parse().ok()?, &[block, mask, round_keys, strip])
        }
        _ => None,
    }
}
