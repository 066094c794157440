//! Prints the stand-ins' values: for each line "x b" of two bit patterns, those of E(x), L(x), S(x), H(x) and powf(x, b).
use oracle::standins::{asinh, exp, ln, powf};
use std::io::{self, BufRead, BufWriter, Write};

/// A NaN's sign and payload mean nothing: one pattern stands for all.
fn bits(x: f64) -> u64 {
    if x.is_nan() {
        0x7FF8_0000_0000_0000
    } else {
        x.to_bits()
    }
}

fn main() -> io::Result<()> {
    let mut out = BufWriter::new(io::stdout().lock());
    for line in io::stdin().lock().lines() {
        let line = line?;
        let mut words = line.split(' ').map(|w| f64::from_bits(u64::from_str_radix(w, 16).expect("a bit pattern")));
        let (Some(x), Some(b)) = (words.next(), words.next()) else {
            return Err(io::Error::other("two bit patterns a line"));
        };
        let [e, l, s, h, p] = [exp(x), ln(x), x.sqrt(), asinh(x), powf(x, b)].map(bits);
        writeln!(out, "{e:016X} {l:016X} {s:016X} {h:016X} {p:016X}")?;
    }
    out.flush()
}
