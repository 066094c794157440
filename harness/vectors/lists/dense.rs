//! `solve_dense`.
use crate::draw::Draw;
use calls::dense::{solve_dense, MOST_ORDER};
use calls::words::{answer, slice, word, Reader, Slot};

fn system(n: u64, a: &[f64], b: &[f64]) -> Vec<Slot> {
    vec![word(n), slice(a), slice(b)]
}

fn random(draw: &mut Draw, n: usize, size: f64) -> (Vec<f64>, Vec<f64>) {
    let mut entries = |count: usize| (0..count).map(|_| draw.uniform(-size, size)).collect();
    (entries(n * n), entries(n))
}

pub fn cases(draw: &mut Draw) -> Vec<Vec<Slot>> {
    let identity = [1.0, 0.0, 0.0, 1.0];
    let mut all = vec![
        system(0, &[], &[]),
        system(2, &identity, &[3.0, 4.0]),
        system(2, &[0.0, 1.0, 1.0, 0.0], &[3.0, 4.0]),
        system(1, &[1e-14], &[0.0]),
        system(1, &[1e-14f64.next_down()], &[0.0]),
        system(1, &[-1e-14], &[1.0]),
        system(2, &[1.0, 1.7e308, -1.0, 1.7e308], &[0.0, 1.0]),
        system(2, &[1e-14, 1e308, 1e-14, -1e308], &[1e308, -1e308]),
        system(1, &[1e-10], &[1e308]),
        system(2, &[1.0, 2.0, 2.0, 4.0], &[1.0, 1.0]),
        system(2, &[1.0, 1.0, -1.0, -1.0], &[-0.0, 0.0]),
        system(2, &[1.0, 0.5, -1.0, 0.25], &[-0.0, 0.0]),
    ];
    // 1 and 10: orders and lengths, alone and with other faults
    for n in [0, 1, 2, 3, 31, 32, 33, 1 << 32, u64::MAX] {
        for (a, b) in [(&identity[..], &[3.0, 4.0][..]), (&[], &[]), (&[f64::NAN], &[1.0]), (&[f64::INFINITY; 4], &[1.0, 2.0, 3.0])] {
            all.push(system(n, a, b));
        }
    }
    // 2: each entry of a and of b, alone and with a singular matrix
    for bad in [f64::NAN, f64::INFINITY, f64::NEG_INFINITY] {
        for base in [[2.0, 1.0, 1.0, 3.0], [0.0; 4]] {
            for at in 0..6 {
                let (mut a, mut b) = (base, [1.0, 2.0]);
                if at < 4 {
                    a[at] = bad;
                } else {
                    b[at - 4] = bad;
                }
                all.push(system(2, &a, &b));
            }
        }
    }
    // special entries, singular columns in each place, rows to exchange
    for special in [0.0, -0.0, f64::from_bits(1), f64::MAX, f64::MIN, 1e-14, 1e-15] {
        for at in 0..9 {
            let mut a = [4.0, -1.0, 0.5, 1.0, 3.0, -2.0, 0.25, 1.5, 5.0];
            a[at] = special;
            all.push(system(3, &a, &[1.0, -2.0, 3.0]));
        }
    }
    for column in 0..4 {
        let (mut a, b) = random(draw, 4, 1.0);
        for row in 0..4 {
            a[row * 4 + column] = 0.0;
        }
        all.push(system(4, &a, &b));
    }
    for n in 1..=MOST_ORDER as usize {
        let (a, b) = random(draw, n, 1.0);
        all.push(system(n as u64, &a, &b));
    }
    for _ in 0..300 {
        let n = draw.count(1, 6) as usize;
        let size = draw.pick(&[1.0, 1e3, 1e-13, 1e150, 1e307]);
        let (mut a, b) = random(draw, n, size);
        for _ in 0..draw.below(n as u64 + 1) {
            let at = draw.below((n * n) as u64) as usize;
            a[at] = 0.0;
        }
        all.push(system(n as u64, &a, &b));
    }
    all
}

/// 0 and the 32 places, or the number.
pub fn solve(arguments: &[Slot]) -> Vec<Slot> {
    let mut reader = Reader::new(arguments);
    let n = reader.word();
    let (a, b) = (reader.slice(), reader.slice());
    reader.end();
    answer(solve_dense(&a, &b, n).map(|x| vec![calls::words::array(&x)]))
}
