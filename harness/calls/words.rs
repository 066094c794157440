//! Arguments and answers as 64-bit words, as the fixed list has them.

/// A word, or places of an array or a slice.
#[derive(Clone, Debug, PartialEq)]
pub enum Slot {
    Word(u64),
    Places(Vec<u64>),
}

/// A NaN's sign and payload mean nothing: one pattern stands for all.
pub fn bits(x: f64) -> u64 {
    if x.is_nan() {
        0x7FF8_0000_0000_0000
    } else {
        x.to_bits()
    }
}

pub fn word(n: u64) -> Slot {
    Slot::Word(n)
}

pub fn float(x: f64) -> Slot {
    Slot::Word(bits(x))
}

pub fn flag(b: bool) -> Slot {
    Slot::Word(u64::from(b))
}

/// A slice: every place.
pub fn slice(values: &[f64]) -> Slot {
    Slot::Places(values.iter().map(|x| bits(*x)).collect())
}

/// An array whose last places are +0: up to the last that is not.
pub fn array(values: &[f64]) -> Slot {
    let listed = values.iter().rposition(|x| bits(*x) != 0).map_or(0, |last| last + 1);
    slice(&values[..listed])
}

/// Takes the slots of a call one after the other.
pub struct Reader<'a> {
    slots: std::slice::Iter<'a, Slot>,
}

impl<'a> Reader<'a> {
    pub fn new(slots: &'a [Slot]) -> Self {
        Self { slots: slots.iter() }
    }

    pub fn word(&mut self) -> u64 {
        match self.slots.next() {
            Some(Slot::Word(n)) => *n,
            other => panic!("a word was expected, not {other:?}"),
        }
    }

    pub fn float(&mut self) -> f64 {
        f64::from_bits(self.word())
    }

    pub fn floats<const N: usize>(&mut self) -> [f64; N] {
        std::array::from_fn(|_| self.float())
    }

    pub fn slice(&mut self) -> Vec<f64> {
        match self.slots.next() {
            Some(Slot::Places(places)) => places.iter().map(|n| f64::from_bits(*n)).collect(),
            other => panic!("places were expected, not {other:?}"),
        }
    }

    pub fn array<const N: usize>(&mut self) -> [f64; N] {
        let listed = self.slice();
        std::array::from_fn(|i| listed.get(i).copied().unwrap_or(0.0))
    }

    pub fn end(mut self) {
        assert!(self.slots.next().is_none(), "a slot too many");
    }
}

/// 0 and the value, or the number of the refusal alone.
pub fn answer(result: Result<Vec<Slot>, u64>) -> Vec<Slot> {
    match result {
        Ok(mut slots) => {
            slots.insert(0, word(0));
            slots
        }
        Err(number) => vec![word(number)],
    }
}
