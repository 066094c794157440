//! Records as images: words of eight bytes, the lowest byte first, in the order of harness/c/persimmonjib.h; and what each
//! word of an image may be.
use calls::table::{range, Range};
use calls::words::Slot;
use calls::{dfn, electrode, electrolyte, solver};
use std::sync::OnceLock;

/// What a call is lent as its image.
#[derive(Clone, Copy, PartialEq, Eq, Debug)]
pub enum Record {
    Nothing,
    Sheet,
    SheetAndNodes,
    Particle,
    Config,
    ConfigAndSheets,
    Cell,
    ElectrolyteParams,
    Regions,
    Electrolyte,
    DfnParamsAndConfig,
    DfnCell,
}

const RECORDS: [Record; 12] = [
    Record::Nothing,
    Record::Sheet,
    Record::SheetAndNodes,
    Record::Particle,
    Record::Config,
    Record::ConfigAndSheets,
    Record::Cell,
    Record::ElectrolyteParams,
    Record::Regions,
    Record::Electrolyte,
    Record::DfnParamsAndConfig,
    Record::DfnCell,
];

/// What an image is made of: so many words, or an array of so many places.
#[derive(Clone, Copy)]
pub enum Part {
    Words(usize),
    Places(usize),
}

use Part::{Places, Words};

pub const DFN_PARAMS: [Part; 4] = [Words(26), Places(16), Words(1), Places(16)];

impl Record {
    pub fn parts(self) -> &'static [Part] {
        match self {
            Record::Nothing => &[],
            Record::Sheet => &[Words(11)],
            Record::SheetAndNodes => &[Words(12)],
            Record::Particle => &[Words(12), Places(64)],
            Record::Config => &[Words(6)],
            Record::ConfigAndSheets => &[Words(28)],
            Record::Cell => &[Words(18), Places(64), Words(12), Places(64), Words(1)],
            Record::ElectrolyteParams => &[Words(8)],
            Record::Regions => &[Words(17)],
            Record::Electrolyte => &[Words(17), Places(96)],
            Record::DfnParamsAndConfig => &[Words(26), Places(16), Words(1), Places(16), Words(5)],
            Record::DfnCell => {
                &[Words(26), Places(16), Words(1), Places(16), Words(5), Places(512), Places(512), Places(33), Words(5)]
            }
        }
    }

    pub fn bytes(self) -> usize {
        bytes_of(self.parts())
    }

    pub fn fields(self) -> &'static Fields {
        static ALL: OnceLock<Vec<Fields>> = OnceLock::new();
        let all = ALL.get_or_init(|| RECORDS.iter().map(|record| Fields::of(*record)).collect());
        &all[RECORDS.iter().position(|record| *record == self).expect("every record is listed")]
    }
}

pub fn bytes_of(parts: &[Part]) -> usize {
    let words = |part: &Part| match part {
        Words(n) | Places(n) => *n,
    };
    8 * parts.iter().map(words).sum::<usize>()
}

pub fn words_of(image: &[u8]) -> Vec<u64> {
    image.chunks_exact(8).map(|bytes| u64::from_le_bytes(bytes.try_into().expect("eight bytes"))).collect()
}

pub fn bytes_from(words: &[u64]) -> Vec<u8> {
    words.iter().flat_map(|word| word.to_le_bytes()).collect()
}

/// An image as the slots that harness/calls reads.
pub fn slots_of(parts: &[Part], image: &[u8]) -> Vec<Slot> {
    let words = words_of(image);
    let mut rest = &words[..];
    let mut slots = Vec::new();
    for part in parts {
        let (Words(n) | Places(n)) = *part;
        let (taken, after) = rest.split_at(n);
        match part {
            Words(_) => slots.extend(taken.iter().map(|word| Slot::Word(*word))),
            Places(_) => slots.push(Slot::Places(taken.to_vec())),
        }
        rest = after;
    }
    assert!(rest.is_empty(), "an image of another length");
    slots
}

/// The image of what harness/calls gives as slots.
pub fn image_of(parts: &[Part], slots: &[Slot]) -> Vec<u8> {
    let mut words = Vec::new();
    let mut rest = slots.iter();
    let mut next = || rest.next().expect("a slot for each part");
    for part in parts {
        match part {
            Words(n) => {
                for _ in 0..*n {
                    let Slot::Word(word) = next() else { panic!("a word was expected") };
                    words.push(*word);
                }
            }
            Places(n) => {
                let Slot::Places(listed) = next() else { panic!("places were expected") };
                words.extend(listed);
                words.extend(std::iter::repeat(0).take(n - listed.len()));
            }
        }
    }
    assert!(rest.next().is_none(), "a slot too many");
    bytes_from(&words)
}

/// How many places of an array are used, by the words of its image.
#[derive(Clone, Copy)]
pub enum Used {
    Count(usize),
    Product(usize, usize),
    Sum3(usize),
    /// two counts, and one place between
    Around(usize, usize),
}

#[derive(Clone, Copy)]
pub enum Each {
    In(Range),
    /// from 0 to the number in this word
    UpTo(usize),
}

#[derive(Clone, Copy)]
pub struct Array {
    pub start: usize,
    pub places: usize,
    pub used: Used,
    pub each: Each,
}

impl Array {
    pub fn used_of(&self, words: &[u64]) -> usize {
        let count = |at: usize| words[at].min(1 << 20) as usize;
        let used = match self.used {
            Used::Count(at) => count(at),
            Used::Product(a, b) => count(a) * count(b),
            Used::Sum3(at) => count(at) + count(at + 1) + count(at + 2),
            Used::Around(a, b) => count(a) + 1 + count(b),
        };
        used.min(self.places)
    }
}

/// What a word may be.
#[derive(Clone, Copy)]
pub enum Meaning {
    Count(u64, u64),
    Number(Range),
    Clock,
    /// a place that is not used: +0
    Unused,
    /// not checked
    Free,
}

#[derive(Clone, Copy)]
enum Kind {
    Plain(Meaning),
    Place(usize),
}

/// The words of a record, their names and kinds.
pub struct Fields {
    names: Vec<String>,
    kinds: Vec<Kind>,
    pub arrays: Vec<Array>,
    /// the words that are no place of an array
    pub plain: Vec<usize>,
    /// the words that hold a reference temperature
    pub references: Vec<usize>,
}

impl Fields {
    fn of(record: Record) -> Self {
        let mut f = Self { names: Vec::new(), kinds: Vec::new(), arrays: Vec::new(), plain: Vec::new(), references: Vec::new() };
        match record {
            Record::Nothing => {}
            Record::Sheet => f.sheet(""),
            Record::SheetAndNodes => {
                f.sheet("");
                f.counts(&["n_nodes"], 3, 64);
            }
            Record::Particle => f.particle(""),
            Record::Config => f.config(),
            Record::ConfigAndSheets => {
                f.config();
                f.sheet("anode.");
                f.sheet("cathode.");
            }
            Record::Cell => {
                f.config();
                f.particle("anode.");
                f.particle("cathode.");
                f.plain("time_s", Meaning::Clock);
            }
            Record::ElectrolyteParams => f.salt(),
            Record::Regions => f.regions(),
            Record::Electrolyte => {
                f.regions();
                f.array("c_e", 96, Used::Sum3(14), Each::In(electrolyte::FLOOR));
            }
            Record::DfnParamsAndConfig => f.dfn(),
            Record::DfnCell => {
                f.dfn();
                f.array("c_s_neg", dfn::SOLID_PLACES, Used::Product(59, 61), Each::UpTo(6));
                f.array("c_s_pos", dfn::SOLID_PLACES, Used::Product(60, 61), Each::UpTo(12));
                f.array("c_e", dfn::ELECTROLYTE_PLACES, Used::Around(59, 60), Each::In(dfn::CONCENTRATION));
                f.plain("time_s", Meaning::Clock);
                for name in ["voltage", "current", "theta_neg_surf", "theta_pos_surf"] {
                    f.plain(name, Meaning::Free);
                }
            }
        }
        assert_eq!(8 * f.kinds.len(), record.bytes(), "{record:?}");
        f
    }

    fn plain(&mut self, name: &str, meaning: Meaning) {
        self.plain.push(self.kinds.len());
        self.names.push(name.to_string());
        self.kinds.push(Kind::Plain(meaning));
    }

    fn numbers(&mut self, prefix: &str, names: &[&str], ranges: &[Range]) {
        assert_eq!(names.len(), ranges.len());
        for (name, range) in names.iter().zip(ranges) {
            self.plain(&format!("{prefix}{name}"), Meaning::Number(*range));
        }
    }

    fn counts(&mut self, names: &[&str], low: u64, high: u64) {
        for name in names {
            self.plain(name, Meaning::Count(low, high));
        }
    }

    fn array(&mut self, name: &str, places: usize, used: Used, each: Each) {
        self.arrays.push(Array { start: self.kinds.len(), places, used, each });
        for i in 0..places {
            self.names.push(format!("{name}[{i}]"));
            self.kinds.push(Kind::Place(self.arrays.len() - 1));
        }
    }

    fn sheet(&mut self, prefix: &str) {
        self.plain(&format!("{prefix}chemistry"), Meaning::Count(1, 3));
        let names = ["r_particle", "d_s_ref", "c_s_max", "theta_init", "thickness", "epsilon_s", "area", "e_a_ds", "k_bv", "t_ref"];
        self.numbers(prefix, &names, &electrode::RANGES);
        self.references.push(self.kinds.len() - 1);
    }

    fn particle(&mut self, prefix: &str) {
        let start = self.kinds.len();
        self.sheet(prefix);
        self.counts(&[&format!("{prefix}n_nodes")], 3, 64);
        self.array(&format!("{prefix}c_s"), 64, Used::Count(start + 11), Each::UpTo(start + 3));
    }

    fn config(&mut self) {
        self.counts(&["n_nodes"], 3, 64);
        self.numbers("", &["v_min", "v_max", "faraday", "r_gas", "r_electrolyte_ohm_m2"], &solver::RANGES);
    }

    fn salt(&mut self) {
        let names = ["d_e_ref", "kappa_ref", "t_plus", "bruggeman", "c_e_init", "e_a_de", "e_a_kappa", "t_ref"];
        self.numbers("", &names, &electrolyte::RANGES);
        self.references.push(self.kinds.len() - 1);
    }

    fn regions(&mut self) {
        self.salt();
        self.numbers("", &["l_neg", "l_sep", "l_pos"], &[electrolyte::LENGTH; 3]);
        self.numbers("", &["eps_neg", "eps_sep", "eps_pos"], &[electrolyte::POROSITY; 3]);
        self.counts(&["n_neg", "n_sep", "n_pos"], 1, electrolyte::MOST_NODES);
    }

    fn dfn(&mut self) {
        let names = [
            "l_neg", "l_sep", "l_pos", "area", "r_neg", "d_s_neg_ref", "c_s_neg_max", "eps_neg", "theta_neg_0", "k_neg", "r_pos",
            "d_s_pos_ref", "c_s_pos_max", "eps_pos", "theta_pos_0", "k_pos", "c_e0", "d_e0", "gamma_e", "t_plus", "kappa0",
            "eps_e_elec", "eps_e_sep", "brugg", "temperature_k",
        ];
        self.numbers("", &names, &dfn::RANGES);
        for (name, at) in [("ocv_neg", 25), ("ocv_pos", 42)] {
            self.counts(&[&format!("{name}.count")], 0, dfn::MOST_COEFFICIENTS as u64);
            self.array(name, dfn::MOST_COEFFICIENTS, Used::Count(at), Each::In(dfn::COEFFICIENT));
        }
        self.counts(&["n_x_neg", "n_x_pos"], 1, dfn::MOST_X);
        self.counts(&["n_r"], 2, dfn::MOST_R);
        self.numbers("", &["v_min", "v_max"], &[dfn::VOLTAGE; 2]);
    }

    pub fn name(&self, at: usize) -> &str {
        self.names.get(at).map_or("?", |name| name)
    }

    pub fn is_count(&self, at: usize) -> bool {
        matches!(self.kinds[at], Kind::Plain(Meaning::Count(..)))
    }

    /// What the word may be, the other words being as they are.
    pub fn meaning(&self, at: usize, words: &[u64]) -> Meaning {
        match self.kinds[at] {
            Kind::Plain(meaning) => meaning,
            Kind::Place(array) => {
                let array = self.arrays[array];
                if at - array.start >= array.used_of(words) {
                    return Meaning::Unused;
                }
                match array.each {
                    Each::In(range) => Meaning::Number(range),
                    Each::UpTo(most) => Meaning::Number(range(0.0, f64::from_bits(words[most]))),
                }
            }
        }
    }
}
