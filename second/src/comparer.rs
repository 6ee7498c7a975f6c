//! Holds one implementation of the public steps against the codec and the best counts.

use std::collections::BTreeMap;
use std::fmt::{Debug, Display, Write};
use std::sync::{Arc, Mutex};

use crate::best;
use crate::codec::{self, Answer, Seat, Table};
use crate::lent::Lent;
use crate::steps::{Checked, Compared, Count, Opened, Refusal, Steps, Written, WORK_NUMBERS};

/// Tables with at most this many choices are also walked through plan by plan.
const MOST_CHOICES: usize = 20_000;

/// Where the checked implementation went wrong, with everything needed to do it again.
#[derive(Debug)]
pub struct Difference {
    pub step: &'static str,
    pub what: String,
    pub input: String,
}

impl Display for Difference {
    fn fmt(&self, f: &mut std::fmt::Formatter<'_>) -> std::fmt::Result {
        writeln!(f, "{}: {}", self.step, self.what)?;
        f.write_str(&self.input)
    }
}

pub type Outcome = Result<(), Box<Difference>>;

/// How many cases were compared, by kind and by the number that came out.
#[derive(Default)]
pub struct Tally {
    pub kinds: BTreeMap<(&'static str, &'static str), u64>,
    pub numbers: BTreeMap<&'static str, [u64; 12]>,
}

/// What is being compared right now, also for whoever waits for its end in vain.
#[derive(Default)]
pub struct Current {
    pub step: &'static str,
    input: Vec<u8>,
    beside: Beside,
}

/// What a step is given beside its first input.
#[derive(Default)]
enum Beside {
    #[default]
    Nothing,
    SecondLine(Vec<Count>),
    Area {
        bytes: usize,
    },
    Areas {
        bytes: usize,
        work_numbers: usize,
    },
}

impl Display for Current {
    fn fmt(&self, f: &mut std::fmt::Formatter<'_>) -> std::fmt::Result {
        write!(f, "input {}", hex(&self.input))?;
        match &self.beside {
            Beside::Nothing => Ok(()),
            Beside::SecondLine(line) => write!(f, "\nsecond line {}", hex(line)),
            Beside::Area { bytes } => write!(f, "\narea of {bytes} bytes"),
            Beside::Areas { bytes, work_numbers } => {
                write!(f, "\narea of {bytes} bytes, work area of {work_numbers} numbers")
            }
        }
    }
}

pub struct Comparer<'a> {
    subject: &'a dyn Steps,
    pub tally: Tally,
    pub current: Arc<Mutex<Current>>,
    /// The last table and its best counts: one table is used for several cases in turn.
    known: Option<(Table, Vec<Count>)>,
    cases: u64,
}

impl<'a> Comparer<'a> {
    pub fn new(subject: &'a dyn Steps) -> Self {
        Comparer {
            subject,
            tally: Tally::default(),
            current: Arc::default(),
            known: None,
            cases: 0,
        }
    }

    fn begin(&self, step: &'static str, input: &[u8], beside: Beside) {
        let mut current = self.current.lock().expect("nobody fails while reading it");
        current.step = step;
        current.input.clear();
        current.input.extend_from_slice(input);
        current.beside = beside;
    }

    fn found(&self, what: String) -> Box<Difference> {
        let current = self.current.lock().expect("nobody fails while reading it");
        Box::new(Difference { step: current.step, what, input: current.to_string() })
    }

    pub fn note(&mut self, group: &'static str, name: &'static str) {
        *self.tally.kinds.entry((group, name)).or_default() += 1;
    }

    fn count(&mut self, step: &'static str, number: u32) {
        self.tally.numbers.entry(step).or_default()[number as usize] += 1;
    }

    /// Lent memory gets another pattern each time.
    fn next_pattern(&mut self) -> u64 {
        self.cases += 1;
        self.cases.wrapping_mul(0xD134_2543_DE82_EF95)
    }

    // ---- steps without lent memory ----

    pub fn open(&mut self, block: &[u8]) -> Outcome {
        self.begin("open", block, Beside::Nothing);
        let expected = match codec::open(block) {
            Ok(part) => Opened { start: part.start, length: part.len(), ..Opened::default() },
            Err(refusal) => refusal.into(),
        };
        self.count("open", expected.number);
        same(expected, self.subject.open(block)).map_err(|what| self.found(what))
    }

    pub fn check(&mut self, payload: &[u8]) -> Outcome {
        self.begin("check", payload, Beside::Nothing);
        let expected = match codec::judge_payload(payload) {
            Ok(table) => Checked {
                signals: table.signals.into(),
                channels: table.channels.into(),
                ranks: table.ranks.into(),
                pairs: table.pairs.len() as u32,
                ..Checked::default()
            },
            Err(refusal) => refusal.into(),
        };
        self.count("check", expected.number);
        same(expected, self.subject.check(payload)).map_err(|what| self.found(what))
    }

    pub fn compare(&mut self, first: &[Count], second: &[Count]) -> Outcome {
        self.begin("compare", first, Beside::SecondLine(second.to_vec()));
        let expected = match codec::compare_lines(first, second) {
            Ok(order) => Compared { order, ..Compared::default() },
            Err(refusal) => refusal.into(),
        };
        self.count("compare", expected.number);
        same(expected, self.subject.compare(first, second)).map_err(|what| self.found(what))
    }

    // ---- framing ----

    pub fn frame(&mut self, payload: &[u8], area_bytes: usize) -> Outcome {
        self.begin("frame", payload, Beside::Area { bytes: area_bytes });
        let mut area = Lent::<u8>::new(area_bytes, self.next_pattern());
        let result = self.subject.frame(payload, area.part());
        let expected = codec::frame(payload, area_bytes);
        self.count("frame", number_of(&expected));
        let judged = match expected {
            Ok(block) => same(Written::success(block.len()), result)
                .and_then(|()| same_bytes(&block, area.first(block.len())))
                .and_then(|()| untouched("area", &area, block.len())),
            Err(refusal) => same(refusal.into(), result).and_then(|()| untouched("area", &area, 0)),
        };
        judged.map_err(|what| self.found(what))
    }

    // ---- whole commands ----

    pub fn handle(&mut self, block: &[u8], area_bytes: usize, work_numbers: usize) -> Outcome {
        self.begin("handle", block, Beside::Areas { bytes: area_bytes, work_numbers });
        let mut area = Lent::<u8>::new(area_bytes, self.next_pattern());
        let mut work = Lent::<u16>::new(work_numbers, self.next_pattern());
        let result = self.subject.handle(block, area.part(), work.part());
        let expected = codec::judge_command(block, area_bytes, work_numbers);
        self.count("handle", number_of(&expected));
        let judged = match expected {
            Ok(accepted) => same(Written::success(accepted.answer_block_bytes), result)
                .and_then(|()| zeroed(work.first(WORK_NUMBERS)))
                .and_then(|()| untouched("work area", &work, WORK_NUMBERS))
                .and_then(|()| untouched("area", &area, result.length))
                .and_then(|()| self.judge_answer_block(&accepted.table, area.first(result.length))),
            Err(refusal) => same(refusal.into(), result)
                .and_then(|()| untouched("area", &area, 0))
                .and_then(|()| untouched("work area", &work, 0)),
        };
        judged.map_err(|what| self.found(what))
    }

    fn judge_answer_block(&mut self, table: &Table, block: &[u8]) -> Result<(), String> {
        let part = codec::open(block).map_err(|refusal| {
            format!("the answer does not open: {refusal:?}, it reads {}", hex(block))
        })?;
        let payload = &block[part];
        if codec::block_of(payload) != block {
            return Err(format!("the answer's header is not the shortest: {}", hex(block)));
        }
        let answer = codec::unpack_answer(payload)?;
        judge_answer(table, &answer, &self.best_counts(table)?)
            .map_err(|what| format!("{what}; the answer is {}", hex(block)))
    }

    /// By assignment, and where the table is small by trying all plans as well.
    fn best_counts(&mut self, table: &Table) -> Result<Vec<Count>, String> {
        if let Some((_, counts)) = self.known.as_ref().filter(|(known, _)| known == table) {
            return Ok(counts.clone());
        }
        let counts = best::best_counts(table);
        self.note("best counts", "by assignment");
        if best::choices(table, MOST_CHOICES + 1) <= MOST_CHOICES {
            let tried = best::by_trying_all(table).counts;
            self.note("best counts", "by trying all plans as well");
            if tried != counts {
                return Err(format!("our own ways differ: assigned {counts:?}, tried {tried:?}"));
            }
        }
        self.known = Some((table.clone(), counts.clone()));
        Ok(counts)
    }
}

/// The answer is a plan of the table, its counts are true of it, and none are greater.
pub fn judge_answer(table: &Table, answer: &Answer, best: &[Count]) -> Result<(), String> {
    let sizes = (answer.places.len(), answer.counts.len());
    if sizes != (table.signals.into(), table.ranks.into()) {
        return Err(format!("the answer is for {} signals and {} ranks", sizes.0, sizes.1));
    }
    let mut holder = [None; 256];
    for (signal, seat) in answer.places.iter().enumerate() {
        let Some(seat) = *seat else { continue };
        if !lists(table, signal, seat) {
            return Err(format!("the table has no signal {signal} at {seat:?}"));
        }
        if let Some(other) = holder[usize::from(seat.channel)].replace(signal) {
            return Err(format!("signals {other} and {signal} share channel {}", seat.channel));
        }
    }
    let true_counts = best::counts_of(&answer.places, table.ranks);
    if answer.counts != true_counts {
        return Err(format!("it counts {:?}, its plan has {true_counts:?}", answer.counts));
    }
    if answer.counts != best {
        return Err(format!("its counts are {:?}, the best are {best:?}", answer.counts));
    }
    Ok(())
}

/// Entries ascend by signal and channel, so a pair is found by halving.
fn lists(table: &Table, signal: usize, seat: Seat) -> bool {
    let wanted = (signal, usize::from(seat.channel));
    let key = |pair: &codec::Pair| (usize::from(pair.signal), usize::from(pair.channel));
    let found = table.pairs.binary_search_by_key(&wanted, key);
    found.is_ok_and(|entry| table.pairs[entry].rank == seat.rank)
}

fn number_of<T>(expected: &Result<T, Refusal>) -> u32 {
    expected.as_ref().map_or_else(|refusal| refusal.number, |_| 0)
}

fn same<T: Debug + PartialEq>(expected: T, result: T) -> Result<(), String> {
    if expected == result {
        return Ok(());
    }
    Err(format!("gave {result:?}, expected {expected:?}"))
}

fn same_bytes(expected: &[u8], written: &[u8]) -> Result<(), String> {
    if expected == written {
        return Ok(());
    }
    Err(format!("wrote {}, expected {}", hex(written), hex(expected)))
}

fn untouched<T: crate::lent::Cell>(
    name: &str,
    lent: &Lent<T>,
    written: usize,
) -> Result<(), String> {
    match lent.change_beyond(written) {
        None => Ok(()),
        Some(index) => Err(format!("place {index} of the {name} was touched")),
    }
}

fn zeroed(work: &[u16]) -> Result<(), String> {
    match work.iter().position(|&number| number != 0) {
        None => Ok(()),
        Some(index) => Err(format!("number {index} of the work area is not zero")),
    }
}

fn hex(bytes: &[u8]) -> String {
    let mut text = format!("({} bytes)", bytes.len());
    for byte in bytes {
        write!(text, " {byte:02x}").expect("a string takes all text");
    }
    text
}
