//! A geometry-of-interaction machine for PCF, over the calls of `goi.h`.
//!
//! ```
//! let answer = goi::tell("(fun x:nat. x + x) 3", goi::BUDGET, false).unwrap();
//! assert_eq!((answer.value, answer.moves), (Some(goi::Val::Number(6)), 30));
//!
//! let sum = goi::Function::new("fun x:nat. fun y:nat. x + y", 2).unwrap();
//! let values: Vec<_> = sum.each([[1, 2], [3, 4]]).map(|answer| answer.unwrap().value.unwrap()).collect();
//! assert_eq!(values, [goi::Val::Number(3), goi::Val::Number(7)]);
//! ```
//!
//! Each call runs in a thread of its own with a stack of `STACK_SIZE`, since a thread of Rust has less than the deepest programs take.

/// The calls, as `goi.h` declares them, with all that it asks of a caller.
pub mod sys {
    /// What a run came to: the value where `kind` is 1, and 0 where it is 0 for none or 2 for an overflow.
    #[repr(C)]
    #[derive(Clone, Copy, Default)]
    pub struct Answer {
        pub value: u64,
        pub moves: u32,
        pub kind: u32,
    }

    /// A fault in numbers; its kind is 0 where there is none.
    #[repr(C)]
    #[derive(Clone, Copy, Default)]
    pub struct Fault {
        pub status: u32,
        pub kind: u32,
        pub place: u32,
        pub ticket: u32,
    }

    #[rustfmt::skip]
    extern "C" {
        pub fn goi_tell(
            text: *const u8, text_size: usize, budget: u32, flags: u32, answer: *mut Answer, out: *mut u8, out_size: usize,
            needed: *mut usize,
        ) -> u32;
        pub fn goi_run(
            text: *const u8, text_size: usize, budget: u32, flags: u32, out: *mut u8, out_size: usize, needed: *mut usize,
        ) -> u32;
        pub fn goi_trace(
            text: *const u8, text_size: usize, budget: u32, flags: u32, from: u32, most: u32, out: *mut u8, out_size: usize,
            needed: *mut usize,
        ) -> u32;
        pub fn goi_run_net(
            text: *const u8, text_size: usize, budget: u32, schedule: bool, out: *mut u8, out_size: usize, needed: *mut usize,
        ) -> u32;
        pub fn goi_check(text: *const u8, text_size: usize, term: bool, out: *mut u8, out_size: usize, needed: *mut usize) -> u32;
        pub fn goi_net(text: *const u8, text_size: usize, out: *mut u8, out_size: usize, needed: *mut usize) -> u32;
        pub fn goi_replay(
            text: *const u8, text_size: usize, schedule: *const u8, schedule_size: usize, out: *mut u8, out_size: usize, needed: *mut usize,
        ) -> u32;
        pub fn goi_tell_each(
            text: *const u8, text_size: usize, arguments: u32, values: *const u64, values_count: usize, budget: u32, answers: *mut Answer,
            rows: usize, out: *mut u8, out_size: usize, needed: *mut usize,
        ) -> u32;
        pub fn goi_replay_trace(
            text: *const u8, text_size: usize, schedule: *const u8, schedule_size: usize, from: u32, most: u32, out: *mut u8,
            out_size: usize, needed: *mut usize,
        ) -> u32;
        pub fn goi_span(
            text: *const u8, text_size: usize, budget: u32, flags: u32, out: *mut u8, out_size: usize, needed: *mut usize,
        ) -> u32;
        pub fn goi_steps(
            text: *const u8, text_size: usize, budget: u32, from: u32, most: u32, out: *mut u8, out_size: usize, needed: *mut usize,
        ) -> u32;
        pub fn goi_circuit(
            text: *const u8, text_size: usize, cells: u32, forks: u32, out: *mut u8, out_size: usize, needed: *mut usize,
        ) -> u32;
        pub fn goi_find_fault(text: *const u8, text_size: usize, taken: u32, fault: *mut Fault) -> u32;
        pub fn goi_find_schedule_fault(
            text: *const u8, text_size: usize, schedule: *const u8, schedule_size: usize, fault: *mut Fault,
        ) -> u32;
        pub fn goi_version() -> u32;
        pub fn goi_version_text(out: *mut u8, out_size: usize, needed: *mut usize) -> u32;
    }
}

/// The default budget of moves.
pub const BUDGET: u32 = 10_000;
/// The most that a run may be allowed.
pub const BUDGET_MAX: u32 = 10_000_000;
/// Enough for any fault's line and any run without its schedule.
pub const LINE_SIZE: usize = 64;
/// How much of the stack a call may take.
pub const STACK_SIZE: usize = 4 << 20;
/// The last move with which a part of a trace may begin.
pub const FROM_MAX: u32 = 10_000_000;
/// The most moves that a part of a trace may have.
pub const TRACED_MAX: u32 = 1_000_000;
/// The most steps of a reduction that are told.
pub const STEPS_MAX: u32 = 100_000;
/// The cells of a circuit, by default and the most.
pub const CELLS: u32 = 1023;
pub const CELLS_MAX: u32 = 1_048_575;
/// The forks of a circuit, by default and the most.
pub const FORKS: u32 = 63;
pub const FORKS_MAX: u32 = 1024;
/// The most numbers that a function may take.
pub const ARGUMENTS_MAX: u32 = 1000;

/// A value.
#[derive(Clone, Copy, Debug, PartialEq, Eq)]
pub enum Val {
    Number(u64),
    /// A number past 64 bits was met.
    Overflow,
}

/// What a run came to.
#[derive(Clone, Copy, Debug, PartialEq, Eq)]
pub struct Answer {
    /// The value, or none within the budget.
    pub value: Option<Val>,
    /// The moves that were made; the whole budget where there is no value.
    pub moves: u32,
}

/// Which fault a text has.
#[derive(Clone, Copy, Debug, PartialEq, Eq, Hash)]
#[non_exhaustive]
pub enum Kind {
    /// From here on the bytes are not UTF-8.
    NotText,
    /// No token begins here.
    BadToken,
    /// A number above 2^64 - 1.
    NumberTooWide,
    /// No program goes on with this.
    Unexpected,
    /// Nested too deeply.
    TooDeep,
    /// With this the program has too many nodes.
    TooLarge,
    /// Longer than its limit; a schedule has the line that is too much.
    TooLong,
    /// A name that nothing binds.
    Unbound,
    /// Applied, and no function.
    FunctionWanted,
    /// An argument of another type.
    ArgumentMismatch,
    /// A number is wanted.
    NatWanted,
    /// The body of a `fix` is of another type.
    FixMismatch,
    /// A pair is wanted.
    PairWanted,
    /// Of another type than is wanted.
    NotGround,
    /// A `fix` without a translation by value.
    ByValueFix,
    /// A pair, by value.
    ByValuePair,
    /// Too high to be translated by value.
    ByValueDeep,
    /// The first line is another one.
    BadHeader,
    /// This line is another one.
    BadLine,
    /// There is no line `end`.
    NoEnd,
    /// A sound net, and that of no program.
    NotOfTerm,
    /// This wire has not two ends.
    LooseWire,
    /// The wires of this node have other types.
    TypeClash,
    /// The wires of this node are at other depths.
    DepthClash,
    /// The net has so many roots.
    RootCount,
    /// A ticket above 2^32 - 1.
    TicketTooWide,
    /// This entry has a ticket that is not live.
    NotLive,
    /// This entry comes behind the answer.
    AfterAnswer,
}

/// The kinds by their numbers, from 1 on.
#[rustfmt::skip]
pub const KINDS: [Kind; 28] = [
    Kind::NotText, Kind::BadToken, Kind::NumberTooWide, Kind::Unexpected, Kind::TooDeep, Kind::TooLarge,
    Kind::TooLong, Kind::Unbound, Kind::FunctionWanted, Kind::ArgumentMismatch, Kind::NatWanted, Kind::FixMismatch,
    Kind::PairWanted, Kind::NotGround, Kind::ByValueFix, Kind::ByValuePair, Kind::ByValueDeep, Kind::BadHeader,
    Kind::BadLine, Kind::NoEnd, Kind::NotOfTerm, Kind::LooseWire, Kind::TypeClash, Kind::DepthClash, Kind::RootCount,
    Kind::TicketTooWide, Kind::NotLive, Kind::AfterAnswer,
];

/// What a text is taken for, where its first fault is asked for.
#[derive(Clone, Copy, Debug, PartialEq, Eq)]
pub enum Taken {
    /// A program of any type.
    Program,
    /// One of type `nat`, which is run by name.
    Number,
    /// One of type `nat` that is run by value.
    ByValue,
    /// The listing of a program's net.
    Listing,
    /// A function of so many numbers.
    Function(u32),
}

impl Taken {
    fn number(self) -> u32 {
        match self {
            Taken::Program => 0,
            Taken::Number => 1,
            Taken::ByValue => 2,
            Taken::Listing => 3,
            Taken::Function(arguments) => arguments.saturating_add(4),
        }
    }

    fn run(by_value: bool) -> Taken {
        if by_value { Taken::ByValue } else { Taken::Number }
    }
}

/// Why there is no answer.
#[derive(Clone, Debug, PartialEq, Eq)]
pub enum Error {
    /// The program, the schedule or the listing has a fault.
    Refused {
        /// Which fault.
        kind: Kind,
        /// Where it is: a byte of a program, a line or an entry of a file, or the number that a net's fault has.
        place: Option<u32>,
        /// The whole of it, as in `Unexpected(0)`.
        fault: String,
    },
    /// A number is outside its range: the budget isn't from 1 to 10,000,000.
    BadCall,
    /// There was no memory.
    NoMemory,
}

impl std::fmt::Display for Error {
    fn fmt(&self, f: &mut std::fmt::Formatter<'_>) -> std::fmt::Result {
        match self {
            Error::Refused { fault, .. } => write!(f, "refused: {fault}"),
            Error::BadCall => write!(f, "a number is outside its range"),
            Error::NoMemory => write!(f, "no memory"),
        }
    }
}

impl std::error::Error for Error {}

/// What a text is refused as.
#[derive(Clone, Copy)]
enum Judged<'a> {
    Text(&'a [u8], Taken),
    Schedule(&'a [u8], &'a [u8]),
}

/// The first fault, and which it is; none where there is none.
fn fault_of(judged: Judged) -> Result<Option<(Kind, Option<u32>)>, Error> {
    let mut fault = sys::Fault::default();
    let status = match judged {
        Judged::Text(text, taken) => unsafe { sys::goi_find_fault(text.as_ptr(), text.len(), taken.number(), &mut fault) },
        Judged::Schedule(text, schedule) => unsafe {
            sys::goi_find_schedule_fault(text.as_ptr(), text.len(), schedule.as_ptr(), schedule.len(), &mut fault)
        },
    };
    match status {
        0 => Ok(None),
        6 => Err(Error::NoMemory),
        _ => Ok(Some((KINDS[fault.kind as usize - 1], (fault.place != u32::MAX).then_some(fault.place)))),
    }
}

fn error_of(status: u32, line: &[u8], judged: Judged) -> Error {
    match status {
        2 => Error::BadCall,
        6 => Error::NoMemory,
        _ => match fault_of(judged) {
            Err(error) => error,
            Ok(found) => {
                let (kind, place) = found.expect("what is refused has a fault");
                let fault = String::from_utf8_lossy(line).trim_end().trim_start_matches("refused: ").to_owned();
                Error::Refused { kind, place, fault }
            }
        },
    }
}

/// The first fault of a text as what it is taken for, and where it is; none where it has none.
pub fn find_fault(text: impl AsRef<[u8]>, taken: Taken) -> Result<Option<(Kind, Option<u32>)>, Error> {
    let text = text.as_ref();
    apart(|| fault_of(Judged::Text(text, taken)))
}

/// The first fault of a program's text, or else of a schedule that is to be run on its net.
pub fn find_schedule_fault(text: impl AsRef<[u8]>, schedule: impl AsRef<[u8]>) -> Result<Option<(Kind, Option<u32>)>, Error> {
    let (text, schedule) = (text.as_ref(), schedule.as_ref());
    apart(|| fault_of(Judged::Schedule(text, schedule)))
}

/// What a call answers in a thread with room on its stack; no thread is no memory.
fn apart<T: Send>(call: impl FnOnce() -> Result<T, Error> + Send) -> Result<T, Error> {
    std::thread::scope(|scope| {
        // (the pages above the call's are the thread's own)
        let thread = std::thread::Builder::new().stack_size(STACK_SIZE + (1 << 16)).spawn_scoped(scope, call);
        thread.map_err(|_| Error::NoMemory)?.join().expect("a call never panics")
    })
}

/// Calls with as much room as the text takes.
fn text_of(judged: Judged, call: impl Fn(&mut [u8], &mut usize) -> u32 + Send) -> Result<String, Error> {
    apart(move || {
        let (mut out, mut needed) = (vec![0; LINE_SIZE], 0);
        loop {
            let status = call(&mut out, &mut needed);
            match status {
                4 => out.resize(needed, 0),
                0 | 5 => return Ok(String::from_utf8_lossy(&out[..needed]).into_owned()),
                _ => return Err(error_of(status, &out[..needed], judged)),
            }
        }
    })
}

// SAFETY, of all that follows: each pointer is that of a live value of the declared type and size, none overlaps another, and the stack
// has the room that goi.h asks for.

/// The answer in numbers.
fn answer_of(answer: &sys::Answer) -> Answer {
    let value = match answer.kind {
        1 => Some(Val::Number(answer.value)),
        2 => Some(Val::Overflow),
        _ => None,
    };
    Answer { value, moves: answer.moves }
}

/// What the program comes to.
pub fn tell(text: impl AsRef<[u8]>, budget: u32, by_value: bool) -> Result<Answer, Error> {
    let text = text.as_ref();
    apart(|| {
        let (mut answer, mut line, mut needed) = (sys::Answer::default(), [0; LINE_SIZE], 0);
        let flags = u32::from(by_value);
        let (at, size) = (line.as_mut_ptr(), line.len());
        let status = unsafe { sys::goi_tell(text.as_ptr(), text.len(), budget, flags, &mut answer, at, size, &mut needed) };
        match status {
            0 | 5 => Ok(answer_of(&answer)),
            _ => Err(error_of(status, &line[..needed], Judged::Text(text, Taken::run(by_value)))),
        }
    })
}

/// What the function of a text comes to at each row of so many numbers, which stand one behind the other. The text is read, typed and
/// built once.
pub fn tell_each(text: impl AsRef<[u8]>, arguments: u32, values: &[u64], rows: usize, budget: u32) -> Result<Vec<Answer>, Error> {
    let text = text.as_ref();
    apart(|| {
        let (mut answers, mut line, mut needed) = (vec![sys::Answer::default(); rows], [0; LINE_SIZE], 0);
        let (at, size) = (line.as_mut_ptr(), line.len());
        let status = unsafe {
            let (given, count, told) = (values.as_ptr(), values.len(), answers.as_mut_ptr());
            sys::goi_tell_each(text.as_ptr(), text.len(), arguments, given, count, budget, told, rows, at, size, &mut needed)
        };
        match status {
            0 | 5 => Ok(answers.iter().map(answer_of).collect()),
            _ => Err(error_of(status, &line[..needed], Judged::Text(text, Taken::Function(arguments)))),
        }
    })
}

/// A text of type `nat -> .. -> nat`, with how many numbers it takes.
///
/// The text is looked at when the function is made; `call` and each piece of `each` read it once.
#[derive(Clone, Debug, PartialEq, Eq)]
pub struct Function {
    text: Vec<u8>,
    arguments: u32,
    /// The most moves of a row.
    pub budget: u32,
}

impl Function {
    /// The function of a text, with the default budget.
    pub fn new(text: impl Into<Vec<u8>>, arguments: u32) -> Result<Function, Error> {
        let made = Function { text: text.into(), arguments, budget: BUDGET };
        tell_each(&made.text, arguments, &[], 0, BUDGET)?;
        Ok(made)
    }

    /// What it comes to at these numbers.
    pub fn call(&self, numbers: &[u64]) -> Result<Answer, Error> {
        Ok(tell_each(&self.text, self.arguments, numbers, 1, self.budget)?[0])
    }

    /// What it comes to at each of these rows, in turn. A thousand rows are run in one call. A row of another length is a `BadCall`.
    pub fn each<R: AsRef<[u64]>, I: IntoIterator<Item = R>>(&self, rows: I) -> Each<'_, I::IntoIter> {
        Each { function: self, rows: rows.into_iter(), told: Vec::new().into_iter() }
    }

    fn rows(&self, rows: &[impl AsRef<[u64]>]) -> Result<Vec<Answer>, Error> {
        let mut values = Vec::new();
        for row in rows {
            if row.as_ref().len() != self.arguments as usize {
                return Err(Error::BadCall);
            }
            values.extend_from_slice(row.as_ref());
        }
        tell_each(&self.text, self.arguments, &values, rows.len(), self.budget)
    }
}

/// The answers of a function at rows.
pub struct Each<'a, I> {
    function: &'a Function,
    rows: I,
    told: std::vec::IntoIter<Answer>,
}

impl<R: AsRef<[u64]>, I: Iterator<Item = R>> Iterator for Each<'_, I> {
    type Item = Result<Answer, Error>;

    fn next(&mut self) -> Option<Self::Item> {
        if self.told.len() == 0 {
            let some: Vec<R> = self.rows.by_ref().take(1000).collect();
            match self.function.rows(&some) {
                Ok(_) if some.is_empty() => return None,
                Ok(told) => self.told = told.into_iter(),
                Err(error) => return Some(Err(error)),
            }
        }
        self.told.next().map(Ok)
    }
}

/// What `goi run` prints, with the schedule behind it where asked.
pub fn run(text: impl AsRef<[u8]>, budget: u32, by_value: bool, schedule: bool) -> Result<String, Error> {
    let text = text.as_ref();
    let flags = u32::from(by_value) + 2 * u32::from(schedule);
    text_of(Judged::Text(text, Taken::run(by_value)), |out, needed| unsafe {
        sys::goi_run(text.as_ptr(), text.len(), budget, flags, out.as_mut_ptr(), out.len(), needed)
    })
}

/// What `goi span` prints: the value, the moves, the rounds and their greatest width, and where asked the schedule and a line a round.
pub fn span(text: impl AsRef<[u8]>, budget: u32, by_value: bool, schedule: bool, profile: bool) -> Result<String, Error> {
    let text = text.as_ref();
    let flags = u32::from(by_value) + 2 * u32::from(schedule) + 4 * u32::from(profile);
    text_of(Judged::Text(text, Taken::run(by_value)), |out, needed| unsafe {
        sys::goi_span(text.as_ptr(), text.len(), budget, flags, out.as_mut_ptr(), out.len(), needed)
    })
}

/// What `goi steps` prints: the value, the number of steps of the reduction by name, and its terms from a step on, of at most so many steps.
pub fn steps(text: impl AsRef<[u8]>, budget: u32, from: u32, most: u32) -> Result<String, Error> {
    let text = text.as_ref();
    text_of(Judged::Text(text, Taken::Number), |out, needed| unsafe {
        sys::goi_steps(text.as_ptr(), text.len(), budget, from, most, out.as_mut_ptr(), out.len(), needed)
    })
}

/// What `goi trace` prints: the value and the moves, and the walk from a move on, of at most so many moves.
pub fn trace(text: impl AsRef<[u8]>, budget: u32, by_value: bool, from: u32, most: u32) -> Result<String, Error> {
    let text = text.as_ref();
    let flags = u32::from(by_value);
    text_of(Judged::Text(text, Taken::run(by_value)), |out, needed| unsafe {
        let (at, size) = (out.as_mut_ptr(), out.len());
        sys::goi_trace(text.as_ptr(), text.len(), budget, flags, from, most, at, size, needed)
    })
}

/// What `goi run-net` prints, for the program whose net the text lists.
pub fn run_net(text: impl AsRef<[u8]>, budget: u32, schedule: bool) -> Result<String, Error> {
    let text = text.as_ref();
    text_of(Judged::Text(text, Taken::Listing), |out, needed| unsafe {
        sys::goi_run_net(text.as_ptr(), text.len(), budget, schedule, out.as_mut_ptr(), out.len(), needed)
    })
}

/// What `goi check` prints: the type, and with `term` the program itself.
pub fn check(text: impl AsRef<[u8]>, term: bool) -> Result<String, Error> {
    let text = text.as_ref();
    text_of(Judged::Text(text, Taken::Program), |out, needed| unsafe {
        sys::goi_check(text.as_ptr(), text.len(), term, out.as_mut_ptr(), out.len(), needed)
    })
}

/// The listing of the program's net, as `goi net` prints it.
pub fn net(text: impl AsRef<[u8]>) -> Result<String, Error> {
    let text = text.as_ref();
    text_of(Judged::Text(text, Taken::Number), |out, needed| unsafe {
        sys::goi_net(text.as_ptr(), text.len(), out.as_mut_ptr(), out.len(), needed)
    })
}

/// The circuit of the program's net, with so many cells and forks, as `goi circuit` prints it: of a function of numbers it has a port
/// for each argument.
pub fn circuit(text: impl AsRef<[u8]>, cells: u32, forks: u32) -> Result<String, Error> {
    let text = text.as_ref();
    text_of(Judged::Text(text, Taken::Number), |out, needed| unsafe {
        sys::goi_circuit(text.as_ptr(), text.len(), cells, forks, out.as_mut_ptr(), out.len(), needed)
    })
}

/// What `goi replay` prints: what the schedule comes to on the program's net.
pub fn replay(text: impl AsRef<[u8]>, schedule: impl AsRef<[u8]>) -> Result<String, Error> {
    let (text, schedule) = (text.as_ref(), schedule.as_ref());
    text_of(Judged::Schedule(text, schedule), |out, needed| unsafe {
        let (at, size) = (out.as_mut_ptr(), out.len());
        sys::goi_replay(text.as_ptr(), text.len(), schedule.as_ptr(), schedule.len(), at, size, needed)
    })
}

/// What `goi replay --trace` prints: the same, and the walk of the schedule's moves from a move on, of at most so many.
pub fn replay_trace(text: impl AsRef<[u8]>, schedule: impl AsRef<[u8]>, from: u32, most: u32) -> Result<String, Error> {
    let (text, schedule) = (text.as_ref(), schedule.as_ref());
    text_of(Judged::Schedule(text, schedule), |out, needed| unsafe {
        let (at, size) = (out.as_mut_ptr(), out.len());
        sys::goi_replay_trace(text.as_ptr(), text.len(), schedule.as_ptr(), schedule.len(), from, most, at, size, needed)
    })
}

/// The library's version: ten thousand times its first number, a hundred times its second, and its third.
pub fn version() -> u32 {
    unsafe { sys::goi_version() }
}

/// The library's name and version.
pub fn version_text() -> String {
    let (mut line, mut needed) = ([0; LINE_SIZE], 0);
    unsafe { sys::goi_version_text(line.as_mut_ptr(), line.len(), &mut needed) };
    String::from_utf8_lossy(&line[..needed]).trim_end().to_owned()
}

#[cfg(test)]
mod tests {
    use super::*;

    const DOUBLE: &str = "(fun x:nat. x + x) 3";
    const ONE_NET: &str = "net 1\nwire 0 value 0 nat\nnode 0 Const 1 0\nnode 1 Root 0\nend\n";
    const MOVE_0: &str = "move 0 worker 0 ticket 0 node 0 Const conclusion conclusion ? up 0 - - => 1 down 0 - -\n";
    const MOVE_1: &str = "move 1 worker 0 ticket 0 node 1 Root value - 1 down 0 - - => answer 1\n";

    /// What is refused for a fault with a place, and one without.
    fn refused<T>(kind: Kind, place: impl Into<Option<u32>>, fault: &str) -> Result<T, Error> {
        Err(Error::Refused { kind, place: place.into(), fault: fault.into() })
    }

    #[test]
    fn answers() {
        let answer = |value, moves| Ok(Answer { value, moves });
        assert_eq!(tell(DOUBLE, BUDGET, false), answer(Some(Val::Number(6)), 30));
        assert_eq!(tell("4", BUDGET, false), answer(Some(Val::Number(4)), 2));
        assert_eq!(tell("4", BUDGET, true), answer(Some(Val::Number(4)), 34));
        assert_eq!(tell("18446744073709551615", BUDGET, false), answer(Some(Val::Number(u64::MAX)), 2));
        assert_eq!(tell("succ 18446744073709551615", BUDGET, false), answer(Some(Val::Overflow), 4));
        assert_eq!(tell("fix y:nat. y", 77, false), answer(None, 77));
        assert_eq!(tell("fix y:nat. y", BUDGET, false), answer(None, 10_000));
        assert_eq!(tell("", BUDGET, false), refused(Kind::Unexpected, 0, "Unexpected(0)"));
        assert_eq!(tell("fst (1, 2)", BUDGET, false), answer(Some(Val::Number(1)), 6));
        assert_eq!(tell("fst (1, 2)", BUDGET, true), refused(Kind::ByValuePair, 0, "ByValuePair(0)"));
        assert_eq!(version(), 10_100);
    }

    #[test]
    fn numbers() {
        let one = |moves| Ok(Answer { value: Some(Val::Number(1)), moves });
        assert_eq!(tell("1", BUDGET_MAX, false), one(2));
        for budget in [0, BUDGET_MAX + 1, u32::MAX] {
            assert_eq!(tell("1", budget, false), Err(Error::BadCall));
            assert_eq!(run("1", budget, false, false), Err(Error::BadCall));
            assert_eq!(trace("1", budget, false, 0, 1), Err(Error::BadCall));
            assert_eq!(run_net(ONE_NET, budget, false), Err(Error::BadCall));
        }
        assert_eq!(trace("1", BUDGET_MAX, false, FROM_MAX, TRACED_MAX).unwrap(), "value 1\nmoves 2\ntrace 1\nend\n");
        for (from, most) in [(FROM_MAX + 1, 1), (0, 0), (0, TRACED_MAX + 1)] {
            assert_eq!(trace("1", BUDGET, false, from, most), Err(Error::BadCall));
        }
    }

    #[test]
    fn runs() {
        assert_eq!(run("4", BUDGET, false, false).unwrap(), "value 4\nmoves 2\n");
        assert_eq!(run("4", BUDGET, false, true).unwrap(), "value 4\nmoves 2\nschedule 2\n0 2\nend\n");
        assert_eq!(run("4", BUDGET, true, false).unwrap(), "value 4\nmoves 34\n");
        assert!(run("4", BUDGET, true, true).unwrap().starts_with("value 4\nmoves 34\nschedule 2\n"));
        assert_eq!(run("fix y:nat. y", 5, false, false).unwrap(), "no value\nmoves 5\n");
        assert_eq!(run("x", BUDGET, false, false), refused(Kind::Unbound, 0, "Unbound(0)"));
        assert_eq!(run_net(ONE_NET, BUDGET, false).unwrap(), "value 1\nmoves 2\n");
        assert_eq!(run_net(ONE_NET, BUDGET, true).unwrap(), "value 1\nmoves 2\nschedule 2\n0 2\nend\n");
        assert_eq!(run_net("net 2\n", BUDGET, false), refused(Kind::BadLine, 1, "BadLine(1)"));
    }

    #[test]
    fn walks() {
        const HEAD: &str = "value 1\nmoves 2\ntrace 1\n";
        let (first, second) = ("live 0 ? up 0 - -\n", "live 0 1 down 0 - -\n");
        assert_eq!(trace("1", BUDGET, false, 0, 9).unwrap(), format!("{HEAD}{first}{MOVE_0}{MOVE_1}end\n"));
        assert_eq!(trace("1", BUDGET, false, 0, 1).unwrap(), format!("{HEAD}{first}{MOVE_0}end\n"));
        assert_eq!(trace("1", BUDGET, false, 1, 2).unwrap(), format!("{HEAD}{second}{MOVE_1}end\n"));
        assert!(trace("1", BUDGET, true, 0, 9).unwrap().starts_with("value 1\nmoves 34\ntrace 1\n"));
        assert_eq!(trace("fun x:nat. x", BUDGET, false, 0, 9), refused(Kind::NotGround, None, "NotGround"));
    }

    #[test]
    fn texts() {
        assert_eq!(check("fun x:nat. x", false).unwrap(), "type nat -> nat\n");
        assert_eq!(check("fun x:nat. x", true).unwrap(), "type nat -> nat\nterm fun x:nat. x\n");
        assert_eq!(check("1 2", true), refused(Kind::FunctionWanted, 0, "FunctionWanted(0)"));
        assert_eq!(net("1").unwrap(), ONE_NET);
        assert_eq!(net("("), refused(Kind::Unexpected, 1, "Unexpected(1)"));
        assert_eq!(replay("1", "schedule 1\n0\n0\nend\n").unwrap(), "value 1\nmoves 2\n");
        assert_eq!(replay("1", "schedule 1\n0\nend\n").unwrap(), "no value\nmoves 1\n");
        assert_eq!(replay("1", "schedule 1\n7\nend\n"), refused(Kind::NotLive, 0, "NotLive(0,7)"));
        assert_eq!(replay(")", "schedule\n"), refused(Kind::Unexpected, 0, "Unexpected(0)"));
        assert_eq!(check(b"\xff", false), refused(Kind::NotText, 0, "NotText(0)"));
    }

    #[test]
    fn rounds() {
        assert_eq!(span("4", BUDGET, false, false, false).unwrap(), "value 4\nmoves 2\nrounds 2\nwidest 1\n");
        let whole = span("1 + 2", BUDGET, false, true, true).unwrap();
        assert!(whole.starts_with("value 3\nmoves 6\nrounds ") && whole.contains("\nround 1 live 1 moves 1\n"));
        let at = whole.find("schedule ").unwrap();
        assert_eq!(replay("1 + 2", &whole[at..]).unwrap(), "value 3\nmoves 6\n");
        assert!(!span("1 + 2", BUDGET, false, true, false).unwrap().contains("\nround 1"));
        assert!(!span("1 + 2", BUDGET, false, false, true).unwrap().contains("schedule"));
        assert!(span("4", BUDGET, true, false, false).unwrap().starts_with("value 4\nmoves 34\n"));
        assert_eq!(span("4", 0, false, false, false), Err(Error::BadCall));
        assert_eq!(span("fst (1, 2)", BUDGET, true, false, false), refused(Kind::ByValuePair, 0, "ByValuePair(0)"));
    }

    #[test]
    fn reductions() {
        let whole = "value 3\nsteps 1\nstep 0 plus 0 5 1 + 2\nend 1 3\n";
        assert_eq!(steps("1 + 2", BUDGET, 0, STEPS_MAX).as_deref(), Ok(whole));
        assert_eq!(steps("1 + 2", BUDGET, 1, 1).as_deref(), Ok("value 3\nsteps 1\nend 1 3\n"));
        assert_eq!(steps("fix x:nat. x", 1, 0, 1).as_deref(), Ok("no value\nsteps 1\nstep 0 fix 0 12 fix x:nat. x\nstop 1 budget\n"));
        for (budget, from, most) in [(0, 0, 1), (BUDGET_MAX + 1, 0, 1), (1, FROM_MAX + 1, 1), (1, 0, 0), (1, 0, STEPS_MAX + 1)] {
            assert_eq!(steps("1", budget, from, most), Err(Error::BadCall));
        }
        assert_eq!(steps("fun x:nat. x", BUDGET, 0, 1), refused(Kind::NotGround, None, "NotGround"));
    }

    #[test]
    fn circuits() {
        let text = circuit("1", CELLS, FORKS).unwrap();
        assert!(text.contains("module") && text.ends_with("endmodule\n`default_nettype wire\n// verilator lint_restore\n"));
        assert_ne!(text, circuit("1", 1, FORKS).unwrap());
        assert_ne!(text, circuit("1", CELLS, FORKS_MAX).unwrap());
        circuit("1", CELLS_MAX, 1).unwrap();
        for (cells, forks) in [(0, 1), (CELLS_MAX + 1, 1), (CELLS, 0), (CELLS, FORKS_MAX + 1)] {
            assert_eq!(circuit("1", cells, forks), Err(Error::BadCall));
        }
        assert!(circuit("fun x:nat. x", CELLS, FORKS).unwrap().contains("  input wire [63:0] arg0\n"));
        assert_eq!(circuit("(1, 2)", CELLS, FORKS), refused(Kind::NotGround, None, "NotGround"));
    }

    #[test]
    fn replayed_walks() {
        let (head, schedule) = ("value 1\nmoves 2\ntrace 1\n", "schedule 1\n0\n0\nend\n");
        let (first, second) = ("live 0 ? up 0 - -\n", "live 0 1 down 0 - -\n");
        assert_eq!(replay_trace("1", schedule, 0, 9).unwrap(), format!("{head}{first}{MOVE_0}{MOVE_1}end\n"));
        assert_eq!(replay_trace("1", schedule, 1, 1).unwrap(), format!("{head}{second}{MOVE_1}end\n"));
        assert_eq!(replay_trace("1", schedule, FROM_MAX, TRACED_MAX).unwrap(), format!("{head}end\n"));
        for (from, most) in [(FROM_MAX + 1, 1), (0, 0), (0, TRACED_MAX + 1)] {
            assert_eq!(replay_trace("1", schedule, from, most), Err(Error::BadCall));
        }
        assert_eq!(replay_trace("1", "schedule 1\n7\nend\n", 0, 9), refused(Kind::NotLive, 0, "NotLive(0,7)"));
    }

    #[test]
    fn functions() {
        const MINUS: &str = "fun x:nat. fun y:nat. x - y";
        let number = |n, moves| Answer { value: Some(Val::Number(n)), moves };
        let answers = tell_each(MINUS, 2, &[9, 4, 4, 9, u64::MAX, 1], 3, BUDGET).unwrap();
        let alone = |row| tell(format!("({MINUS}) {row}"), BUDGET, false).unwrap();
        assert_eq!(answers, [alone("9 4"), alone("4 9"), alone("18446744073709551615 1")]);
        assert_eq!(answers[2].value, Some(Val::Number(u64::MAX - 1)));
        let function = Function::new("fun x:nat. x + x", 1).unwrap();
        assert_eq!(function.call(&[3]), Ok(number(6, 30)));
        assert_eq!(function.call(&[u64::MAX]), Ok(Answer { value: Some(Val::Overflow), moves: 30 }));
        assert!(function.each((0..2500).map(|n| [n])).map(Result::unwrap).eq((0..2500).map(|n| number(2 * n, 30))));
        assert_eq!(function.call(&[1, 2]), Err(Error::BadCall));
        assert_eq!(function.call(&[]), Err(Error::BadCall));
        assert_eq!(function.each([[1, 2]]).next(), Some(Err(Error::BadCall)));
        assert_eq!(function.each([vec![1, 2], vec![]]).next(), Some(Err(Error::BadCall)));
        let few = Function { budget: 29, ..function };
        assert_eq!(few.call(&[3]), Ok(Answer { value: None, moves: 29 }));
        assert_eq!(tell_each("7", 0, &[], 2, BUDGET), Ok(vec![number(7, 2); 2]));
        for budget in [0, BUDGET_MAX + 1] {
            assert_eq!(tell_each("7", 0, &[], 1, budget), Err(Error::BadCall));
        }
        assert_eq!(tell_each(MINUS, 1, &[1], 1, BUDGET), refused(Kind::NotGround, None, "NotGround"));
        assert_eq!(Function::new(MINUS, 3), refused(Kind::NotGround, None, "NotGround"));
        assert_eq!(Function::new("fun x:nat. y", 1), refused(Kind::Unbound, 11, "Unbound(11)"));
        let most = "fun x:nat. ".repeat(500) + "x";
        assert!(matches!(Function::new(most, ARGUMENTS_MAX + 1), Err(Error::Refused { .. })));
    }

    #[test]
    fn faults() {
        let found = |kind, place| Ok(Some((kind, place)));
        assert_eq!(find_fault("1", Taken::Number), Ok(None));
        assert_eq!(find_fault("fun x:nat. x", Taken::Program), Ok(None));
        assert_eq!(find_fault("fun x:nat. x", Taken::Number), found(Kind::NotGround, None));
        assert_eq!(find_fault("fun x:nat. x", Taken::Function(1)), Ok(None));
        assert_eq!(find_fault("fun x:nat. x", Taken::Function(2)), found(Kind::NotGround, None));
        assert_eq!(find_fault("fst (1, 2)", Taken::ByValue), found(Kind::ByValuePair, Some(0)));
        assert_eq!(find_fault(ONE_NET, Taken::Listing), Ok(None));
        assert_eq!(find_fault(ONE_NET.replace("value 0", "value 1"), Taken::Listing), found(Kind::DepthClash, Some(1)));
        assert_eq!(find_schedule_fault("1", "schedule 1\n0\n0\n0\nend\n"), found(Kind::AfterAnswer, Some(2)));
        assert_eq!(find_schedule_fault("1 +", "schedule"), found(Kind::Unexpected, Some(3)));
        assert_eq!(find_schedule_fault("1", "schedule 1\n0\nend\n"), Ok(None));
        assert_eq!(version_text(), "goi 1.1.0");
    }

    #[test]
    fn deep() {
        let text = format!("{}0{}", "(".repeat(500), ")".repeat(500));
        assert_eq!(tell(text, BUDGET, false).unwrap().value, Some(Val::Number(0)));
    }

    #[test]
    fn many_threads() {
        let texts: Vec<String> = (0..16).map(|n| format!("(fun x:nat. x + x) {n}")).collect();
        std::thread::scope(|s| {
            for (n, text) in texts.iter().enumerate() {
                s.spawn(move || {
                    for _ in 0..100 {
                        assert_eq!(tell(text, BUDGET, false).unwrap().value, Some(Val::Number(2 * n as u64)));
                    }
                });
            }
        });
    }
}
