//! What both sides answered, how often, and the first difference.

use std::collections::BTreeMap;
use std::fmt::{self, Debug};

/// A call's answer apart from what it leaves in lent lists.
#[derive(Clone, Copy, Debug, PartialEq, Eq, PartialOrd, Ord)]
pub enum Answer {
    /// 0 or the number of a refusal (01).
    Number(u32),
    Holds(bool),
    /// Of many answers in one list: a codeword was handed out, or refused.
    Within(bool),
    /// A number that can be given for several reasons, with the one that applies.
    Because(Reason),
}

/// Why an audio packet is refused with 17 or 18 (01).
#[derive(Clone, Copy, Debug, PartialEq, Eq, PartialOrd, Ord)]
pub enum Reason {
    FewCurves,
    FewWords,
    Identity,
    ShortTables,
    Tables,
    Tally,
}

impl Reason {
    const ALL: [Reason; 6] = [
        Reason::FewCurves,
        Reason::FewWords,
        Reason::Identity,
        Reason::ShortTables,
        Reason::Tables,
        Reason::Tally,
    ];

    fn name(self) -> &'static str {
        match self {
            Reason::FewCurves => "17 curves",
            Reason::FewWords => "17 words",
            Reason::Identity => "18 identity",
            Reason::ShortTables => "18 too short",
            Reason::Tables => "18 tables",
            Reason::Tally => "18 tally",
        }
    }
}

impl fmt::Display for Answer {
    fn fmt(&self, f: &mut fmt::Formatter) -> fmt::Result {
        match self {
            Answer::Number(number) => f.pad(&number.to_string()),
            Answer::Holds(holds) => f.pad(&holds.to_string()),
            Answer::Within(true) => f.pad("word"),
            Answer::Within(false) => f.pad("refused"),
            Answer::Because(reason) => f.pad(reason.name()),
        }
    }
}

/// A call of the library.
#[derive(Clone, Copy, Debug, PartialEq, Eq, PartialOrd, Ord)]
pub enum Call {
    Identification,
    IdentitySound,
    EnterLengths,
    Codewords,
    FloorPoints,
    FloorCurve,
    Setup,
    SetupSound,
    Codeword,
    Audio,
    AudioByValue,
}

impl Call {
    pub const ALL: [Call; 11] = [
        Call::Identification,
        Call::IdentitySound,
        Call::EnterLengths,
        Call::Codewords,
        Call::FloorPoints,
        Call::FloorCurve,
        Call::Setup,
        Call::SetupSound,
        Call::Codeword,
        Call::Audio,
        Call::AudioByValue,
    ];

    pub fn name(self) -> &'static str {
        match self {
            Call::Identification => "identification",
            Call::IdentitySound => "identity_sound",
            Call::EnterLengths => "enter_lengths",
            Call::Codewords => "codewords",
            Call::FloorPoints => "floor_points",
            Call::FloorCurve => "floor_curve",
            Call::Setup => "setup",
            Call::SetupSound => "setup_sound",
            Call::Codeword => "codeword",
            Call::Audio => "audio",
            Call::AudioByValue => "audio_by_value",
        }
    }

    /// Every answer the call can give; a run has to see each twice.
    fn answers(self) -> Vec<Answer> {
        match self {
            Call::Identification => [0, 1, 2, 3, 4, 5, 14].map(Answer::Number).to_vec(),
            Call::EnterLengths => {
                let numbers = [0, 17].map(Answer::Number);
                let within = [true, false].map(Answer::Within);
                [numbers, within].concat()
            }
            Call::Codewords => [0, 7, 8, 17].map(Answer::Number).to_vec(),
            Call::Setup => [0, 1, 2, 5, 6, 7, 8, 9, 10, 11, 12, 13, 14, 17, 18].map(Answer::Number).to_vec(),
            Call::Codeword => [0, 1, 11, 18].map(Answer::Number).to_vec(),
            Call::Audio | Call::AudioByValue => {
                let numbers = [0, 1, 15, 16, 17, 18, 19].map(Answer::Number);
                [&numbers[..], &Reason::ALL.map(Answer::Because)].concat()
            }
            Call::IdentitySound | Call::FloorPoints | Call::FloorCurve | Call::SetupSound => {
                [true, false].map(Answer::Holds).to_vec()
            }
        }
    }
}

/// An answer with what it left in the lent lists or in its fields.
#[derive(Clone, Debug, PartialEq, Eq)]
pub struct Given<T> {
    pub answer: Answer,
    pub left: T,
}

/// How often each side gave each answer.
#[derive(Debug, Default)]
pub struct Report {
    /// The library's and the second program's.
    given: BTreeMap<(Call, Answer), [u64; 2]>,
    calls: u64,
}

impl Report {
    /// How many calls have been compared.
    pub fn calls(&self) -> u64 {
        self.calls
    }

    /// Counts one call and compares its answers; `input` is for the message.
    pub fn compare<T: PartialEq + Debug>(
        &mut self,
        call: Call,
        library: &Given<T>,
        second: &Given<T>,
        input: impl FnOnce() -> String,
    ) -> Result<(), String> {
        self.calls += 1;
        for (side, given) in [library, second].into_iter().enumerate() {
            self.given.entry((call, given.answer)).or_default()[side] += 1;
        }
        if library == second {
            return Ok(());
        }
        Err(format!("{} of {}\n  library {library:?}\n  second  {second:?}", call.name(), input()))
    }

    /// Counts the answers in a list that a call left, the library's and the second
    /// program's.
    pub fn count_within(&mut self, call: Call, sides: [impl Iterator<Item = bool>; 2]) {
        for (side, answers) in sides.into_iter().enumerate() {
            for answer in answers {
                self.given.entry((call, Answer::Within(answer))).or_default()[side] += 1;
            }
        }
    }

    /// Counts the reason that the second program has for a number on which both sides agree.
    pub fn count_reason(&mut self, call: Call, reason: Reason) {
        for times in self.given.entry((call, Answer::Because(reason))).or_default() {
            *times += 1;
        }
    }

    /// Answers that a side has not given twice.
    pub fn missing(&self) -> Vec<String> {
        let pairs = Call::ALL.into_iter().flat_map(|call| call.answers().into_iter().map(move |a| (call, a)));
        let seen = |pair| self.given.get(&pair).is_some_and(|sides| sides.iter().all(|&times| times >= 2));
        pairs.filter(|&pair| !seen(pair)).map(|(call, answer)| format!("{} {answer}", call.name())).collect()
    }
}

impl fmt::Display for Report {
    fn fmt(&self, f: &mut fmt::Formatter) -> fmt::Result {
        write!(f, "{:<16}{:>13}{:>12}{:>12}", "call", "answer", "library", "second")?;
        for ((call, answer), [library, second]) in &self.given {
            write!(f, "\n{:<16}{answer:>13}{library:>12}{second:>12}", call.name())?;
        }
        Ok(())
    }
}

/// A list of numbers in hexadecimal, each of so many digits.
pub fn hex<T: fmt::LowerHex>(list: &[T], digits: usize) -> String {
    let numbers: Vec<String> = list.iter().map(|number| format!("{number:0digits$x}")).collect();
    format!("[{}]", numbers.join(" "))
}
