//! What is asked and what is answered, in the words of the documents 01 and 02.

use std::ops::AddAssign;

pub type Word = Vec<u8>;

#[derive(Clone, Copy, Debug, PartialEq, Eq)]
pub enum Memory {
    Long,
    Short { forward: usize, backward: usize },
}

/// What the walk of a needle that has bytes holds beside its lengths and cursors.
#[derive(Clone, Copy, Debug, PartialEq, Eq)]
pub struct TwoWay {
    pub c: usize,
    pub b: usize,
    pub p: usize,
    pub set: u64,
    pub memory: Memory,
}

/// The two kinds of a walk. An empty needle's has two flags: whether the next thing that this
/// direction gives is a Match.
#[derive(Clone, Copy, Debug, PartialEq, Eq)]
pub enum Kind {
    TwoWay(TwoWay),
    Empty { forward: bool, backward: bool },
}

/// "The mode is chosen at preparing." Overlapping is 02's request [3]: next match lists every
/// occurrence.
#[derive(Clone, Copy, Debug, PartialEq, Eq)]
pub enum Mode {
    NonOverlapping,
    Overlapping,
}

impl Mode {
    pub const ALL: [Mode; 2] = [Mode::NonOverlapping, Mode::Overlapping];

    /// "A step call in this mode is refused with new number 5"
    pub fn refuses(self, call: Call) -> bool {
        self == Mode::Overlapping && call.is_step()
    }
}

/// The record of a walk.
#[derive(Clone, Copy, Debug, PartialEq, Eq)]
pub struct State {
    pub m: usize,
    pub n: usize,
    pub position: usize,
    pub end: usize,
    pub mode: Mode,
    pub kind: Kind,
}

#[derive(Clone, Copy, Debug, PartialEq, Eq)]
pub enum Answer {
    Match(usize, usize),
    Reject(usize, usize),
    Done,
    None,
    Refused(u8),
}

impl Answer {
    /// The same about the haystack of n bytes read from its end.
    pub fn mirrored(self, n: usize) -> Answer {
        match self {
            Answer::Match(a, b) => Answer::Match(n - b, n - a),
            Answer::Reject(a, b) => Answer::Reject(n - b, n - a),
            other => other,
        }
    }
}

#[derive(Clone, Copy, Debug, Default, PartialEq, Eq)]
pub struct Counts {
    pub preparing: u64,
    pub comparisons: u64,
    pub tests: u64,
}

impl AddAssign for Counts {
    fn add_assign(&mut self, more: Counts) {
        self.preparing += more.preparing;
        self.comparisons += more.comparisons;
        self.tests += more.tests;
    }
}

/// The four calls that take a state.
#[derive(Clone, Copy, Debug, PartialEq, Eq)]
pub enum Call {
    Step,
    StepBack,
    Next,
    NextBack,
}

impl Call {
    pub const ALL: [Call; 4] = [Call::Step, Call::StepBack, Call::Next, Call::NextBack];

    pub fn is_backward(self) -> bool {
        matches!(self, Call::StepBack | Call::NextBack)
    }

    pub fn is_step(self) -> bool {
        matches!(self, Call::Step | Call::StepBack)
    }
}

/// What one such call gives back.
#[derive(Clone, Copy, Debug, PartialEq, Eq)]
pub struct Called {
    pub answer: Answer,
    pub state: State,
    pub counts: Counts,
}

#[derive(Clone, Debug)]
pub enum Case {
    Suffix { word: Word, greater: bool },
    ReverseSuffix { word: Word, known: usize, greater: bool },
    Prepare { needle: Word, n: usize, mode: Mode },
    Search { needle: Word, haystack: Word, backward: bool },
    Call { call: Call, needle: Word, haystack: Word, state: State },
    Walk { needle: Word, haystack: Word, mode: Mode, script: Vec<Call> },
}

#[derive(Clone, Debug, PartialEq, Eq)]
pub enum Reply {
    Suffix { start: usize, period: usize, rounds: u64 },
    ReverseSuffix { start: usize, rounds: u64 },
    Prepared { state: State, preparing: u64 },
    Found { position: Option<usize>, counts: Counts },
    Called(Called),
    Walked { preparing: u64, calls: Vec<(Answer, Counts)>, state: State },
    Refused(u8),
}

impl Reply {
    /// The same with every count 0: all that the unchanged Rust can tell.
    pub fn without_counts(mut self) -> Reply {
        match &mut self {
            Reply::Suffix { rounds, .. } | Reply::ReverseSuffix { rounds, .. } => *rounds = 0,
            Reply::Prepared { preparing, .. } => *preparing = 0,
            Reply::Found { counts, .. } => *counts = Counts::default(),
            Reply::Called(called) => called.counts = Counts::default(),
            Reply::Walked { preparing, calls, .. } => {
                *preparing = 0;
                calls.iter_mut().for_each(|called| called.1 = Counts::default());
            }
            Reply::Refused(_) => {}
        }
        self
    }
}
