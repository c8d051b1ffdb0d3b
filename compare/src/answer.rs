//! One form for the answers of all calls, so that they are compared in one way.

use machirsun::ffi::Loader;

/// The fields of every answer of the C interface. What an answer has no use for is 0.
#[derive(Clone, Copy, Debug, Default, PartialEq, Eq)]
pub struct Answer {
    pub refusal: u32,
    pub node: u64,
    pub tile: u8,
    pub arc: u32,
    /// Found, done or accepts.
    pub flag: bool,
    /// The one number that the call answers: nodes, a place, tiles, a set, bytes written, the lowest number of a word that is not in play.
    pub value: u64,
    /// The words of a run before the node found.
    pub before: u64,
    /// How many words are not in play.
    pub remaining: u64,
    /// Of a text that is read: the line or the place that a refusal carries, where the line read starts and ends, the place after its
    /// ending, and how many words were read.
    pub bad: u64,
    pub start: u64,
    pub end: u64,
    pub after: u64,
    pub words: u64,
    /// The load's state after begin and feed, and after the last feed of a whole load.
    pub state: Option<Loader>,
    /// The number of begin's refusal in a whole load; the other fields are then finish's.
    pub begun: u32,
}

impl Answer {
    pub fn refused(refusal: u32) -> Self {
        Self {
            refusal,
            ..Self::default()
        }
    }

    pub fn gives(value: u64) -> Self {
        Self {
            value,
            ..Self::default()
        }
    }

    pub fn found(value: Option<u64>) -> Self {
        Self {
            flag: value.is_some(),
            value: value.unwrap_or(0),
            ..Self::default()
        }
    }

    pub fn says(flag: bool) -> Self {
        Self {
            flag,
            ..Self::default()
        }
    }

    pub fn with_state(self, state: Loader) -> Self {
        Self {
            state: Some(state),
            ..self
        }
    }
}

/// The contents of a buffer that a call may write, guards included.
#[derive(Clone, Debug, PartialEq, Eq)]
pub enum Buffer {
    Bytes(Vec<u8>),
    Numbers(Vec<u32>),
    Sets(Vec<u64>),
    Sizes(Vec<usize>),
}

/// What a call answered, and what then stands in each buffer that it may write.
#[derive(Clone, Debug, Default, PartialEq, Eq)]
pub struct Outcome {
    pub answer: Answer,
    pub buffers: Vec<Buffer>,
}

impl Outcome {
    pub fn of(answer: Answer) -> Self {
        Self {
            answer,
            buffers: Vec::new(),
        }
    }

    pub fn with(mut self, buffer: impl Into<Buffer>) -> Self {
        self.buffers.push(buffer.into());
        self
    }
}
