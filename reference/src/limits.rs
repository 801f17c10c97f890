//! The limits and the refusal numbers (RULES 2.8, 3). No other module writes one of them as a
//! number.

/// RULES 7.1: the edition in which an active chart takes a transition.
pub const FIRST_EDITION: u8 = 1;
/// RULES 7.1: the edition in which it may also stay.
pub const SECOND_EDITION: u8 = 2;

/// RULES 2.8: the most charts of a file.
pub const CHARTS: usize = 16;
/// RULES 2.8: the most slaves of a file.
pub const SLAVES: usize = 15;
/// RULES 2.8: the most nodes of a file.
pub const NODES: usize = 64;
/// RULES 2.8: the most transitions of all charts.
pub const TRANSITIONS: usize = 1_024;
/// RULES 2.8: the most states of a chart.
pub const STATES: usize = 16;
/// RULES 2.8: the most transitions of one chart.
pub const CHART_TRANSITIONS: usize = 64;
/// RULES 2.8: the most transitions from one state.
pub const STATE_TRANSITIONS: usize = 8;
/// RULES 2.8: the most open choices of a step that is not refused with 24.
pub const OPEN_CHOICES: u64 = 16_777_216;
/// The most charts and slaves of a file before the limits were raised. Calls that were drawn or
/// written under these limits are kept as they were.
pub const EARLIER_CHARTS: usize = 8;
pub const EARLIER_SLAVES: usize = 7;
/// RULES 1.2: how many signals there are, the highest being 63.
pub const SIGNALS: u32 = 64;
/// RULES 5.11: the place of a chart that took no transition and did not stay.
pub const NO_PLACE: u8 = 255;
/// RULES 5.11: the place of a chart that stayed.
pub const STAYED: u8 = 254;
/// RULES 14.3: typed charts are c0 to c15.
pub const NAMED_CHARTS: usize = 16;
/// RULES 14.3: typed states are q0 to q15.
pub const NAMED_STATES: usize = 16;
/// RULES 14.3: typed signals are s0 to s63.
pub const NAMED_SIGNALS: usize = SIGNALS as usize;
/// RULES 14.2: how deep a typed chart may be.
pub const NESTING: usize = 16;
/// RULES 14.5: a buffer of this length is enough for the file of any text.
pub const FILE_ROOM: usize = 30_408;
/// RULES 15.3: a buffer of this length is enough for the text of any file.
pub const TEXT_ROOM: usize = 874_514;
/// RULES 3.4: the most bytes of the day program's input.
pub const DAY_INPUT: usize = 65_536;

/// RULES 1.2: the bytes of a signal set.
pub const SET_BYTES: usize = 8;
/// RULES 2.2: the bytes of the trailer.
pub const TRAILER_BYTES: usize = 12;
/// RULES 2.2: the offset of the edition in the trailer.
pub const EDITION_AT: usize = 7;
/// RULES 2.3: the bytes of a chart record.
pub const CHART_BYTES: usize = 24;
/// RULES 2.4: the bytes of a transition record.
pub const TRANSITION_BYTES: usize = 28;
/// RULES 2.5: the bytes of a slave record.
pub const SLAVE_BYTES: usize = 4;
/// RULES 2.6: the bytes of a node record.
pub const NODE_BYTES: usize = 20;
/// RULES 6.3: the bytes of a row before its configuration: output, mark and refusal.
pub const ROW_HEAD_BYTES: usize = SET_BYTES + 2;

/// RULES 11.1: the most cases of a book.
pub const CASES: usize = 64;
/// RULES 11.1: the bytes that a case record has for its configuration.
pub const CASE_CONFIGURATION: usize = 16;
/// RULES 11.1: the highest row number, which has no next one.
pub const LAST_ROW: u32 = u32::MAX;
/// RULES 11.4: the bytes of a posted row before its configuration: its number, then a row's head.
pub const POSTED_HEAD_BYTES: usize = 4 + ROW_HEAD_BYTES;

/// RULES 2.6: the kind of a node that holds a chart.
pub const KIND_CHART: u8 = 0;
/// RULES 2.6: the kind of a composed node.
pub const KIND_COMPOSED: u8 = 1;
/// RULES 2.6: the kind of a hidden node.
pub const KIND_HIDDEN: u8 = 2;

/// What a call returns (RULES 3.2 to 3.5, 3.7, 3.8).
pub mod refusal {
    /// none of the tests applies
    pub const SUCCESS: u8 = 0;
    /// the file is shorter than a trailer
    pub const TOO_SHORT: u8 = 1;
    /// the edition is neither 1 nor 2
    pub const EDITION: u8 = 2;
    /// a count of the trailer is outside the limits
    pub const COUNTS: u8 = 3;
    /// the distance differs from the body size, or the file has too few bytes for the body
    pub const DISTANCE: u8 = 4;
    /// a zero byte has a value
    pub const ZERO_BYTE: u8 = 5;
    /// a chart's states, initial state or number of transitions are wrong, or the sum is
    pub const CHART: u8 = 6;
    /// a transition names a state that its chart lacks, or too many leave one state
    pub const TRANSITION: u8 = 7;
    /// a slave names something that does not exist, or the slaves are out of order
    pub const SLAVE: u8 = 8;
    /// a node's kind, what it names or a field that it does not use is wrong
    pub const NODE: u8 = 9;
    /// the nodes do not make one tree
    pub const NAMING: u8 = 10;
    /// a chart inside a slave has a number that is too low
    pub const NUMBERING: u8 = 11;
    /// the configuration has too few or too many bytes
    pub const CONFIGURATION_LENGTH: u8 = 20;
    /// the configuration has a state that its chart lacks
    pub const CONFIGURATION_STATE: u8 = 21;
    /// the buffer is too short for a configuration
    pub const CONFIGURATION_ROOM: u8 = 22;
    /// no choice is permitted
    pub const NO_STEP: u8 = 23;
    /// there are more open choices than a step may have
    pub const MANY_OPEN: u8 = 24;
    /// the file has no chart of the number that is asked about
    pub const QUESTION_CHART: u8 = 25;
    /// the chart's list has no such place
    pub const QUESTION_PLACE: u8 = 26;
    /// the buffer is too short for the rows
    pub const RUN_ROOM: u8 = 27;
    /// the front is not made of whole inputs
    pub const DAY_FRONT: u8 = 30;
    /// the input is too long
    pub const DAY_INPUT: u8 = 31;
    /// there are more slaves than free signals
    pub const REWRITING_SIGNALS: u8 = 40;
    /// in the result, too many transitions would leave one state
    pub const REWRITING_STATE: u8 = 41;
    /// in the result, a chart would have too many transitions
    pub const REWRITING_CHART: u8 = 42;
    /// the result would have too many nodes
    pub const REWRITING_NODES: u8 = 44;
    /// the buffer is too short for the result
    pub const REWRITING_ROOM: u8 = 45;
    /// the file has edition 2
    pub const REWRITING_EDITION: u8 = 46;
    /// the text is not of the notation
    pub const NOTATION: u8 = 50;
    /// the typed chart is nested too deep
    pub const NESTING: u8 = 51;
    /// the names of the typed chart are not right
    pub const NAMES: u8 = 52;
    /// the book has no case, or too many
    pub const BOOK: u8 = 60;
    /// an entry is for a case that is not in the book
    pub const ENTRY: u8 = 61;
    /// the last row of a case has the highest number that there is
    pub const ROW_NUMBER: u8 = 62;
    /// the buffer is too short for the rows of a day
    pub const POSTING_ROOM: u8 = 63;
}
