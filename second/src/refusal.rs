//! The refusals of documents 01 and 02, each with its number, and the one that
//! only the C calls give.

#[derive(Clone, Copy, Debug, PartialEq, Eq)]
pub enum Refusal {
    /// 1: a setting out of range.
    Setting = 1,
    /// 2: store shorter than 16 x NW.
    ShortStore = 2,
    /// 3: a sample over 8,191.
    Sample = 3,
    /// 4: channel over 15.
    Channel = 4,
    /// 5: window length is not NW.
    WindowLength = 5,
    /// 6: channel already posted in this event.
    AlreadyPosted = 6,
    /// 7: out of turn.
    OutOfTurn = 7,
    /// 8: block number, events, event number or time out of range.
    Number = 8,
    /// 9: word buffer too short.
    ShortWords = 9,
    /// 10: state breaks its ranges.
    State = 10,
    /// 11: no word left.
    NoWord = 11,
    /// 12: type not allowed here, pair missing or too many.
    Type = 12,
    /// 13: a field or a flag that may not be so.
    Field = 13,
    /// 14: events or words do not agree with what header and trailer state.
    Count = 14,
    /// 15: slot differs.
    Slot = 15,
    /// 16: byte input of a wrong length.
    Bytes = 16,
    /// 19: frame data not a multiple of sixteen.
    Frames = 19,
    /// 64: an array of numbers that is not as long as the header says, or that is
    /// no scan.
    Array = 64,
}

impl Refusal {
    pub const fn number(self) -> u32 {
        self as u32
    }
}
