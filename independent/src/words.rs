//! The words of document 01.
//!
//! "A word has 32 bits: the kind in bits 31 to 28, the payload in bits 27 to 0.
//! Signed fields are two's complement. Bits named by no field are zero."

/// Request 6: "a third word after ORIGIN, of kind 0, whose payload is that distance". In a program or a lemma
/// list kind 0 stays a wrong kind.
pub const DISTANCE: u32 = 0;
pub const VAR: u32 = 1;
pub const ROW: u32 = 2;
pub const TERM: u32 = 3;
pub const INIT: u32 = 4;
pub const PRED: u32 = 5;
pub const ACTION: u32 = 6;
pub const SET: u32 = 7;
pub const SETS: u32 = 8;
pub const LEMMA: u32 = 9;
pub const MULT: u32 = 10;
pub const ORIGIN: u32 = 11;
pub const EDGE: u32 = 12;
pub const STEP: u32 = 13;
/// Request 2: "A finding is one word of kind 14".
pub const FINDING: u32 = 14;
pub const END: u32 = 15;

/// All 28 bits of a payload.
pub const PAYLOAD: u32 = 0x0FFF_FFFF;

/// Request 6: "The graph list must now have 9,728 words, which replaces 9,216 throughout 01."
pub const GRAPH_WORDS: usize = 9_728;
/// "A node's record is SETS, ORIGIN (where it was first found) and one EDGE per action." Request 6: "Each
/// record gets a third word after ORIGIN". It is the record's third word and stands next to ORIGIN, because
/// "EDGE words move up by one": the first EDGE is the fourth word.
pub const HEADER: usize = 3;
/// "path list under 512"
pub const PATH_WORDS: usize = 512;
/// "a 513th node is needed"
pub const MAX_NODES: usize = 512;
/// "a 513th LEMMA word where a lemma may begin"
pub const MAX_LEMMAS: usize = 512;
pub const MAX_VARIABLES: usize = 8;
pub const MAX_ROWS: usize = 8;
pub const MAX_PREDICATES: usize = 14;
pub const MAX_ACTIONS: usize = 16;
pub const MAX_FORBIDDEN: usize = 8;
pub const MAX_CONSTANT: i64 = 1_000_000;
pub const MAX_COEFFICIENT: i64 = 1_000;
pub const MAX_MULTIPLIER: u32 = 65_535;

/// Source 255 is the start.
pub const START: u32 = 255;

pub fn make(kind: u32, payload: u32) -> u32 {
    (kind << 28) | (payload & PAYLOAD)
}

pub fn kind(word: u32) -> u32 {
    word >> 28
}

pub fn payload(word: u32) -> u32 {
    word & PAYLOAD
}

/// Bits `high..=low` of a word, unsigned.
pub fn field(word: u32, high: u32, low: u32) -> u32 {
    let width = high - low + 1;
    (word >> low) & (((1u64 << width) - 1) as u32)
}

/// Bits `high..=low` of a word as two's complement.
pub fn signed(word: u32, high: u32, low: u32) -> i64 {
    let width = high - low + 1;
    let raw = field(word, high, low) as i64;
    if raw >= 1i64 << (width - 1) {
        raw - (1i64 << width)
    } else {
        raw
    }
}
