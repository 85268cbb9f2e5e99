use std::error::Error;
use std::fmt;
use std::sync::OnceLock;

use crate::{lend, raw};

// The letters of the longest word.
const WORD_MOST: usize = 17;

/// Why a call refuses. Words and numbers are those of document 01, "Numbers on the slip", and from 20 on
/// those of document 02.
///
/// ```
/// use dos33::{Disk, Refusal};
///
/// let why = Disk::flat(&[0; 100]).catalog().unwrap_err();
/// assert_eq!(why, Refusal::OffSize);
/// assert_eq!(why.number(), 1);
/// assert_eq!(why.to_string(), "off size (1)");
/// ```
#[derive(Clone, Copy, Debug, PartialEq, Eq, Hash, PartialOrd, Ord)]
#[non_exhaustive]
pub enum Refusal {
    /// 1: a flat disk that is neither 143,360 nor 116,480 bytes (to nibblize, to save to, to delete from
    /// and to forecast for: not 143,360), or a sector to encode that is not 256.
    OffSize,
    /// 2: the VTOC's tracks are not 35 or 40, or its sectors not 13 or 16; on a disk of 13 sectors a
    /// track: not 13.
    NoTable,
    /// 3: a followed page, list or pair, or a location asked for, is not on the disk.
    OffDisc,
    /// 4: a link leads to a sector already read in its own chain.
    Ring,
    /// 5: a link of a track/sector list has a track and sector 0.
    CutLink,
    /// 6: a live name holds 80h.
    BadLetter,
    /// 7: the archive would have over 4,096 blocks.
    Overlong,
    /// 8: the sum of an address field is wrong.
    AddressSum,
    /// 9: the sum of a data field that counts is wrong.
    DataSum,
    /// 10: a sector is not in the stream.
    Absent,
    /// 11: a stream has a track over 34, a sector over 15 (of 13 sectors a track: over 12) or a second
    /// volume.
    Stranger,
    /// 12: lent space is under the need. Only [`Disk::pair_run`](crate::Disk::pair_run) gives it; the
    /// other calls of this crate lend enough themselves.
    TrayShort,
    /// 13: bytes that are not the disk's archive, or no archive at all.
    NotItsReturn,
    /// 14: a name to write is empty, over 30 bytes, or has a byte of 80h or more; of a save or a delete
    /// also one with a byte 0 or with a space at its end.
    UnwritableName,
    /// 15: a file to write that is not Binary.
    NotBinary,
    /// 16: over 7 entries for a page.
    PageFull,
    /// 17: too few bytes to recognise a disk.
    CutShort,
    /// 18: no entry has the name asked for.
    NotOnRoll,
    /// 20: a disk to save to, to delete from or to forecast for is not clean, as
    /// [`Holders::clean`](crate::Holders::clean) says.
    NotClean,
    /// 21: no sector or no entry line is left for a save, or its data is over 32,768 bytes.
    NoSpace,
    /// 22: an entry of the catalog shows the name to save.
    NameTaken,
    /// 23: a save or a delete by a side of a name that is the other side's ([`Side`](crate::Side) says whose
    /// a name is), on the disk or not.
    OtherSide,
    /// 24: the sectors that a side holds and those of its save are together over its limit.
    OverLimit,
    /// 25: over 64 lengths to forecast.
    PlanLong,
    /// A number that no refusal has. No function gives one.
    Unnamed(u8),
}

impl Refusal {
    /// All of them, in the order of their numbers: 1 to 18, 20 to 25.
    pub const ALL: &'static [Refusal] = &[
        Refusal::OffSize,
        Refusal::NoTable,
        Refusal::OffDisc,
        Refusal::Ring,
        Refusal::CutLink,
        Refusal::BadLetter,
        Refusal::Overlong,
        Refusal::AddressSum,
        Refusal::DataSum,
        Refusal::Absent,
        Refusal::Stranger,
        Refusal::TrayShort,
        Refusal::NotItsReturn,
        Refusal::UnwritableName,
        Refusal::NotBinary,
        Refusal::PageFull,
        Refusal::CutShort,
        Refusal::NotOnRoll,
        Refusal::NotClean,
        Refusal::NoSpace,
        Refusal::NameTaken,
        Refusal::OtherSide,
        Refusal::OverLimit,
        Refusal::PlanLong,
    ];

    /// The refusal with this number; none for 0, which means accepted.
    pub fn from_number(number: u8) -> Option<Refusal> {
        match number {
            0 => None,
            n => Some(
                Refusal::ALL
                    .iter()
                    .copied()
                    .find(|r| r.number() == n)
                    .unwrap_or(Refusal::Unnamed(n)),
            ),
        }
    }

    /// The paper's number.
    pub fn number(self) -> u8 {
        match self {
            Refusal::OffSize => 1,
            Refusal::NoTable => 2,
            Refusal::OffDisc => 3,
            Refusal::Ring => 4,
            Refusal::CutLink => 5,
            Refusal::BadLetter => 6,
            Refusal::Overlong => 7,
            Refusal::AddressSum => 8,
            Refusal::DataSum => 9,
            Refusal::Absent => 10,
            Refusal::Stranger => 11,
            Refusal::TrayShort => 12,
            Refusal::NotItsReturn => 13,
            Refusal::UnwritableName => 14,
            Refusal::NotBinary => 15,
            Refusal::PageFull => 16,
            Refusal::CutShort => 17,
            Refusal::NotOnRoll => 18,
            Refusal::NotClean => 20,
            Refusal::NoSpace => 21,
            Refusal::NameTaken => 22,
            Refusal::OtherSide => 23,
            Refusal::OverLimit => 24,
            Refusal::PlanLong => 25,
            Refusal::Unnamed(n) => n,
        }
    }

    /// The paper's word, as the library has it; empty for a number that no refusal has.
    pub fn word(self) -> &'static str {
        static WORDS: OnceLock<Vec<String>> = OnceLock::new();
        let words = WORDS.get_or_init(|| (0..=255).map(word_of).collect());
        words
            .get(usize::from(self.number()))
            .map_or("", String::as_str)
    }
}

// The word of a number, asked of the library: its letters are ASCII.
fn word_of(number: u8) -> String {
    // SAFETY: the space is this call's own.
    let letters = lend::space(WORD_MOST, |o, n, l| unsafe {
        raw::dos33_refusal_word(number, o, n, l)
    });
    String::from_utf8(letters.unwrap_or_default()).unwrap_or_default()
}

impl fmt::Display for Refusal {
    fn fmt(&self, f: &mut fmt::Formatter<'_>) -> fmt::Result {
        let word = match self.word() {
            "" => "no such number",
            word => word,
        };
        write!(f, "{word} ({})", self.number())
    }
}

impl Error for Refusal {}
