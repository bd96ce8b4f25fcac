//! Why a call was refused: the numbers of include/seek.h with their texts.

use std::fmt;

macro_rules! errors {
    ($($name:ident = $number:literal, $text:literal;)*) => {
        /// Why a call was refused: the numbers of docs/REFUSALS.md. A refusal changed nothing, but for [`Error::AbsorbImage`].
        #[derive(Clone, Copy, Debug, PartialEq, Eq, Hash)]
        #[non_exhaustive]
        pub enum Error {
            $(#[doc = $text] $name,)*
            /// A number that this wrapper does not know.
            Other(u32),
        }

        impl Error {
            /// The refusal number.
            pub fn number(self) -> u32 {
                match self {
                    $(Error::$name => $number,)*
                    Error::Other(n) => n,
                }
            }

            pub(crate) fn from_number(n: u32) -> Error {
                match n {
                    $($number => Error::$name,)*
                    n => Error::Other(n),
                }
            }
        }

        impl fmt::Display for Error {
            fn fmt(&self, f: &mut fmt::Formatter<'_>) -> fmt::Result {
                f.write_str(match self {
                    $(Error::$name => $text,)*
                    Error::Other(_) => "no such number",
                })
            }
        }
    };
}

errors! {
    Area = 1, "the area's slot is not 0 or 1, or its range is not one of sectors below 2^32";
    Numbers = 2, "the interval is not 1 to 65,536, or the budget is above 4,294,967,295";
    Room = 3, "a table or a block is too short, or a block is none that a call wrote";
    Content = 4, "the tables do not hold what loading would accept";
    RecordDue = 5, "not the due sector, not a whole sector, or the recorder is finished or stopped";
    RecordFalls = 6, "threshold or malformed count falls, or is too large";
    RecordFrame = 7, "the frame under assembly does not start in the area before this sector, its number is too large, or its kind is neither 0 nor 1";
    AbsorbImage = 8, "the recorder read another image; it is stopped";
    AbsorbArea = 9, "the recorder is of another area or interval";
    AbsorbJoins = 10, "the recorder does not join the list";
    AbsorbAgrees = 11, "the recorder and the list disagree where both have read";
    AbsorbResult = 12, "the list with the recorder's part would not be a list, or the malformed sectors do not fit";
    Hints = 13, "more than 65,536 hints, or a frame number that is too large";
    Confirmation = 14, "the confirmed sector lies outside the area, or its threshold is too large";
    Fingerprint = 15, "the list holds another fingerprint";
    HintRange = 16, "the range ends before it begins";
    FileShort = 20, "the file ends too early";
    FileMagic = 21, "this is no list file";
    FileSum = 22, "the file's sum is wrong: it was changed or cut";
    FileVersion = 23, "the file's version is not 1 to 4";
    FileSlot = 24, "the file's slot is not 0 or 1";
    FileFlags = 25, "the file has flags that its version does not know";
    FileArea = 26, "the file is of another area";
    FileInterval = 27, "the file's interval is not 1 to 65,536";
    FileReserved = 28, "a reserved field of the file is not 0";
    FileBudget = 29, "the file's budget is above 4,294,967,295";
    FileCounts = 30, "the file's counts do not fit its area or its length";
    FileCheckpoints = 31, "a checkpoint of the file breaks its rule";
    FileFrames = 32, "a frame or a held part of the file breaks its rule";
    FileKind = 33, "a held part of the file has no kind";
    FileEnd = 34, "the file's end state breaks its rule";
    FileMalformed = 35, "the file's malformed sectors break their rule";
    FileHints = 36, "the file's hints break their rule";
    FileConfirmations = 37, "the file's confirmations break their rule";
    FileLeftOver = 38, "something lies behind the file's last section";
    Output = 40, "the output is too short";
    MergeArea = 41, "the lists are of different areas or intervals";
    MergeIds = 42, "the lists have different image ids or fingerprints";
    MergeCheckpoints = 43, "the lists disagree about a checkpoint or the end state";
    Set = 44, "the set has no file, or more than 16";
    CoarseInterval = 47, "the wider interval is not 1 to 65,536, or no multiple of the list's own";
    CoarseContent = 48, "a malformed sector that is counted lies at or past the frontier that the coarser list would have";
    Fold = 49, "k is not between half the width and the width less one";
    ShelfList = 50, "the new list alone exceeds the shelf's limit";
    ShelfCount = 51, "the shelf's count is at its largest";
    Keep = 53, "no hint has this sector, or it is not kept and a quarter of the hint limit is kept already";
    Role = 52, "the role is neither listener nor workshop, or a listener asks for what is the workshop's";
    Disc = 54, "the disc file's contents table breaks its rules, or two lists share a slot, or one is too long";
    Memory = 200, "there is no memory for it";
}

impl std::error::Error for Error {}

/// 0 is accepted.
pub(crate) fn answer(n: u32) -> Result<(), Error> {
    if n == 0 { Ok(()) } else { Err(Error::from_number(n)) }
}
