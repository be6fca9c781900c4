//! Refusals.

use core::fmt;

/// The refusals, each with its number and its words.
macro_rules! refusals {
    ($($name:ident = $number:literal, $words:literal;)+) => {
        /// A refusal; its value is the answer number. More may come with later versions.
        ///
        /// ```
        /// use rimonakh::{Error, NoRefusal};
        ///
        /// assert_eq!(Error::try_from(11), Ok(Error::NoSet));
        /// assert_eq!(Error::try_from(17), Err(NoRefusal(17)));
        /// assert_eq!(Error::ClockBack.to_string(), "the new clock is below the table's clock (2)");
        /// ```
        #[repr(u32)]
        #[derive(Clone, Copy, Debug, PartialEq, Eq, PartialOrd, Ord, Hash)]
        #[non_exhaustive]
        pub enum Error {
            $(
                #[doc = $words]
                $name = $number,
            )+
        }

        impl Error {
            /// Every refusal, by its number.
            pub const ALL: &[Error] = &[$(Error::$name),+];

            /// What it means.
            pub fn words(self) -> &'static str {
                match self {
                    $(Error::$name => $words,)+
                }
            }
        }
    };
}

refusals! {
    Unsound = 1, "a lent table has the wrong length or is not sound";
    ClockBack = 2, "the new clock is below the table's clock";
    BadIdentifier = 3, "an OXID, OID or IPID to be entered is zero or already live";
    NoExporter = 4, "no such live exporter";
    NoObject = 5, "no such live object";
    NoInterface = 6, "no such live interface";
    NoReferences = 7, "an entry with zero references";
    CountOverflow = 8, "a count would pass 4,294,967,295";
    NoPlace = 9, "no free place of a kind that is needed, or no room in the store for a binding list";
    TooMany = 10, "a list of more than 65,535 identifiers, items or protocols, or more than 16,384 records";
    NoSet = 11, "no such live ping set, or set 0 in a simple ping";
    Stale = 12, "a stale sequence number";
    Short = 13, "the bytes end before a field does";
    Layout = 14, "a layout rule is broken, or a next stop is asked of a custom reference";
    NoRoom = 15, "the output buffer is too short";
    BadVersion = 16, "a call's header has a version that is not understood";
    SetsUsedUp = 18, "the set numbers are used up";
    LongList = 19, "a binding list of more than 2,048 bytes";
    NoClient = 20, "the client is none of 0 to 7";
    TooDeep = 21, "references nested deeper than 8";
    NilIdentifier = 22, "the OXID, OID or IPID of a reference is zero";
    NoSnapshot = 23, "the bytes are not the snapshot of any sound table";
    NoBinding = 24, "no binding, extension, element or property of this number";
}

impl Error {
    /// The answer number.
    pub fn number(self) -> u32 {
        self as u32
    }
}

/// A number that is no refusal's: 0 among them, which is the answer of an accepted call.
#[derive(Clone, Copy, Debug, PartialEq, Eq)]
pub struct NoRefusal(
    /// The number.
    pub u32,
);

impl fmt::Display for NoRefusal {
    fn fmt(&self, f: &mut fmt::Formatter<'_>) -> fmt::Result {
        write!(f, "{} is the number of no refusal", self.0)
    }
}

impl core::error::Error for NoRefusal {}

impl TryFrom<u32> for Error {
    type Error = NoRefusal;

    fn try_from(number: u32) -> Result<Error, NoRefusal> {
        let found = Error::ALL.iter().find(|e| e.number() == number);
        found.copied().ok_or(NoRefusal(number))
    }
}

impl From<Error> for u32 {
    fn from(e: Error) -> u32 {
        e.number()
    }
}

impl fmt::Display for Error {
    fn fmt(&self, f: &mut fmt::Formatter<'_>) -> fmt::Result {
        write!(f, "{} ({})", self.words(), self.number())
    }
}

impl core::error::Error for Error {}

/// What goes with an answer number: `value` where it is 0, else the refusal.
#[inline]
pub(crate) fn answered<T>(number: u32, value: T) -> Result<T, Error> {
    match number {
        0 => Ok(value),
        n => Err(refusal(n)),
    }
}

/// The refusal of an answer number, apart, so that an accepted call passes one test.
#[cold]
fn refusal(number: u32) -> Error {
    Error::try_from(number).expect("every answer number is 0 or a refusal's")
}

/// The code that goes out on the wire for an answer: an HRESULT or an error code.
pub fn wire_code<T>(answer: &Result<T, Error>) -> u32 {
    let number = answer.as_ref().err().map_or(0, |e| e.number());
    archive!(rimonakh_wire_code(number))
}
