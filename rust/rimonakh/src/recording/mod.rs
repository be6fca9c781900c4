//! Recorded shifts: calls with their answers, in the form of docs/RECORDING.md. A [`Recorder`](crate::Recorder) makes a recording,
//! [`Table::replay`](crate::Table::replay) compares it, and [`Records`] reads it; [`whole`](whole()) finds the records of one whose last
//! write was torn.
//!
//! ```
//! use rimonakh::recording::{Call, Records};
//! use rimonakh::{Error, Guid, Oxid, Recorder};
//!
//! let mut day = Recorder::new(1000);
//! day.clock(1120)?;
//! assert_eq!(day.add(3, Guid([2; 16]), 5, 0), Err(Error::NoInterface));
//!
//! for record in Records::read(day.recording())? {
//!     match record.call {
//!         Call::Clock { time } => assert_eq!((time, record.answer.number), (1120, 0)),
//!         call => println!("{call}: {}", record.answer),
//!     }
//! }
//! let cut = Records::read(&day.recording()[..60]).unwrap_err();
//! assert_eq!((cut.error, cut.at), (Error::Short, 57));
//! assert_eq!(cut.to_string(), "the size of the shown bytes of record 1: 8 bytes are needed, 3 are left");
//! # Ok::<(), Error>(())
//! ```

mod calls;
mod fault;
mod fields;
mod reader;
pub(crate) mod recorder;
mod whole;
mod writer;

pub use calls::{Answer, Call, Record, Results};
pub use fault::Fault;
pub use fields::{Oids, Protocols, Room};
pub use reader::Records;
pub use whole::{whole, Whole};
pub use writer::Recording;
