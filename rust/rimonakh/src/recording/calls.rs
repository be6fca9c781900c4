//! The calls of a recording and their results, in one table each: what writes, reads, shows and performs a record goes by it.

use super::fields::{Argument, Field, FromRest, Oids, Protocols, Rest, Room};
use super::recorder::Recorder;
use crate::{Counts, Guid, Oid, Oxid, Pinged, Released, Resolved, Result, SetId};
use core::iter::Flatten;
use core::{array, fmt};

/// A call with what its resolver answered.
#[derive(Clone, Copy, Debug, PartialEq, Eq)]
pub struct Record<'a> {
    /// The call.
    pub call: Call<'a>,
    /// Its answer number and results.
    pub answer: Answer,
    /// The bytes that it showed, or wrote at the front of its buffer.
    pub shown: &'a [u8],
}

/// What was answered. It is shown in words: `0, length 26`.
#[derive(Clone, Copy, Debug, PartialEq, Eq)]
pub struct Answer {
    /// 0, or a refusal's number; another resolver may have others.
    pub number: u64,
    /// The results, which are zeros in a refusal of this library.
    pub results: Results,
}

/// A field with its name.
type Named<'f> = (&'static str, &'f dyn Field);

/// Those of one call or of its results, of which none has more.
type Fields<'f> = Flatten<array::IntoIter<Option<Named<'f>>, 6>>;

fn each<'f, const N: usize>(fields: [Named<'f>; N]) -> Fields<'f> {
    const { assert!(N <= 6) };
    let fields: [_; 6] = array::from_fn(|k| fields.get(k).copied());
    fields.into_iter().flatten()
}

/// A field's name in words, with # where the number stands, else before it.
macro_rules! words {
    ($field:ident as $name:literal) => {
        $name
    };
    ($field:ident) => {
        stringify!($field)
    };
}

macro_rules! results {
    ($($(#[$doc:meta])+ $kind:ident $read:ident { $($field:ident: $type:ty $(as $name:literal)?),* })+) => {
        /// The results of a call, as wide as a record has them: those of another resolver can be any numbers.
        #[derive(Clone, Copy, Debug, PartialEq, Eq)]
        #[non_exhaustive]
        pub enum Results {
            $(
                $(#[$doc])+
                $kind {
                    $(
                        #[doc = concat!("Shown as `", words!($field $(as $name)?), "`.")]
                        $field: $type,
                    )*
                },
            )+
        }

        impl Results {
            $(#[allow(unused_variables)] // of no fields
            fn $read(rest: &mut Rest) -> Option<Results> {
                Some(Results::$kind { $($field: FromRest::from_rest(rest)?),* })
            })+

            pub(super) fn fields(&self) -> Fields<'_> {
                match self {
                    $(Results::$kind { $($field),* } => {
                        each([$((words!($field $(as $name)?), $field)),*])
                    })+
                }
            }
        }
    };
}

results! {
    /// Of a call that answers its number alone, or with bytes.
    Done done {}
    /// What a release took, and how many interfaces and objects went.
    Released released {
        public: u64 as "taken public", private: u64, interfaces: u64 as "interfaces that went", objects: u64
    }
    /// The set of a complex ping.
    Pinged pinged { set: SetId, backoff: u64 }
    /// How many of each kind went, or are live.
    Counts counts { exporters: u64, objects: u64, interfaces: u64, sets: u64 }
    /// The list of a resolve, and the exporter's remote-unknown IPID.
    Resolved resolved { length: u64 as "a list of # bytes", unknown: Guid as "IPID" }
    /// How many members a set has.
    Members members { members: u64 }
    /// The length of a snapshot.
    Length length { length: u64 }
}

impl From<()> for Results {
    fn from((): ()) -> Results {
        Results::Done {}
    }
}

impl From<Released> for Results {
    fn from(r: Released) -> Results {
        Results::Released {
            public: r.public.into(),
            private: r.private.into(),
            interfaces: r.interface_went.into(),
            objects: r.object_went.into(),
        }
    }
}

impl From<Pinged> for Results {
    fn from(p: Pinged) -> Results {
        Results::Pinged {
            set: p.set,
            backoff: p.backoff.into(),
        }
    }
}

impl From<Counts> for Results {
    fn from(c: Counts) -> Results {
        Results::Counts {
            exporters: c.exporters as u64,
            objects: c.objects as u64,
            interfaces: c.interfaces as u64,
            sets: c.sets as u64,
        }
    }
}

impl From<Resolved> for Results {
    fn from(r: Resolved) -> Results {
        Results::Resolved {
            length: r.length as u64,
            unknown: r.unknown,
        }
    }
}

macro_rules! calls {
    ($($code:literal $name:literal $call:ident $function:ident
        ($($field:ident: $type:ty $(as $words:literal)?),*) $results:ident;)+) => {
        /// A call of a recording. It is shown in words: `add, client 3, IPID {…}, public 5, private 0`.
        #[derive(Clone, Copy, Debug, PartialEq, Eq)]
        #[non_exhaustive]
        pub enum Call<'a> {
            $(
                #[doc = concat!("[`Table::", stringify!($function), "`](crate::Table::", stringify!($function), ").")]
                $call {
                    $(
                        #[doc = concat!("Shown as `", words!($field $(as $words)?), "`.")]
                        $field: $type,
                    )*
                },
            )+
        }

        impl<'a> Call<'a> {
            /// Its code in a record.
            pub fn code(&self) -> u8 {
                match self {
                    $(Call::$call { .. } => $code,)+
                }
            }

            /// What it is called.
            pub fn name(&self) -> &'static str {
                match self {
                    $(Call::$call { .. } => $name,)+
                }
            }

            /// The call of this code with its fields from the front; none where a mark is neither 0 nor 1, or the code no call's.
            pub(super) fn from_rest(code: u8, rest: &mut Rest<'a>) -> Option<Call<'a>> {
                match code {
                    $($code => Some(Call::$call { $($field: FromRest::from_rest(rest)?),* }),)+
                    _ => None,
                }
            }

            pub(super) fn fields(&self) -> Fields<'_> {
                match self {
                    $(Call::$call { $($field),* } => {
                        each([$((words!($field $(as $words)?), $field)),*])
                    })+
                }
            }

            /// The results that these bytes hold; zeros where there are none.
            pub(super) fn results(&self, bytes: &[u8]) -> Results {
                let mut rest = Rest { numbers: bytes, lists: [&[]; 2] };
                let results = match self {
                    $(Call::$call { .. } => Results::$results(&mut rest),)+
                };
                results.expect("results have no marks")
            }
        }

        impl<W, S> Recorder<W, S>
        where
            W: AsRef<[u64]> + AsMut<[u64]>,
            S: AsRef<[u8]> + AsMut<[u8]>,
        {
            /// Performs a call of a recording, whose own record has this table's results and bytes. An output buffer of more bytes
            /// than any call writes is lent shorter.
            pub fn perform<'a>(&mut self, call: &Call<'a>) -> Result<()> {
                match *call {
                    $(Call::$call { $($field),* } => {
                        $(let mut $field = $field.keep();)*
                        self.$function($(<$type as Argument>::lend(&mut $field)),*).map(drop)
                    })+
                }
            }
        }
    };
}

// of each call its code and name; the variant and the function; what it is given, in the function's order, with the words where they
// are not the field's name; its results
calls! {
    0 "reset" Reset reset (time: u64) done;
    1 "enter exporter" EnterExporter enter_exporter (oxid: Oxid as "OXID", unknown: Guid as "IPID", list: &'a [u8] as "# bytes") done;
    2 "remove exporter" RemoveExporter remove_exporter (oxid: Oxid as "OXID") done;
    3 "enter object" EnterObject enter_object (
        oid: Oid as "OID", oxid: Oxid as "OXID", ipid: Guid as "IPID", iid: Guid as "IID", public: u32, no_ping: bool as "no ping"
    ) done;
    4 "enter interface" EnterInterface enter_interface (oid: Oid as "OID", ipid: Guid as "IPID", iid: Guid as "IID", public: u32) done;
    5 "add" Add add (client: u32, ipid: Guid as "IPID", public: u32, private: u32) done;
    6 "release" Release release (client: u32, ipid: Guid as "IPID", public: u32, private: u32) released;
    7 "drop client" DropClient drop_client (client: u32) done;
    8 "add list" AddList add_list (client: u32, items: &'a [u8] as "# bytes", room: Room as "a buffer of # bytes") done;
    9 "release list" ReleaseList release_list (client: u32, items: &'a [u8] as "# bytes", room: Room as "a buffer of # bytes") done;
    10 "simple ping" SimplePing simple_ping (set: SetId) done;
    11 "complex ping" ComplexPing complex_ping (
        set: SetId, sequence: u16, adds: Oids<'a> as "a list of #", deletes: Oids<'a> as "a list of #"
    ) pinged;
    12 "clock" Clock clock (time: u64) counts;
    13 "resolve" Resolve resolve (oxid: Oxid as "OXID", room: Room as "a buffer of # bytes") resolved;
    14 "resolve by protocols" ResolveFiltered resolve_filtered (
        oxid: Oxid as "OXID", protocols: Protocols<'a> as "a list of #", room: Room as "a buffer of # bytes"
    ) resolved;
    15 "census" Census census () counts;
    16 "members" Members members (set: SetId) members;
    17 "next stop" NextStop next_stop (reference: &'a [u8] as "# bytes") done;
    18 "write snapshot" WriteSnapshot write_snapshot (room: Room as "a buffer of # bytes") length;
    19 "load snapshot" LoadSnapshot load_snapshot (snapshot: &'a [u8] as "# bytes") done;
}

impl Call<'_> {
    /// Its numbers; its lists.
    pub(super) fn split(&self) -> [impl Iterator<Item = Named<'_>>; 2] {
        [false, true].map(|list| {
            self.fields()
                .filter(move |(_, field)| field.is_list() == list)
        })
    }
}

/// Fields in words, each behind a comma.
fn show<'f>(f: &mut fmt::Formatter<'_>, fields: impl Iterator<Item = Named<'f>>) -> fmt::Result {
    for (name, field) in fields {
        f.write_str(", ")?;
        let (before, behind) = name.split_once('#').unwrap_or((name, ""));
        f.write_str(before)?;
        if before.len() == name.len() {
            f.write_str(" ")?;
        }
        field.show(f)?;
        f.write_str(behind)?;
    }
    Ok(())
}

impl fmt::Display for Call<'_> {
    fn fmt(&self, f: &mut fmt::Formatter<'_>) -> fmt::Result {
        f.write_str(self.name())?;
        let [numbers, lists] = self.split();
        show(f, numbers.chain(lists))
    }
}

impl fmt::Display for Answer {
    fn fmt(&self, f: &mut fmt::Formatter<'_>) -> fmt::Result {
        write!(f, "{}", self.number)?;
        show(f, self.results.fields())
    }
}
