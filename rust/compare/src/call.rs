//! The calls, in one table, and what follows from it: how a call is read from a line, performed by a side and told in a record.

use crate::lines::{Answers, Arguments};
use model::entries::Way;
use model::Guid;

/// What an accepted call answers: its results, and the output buffer as it is left, or the part.
pub type Results<const N: usize> = ([u64; N], Vec<u8>);

/// The same, or the number of a refusal.
pub type Answer<const N: usize> = Result<Results<N>, u32>;

macro_rules! calls {
    ($($call:ident $function:ident $code:literal $letter:literal
        ($($argument:ident: $type:ty),*) [$($result:ident)*] [$($answer:literal)+];)+) => {
        /// A call with its arguments.
        #[derive(Clone, Debug)]
        pub enum Call {
            $($call { $($argument: $type),* },)+
        }

        /// A side that performs calls.
        pub trait Calls {
            $(fn $function(
                &mut self,
                $($argument: <$type as Argument>::Lent<'_>),*
            ) -> Answer<{ <[&str]>::len(&[$(stringify!($result)),*]) }>;)+
        }

        /// The answers of each call, by its letter: each occurs in the lines.
        pub const ANSWERS: Answers = &[$(($letter, &[$($answer),+])),+];

        impl Call {
            /// What a side answers.
            pub fn by(&self, side: &mut impl Calls) -> Reply {
                match self {
                    $(Call::$call { $($argument),* } => {
                        self.reply(side.$function($($argument.lend()),*))
                    })+
                }
            }

            /// The names of its results.
            pub fn results(&self) -> &'static [&'static str] {
                match self {
                    $(Call::$call { .. } => &[$(stringify!($result)),*],)+
                }
            }

            /// The length of its output buffer.
            pub fn room(&self) -> usize {
                match self {
                    $(Call::$call { $($argument),* } => 0 $(+ $argument.room())*,)+
                }
            }

            /// Its letter in lines.
            pub fn letter(&self) -> u8 {
                match self {
                    $(Call::$call { .. } => $letter,)+
                }
            }

            /// The call of a line.
            pub fn read(letter: u8, a: &mut Arguments) -> Option<Call> {
                match letter {
                    $($letter => Some(Call::$call { $($argument: Argument::read(a)),* }),)+
                    _ => None,
                }
            }

            /// What a record says of it.
            pub fn told(&self) -> Told {
                let mut told = Told::default();
                match self {
                    $(Call::$call { $($argument),* } => {
                        told.call.push($code);
                        $($argument.tell(&mut told);)*
                    })+
                }
                told
            }
        }
    };
}

// of each call its name, the function, the code in records and the letter in lines; its arguments in the order of both; the names of its
// results; the answers that documents 01 and 02 list
calls! {
    Reset reset 0 b'R' (time: u64) [] [0 1];
    EnterExporter enter_exporter 1 b'X' (oxid: u64, unknown: Guid, list: Vec<u8>) [] [0 1 3 13 14 19 9];
    RemoveExporter remove_exporter 2 b'D' (oxid: u64) [] [0 1 4];
    EnterObject enter_object 3 b'O' (oid: u64, oxid: u64, ipid: Guid, iid: Guid, public: u32, no_ping: bool) [] [0 1 3 4 7 9];
    EnterInterface enter_interface 4 b'I' (oid: u64, ipid: Guid, iid: Guid, public: u32) [] [0 1 3 5 7 9];
    Add add 5 b'A' (client: u32, ipid: Guid, public: u32, private: u32) [] [0 1 20 6 8];
    Release release 6 b'L' (client: u32, ipid: Guid, public: u32, private: u32) [public private interfaces objects] [0 1 20 6];
    DropClient drop_client 7 b'Y' (client: u32) [] [0 1 20];
    AddList add_list 8 b'a' (client: u32, room: usize, items: Vec<u8>) [] [0 1 20 13 10 15];
    ReleaseList release_list 9 b'l' (client: u32, room: usize, items: Vec<u8>) [] [0 1 20 13 10 15];
    SimplePing simple_ping 10 b'S' (set: u64) [] [0 1 11];
    ComplexPing complex_ping 11 b'Q' (set: u64, sequence: u16, adds: Vec<u64>, deletes: Vec<u64>) [set backoff] [0 1 10 11 12 5 9 18];
    Clock clock 12 b'K' (time: u64) [exporters objects interfaces sets] [0 1 2];
    Resolve resolve 13 b'V' (oxid: u64, room: usize) [length low high] [0 1 4 15];
    ResolveFiltered resolve_filtered 14 b'v' (oxid: u64, room: usize, protocols: Vec<u16>) [length low high] [0 1 10 4 15];
    Census census 15 b'C' () [exporters objects interfaces sets] [0 1];
    Members members 16 b'M' (set: u64) [members] [0 1 11];
    NextStop next_stop 17 b'T' (reference: Vec<u8>) [in_store] [0 1 13 14 21 22];
    WriteSnapshot write_snapshot 18 b'H' (room: usize) [length] [0 1 15];
    LoadSnapshot load_snapshot 19 b'h' (snapshot: Vec<u8>) [] [0 1 23];
}

/// A call's code and numbers, and its lists.
#[derive(Default)]
pub struct Told {
    pub call: Vec<u8>,
    pub lists: Vec<Vec<u8>>,
}

/// An argument of a call.
pub trait Argument {
    /// What a side is handed.
    type Lent<'a>
    where
        Self: 'a;

    fn lend(&self) -> Self::Lent<'_>;

    /// The next one of a line.
    fn read(a: &mut Arguments) -> Self;

    fn tell(&self, told: &mut Told);

    /// So many bytes of an output buffer.
    fn room(&self) -> usize {
        0
    }
}

macro_rules! numbers {
    ($($type:ty),+) => {$(
        impl Argument for $type {
            type Lent<'a> = $type;

            fn lend(&self) -> $type {
                *self
            }

            fn read(a: &mut Arguments) -> $type {
                a.number() as $type
            }

            fn tell(&self, told: &mut Told) {
                told.call.extend(self.to_le_bytes());
            }
        }
    )+};
}

numbers!(u64, u32, u16);

/// The length of an output buffer.
impl Argument for usize {
    type Lent<'a> = usize;

    fn lend(&self) -> usize {
        *self
    }

    fn read(a: &mut Arguments) -> usize {
        a.number() as usize
    }

    fn tell(&self, told: &mut Told) {
        (*self as u64).tell(told);
    }

    fn room(&self) -> usize {
        *self
    }
}

impl Argument for bool {
    type Lent<'a> = bool;

    fn lend(&self) -> bool {
        *self
    }

    fn read(a: &mut Arguments) -> bool {
        a.number() != 0
    }

    fn tell(&self, told: &mut Told) {
        told.call.push(*self as u8);
    }
}

impl Argument for Guid {
    type Lent<'a> = Guid;

    fn lend(&self) -> Guid {
        *self
    }

    fn read(a: &mut Arguments) -> Guid {
        a.guid()
    }

    fn tell(&self, told: &mut Told) {
        told.call.extend(self);
    }
}

macro_rules! lists {
    ($($type:ty, $read:expr;)+) => {$(
        impl Argument for Vec<$type> {
            type Lent<'a> = &'a [$type];

            fn lend(&self) -> &[$type] {
                self
            }

            fn read(a: &mut Arguments) -> Vec<$type> {
                $read(a)
            }

            fn tell(&self, told: &mut Told) {
                told.lists.push(self.iter().flat_map(|n| n.to_le_bytes()).collect());
            }
        }
    )+};
}

lists! {
    u8, |a: &Arguments| a.bytes();
    u16, |a: &mut Arguments| a.numbers().iter().map(|n| *n as u16).collect();
    u64, |a: &mut Arguments| a.numbers();
}

/// What a call answers: its number, the other numbers, and the output buffer as it is left, or the part.
#[derive(Clone, Debug, PartialEq, Eq)]
pub struct Reply {
    pub number: u32,
    pub values: Vec<u64>,
    pub bytes: Vec<u8>,
}

/// What an output buffer holds before a call.
pub fn buffer(room: usize) -> Vec<u8> {
    (0..room).map(|i| i as u8 ^ 0xA5).collect()
}

/// Results without bytes.
pub fn told<const N: usize>(values: [u64; N]) -> Results<N> {
    (values, vec![])
}

/// What a call without results answers.
pub fn done(_: ()) -> Results<0> {
    told([])
}

/// The numbers of each kind.
pub fn counts(of: [usize; 4]) -> Results<4> {
    told(of.map(|n| n as u64))
}

/// What a release took, and whether the interface and its object went.
pub fn released(public: u32, private: u32, went: [bool; 2]) -> Results<4> {
    let [interfaces, objects] = went.map(u64::from);
    told([public.into(), private.into(), interfaces, objects])
}

/// What a call answers that writes into a buffer of so many bytes. A refused one leaves it.
pub fn written<const N: usize, T, E: Into<u32>>(
    room: usize,
    call: impl FnOnce(&mut [u8]) -> Result<T, E>,
    values: impl FnOnce(T) -> [u64; N],
) -> Answer<N> {
    let mut out = buffer(room);
    match call(&mut out) {
        Ok(value) => Ok((values(value), out)),
        Err(refusal) => {
            assert!(out == buffer(room), "a refused call leaves its buffer");
            Err(refusal.into())
        }
    }
}

pub fn halves(g: Guid) -> [u64; 2] {
    let (low, high) = g.split_at(8);
    [low, high].map(|half| u64::from_le_bytes(half.try_into().unwrap()))
}

impl Call {
    fn reply<const N: usize>(&self, answer: Answer<N>) -> Reply {
        match answer {
            Ok((values, bytes)) => Reply {
                number: 0,
                values: values.to_vec(),
                bytes,
            },
            Err(number) => self.refused(number),
        }
    }

    /// The refusal of this call: zeros, an empty part, the buffer as lent.
    pub fn refused(&self, number: u32) -> Reply {
        Reply {
            number,
            values: vec![0; self.results().len()],
            bytes: buffer(self.room()),
        }
    }

    /// An add or a release.
    pub fn count(way: Way, client: u32, ipid: Guid, public: u32, private: u32) -> Call {
        match way {
            Way::Add => Call::Add {
                client,
                ipid,
                public,
                private,
            },
            Way::Release => Call::Release {
                client,
                ipid,
                public,
                private,
            },
        }
    }

    /// A list of adds or releases.
    pub fn count_list(way: Way, client: u32, room: usize, items: Vec<u8>) -> Call {
        match way {
            Way::Add => Call::AddList {
                client,
                room,
                items,
            },
            Way::Release => Call::ReleaseList {
                client,
                room,
                items,
            },
        }
    }

    /// Of a list of adds or releases: which, for which client, and its items.
    pub fn listed(&self) -> Option<(Way, u32, &[u8])> {
        match self {
            Call::AddList { client, items, .. } => Some((Way::Add, *client, items)),
            Call::ReleaseList { client, items, .. } => Some((Way::Release, *client, items)),
            _ => None,
        }
    }
}

/// A step of a run: a call, or a change of the memory behind the library's back.
#[derive(Clone, Debug)]
pub enum Step {
    Call(Call),
    /// A call that is lent so many words and bytes.
    Lent {
        words: usize,
        store: usize,
        call: Call,
    },
    PokeWord {
        at: usize,
        value: u64,
    },
    PokeByte {
        at: usize,
        value: u8,
    },
}
