//! How live objects and ping sets are, by the seconds since they were heard.

use crate::show::Paint;
use rimonakh::limits::SILENCE;
use rimonakh::snapshot::{Object, Set};
use rimonakh::Snapshot;

#[derive(Clone, Copy, Debug, PartialEq, Eq)]
pub enum Liveness {
    Live,
    /// Two of a client's pings did not come.
    TwoMissed,
    /// It ends within a minute.
    EndsSoon,
    /// It stays without pings.
    NotPinged,
}

impl Liveness {
    /// In the order of a summary.
    pub const ALL: [Liveness; 4] = [
        Liveness::Live,
        Liveness::TwoMissed,
        Liveness::EndsSoon,
        Liveness::NotPinged,
    ];

    /// Of something that ends where it stays silent.
    fn after(seconds: u64) -> Liveness {
        const TWO_MISSED: u64 = 240;
        const ENDS_SOON: u64 = SILENCE - 60;
        match seconds {
            ENDS_SOON.. => Liveness::EndsSoon,
            TWO_MISSED.. => Liveness::TwoMissed,
            _ => Liveness::Live,
        }
    }

    /// What it is called.
    pub fn words(self) -> &'static str {
        match self {
            Liveness::Live => "live",
            Liveness::TwoMissed => "two pings missed",
            Liveness::EndsSoon => "ends soon",
            Liveness::NotPinged => "not pinged",
        }
    }

    /// The same of some number.
    pub fn plural(self) -> &'static str {
        match self {
            Liveness::EndsSoon => "end soon",
            other => other.words(),
        }
    }

    /// Its class on a page.
    pub fn class(self) -> &'static str {
        match self {
            Liveness::Live => "good",
            Liveness::TwoMissed => "warn",
            Liveness::EndsSoon => "bad",
            Liveness::NotPinged => "soft",
        }
    }
}

/// The seconds since something was heard, and what they mean.
#[derive(Clone, Copy, Debug, PartialEq, Eq)]
pub struct Silence {
    pub seconds: u64,
    pub liveness: Liveness,
}

impl Silence {
    pub fn of_object(s: &Snapshot, o: &Object) -> Silence {
        let seconds = s.clock - o.heard;
        let liveness = match o.no_ping {
            true => Liveness::NotPinged,
            false => Liveness::after(seconds),
        };
        Silence { seconds, liveness }
    }

    pub fn of_set(s: &Snapshot, t: &Set) -> Silence {
        let seconds = s.clock - t.pinged;
        Silence {
            seconds,
            liveness: Liveness::after(seconds),
        }
    }

    /// How long ago, marked where that is long.
    pub fn ago(self, what: &str, paint: Paint) -> String {
        let (text, words) = (
            format!("{what} {} s ago", self.seconds),
            self.liveness.words(),
        );
        match self.liveness {
            Liveness::Live => text,
            Liveness::TwoMissed => paint.yellow(&format!("{text}, {words}")),
            Liveness::EndsSoon => paint.red(&format!("{text}, {words}")),
            Liveness::NotPinged => format!("{words}, {text}"),
        }
    }
}
