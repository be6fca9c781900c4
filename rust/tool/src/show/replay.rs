//! What a replay found.

use super::{dump, many, plain_hex, Paint};
use crate::json::{self, Json};
use rimonakh::recording::{Answer, Record, Recording, Records};
use rimonakh::{Error, Outcome, Recorder, Table, Tally};
use std::fmt::Write;

/// A replay: how many records there are, and what the library answers.
pub struct Replay<'a> {
    records: usize,
    outcome: Outcome,
    differing: Option<Differing<'a>>,
}

/// A record that differs: its number, and what the library answers and shows.
struct Differing<'a> {
    number: u32,
    recorded: Record<'a>,
    ours: Answer,
    shown: Vec<u8>,
}

impl<'a> Replay<'a> {
    /// Of a recording that was replayed with this outcome.
    pub fn new(recording: &'a [u8], outcome: Outcome) -> Result<Replay<'a>, Error> {
        let records = Records::read(recording)?;
        let differing = |number| Differing::new(records.clone(), number);
        Ok(Replay {
            records: records.len(),
            outcome,
            differing: outcome.differs.map_or(Ok(None), differing)?,
        })
    }

    /// Whether every answer is ours, or which is not, and the tally.
    pub fn text(&self, paint: Paint) -> String {
        let mut out = String::new();
        match self.outcome.differs {
            None => {
                let records = many(self.records, "record");
                let _ = writeln!(out, "{}: {records}", paint.green("agrees"));
            }
            Some(number) => {
                let differs = paint.red(&format!("record {number} differs"));
                let _ = writeln!(out, "{differs}, of {}", self.records);
            }
        }
        if let Some(d) = &self.differing {
            d.text(&mut out);
        }
        let t = self.outcome.tally;
        let (granted, taken, rundown) = (t.granted, t.taken, t.rundown);
        let held = t.held();
        let _ = writeln!(
            out,
            "granted {granted}, taken {taken}, run down {rundown}, held {held}"
        );
        out
    }

    pub fn json(&self) -> Json {
        let Tally {
            granted,
            taken,
            rundown,
        } = self.outcome.tally;
        let mut out = vec![
            ("agrees", Json::Bool(self.outcome.differs.is_none())),
            ("records", json::size(self.records)),
            ("granted", json::number(granted)),
            ("taken", json::number(taken)),
            ("run_down", json::number(rundown)),
            ("held", json::number(self.outcome.tally.held())),
        ];
        if let Some(d) = &self.differing {
            let recorded = json_answer(d.recorded.answer, d.recorded.shown);
            out.push(("record", json::number(d.number)));
            out.push(("call", json::text(d.recorded.call)));
            out.push(("recorded", recorded));
            out.push(("ours", json_answer(d.ours, &d.shown)));
        }
        Json::Object(out)
    }
}

impl<'a> Differing<'a> {
    /// Our answer, which a replay does not tell, is found by replaying the records before once more and performing the call then.
    fn new(mut records: Records<'a>, number: u32) -> Result<Option<Differing<'a>>, Error> {
        let before: Recording = records.by_ref().take(number as usize - 1).collect();
        let mut table = Table::new(0);
        table.replay(before.bytes())?;
        let mut day = Recorder::over(table)?;
        let Some(recorded) = records.next() else {
            return Ok(None);
        };
        let _ = day.perform(&recorded.call); // its answer is in the last record, refused or not
        let ours = Records::read(day.recording())?.last();
        Ok(ours.map(|ours| Differing {
            number,
            recorded,
            ours: ours.answer,
            shown: ours.shown.to_vec(),
        }))
    }

    fn text(&self, out: &mut String) {
        let (recorded, shown) = (&self.recorded, self.recorded.shown);
        let _ = writeln!(out, "call: {}", recorded.call);
        let differs = first_difference(shown, &self.shown);
        let place = differs.unwrap_or(0);
        answered(out, "recorded", recorded.answer, shown, place);
        answered(out, "ours", self.ours, &self.shown, place);
        if let Some(at) = differs {
            let _ = writeln!(out, "the shown bytes differ from byte {at} on");
        }
    }
}

/// An answer, with the bytes that it shows around a place.
fn answered(out: &mut String, whose: &str, answer: Answer, shown: &[u8], place: usize) {
    let _ = writeln!(out, "{whose}: {answer}");
    if !shown.is_empty() {
        let _ = writeln!(out, "  shown: {}", many(shown.len(), "byte"));
        dump(out, "    ", shown, place);
    }
}

fn json_answer(answer: Answer, shown: &[u8]) -> Json {
    Json::Object(vec![
        ("answer", json::text(answer)),
        ("shown", plain_hex(shown)),
    ])
}

/// Where two parts differ first; a part that is longer differs where the other ends.
fn first_difference(a: &[u8], b: &[u8]) -> Option<usize> {
    let same = a.iter().zip(b).take_while(|(x, y)| x == y).count();
    (a != b).then_some(same)
}
