//! A day that is recorded by the recorder is replayed; with another answer in it, it differs there.

mod making;

use making::guid;
use rimonakh::limits::MOST_RECORDS;
use rimonakh::{Error, Oid, Outcome, Oxid, Recorder, SetId, Table, Tally};

const LIST: [u8; 12] = [4, 0, 3, 0, 7, 0, 0, 0, 0, 0, 0, 0];

/// A day with accepted and refused calls: the recorder, and how many records it has.
fn day() -> (Recorder, u64) {
    let mut day = Recorder::new(1000);
    let mut buffer = [0; 64];
    day.enter_exporter(Oxid(1), guid(1), &LIST).unwrap();
    day.enter_object(Oid(1), Oxid(1), guid(2), guid(3), 5, false)
        .unwrap();
    day.enter_object(Oid(2), Oxid(1), guid(4), guid(3), 7, true)
        .unwrap();
    day.add(6, guid(4), 1, 2).unwrap();
    assert_eq!(day.add(8, guid(4), 1, 2), Err(Error::NoClient));
    assert_eq!(day.resolve(Oxid(1), &mut buffer).unwrap().length, 12);
    assert_eq!(day.resolve(Oxid(1), &mut buffer[..11]), Err(Error::NoRoom));
    let set = day.complex_ping(SetId(0), 1, &[Oid(1)], &[]).unwrap().set;
    assert_eq!(day.members(set), Ok(1));
    assert_eq!(day.release(6, guid(4), 3, 9).unwrap().private, 2);
    assert_eq!(day.clock(1360).unwrap().objects, 1);
    (day, 12)
}

#[test]
fn a_recorded_day_agrees() {
    let (day, records) = day();
    let mut table = Table::new(7);
    let tally = Tally {
        granted: 5 + 7 + 3,
        taken: 3 + 2,
        rundown: 5,
    };
    let agrees = Outcome {
        differs: None,
        tally,
    };
    assert_eq!(day.records(), records);
    assert_eq!(table.replay(day.recording()), Ok(agrees));
    assert_eq!(tally.held(), 5);
    let (recorded, _) = day.finish();
    assert_eq!(table.snapshot(), recorded.snapshot());
}

#[test]
fn a_table_in_service_is_recorded_from_its_snapshot() {
    let (table, _) = day().0.finish();
    let mut evening = Recorder::over(table).unwrap();
    evening.add(0, guid(4), 1, 1).unwrap();
    let outcome = Table::new(0).replay(evening.recording()).unwrap();
    assert_eq!(outcome.differs, None);
    assert_eq!(outcome.tally.granted, 5 + 2);
    let unsound = Table::over([0u64; 10], [0u8; 10]);
    assert_eq!(Recorder::over(unsound).err(), Some(Error::Unsound));
}

#[test]
fn another_answer_differs_there() {
    let (day, records) = day();
    let (_, mut recording) = day.finish();
    let last = recording.len() - 8 - 40; // the number of its answer
    recording[last] ^= 1;
    let mut table = Table::new(0);
    let outcome = table.replay(&recording).unwrap();
    assert_eq!(outcome.differs, Some(records as u32));
    assert_eq!(table.census().unwrap().objects, 1); // that call was done
    recording.push(0);
    assert_eq!(table.replay(&recording), Err(Error::Layout));
    assert_eq!(table.replay(&recording[..last]), Err(Error::Short));
    assert_eq!(table.census().unwrap().objects, 1);
}

#[test]
fn no_more_records_than_are_replayed() {
    let mut long = Recorder::new(0);
    while long.records() < MOST_RECORDS {
        long.census().unwrap();
    }
    let mut table = Table::new(0);
    assert_eq!(table.replay(long.recording()).unwrap().differs, None);
    long.census().unwrap();
    assert_eq!(table.replay(long.recording()), Err(Error::TooMany));
}
