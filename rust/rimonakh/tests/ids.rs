//! Identifiers in texts.

use rimonakh::{Guid, NoGuid, Oid, Oxid, SetId};

#[test]
fn numbers_in_hex() {
    let (oxid, oid, set) = (Oxid(0x1101), Oid(u64::MAX), SetId(0));
    assert_eq!(
        format!("{oxid} {oid} {set}"),
        "0x1101 0xffffffffffffffff 0x0"
    );
    assert_eq!(
        format!("{oxid:?} {oid:?}"),
        "Oxid(0x1101) Oid(0xffffffffffffffff)"
    );
    assert_eq!(
        format!("{oxid:x} {oxid:#010x} {:X}", Oid(0xAB)),
        "1101 0x00001101 AB"
    );
}

#[test]
fn guids_there_and_back() {
    let guid = Guid::new(
        0x0000_0131,
        0x0203,
        0x0405,
        [0xC0, 0xA0, 0, 0, 0, 0, 0, 0x46],
    );
    let text = "{00000131-0203-0405-c0a0-000000000046}";
    assert_eq!(guid.to_string(), text);
    assert_eq!(format!("{guid:?}"), text);
    for written in [text, &text.to_uppercase(), text.trim_matches(['{', '}'])] {
        assert_eq!(written.parse(), Ok(guid), "{written}");
    }
    assert_eq!(Guid::NIL.to_string().parse(), Ok(Guid::NIL));
}

#[test]
fn texts_of_no_guid() {
    for text in [
        "",
        "{}",
        "00000131-0203-0405-c0a0-00000000004",
        "00000131-0203-0405-c0a0-0000000000466",
        "00000131-0203-0405-c0a0-000000000046-",
        "000001310203-0405-c0a0-000000000046",
        "00000131-0203-0405-c0a0-00000000004g",
        "+0000131-0203-0405-c0a0-000000000046",
        "{00000131-0203-0405-c0a0-000000000046",
        "00000131-0203-0405-c0a0-000000000046}",
        "{{00000131-0203-0405-c0a0-000000000046}}",
        " 00000131-0203-0405-c0a0-000000000046",
        "ä00000131-0203-0405-c0a0-00000000004",
    ] {
        assert_eq!(text.parse::<Guid>(), Err(NoGuid), "{text}");
    }
    let said = "a GUID is 8-4-4-4-12 hex digits, with or without braces";
    assert_eq!(NoGuid.to_string(), said);
}
