//! Binding lists: made of their bindings, and walked over.

use rimonakh::{list, Block, Error, Guid, Oid, Oxid, Part, Reference};

/// The string bindings of a list, in Rust's words.
fn strings(bytes: &[u8]) -> Vec<(u16, String)> {
    let found = list::strings(bytes).unwrap();
    found.map(|b| (b.tower, b.address.to_string())).collect()
}

/// The security bindings, likewise.
fn securities(bytes: &[u8]) -> Vec<(u16, u16, String)> {
    let found = list::securities(bytes).unwrap();
    found
        .map(|b| (b.service, b.reserved, b.name.to_string()))
        .collect()
}

#[test]
fn there_and_back() {
    let given = [
        (7, "10.1.4.20[49500]"),
        (8, ""),
        (0xFFFF, "plant-gw01 ä 😀"),
    ];
    let secured = [(10, 0xFFFF, "RPCSS/plant-gw01"), (9, 0, "")];
    let bytes = list::of(&given, &secured).unwrap();
    assert!(strings(&bytes).iter().map(|(t, a)| (*t, &a[..])).eq(given));
    let found = securities(&bytes);
    assert!(found.iter().map(|(s, w, n)| (*s, *w, &n[..])).eq(secured));

    let mixed = list::Builder::new()
        .security(10, 0xFFFF, "RPCSS/plant-gw01")
        .string(7, "10.1.4.20[49500]")
        .string(8, "")
        .security(9, 0, "")
        .string(0xFFFF, "plant-gw01 ä 😀");
    assert_eq!(mixed.build(), Ok(bytes), "in any order of the parts");
    for bytes in [list::Builder::new().build().unwrap(), vec![0; 4]] {
        assert!(strings(&bytes).is_empty() && securities(&bytes).is_empty());
    }
}

#[test]
fn refused() {
    let one = |tower, address: &str| list::Builder::new().string(tower, address).build();
    assert_eq!(one(0, "a"), Err(Error::Layout));
    assert_eq!(
        one(7, "a\0\u{8}b"),
        Err(Error::Layout),
        "two bindings in one text"
    );
    assert_eq!(list::of(&[], &[(0, 1, "a")]), Err(Error::Layout));
    assert_eq!(list::of(&[], &[(10, 1, "a\0")]), Err(Error::Layout));
    assert!(one(7, &"a".repeat(65_531)).is_ok());
    assert_eq!(one(7, &"a".repeat(65_532)), Err(Error::Layout));
    for cut in [&[1, 0][..], &[2, 0, 1, 0, 0, 0]] {
        assert_eq!(list::strings(cut).err(), Some(Error::Short));
        assert_eq!(list::securities(cut).err(), Some(Error::Short));
    }
}

#[test]
fn texts() {
    // a half of a pair, a quote and a line's end
    let bytes = [7, 0, 6, 0, 7, 0, 0, 0xD8, 34, 0, 10, 0, 0, 0, 0, 0, 0, 0];
    let text = list::strings(&bytes).unwrap().next().unwrap().address;
    assert_eq!(text.to_string(), "\u{FFFD}\"\n");
    assert_eq!(
        format!("{text:?}"),
        r#""\u{fffd}\"\n""#.replace(r"\u{fffd}", "\u{FFFD}")
    );
    assert!(text.units().eq([0xD800, 34, 10]));
    assert!(text != "\u{FFFD}\"\n", "another unit");
    let bytes = list::of(&[(7, "ä😀")], &[]).unwrap();
    let text = list::strings(&bytes).unwrap().next().unwrap().address;
    assert!(text == "ä😀" && text != "ä" && text.units().len() == 3);
}

#[test]
fn of_references() {
    let bindings = list::of(&[(7, "a"), (8, "b")], &[(10, 0, "c")]).unwrap();
    let block = Block {
        public: 1,
        oxid: Oxid(1),
        oid: Oid(1),
        ipid: Guid([3; 16]),
        ..Block::default()
    };
    let (iid, clsid, mut buffer) = (Guid([1; 16]), Guid([2; 16]), [0; 256]);
    let written = |reference: Reference, tail: &[u8], buffer: &mut [u8]| {
        let length = reference.write(tail, &[1; 8], buffer).unwrap();
        buffer[..length].to_vec()
    };
    for reference in [
        Reference::standard(iid, block),
        Reference::handler(iid, block, clsid),
        Reference::extended(iid, block, clsid),
    ] {
        let bytes = written(reference, &bindings, &mut buffer);
        let strings: Vec<_> = Reference::strings(&bytes).unwrap().collect();
        assert!(list::strings(&bindings).unwrap().eq(strings));
        let securities: Vec<_> = Reference::securities(&bytes).unwrap().collect();
        assert!(list::securities(&bindings).unwrap().eq(securities));
        assert_eq!(
            Reference::bindings(&bytes, Part::Strings).unwrap().count(),
            2
        );
        assert_eq!(Reference::strings(&bytes[1..]).err(), Some(Error::Layout));
    }
    let custom = Reference::custom(iid, clsid, 0, bindings.len() as u32);
    let bytes = written(custom, &bindings, &mut buffer);
    assert_eq!(Reference::strings(&bytes).unwrap().count(), 0);
    assert_eq!(Reference::securities(&bytes).unwrap().count(), 0);
    assert_eq!(
        Reference::bindings(&bytes, Part::Strings).unwrap().count(),
        0
    );
}
