//! What several tests make: runs of the program, tables, files of the repository.
#![allow(dead_code)] // each test uses its part

use rimonakh::{list, Guid, Item, Oid, Oxid, SetId, Table};
use rimonakh_tool::{run, Streams};
use std::path::PathBuf;

/// What a run of the program ends with.
#[derive(Clone, Debug, PartialEq, Eq)]
pub struct Ran {
    pub status: u8,
    pub out: String,
    pub err: String,
}

/// Runs the program with these arguments and this input, on no terminal.
pub fn ran(args: &[&str], stdin: &[u8]) -> Ran {
    painted(args, stdin, false)
}

/// The same, with or without the colours of a terminal.
pub fn painted(args: &[&str], stdin: &[u8], colours: bool) -> Ran {
    let (mut out, mut err) = (Vec::new(), Vec::new());
    let mut streams = Streams {
        stdin: &mut &stdin[..],
        stdout: &mut out,
        stderr: &mut err,
        colour_out: colours,
        colour_err: colours,
        progress: false,
    };
    let status = run(args.iter().map(|a| a.to_string()), &mut streams);
    let text = |bytes| String::from_utf8(bytes).unwrap();
    Ran {
        status,
        out: text(out),
        err: text(err),
    }
}

/// The place of a file of the repository.
pub fn path(file: &str) -> PathBuf {
    let root = PathBuf::from(env!("CARGO_MANIFEST_DIR")).join("../..");
    root.join(file)
}

pub fn file(name: &str) -> Vec<u8> {
    std::fs::read(path(name)).expect(name)
}

pub fn guid(n: u64) -> Guid {
    Guid(u128::from(n).to_le_bytes())
}

/// A gateway on a usual day: five exporters, 34 objects, two clients that ping and one that fell silent.
pub fn usual() -> Table {
    let mut table = Table::new(43_200);
    let iid = |n| {
        Guid::new(
            n,
            0x011E,
            0x11D0,
            [0x96, 0x75, 0, 0x20, 0xAF, 0xD8, 0xAD, 0xB3],
        )
    };
    let iids = [iid(0x39C1_3A54), iid(0x39C1_3A52), iid(0x39C1_3A71)];
    for (k, name) in ["tank-farm", "boiler", "historian", "packing"]
        .iter()
        .enumerate()
    {
        let named = format!("{name}.plant.example[4950{k}]");
        let numbered = format!("10.1.4.{}[4950{k}]", 20 + k);
        let principal = format!("RPCSS/{name}");
        let security = [(10, 0xFFFF, ""), (16, 0xFFFF, &principal[..])];
        let list = list::of(&[(7, &named[..]), (7, &numbered)], &security).unwrap();
        let x = 0x5100 + k as u64;
        table.enter_exporter(Oxid(x), guid(x), &list).unwrap();
    }
    let forty: Vec<String> = (0..40).map(|k| format!("10.20.30.{k}[49{k:03}]")).collect();
    let forty: Vec<(u16, &str)> = forty.iter().map(|a| (7, &a[..])).collect();
    let list = list::of(&forty, &[(9, 0xFFFF, "RPCSS/turbine")]).unwrap();
    table
        .enter_exporter(Oxid(0x5200), guid(0x5200), &list)
        .unwrap();
    let oids: Vec<Oid> = (0..34).map(|k| Oid(0x7E00 + k)).collect();
    for (k, oid) in (0..).zip(&oids) {
        let oxid = Oxid([0x5100, 0x5101, 0x5102, 0x5103, 0x5200][k as usize % 5]);
        let ipid = 0x9000 + 4 * k;
        let entered = table.enter_object(*oid, oxid, guid(ipid), iids[0], 5, k % 11 == 10);
        entered.unwrap();
        for j in 1..=k % 3 {
            let entered = table.enter_interface(*oid, guid(ipid + j), iids[j as usize], 5);
            entered.unwrap();
        }
    }
    clients(&mut table, &oids);
    table
}

/// Three clients take references and ping; the third stops after 40 seconds.
fn clients(table: &mut Table, oids: &[Oid]) {
    let mut made = |from: usize, to: usize| {
        let pinged = table.complex_ping(SetId(0), 1, &oids[from..to], &[]);
        pinged.unwrap().set
    };
    let (screen, historian, report) = (made(0, 16), made(10, 28), made(26, 32));
    for k in 0..28 {
        table.add(0, guid(0x9000 + 4 * k), 0, 2).unwrap();
    }
    let taken = (26..32).map(|k| Item {
        ipid: guid(0x9000 + 4 * k),
        public: 0,
        private: 7,
    });
    let items: Vec<u8> = taken.flat_map(Item::to_bytes).collect();
    table.add_list(2, &items, &mut [0; 6]).unwrap();
    for step in 1..=7 {
        table.clock(43_200 + 40 * step).unwrap();
        match step {
            1 => table.simple_ping(report).unwrap(),
            3 | 6 => table.simple_ping(screen).unwrap(),
            4 => {
                let out = &oids[10..12];
                table.complex_ping(historian, 2, &[], out).unwrap();
            }
            _ => (),
        }
    }
    table.clock(43_505).unwrap();
}

/// A table with every place taken, whose addresses are HTML and no text.
pub fn full() -> Table {
    let mut table = Table::new(1000);
    let address = "<script>alert(1)</script>\"'&\u{202e}\u{7}";
    let longest = list::of(&[(7, address), (0x1F, &"x".repeat(218))], &[]).unwrap();
    assert_eq!(16 * longest.len(), rimonakh::BYTES);
    for x in 1..=16 {
        table.enter_exporter(Oxid(x), guid(x), &longest).unwrap();
    }
    for o in 1..=128 {
        let (oid, oxid) = (Oid(o << 56 | 1), Oxid(1 + o % 16));
        let entered = table.enter_object(oid, oxid, guid(1000 + o), guid(9), u32::MAX, o % 7 == 0);
        entered.unwrap();
        table
            .enter_interface(oid, guid(5000 + o), guid(9), u32::MAX)
            .unwrap();
        if o % 4 == 0 {
            table.clock(1000 + 5 * o / 2).unwrap();
        }
    }
    let even: Vec<Oid> = (1..=64).map(|o| Oid((2 * o) << 56 | 1)).collect();
    for k in 0..32 {
        table
            .complex_ping(SetId(0), 65535, &even[k..], &[])
            .unwrap();
    }
    table.clock(1340).unwrap();
    table
}
