//! A directory block of 8 KiB: its entries listed, and packed.

use std::hint::black_box;

use judge::cases::bytes;
use ours::ENTRY_VALUES;
use p9::draw::{Draw, Draws};
use p9::protocol::{Dirent, P9String, WireFormat};
use sheafsledge::{Dirents, Qid, Rreaddir, Text};

use crate::clock::{least, Output, Place};
use crate::{row, rows_of};

/// What a client asks for.
const COUNT: u32 = 8192;

/// Of 36 and 37 bytes in turn, so many fit.
const ENTRIES: usize = 224;

type Row = [u64; ENTRY_VALUES];

/// The rows. There are none, and the answer is `false`, unless all list and pack the same.
pub fn rows() -> bool {
    let entries = entries();
    let block: Vec<u8> = entries[..ENTRIES].iter().flat_map(bytes).collect();
    let (names, table) = table(&entries);
    let lent = lent(&entries);
    let mut outs = [(); 5].map(|()| vec![0; COUNT as usize]);
    let packed = [
        ours_packed(&mut outs[0], &names, &table),
        in_rust_packed(&mut outs[1], &lent),
        theirs_packed(&mut &mut outs[2][..], &entries),
        theirs_grown(&mut outs[3], &entries),
        table_packed(&mut outs[4], &names, &table),
    ];
    let same = outs.iter().all(|out| out[..block.len()] == block);
    let listed = [ours_listed, in_rust_listed, theirs_listed].map(|list| list(&block));
    if packed != [ENTRIES; 5] || !same || listed != [ENTRIES; 3] {
        eprintln!("bench: not all list and pack the same entries");
        return false;
    }
    list(&block);
    pack(&entries, &lent, (&names, &table));
    true
}

fn list(block: &[u8]) {
    let way = |list: fn(&[u8]) -> usize| {
        move |turns, _: Place| {
            for _ in 0..turns {
                black_box(list(black_box(block)));
            }
        }
    };
    let (mut ours, mut in_rust) = (way(ours_listed), way(in_rust_listed));
    let mut theirs = way(theirs_listed);
    let [ours, in_rust, theirs] = least([&mut ours, &mut in_rust, &mut theirs]);
    rows_of("block-8KiB", "list", [ours, in_rust], theirs);
}

fn pack(entries: &[Dirent], lent: &[sheafsledge::Dirent], (names, table): (&[u8], &[Row])) {
    let mut output = Output::new(COUNT as usize);
    let mut ours = |turns, place| {
        let out = output.at(place);
        for _ in 0..turns {
            let out = black_box(&mut *out);
            black_box(ours_packed(out, black_box(names), black_box(table)));
        }
    };
    let mut output = Output::new(COUNT as usize);
    let mut in_rust = |turns, place| {
        let out = output.at(place);
        for _ in 0..turns {
            black_box(in_rust_packed(black_box(&mut *out), black_box(lent)));
        }
    };
    let mut output = Output::new(COUNT as usize);
    let mut in_a_table = |turns, place| {
        let out = output.at(place);
        for _ in 0..turns {
            let out = black_box(&mut *out);
            black_box(table_packed(out, black_box(names), black_box(table)));
        }
    };
    let mut output = Output::new(COUNT as usize);
    let mut slice = |turns, place| {
        let out = output.at(place);
        for _ in 0..turns {
            let mut out = black_box(&mut *out);
            black_box(theirs_packed(&mut out, black_box(entries)));
        }
    };
    let mut grown = Vec::with_capacity(COUNT as usize);
    let mut vec = |turns, _: Place| {
        for _ in 0..turns {
            black_box(theirs_grown(black_box(&mut grown), black_box(entries)));
        }
    };
    let [ours, in_rust, in_a_table, slice, vec] = least([
        &mut ours,
        &mut in_rust,
        &mut in_a_table,
        &mut slice,
        &mut vec,
    ]);
    let theirs = slice.min(vec);
    rows_of("block-8KiB", "pack", [ours, in_rust], theirs);
    row("block-8KiB-table-in-Rust", "pack", in_a_table, theirs);
}

/// One more than fits, so that a packer has to see where to stop.
fn entries() -> Vec<Dirent> {
    let draws = &mut Draws::new(1);
    let entry = |place: usize| Dirent {
        qid: Draw::draw(draws),
        offset: place as u64 + 1,
        ty: 8,
        name: name(place),
    };
    (0..=ENTRIES).map(entry).collect()
}

/// Twelve plain letters and digits, or thirteen.
fn name(place: usize) -> P9String {
    let digits = 7 + place % 2;
    P9String::new(format!("track{place:0digits$}")).expect("no zero byte is in it")
}

/// The names one after the other, and a row for each entry.
fn table(entries: &[Dirent]) -> (Vec<u8>, Vec<Row>) {
    let (mut names, mut rows) = (Vec::new(), Vec::new());
    for entry in entries {
        let name = entry.name.as_bytes();
        let qid = &entry.qid;
        let numbers = [qid.ty.into(), qid.version.into(), qid.path, entry.offset];
        let span = [names.len() as u64, name.len() as u64];
        let [ty, version, path, offset] = numbers;
        let [start, len] = span;
        rows.push([ty, version, path, offset, entry.ty.into(), start, len]);
        names.extend_from_slice(name);
    }
    (names, rows)
}

/// As a server of ours has them.
fn lent(entries: &[Dirent]) -> Vec<sheafsledge::Dirent<'_>> {
    let mut lent = Vec::new();
    for entry in entries {
        let qid = Qid {
            ty: entry.qid.ty,
            version: entry.qid.version,
            path: entry.qid.path,
        };
        lent.push(sheafsledge::Dirent {
            qid,
            offset: entry.offset,
            ty: entry.ty,
            name: Text::from_bytes(entry.name.as_bytes()).expect("letters and digits"),
        });
    }
    lent
}

fn ours_listed(block: &[u8]) -> usize {
    let (mut at, mut listed, mut values) = (0, 0, [0; ENTRY_VALUES]);
    loop {
        let step = ours::entry_at(block, at, &mut values);
        if !step.held {
            return listed;
        }
        black_box(&values);
        listed += 1;
        at = step.place;
    }
}

fn in_rust_listed(block: &[u8]) -> usize {
    let entries = Dirents::new(block);
    entries.filter(|entry| black_box(entry).is_ok()).count()
}

/// The seller's crate has no blocks: an entry is decoded after the other, and each is dropped.
fn theirs_listed(mut block: &[u8]) -> usize {
    let mut listed = 0;
    while !block.is_empty() {
        match black_box(&Dirent::decode(&mut block)) {
            Ok(_) => listed += 1,
            Err(_) => break,
        }
    }
    listed
}

fn ours_packed(out: &mut [u8], names: &[u8], table: &[Row]) -> usize {
    ours::pack(out, COUNT, names, table).entries
}

fn table_packed(out: &mut [u8], names: &[u8], table: &[Row]) -> usize {
    Rreaddir::pack_table(out, COUNT, names, table).map_or(0, |(_, entries)| entries)
}

fn in_rust_packed(out: &mut [u8], entries: &[sheafsledge::Dirent]) -> usize {
    let packed = Rreaddir::pack(out, COUNT, entries.iter().copied());
    packed.map_or(0, |packed| packed.entries)
}

/// An entry is encoded after the other, as long as its size fits.
fn theirs_packed(out: &mut &mut [u8], entries: &[Dirent]) -> usize {
    let mut packed = 0;
    for entry in entries {
        if out.len() < entry.byte_size() as usize || entry.encode(out).is_err() {
            break;
        }
        packed += 1;
    }
    packed
}

/// The same into a `Vec` that keeps its room.
fn theirs_grown(out: &mut Vec<u8>, entries: &[Dirent]) -> usize {
    out.clear();
    let mut packed = 0;
    for entry in entries {
        let left = COUNT as usize - out.len();
        if left < entry.byte_size() as usize || entry.encode(out).is_err() {
            break;
        }
        packed += 1;
    }
    packed
}
