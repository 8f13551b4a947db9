//! What Rust calls: records laid flat and put together, bodies read flat and written from flat values.

use crate::names::{answer, goals, Calls};
use crate::records::{layouts, type_uses};
use crate::table::{Dialect, Direction, Field, Kind, Message, Table};
use crate::Files;
use std::collections::BTreeSet;

pub fn write(table: &Table, files: &mut Files) {
    let flat = &table.dialect.named("flat");
    for family in table.families(|m| !m.is_empty() && table.dialect.flat_of(m) == *flat) {
        files.put(
            format!("crates/{flat}/src/{family}.rt"),
            family_source(table, &family),
        );
    }
    for direction in [Direction::T, Direction::R] {
        write_bodies(table, direction, files);
    }
}

/// The crate of a direction's bodies.
fn write_bodies(table: &Table, direction: Direction, files: &mut Files) {
    let krate = &table.dialect.named(&format!("flat_{}", direction.enums()));
    let mut rows = table.by_number(direction);
    rows.retain(|m| !table.dialect.is_below(m));
    files.put(
        format!("crates/{krate}/src/lib.rt"),
        bodies(table, direction, &rows),
    );
    for family in table.families(|_| true) {
        let held = held(table, direction, &family);
        if held.is_empty() {
            continue;
        }
        files.put(
            format!("crates/{krate}/src/{family}.rt"),
            readers(table, direction, &family, &held),
        );
        for m in held.into_iter().filter(|m| fixed(m).is_some()) {
            let path = format!("{family}.read_{}", m.small());
            files.answers(krate, &path, reader_proof(krate, m));
        }
    }
    let answers = [
        ("read_flat", read_proof(table, krate, &rows)),
        ("write_flat", write_proof(table, krate, &rows)),
    ];
    for (function, text) in answers {
        if let Some(text) = text {
            files.answers(krate, function, text);
        }
    }
}

/// The constants of the crate that a family's file names.
fn constants(
    dialect: &Dialect,
    rows: &[&Message],
    directions: impl Iterator<Item = Direction>,
) -> String {
    let mut text = String::new();
    let of = match dialect.prefix {
        "" => "crate",
        _ => "flat",
    };
    for (bits, width) in [(8, 1), (16, 2), (32, 4)] {
        if rows
            .iter()
            .any(|m| m.fields.iter().any(|f| widths(f).contains(&width)))
        {
            text += &format!("use {of}::U{bits};\n");
        }
    }
    let room = match dialect.over {
        None => "crate".to_string(),
        Some(_) => dialect.room(),
    };
    for direction in directions {
        text += &format!("use {room}::{};\n", direction.width());
    }
    text
}

/// The `use` lines of a family's types and records.
fn family_uses(rows: &[&Message]) -> BTreeSet<String> {
    let mut lines = type_uses(rows);
    let has = |is: fn(Kind) -> bool| rows.iter().any(|m| m.fields.iter().any(|f| is(f.kind)));
    // A part holds a span, and so does a stat.
    if has(|kind| matches!(kind, Kind::Names | Kind::Qids) || kind.is_stat()) {
        lines.insert("use strings::Span;".to_string());
    }
    if has(|kind| kind == Kind::Stat) {
        lines.insert("use layouts::qids::Qid;".to_string());
    }
    // What is before the longer stat is taken by 9P2000's own functions.
    if has(|kind| kind == Kind::UnixStat) {
        lines.retain(|line| !line.contains("::ids::"));
    }
    let records = rows.iter();
    lines.extend(records.map(|m| format!("use {}::{};", m.module(), m.record())));
    lines
}

fn family_source(table: &Table, family: &str) -> String {
    let rows: Vec<&Message> = table
        .messages
        .iter()
        .filter(|m| m.family == family && !m.is_empty())
        .filter(|m| table.dialect.flat_of(m) == table.dialect.named("flat"))
        .collect();
    let mut text = format!(
        "// {}\n\n",
        table.heads[&(table.dialect.named("flat"), family.to_string())]
    );
    let directions = [Direction::T, Direction::R]
        .into_iter()
        .filter(|d| rows.iter().any(|m| m.direction == *d));
    text += "ghost use Rattle.std.specs.Prelude.{◌≡◌};\n";
    text += &layouts(&rows, "ghost ", ";");
    for krate in table.dialect.records() {
        let values: Vec<String> = rows
            .iter()
            .filter(|m| m.dialect == krate)
            .map(|m| m.small())
            .collect();
        if !values.is_empty() {
            text += &format!(
                "ghost use Rattle.{krate}.specs.Records.{{{}}};\n",
                values.join(", ")
            );
        }
    }
    text += "ghost use Rattle.flat.specs.Flat.{flat_values, stored, field_values};\n\n";
    text += &constants(&table.dialect, &rows, directions);
    for line in family_uses(&rows) {
        text += &format!("{line}\n");
    }
    for row in rows {
        let back = match lengthened(row) {
            Some(at) => put_longer(row, at),
            None => put_together(row),
        };
        text += &format!("\n{}\n{back}", flattened(row));
    }
    text
}

/// The widths below eight bytes that a field is narrowed to.
fn widths(f: &Field) -> Vec<u8> {
    match f.kind {
        Kind::Qid => vec![1, 4],
        Kind::Names | Kind::Qids => vec![2],
        Kind::Stat => vec![1, 2, 4],
        Kind::UnixStat => vec![4],
        kind => kind.width().filter(|w| *w < 8).into_iter().collect(),
    }
}

/// How many values a field has.
fn count(f: &Field) -> usize {
    match f.kind {
        Kind::Str | Kind::Data => 2,
        Kind::Qid | Kind::Names | Kind::Qids => 3,
        Kind::Stat => 17,
        Kind::UnixStat => 22,
        _ => 1,
    }
}

/// A field's values, of the record `m`.
fn values(f: &Field) -> Vec<String> {
    let of = format!("m.{}", f.name);
    match f.kind {
        Kind::Number(8) => vec![of],
        Kind::Number(_) => vec![format!("{of} as u64")],
        Kind::Qid => qid_values(&of),
        Kind::Str | Kind::Data => span_values(&of),
        Kind::Names | Kind::Qids => {
            let mut all = vec![format!("{of}.count as u64")];
            all.extend(span_values(&format!("{of}.elements")));
            all
        }
        Kind::Stat => stat_values(&of),
        Kind::UnixStat => more_values(&of),
        _ => vec![format!("{of}.0 as u64")],
    }
}

fn qid_values(qid: &str) -> Vec<String> {
    vec![
        format!("{qid}.ty as u64"),
        format!("{qid}.version as u64"),
        format!("{qid}.path"),
    ]
}

fn span_values(span: &str) -> Vec<String> {
    vec![format!("{span}.start as u64"), format!("{span}.len as u64")]
}

const STRINGS: [&str; 4] = ["name", "uid", "gid", "muid"];

/// The numbers that 9P2000.u's has after its extension.
const IDS: [&str; 3] = ["n_uid", "n_gid", "n_muid"];

/// A stat's values.
fn stat_values(stat: &str) -> Vec<String> {
    let number = |name: &str| format!("{stat}.{name} as u64");
    let mut all = vec![number("ty"), number("dev")];
    all.extend(qid_values(&format!("{stat}.qid")));
    all.extend(["mode", "atime", "mtime"].map(number));
    all.push(format!("{stat}.length"));
    for name in STRINGS {
        all.extend(span_values(&format!("{stat}.{name}")));
    }
    all
}

/// What a stat of 9P2000.u has after that of 9P2000.
fn more_values(stat: &str) -> Vec<String> {
    let ids = IDS.map(|id| format!("{stat}.{id} as u64"));
    let extension = span_values(&format!("{stat}.extension"));
    extension.into_iter().chain(ids).collect()
}

fn flattened(m: &Message) -> String {
    let (record, small, width) = (m.record(), m.small(), m.direction.width());
    let mut text = format!("pub fn flat_{small}(m: {record}, values: &mut [u64; {width}])\n    ensures {{ values.new ≡ stored values.old 0 (flat_values ({small} m)) }}\n{{\n");
    let mut all: Vec<(usize, String)> = m.fields.iter().flat_map(values).enumerate().collect();
    if let Some(at) = lengthened(m) {
        text += &shortened(m);
        let more = all.split_off(at - 17);
        all = more.into_iter().map(|(i, value)| (i + 17, value)).collect();
    }
    for (i, value) in all {
        text += &format!("    values[{i}] = {value};\n");
    }
    text + "}\n"
}

/// Where what 9P2000.u has more in a record begins among its values, where that is after a stat of 9P2000.
fn lengthened(m: &Message) -> Option<usize> {
    let last = m.fields.last().filter(|f| f.kind == Kind::UnixStat)?;
    let all: usize = m.fields.iter().map(count).sum();
    Some(all - count(last) + 17)
}

/// The record of 9P2000 that one of 9P2000.u begins with, laid flat by its function.
fn shortened(m: &Message) -> String {
    let (family, record, small) = (&m.family, m.record(), m.small());
    let fields = m.fields.iter().map(|f| match f.kind {
        Kind::UnixStat => format!("{0}: m.{0}.plain", f.name),
        _ => format!("{0}: m.{0}", f.name),
    });
    let fields: Vec<String> = fields.collect();
    format!(
        "    let shorter = plain::{family}::{record} {{ {} }};\n    plain_flat::{family}::flat_{small}(shorter, values);\n",
        fields.join(", ")
    )
}

/// The record of 9P2000.u made of that one, and of the values after its.
fn put_longer(m: &Message, at: usize) -> String {
    let (record, small, mut text) = (m.record(), m.small(), head_of(m));
    text += &format!(
        "    let shorter = plain_flat::{}::{small}_of(v);\n",
        m.family
    );
    let ids = IDS.iter().zip(at + 2..);
    let ids: String = ids
        .map(|(id, i)| format!(", {id}: {}", narrowed(i, 4)))
        .collect();
    let fields = m.fields.iter().map(|f| match f.kind {
        Kind::UnixStat => format!(
            "{0}: UnixStat {{ plain: shorter.{0}, extension: {1}{ids} }}",
            f.name,
            span(at)
        ),
        _ => format!("{0}: shorter.{0}", f.name),
    });
    let fields: Vec<String> = fields.collect();
    text + &format!("    {record} {{ {} }}\n}}\n", fields.join(", "))
}

/// A value narrowed to a number of so many bytes.
fn narrowed(i: usize, width: u8) -> String {
    match width {
        8 => format!("v[{i}]"),
        _ => format!("(v[{i}] % U{0}) as u{0}", width * 8),
    }
}

/// The head of the function that puts a record together.
fn head_of(m: &Message) -> String {
    let (record, small, layout, width) = (m.record(), m.small(), m.layout(), m.direction.width());
    format!("pub fn {small}_of(v: [u64; {width}]) -> {record}\n    ensures {{ {small} result ≡ field_values {layout} v }}\n{{\n")
}

fn put_together(m: &Message) -> String {
    let (record, text) = (m.record(), head_of(m));
    let mut i = 0;
    let mut fields = vec![];
    for f in &m.fields {
        fields.push(format!("{}: {}", f.name, made(f, i)));
        i += count(f);
    }
    text + &format!("    {record} {{ {} }}\n}}\n", fields.join(", "))
}

/// A field of the values from the i-th on.
fn made(f: &Field, i: usize) -> String {
    match f.kind {
        Kind::Number(width) => narrowed(i, width),
        Kind::Qid => qid(i),
        Kind::Str | Kind::Data => span(i),
        Kind::Names | Kind::Qids => format!(
            "Part {{ count: {}, elements: {} }}",
            narrowed(i, 2),
            span(i + 1)
        ),
        Kind::Stat => stat(i),
        kind => format!(
            "{}({})",
            kind.ty(),
            narrowed(i, kind.width().unwrap_or(4))
        ),
    }
}

fn qid(i: usize) -> String {
    format!(
        "Qid {{ ty: {}, version: {}, path: {} }}",
        narrowed(i, 1),
        narrowed(i + 1, 4),
        narrowed(i + 2, 8)
    )
}

fn span(i: usize) -> String {
    format!(
        "Span {{ start: v[{i}] as usize, len: v[{}] as usize }}",
        i + 1
    )
}

fn stat(i: usize) -> String {
    let strings = STRINGS.iter().zip((i + 9..).step_by(2));
    let strings: Vec<String> = strings
        .map(|(string, at)| format!("{string}: {}", span(at)))
        .collect();
    format!(
        "Stat {{ ty: {}, dev: {}, qid: {}, mode: {}, atime: {}, mtime: {}, length: {}, {} }}",
        narrowed(i, 2),
        narrowed(i + 1, 4),
        qid(i + 2),
        narrowed(i + 5, 4),
        narrowed(i + 6, 4),
        narrowed(i + 7, 4),
        narrowed(i + 8, 8),
        strings.join(", ")
    )
}

// ---- a record read flat

/// The messages of a direction and a family that hold something.
fn held<'a>(table: &'a Table, direction: Direction, family: &str) -> Vec<&'a Message> {
    let rows = table.messages.iter();
    rows.filter(|m| m.direction == direction && m.family == family && !m.is_empty())
        .filter(|m| !table.dialect.is_below(m))
        .collect()
}

/// How many bytes a message has that is numbers alone.
fn fixed(m: &Message) -> Option<usize> {
    let bytes = |f: &Field| match f.kind {
        Kind::Qid => Some(13),
        kind => kind.width().map(usize::from),
    };
    m.fields.iter().map(bytes).sum()
}

fn readers(table: &Table, direction: Direction, family: &str, rows: &[&Message]) -> String {
    let flat = table.dialect.room();
    let many = match direction {
        Direction::T => "Requests",
        Direction::R => "Replies",
    };
    let mut text = format!(
        "// {many} of {family}, each read flat at a place.

ghost use Rattle.std.proofs.Math.Option.{{some}};
{}ghost use Rattle.flat.specs.Flat.{{FlatRead}};

use {flat}::{};
use numbers::Place;
",
        layouts(rows, "ghost ", ";"),
        direction.width()
    );
    for m in rows {
        text += &reader(m, &table.dialect.flat_of(m));
    }
    text
}

fn reader(m: &Message, flat: &str) -> String {
    let (small, module, family) = (m.small(), m.module(), &m.family);
    let (read, next, fields) = match fixed(m) {
        // The one test stands before what is read, so that nothing that was read has to wait for the last field's.
        Some(bytes) => (
            String::new(),
            format!("flat::skip(s, p, {bytes})?"),
            format!("    let r = {module}::read_{small}(s, p);\n"),
        ),
        None => (
            format!("    let r = {module}::read_{small}(s, p);\n"),
            "r.next?".to_string(),
            String::new(),
        ),
    };
    format!(
        "
pub(crate) fn read_{small}(s: &[u8], p: Place, values: &mut [u64; {}]) -> Place
    ensures {{ FlatRead (some {}) s.now p values.old values.new result }}
{{
{read}    let end = {next};
{fields}    {flat}::{family}::flat_{small}(r.value, values);
    Ok(end)
}}
",
        m.direction.width(),
        m.layout()
    )
}

/// The proof of a reader that skips a record's bytes first; any other's the prover finds.
fn reader_proof(krate: &str, m: &Message) -> String {
    let small = m.small();
    let mut text =
        "-- Refused, the lent values are as they were; accepted, the record's stand at their front.
use Rattle.std.specs.Prelude.{refl}
use Rattle.std.proofs.lemmas.Result.{err_from_is_err_and}
use Rattle.flat.specs.FlatLaws.{flat_known, flat_refused, fields_skipped}
"
        .to_string();
    text += &goals(krate, &format!("{}.read_{small}", m.family));
    text += &answer(
        "returns-in_err-end",
        "\n    let e = err_from_is_err_and c.from_residual.result c.from_residual.ensures.1 in\n    rw (e.1, e.2) (flat_refused (fields_skipped refl refl c.skip.ensures refl) c.in_err-end.was)",
    );
    text + &answer(
        "returns",
        &format!("\n    flat_known (fields_skipped refl refl c.skip.ensures c.read_{small}-r.ensures.values) c.in_ok-end.was c.flat_{small}.ensures"),
    )
}

// ---- bodies

fn bodies(table: &Table, direction: Direction, rows: &[&Message]) -> String {
    bodies_head(table, direction)
        + &read_flat(table, direction, rows)
        + &write_flat(table, direction, rows)
}

fn bodies_head(table: &Table, direction: Direction) -> String {
    let (small, many, width) = (direction.small(), direction.enums(), direction.width());
    let count = table.by_number(direction).len();
    let (flat, tables) = (table.dialect.room(), table.dialect.tables);
    let is_read = |m: &Message| m.direction == direction && !m.is_empty();
    let mut families = table.families(|m| is_read(m) && !table.dialect.is_below(m));
    families.sort();
    let families: String = families
        .iter()
        .map(|family| format!("mod {family};\n"))
        .collect();
    let refusal = match table.dialect.over {
        None => "use numbers::{Fault, Refusal};\n",
        Some(_) => "",
    };
    format!(
        "// The {count} {many}, read flat and written from flat values, by their type number.

#![tactic(auto)]

{families}
ghost use Rattle.layouts.specs.Tables.{{lookup}};
ghost use Rattle.{tables}.{{table_{small}}};
ghost use Rattle.flat.specs.Flat.{{FlatRead, FlatWritten}};

use {flat}::{width};
use numbers::Place;
{refusal}"
    )
}

fn read_flat(table: &Table, direction: Direction, rows: &[&Message]) -> String {
    let (small, width, enums) = (
        direction.small(),
        direction.width(),
        table.dialect.named(direction.enums()),
    );
    let arms: String = rows.iter().map(|m| read_arm(m)).collect();
    let rest = rest(table, direction, "read_flat(s, ty, p, values)");
    format!(
        "
// A body read flat at a place: its values go to the front of what the caller lends for them, and the place after its fields is answered;
// refused, what was lent is as it was. The type decides the body, as in `{enums}::read_{small}message`; but its record goes flat at once,
// and through no enum that would have to be told apart again.
pub fn read_flat(s: &[u8], ty: u8, p: Place, values: &mut [u64; {width}]) -> Place
    ensures {{ FlatRead (lookup table_{small} ty) s.now p values.old values.new result }}
{{
    match ty {{
{arms}        _ => {rest},
    }}
}}
"
    )
}

/// What answers for the types without a row of their own.
fn rest(table: &Table, direction: Direction, call: &str) -> String {
    match table.dialect.over {
        None => "Err(Fault(Refusal::UnknownType, 0))".to_string(),
        Some(d) => format!(
            "{}::{call}",
            d.named(&format!("flat_{}", direction.enums()))
        ),
    }
}

fn write_flat(table: &Table, direction: Direction, rows: &[&Message]) -> String {
    let (small, width) = (direction.small(), direction.width());
    let arms: String = rows
        .iter()
        .map(|m| write_arm(m, &table.dialect.flat_of(m)))
        .collect();
    let rest = rest(table, direction, "write_flat(out, p, lent, ty, values)");
    format!(
        "
// A body written at a place from the values of its record, which lie flat: its fields' refusals in order, then 10, then 11; 3 where the
// type is not known. A refusal leaves the output as it was.
pub fn write_flat(out: &mut [u8], p: Place, lent: &[u8], ty: u8, values: &[u64; {width}]) -> Place
    ensures {{ FlatWritten (lookup table_{small} ty) lent.now values.now out.old p out.new result }}
{{
    let v = *values;
    match ty {{
{arms}        _ => {rest},
    }}
}}
"
    )
}

fn write_arm(m: &Message, flat: &str) -> String {
    let (n, small, module, family) = (m.number, m.small(), m.module(), &m.family);
    match m.is_empty() {
        true => format!("        {n} => laying::begun(p, p, out.len()),\n"),
        false => format!(
            "        {n} => {module}::write_{small}(out, p, lent, {flat}::{family}::{small}_of(v)),\n"
        ),
    }
}

fn read_arm(m: &Message) -> String {
    let (n, small, family) = (m.number, m.small(), &m.family);
    match m.is_empty() {
        true => format!("        {n} => p,\n"),
        false => format!("        {n} => {family}::read_{small}(s, p, values),\n"),
    }
}

// ---- proofs of bodies

/// What is left for the last arm of a match, in words.
fn rest_in_words(dialect: &Dialect) -> &'static str {
    match dialect.over {
        None => "the rest is a number that has no row",
        Some(_) => "the rest has the row of the dialect below",
    }
}

/// An arm's answer: the type is its number, and a law says the rest.
fn arm(m: &Message, between: &str, law: &str) -> String {
    let n = m.number;
    let term = format!("{between}rw c.in-{n}.is ({law})");
    answer(&format!("returns-in-{n}"), &term)
}

/// The answers for the rows that hold nothing, if there are any. For the others the prover finds them.
fn read_proof(table: &Table, krate: &str, rows: &[&Message]) -> Option<String> {
    let empty = rows.iter().filter(|m| m.is_empty());
    let arms: String = empty.map(|m| arm(m, "", "flat_empty _")).collect();
    (!arms.is_empty()).then(|| {
        format!(
            "-- Each arm is the row of its number, read flat; {}.\nuse Rattle.flat.specs.FlatLaws.{{flat_empty}}\n{}{arms}",
            rest_in_words(&table.dialect),
            goals(krate, "read_flat")
        )
    })
}

/// From so many values on, the prover doesn't find that the record which is written is made of them.
const MANY: usize = 10;

/// The answers for the rows that hold nothing, or many values. For the others the prover finds them.
fn write_proof(table: &Table, krate: &str, rows: &[&Message]) -> Option<String> {
    let mut calls = Calls::default();
    let mut written = |m: &&Message| match m.fields.iter().map(count).sum() {
        0 => {
            let call = calls.in_arm("begun", &m.number.to_string());
            let law = format!("written_known refl (written_nothing c.{call}.ensures)");
            arm(m, "", &law)
        }
        MANY.. => {
            let (values, small) = ("{ns = c.args.values.now}", m.small());
            let law =
                format!("written_known {values} c.{small}_of.ensures c.write_{small}.ensures");
            arm(m, "\n    ", &law)
        }
        _ => String::new(),
    };
    let arms: String = rows.iter().map(&mut written).collect();
    (!arms.is_empty()).then(|| {
        format!(
            "-- Each arm is the row of its number, written by its record's writer; {}.\n{}{}{arms}",
            rest_in_words(&table.dialect),
            write_laws(rows.iter().any(|m| m.is_empty())),
            goals(krate, "write_flat")
        )
    })
}

fn write_laws(has_empty: bool) -> String {
    let empty = match has_empty {
        true => {
            "use mathlib.Core.Path.{refl}\nuse Rattle.laying.proofs.WritingLaws.{written_nothing}\n"
        }
        false => "",
    };
    format!("{empty}use Rattle.flat.specs.FlatLaws.{{written_known}}\n")
}
