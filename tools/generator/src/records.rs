//! The records: their sources, what their values are, and the proofs of their readers and writers.

use crate::names::{answer, goals, quoted};
use crate::table::{Field, Kind, Message, Table, DIALECTS};
use crate::Files;
use std::collections::BTreeSet;

pub fn write(table: &Table, files: &mut Files) {
    for krate in table.dialect.own {
        let families = table.families(|m| m.dialect == *krate);
        for family in &families {
            let rows: Vec<&Message> = of(table, krate, family);
            files.put(
                format!("crates/{krate}/src/{family}.rt"),
                source(table, krate, family, &rows),
            );
            for row in rows {
                write_answers(row, files);
            }
        }
        files.put(
            format!("crates/{krate}/specs/Records.antt"),
            definitions(table, krate, &families),
        );
    }
}

/// The answers of a record's reader and writer. The prover finds those of a reader that reads a qid and nothing else.
fn write_answers(m: &Message, files: &mut Files) {
    if !matches!(&m.fields[..], [f] if f.kind == Kind::Qid) {
        files.answers(&m.dialect, &path(m, "read"), read_proof(m));
    }
    files.answers(&m.dialect, &path(m, "write"), write_proof(m));
}

/// The messages of a crate's family that hold something.
fn of<'a>(table: &'a Table, krate: &str, family: &str) -> Vec<&'a Message> {
    table
        .messages
        .iter()
        .filter(|m| m.dialect == krate && m.family == family && !m.is_empty())
        .collect()
}

fn any(rows: &[&Message], is: impl Fn(Kind) -> bool) -> bool {
    rows.iter().any(|m| m.fields.iter().any(|f| is(f.kind)))
}

/// The types that the records name, as `use` lines in the order of the alphabet.
pub fn type_uses(rows: &[&Message]) -> BTreeSet<String> {
    let kinds = [
        ("use fields::Part;", Kind::Names),
        ("use fields::Part;", Kind::Qids),
        ("use layouts::ids::Fid;", Kind::Fid),
        ("use layouts::ids::Gid;", Kind::Gid),
        ("use layouts::ids::Tag;", Kind::Tag),
        ("use layouts::qids::Qid;", Kind::Qid),
        ("use strings::Span;", Kind::Str),
        ("use strings::Span;", Kind::Data),
        ("use stats::Stat;", Kind::Stat),
        ("use stats::unix::UnixStat;", Kind::UnixStat),
    ];
    kinds
        .iter()
        .filter(|(_, kind)| any(rows, |k| k == *kind))
        .map(|(line, _)| line.to_string())
        .collect()
}

/// The `use` lines of the messages' layouts, by the modules that have them, each with these words before it and after it.
pub fn layouts(rows: &[&Message], before: &str, after: &str) -> String {
    let mut text = String::new();
    for tables in DIALECTS.map(|d| d.tables) {
        let of = rows.iter().filter(|m| m.tables() == tables);
        let names: Vec<String> = of.map(|m| m.layout()).collect();
        if !names.is_empty() {
            text += &format!(
                "{before}use Rattle.{tables}.{{{}}}{after}\n",
                names.join(", ")
            );
        }
    }
    text
}

fn source(table: &Table, krate: &str, family: &str, rows: &[&Message]) -> String {
    let mut lines = type_uses(rows);
    lines.insert("use numbers::{Place, Read};".to_string());
    if any(rows, |k| k == Kind::Qid) {
        lines.insert("use layouts::qids;".to_string());
    }
    let values: Vec<String> = rows.iter().map(|m| m.small()).collect();
    let head = &table.heads[&(krate.to_string(), family.to_string())];
    let mut text = format!("// {head}\n\n");
    text += "ghost use Rattle.fields.specs.Fields.{Fields};\n";
    text += "ghost use Rattle.laying.specs.Laying.{Written};\n";
    text += &layouts(rows, "ghost ", ";");
    text += &format!(
        "ghost use Rattle.{krate}.specs.Records.{{{}}};\n\n",
        values.join(", ")
    );
    for line in lines {
        text += &format!("{line}\n");
    }
    for row in rows {
        text += &format!("\n{}\n{}\n{}", structs(row), reader(row), writer(row));
    }
    text
}

/// What every type here derives: it is small and plain.
pub const DERIVES: &str = "#[derive(Clone, Copy)]\n";

fn structs(m: &Message) -> String {
    let record = m.record();
    let fields: String = m
        .fields
        .iter()
        .map(|f| format!("    pub {}: {},\n", f.name, f.kind.ty()))
        .collect();
    format!(
        "{DERIVES}pub struct {record} {{\n{fields}}}\n"
    )
}

/// What the functions of a kind are called after: `read_u32`, `measure_str`.
fn called(kind: Kind) -> String {
    match kind {
        Kind::Qid => "qid".to_string(),
        Kind::Str => "str".to_string(),
        Kind::Data => "data".to_string(),
        Kind::Names => "names".to_string(),
        Kind::Qids => "qids".to_string(),
        Kind::Stat | Kind::UnixStat => "stat".to_string(),
        _ => format!("u{}", kind.width().unwrap_or(0) * 8),
    }
}

/// The crate or module that has the reader of a kind.
fn readers(kind: Kind) -> &'static str {
    match kind {
        Kind::Qid => "qids",
        Kind::Str => "strings",
        Kind::Data | Kind::Names | Kind::Qids => "fields",
        Kind::Stat => "stats",
        Kind::UnixStat => "stats::unix",
        _ => "numbers",
    }
}

/// Each field by the reader of its kind, which begins where the one before it ended.
fn reader(m: &Message) -> String {
    let (record, small, layout) = (m.record(), m.small(), m.layout());
    let mut text = format!(
        "pub fn read_{small}(s: &[u8], p: Place) -> Read<{record}>\n    ensures {{ Fields {layout} s.now p ({small} result.value) result.next }}\n{{\n"
    );
    let mut before = "p".to_string();
    let mut values = vec![];
    for f in &m.fields {
        let name = &f.name;
        text += &format!(
            "    let {name} = {}::read_{}(s, {before});\n",
            readers(f.kind),
            called(f.kind)
        );
        values.push(match f.kind.is_wrapped() {
            true => format!("{name}: {}({name}.value)", f.kind.ty()),
            false => format!("{name}: {name}.value"),
        });
        before = format!("{name}.next");
    }
    text += &format!(
        "    Read {{ value: {record} {{ {} }}, next: {before} }}\n}}\n",
        values.join(", ")
    );
    text
}

/// A part of a record's writer, in order: what it does, and the field it does it for.
enum Step<'a> {
    /// Numbers that stand together are measured by one sum.
    Numbers(Vec<u8>),
    Measure(&'a Field),
    Begun,
    /// A number of that width; its value in the code.
    Put(u8, String),
    /// The count of a field, and its bytes.
    Count(&'a Field),
    Bytes(&'a Field),
    /// A stat, count and all.
    Stat(&'a Field),
}

/// The widths of the numbers of which a field consists.
fn widths(kind: Kind) -> Option<Vec<u8>> {
    match kind {
        Kind::Qid => Some(vec![1, 4, 8]),
        _ => kind.width().map(|width| vec![width]),
    }
}

/// A field of a count and bytes.
fn is_counted(kind: Kind) -> bool {
    widths(kind).is_none() && !kind.is_stat()
}

fn is_part(kind: Kind) -> bool {
    matches!(kind, Kind::Names | Kind::Qids)
}

/// Every field measured, then every field put: no byte is put before it is known that all can be.
fn steps(m: &Message) -> Vec<Step<'_>> {
    let mut all = vec![];
    for f in &m.fields {
        match (widths(f.kind), all.last_mut()) {
            (Some(more), Some(Step::Numbers(run))) => run.extend(more),
            (Some(run), _) => all.push(Step::Numbers(run)),
            (None, _) => all.push(Step::Measure(f)),
        }
    }
    all.push(Step::Begun);
    for f in &m.fields {
        let name = &f.name;
        match f.kind {
            Kind::Number(width) => all.push(Step::Put(width, format!("m.{name}"))),
            Kind::Qid => {
                for (width, part) in [(1, "ty"), (4, "version"), (8, "path")] {
                    all.push(Step::Put(width, format!("m.{name}.{part}")));
                }
            }
            kind => match kind.width() {
                Some(width) => all.push(Step::Put(width, format!("m.{name}.0"))),
                None if kind.is_stat() => all.push(Step::Stat(f)),
                None => all.extend([Step::Count(f), Step::Bytes(f)]),
            },
        }
    }
    all
}

/// The function that a step calls, in its crate.
fn call_of(step: &Step) -> String {
    match step {
        Step::Numbers(_) => "advanced".to_string(),
        Step::Measure(f) => format!("measure_{}", called(f.kind)),
        Step::Begun => "begun".to_string(),
        Step::Put(width, _) => format!("put_u{}", width * 8),
        Step::Count(f) if is_part(f.kind) => "put_u16".to_string(),
        Step::Count(_) => "put_num".to_string(),
        Step::Bytes(_) => "put_bytes".to_string(),
        Step::Stat(_) => "put_stat".to_string(),
    }
}

fn writer(m: &Message) -> String {
    let (record, small, layout) = (m.record(), m.small(), m.layout());
    let mut text = format!(
        "pub fn write_{small}(out: &mut [u8], p: Place, lent: &[u8], m: {record}) -> Place
    ensures {{ Written {layout} lent.now ({small} m) out.old p out.new result }}
{{
"
    );
    let all = steps(m);
    let mut at = "p".to_string();
    for (step, local) in all.iter().zip(locals(&all)) {
        let call = written_call(step, &at);
        match local {
            Some(local) => {
                text += &format!("    let {local} = {call};\n");
                at = local;
            }
            None => text += &format!("    {call}\n}}\n"),
        }
    }
    text
}

/// The local that holds the place to which each call has come; the last call's is answered.
fn locals(all: &[Step]) -> Vec<Option<String>> {
    let is_begun = |step: &Step| matches!(step, Step::Begun);
    let begun = all.iter().position(is_begun).unwrap_or(0);
    let mut n = 0;
    let mut local = |i: usize| {
        if i + 1 == all.len() {
            return None;
        }
        n = if i == begun { 0 } else { n + 1 };
        Some(match i {
            _ if i + 1 == begun => "end".to_string(),
            _ if i == begun => "start".to_string(),
            _ if i < begun => format!("p{n}"),
            _ => format!("q{n}"),
        })
    };
    (0..all.len()).map(&mut local).collect()
}

/// The call of a step at the place that it has come to.
fn written_call(step: &Step, at: &str) -> String {
    let call = call_of(step);
    match step {
        Step::Begun => format!("laying::{call}(p, {at}, out.len())"),
        Step::Numbers(run) => {
            let sum: usize = run.iter().map(|w| usize::from(*w)).sum();
            format!("laying::{call}({at}, {sum})")
        }
        Step::Measure(f) if f.kind.is_stat() => {
            format!("{}::{call}(lent, m.{}, {at})", readers(f.kind), f.name)
        }
        Step::Measure(f) => format!("laying::{call}(lent, m.{}, {at})", f.name),
        Step::Stat(f) => format!("{}::{call}(out, {at}, lent, m.{})", readers(f.kind), f.name),
        Step::Put(_, value) => format!("numbers::{call}(out, {at}, {value})"),
        Step::Count(f) if is_part(f.kind) => {
            format!("numbers::{call}(out, {at}, m.{}.count)", f.name)
        }
        Step::Count(f) => {
            let width = if f.kind == Kind::Str { 2 } else { 4 };
            format!("numbers::{call}(out, {at}, m.{}.len as u64, {width})", f.name)
        }
        Step::Bytes(f) if is_part(f.kind) => {
            format!("strings::{call}(out, {at}, lent, m.{}.elements)", f.name)
        }
        Step::Bytes(f) => format!("strings::{call}(out, {at}, lent, m.{})", f.name),
    }
}

// ---- what a record's values are

fn value(f: &Field) -> String {
    let name = quoted(&f.name);
    match f.kind {
        Kind::Number(_) => format!("val m.{name}"),
        Kind::Qid => format!("val m.{name}.ty ∷ val m.{name}.version ∷ val m.{name}.path"),
        Kind::Str | Kind::Data => format!("span_of m.{name}"),
        Kind::Names | Kind::Qids => format!("part_of m.{name}"),
        Kind::Stat => format!("stat_of m.{name}"),
        Kind::UnixStat => format!("unix_of m.{name}"),
        _ => format!("val m.{name}.0"),
    }
}

fn definitions(table: &Table, krate: &str, families: &[String]) -> String {
    let all: Vec<&Message> = families
        .iter()
        .flat_map(|family| of(table, krate, family))
        .collect();
    let mut text = "-- A definition states for each record its values, in the order of its fields.\nuse Rattle.std.specs.Prelude.{List, [], ◌∷◌}\nuse Rattle.fields.specs.Values.{Value, val}\n".to_string();
    let mut shown = vec![];
    if any(&all, |k| matches!(k, Kind::Str | Kind::Data)) {
        shown.push("span_of");
    }
    if any(&all, |k| matches!(k, Kind::Names | Kind::Qids)) {
        shown.push("part_of");
    }
    text += &format!(
        "use Rattle.layouts.specs.Records.{{{}}}\n",
        shown.join(", ")
    );
    for (kind, values) in [(Kind::Stat, "stat_of"), (Kind::UnixStat, "unix_of")] {
        if any(&all, |k| k == kind) {
            text += &format!("use Rattle.stats.specs.Stats.{{{values}}}\n");
        }
    }
    for m in &all {
        let record = m.record();
        text += &format!(
            "use Rattle.{krate}.specs.declared.{}.{record}.{{{record}}}\n",
            m.family
        );
    }
    for family in families {
        text += &format!("\n-- ---- {family}\n");
        for m in of(table, krate, family) {
            let (record, small) = (m.record(), m.small());
            let values: String = m
                .fields
                .iter()
                .map(|f| format!("{} ∷ ", value(f)))
                .collect();
            text +=
                &format!("\nabbrev pub {small} : {record} → List Value\n{small} m = {values}[]\n");
        }
    }
    text
}

// ---- proofs

fn path(m: &Message, function: &str) -> String {
    format!("{}.{function}_{}", m.family, m.small())
}

/// Each field by its law, one inside the other.
fn nested(parts: &[String], last: &str) -> String {
    match parts {
        [] => last.to_string(),
        [part] => format!("{part} {last}"),
        [part, rest @ ..] => format!("{part} ({})", nested(rest, last)),
    }
}

/// A law, and for which kinds of field it is needed.
type Law = (&'static str, fn(Kind) -> bool);

/// Of the laws those that some field needs.
fn laws(m: &Message, all: &[Law]) -> String {
    let used = all
        .iter()
        .filter(|(_, is)| m.fields.iter().any(|f| is(f.kind)))
        .map(|(name, _)| *name);
    used.collect::<Vec<_>>().join(", ")
}

fn read_proof(m: &Message) -> String {
    let parts: Vec<String> = (m.fields.iter())
        .map(|f| {
            let call = format!("c.read_{}-{}.ensures", called(f.kind), f.name);
            match f.kind {
                Kind::Qid => format!("qid_fields {call}"),
                Kind::Str => format!("field (string_field {call})"),
                kind if kind.width().is_some() => format!("field (number_field {call})"),
                _ => format!("field {call}"),
            }
        })
        .collect();
    let names = laws(
        m,
        &[
            ("number_field", |k| k.width().is_some()),
            ("string_field", |k| k == Kind::Str),
            ("field", |k| k != Kind::Qid),
            ("qid_fields", |k| k == Kind::Qid),
            ("done", |_| true),
        ],
    );
    format!(
        "-- Each field by what its reader ensures, one after another.\nuse Rattle.fields.proofs.FieldLaws.{{{names}}}\n{}{}",
        goals(&m.dialect, &path(m, "read")),
        answer("returns", &format!("\n    {}", nested(&parts, "done")))
    )
}

/// From so many calls that put on, a proof wants a law over plain variables.
const MANY: usize = 16;

/// What each call of a writer ensures, in order. The prover names a call after its function and the local that holds its answer.
fn ensured(all: &[Step]) -> Vec<String> {
    let fact = |(step, local): (&Step, Option<String>)| match local {
        Some(local) => format!("c.{}-{local}.ensures", call_of(step)),
        None => format!("c.{}.ensures", call_of(step)),
    };
    all.iter().zip(locals(all)).map(fact).collect()
}

/// The terms that the fields are measured and put by, from the facts that the calls ensure, in order; and the fact of `begun`.
fn written_by(all: &[Step], facts: &[String]) -> (String, String, Vec<String>) {
    let mut facts = facts.iter();
    let mut next = || facts.next().expect("a fact for each call").clone();
    let (mut measured, mut put, mut begun, mut count) =
        (vec![], vec![], String::new(), String::new());
    for step in all {
        match step {
            Step::Numbers(run) => {
                let others: String = run[1..].iter().map(|w| format!("{w} ∷ ")).collect();
                measured.push(format!(
                    "measure_numbers {} ({others}[]) {}",
                    run[0],
                    next()
                ));
            }
            Step::Measure(_) => measured.push(format!("measure {}", next())),
            Step::Begun => begun = next(),
            Step::Put(..) => put.push(format!("put_number {}", next())),
            Step::Count(_) => count = next(),
            Step::Stat(_) => put.push(format!("put_box {}", next())),
            Step::Bytes(f) => put.push(format!(
                "put_counted {} tt {count} {}",
                kind_of(f.kind),
                next()
            )),
        }
    }
    (nested(&measured, "measured_none"), begun, put)
}

/// The kind of field that a definition has, of what is no number.
fn kind_of(kind: Kind) -> &'static str {
    match kind {
        Kind::Str => "str",
        Kind::Data => "dat",
        Kind::Names => "strs",
        _ => "quids",
    }
}

fn write_proof(m: &Message) -> String {
    let all = steps(m);
    let facts = ensured(&all);
    let (measured, begun, put) = written_by(&all, &facts);
    let many = put.len() >= MANY;
    let mut text = write_uses(m, &all, many);
    let put = match many {
        true => {
            text += &plain_law(m, &all);
            let puts = &facts[facts.len() - put.len()..];
            format!("all_put {}", puts.join(" "))
        }
        false => nested(&put, "put_done"),
    };
    text + &answer(
        "returns",
        &format!(
            "
    let b = bytes_all c.args.lent.now (λ i. (c.type_inv.lent i).fits) in
    written b ({measured}) {begun}
    ({put})"
        ),
    )
}

/// The head of a writer's proof: what it uses, and for many fields what their law names.
fn write_uses(m: &Message, all: &[Step], many: bool) -> String {
    let mut text =
        "-- Each field measured, then each field put, by the law of every writer.\n".to_string();
    if many {
        text += "-- over plain variables: said of the code itself, each field would carry the types of all that follow, which took 2.7 GB\n";
    }
    let longest = all.iter().map(|s| match s {
        Step::Numbers(run) => run.len(),
        _ => 0,
    });
    text += match longest.max() {
        _ if many => "use Prim.Native.Nat.{ℕ}\nuse mathlib.Core.List.{List, [], ◌∷◌}\n",
        None | Some(0) => "",
        Some(1) => "use mathlib.Core.List.{[]}\n",
        Some(_) => "use mathlib.Core.List.{[], ◌∷◌}\n",
    };
    if many {
        text += "use Rattle.numbers.specs.Numbers.{to_le}\n";
    }
    text += "use Rattle.numbers.proofs.Numbers.{bytes_all}\n";
    let others = m.fields.iter().filter(|f| is_counted(f.kind));
    let kinds: BTreeSet<&str> = others.map(|f| kind_of(f.kind)).collect();
    if !kinds.is_empty() {
        let kinds: Vec<&str> = kinds.into_iter().collect();
        text += &format!("use Rattle.fields.specs.Layouts.{{{}}}\n", kinds.join(", "));
    }
    if many {
        text += &format!("use Rattle.numbers.specs.Places.{{Put}}\nuse Rattle.numbers.specs.Place.{{Place}}\nuse Rattle.fields.specs.Values.{{val}}\nuse Rattle.laying.specs.Laying.{{PutAll}}\nuse Rattle.{}.{{{}}}\n", m.tables(), m.layout());
    }
    text += &format!(
        "use Rattle.laying.proofs.LayingLaws.{{{}}}\nuse Rattle.laying.proofs.WritingLaws.{{written}}\n",
        written_laws(m)
    );
    if m.fields.iter().any(|f| f.kind.is_stat()) {
        text += "use Rattle.laying.proofs.BoxLaws.{put_box}\n";
    }
    text + &goals(&m.dialect, &path(m, "write"))
}

fn written_laws(m: &Message) -> String {
    laws(
        m,
        &[
            ("measure_numbers", |k| widths(k).is_some()),
            ("measure", |k| widths(k).is_none()),
            ("measured_none", |_| true),
            ("put_number", |k| widths(k).is_some()),
            ("put_counted", is_counted),
            ("put_done", |_| true),
        ],
    )
}

/// The law over plain variables that puts many fields. Of such records there are only those of numbers and qids.
fn plain_law(m: &Message, all: &[Step]) -> String {
    let widths: Vec<u8> = all
        .iter()
        .filter_map(|s| match s {
            Step::Put(width, _) => Some(*width),
            _ => None,
        })
        .collect();
    let count = widths.len();
    let list = |letter: char, from: usize| {
        (from..=count)
            .map(|i| format!("{letter}{i}"))
            .collect::<Vec<_>>()
            .join(" ")
    };
    let mut text = format!(
        "
all_put : {{lent : List ℕ}} {{{} : ℕ}} {{{} : List ℕ}} {{{} : Place}}
",
        list('n', 1),
        list('o', 0),
        list('p', 0)
    );
    let mut values = String::new();
    for (i, width) in widths.iter().enumerate() {
        let n = i + 1;
        text += &format!("    → Put (to_le {width} n{n}) o{i} p{i} o{n} p{n}\n");
        values += &format!("val n{n} ∷ ");
    }
    let laws: Vec<String> = (1..=count).map(|i| format!("put_number a{i}")).collect();
    text += &format!(
        "    → PutAll {} lent ({values}[]) o0 p0 o{count} p{count}\n",
        m.layout()
    );
    text + &format!(
        "all_put {} =\n    {}\n",
        list('a', 1),
        nested(&laws, "put_done")
    )
}
