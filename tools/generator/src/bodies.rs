//! The two enums: bodies read by their type number and written by their case, and what the definitions say of them.

use crate::names::{answer_unfolding, goals, quoted, Calls};
use crate::records::{layouts, DERIVES};
use crate::table::{Direction, Field, Kind, Message, Table};
use crate::Files;
use std::collections::BTreeSet;

pub fn write(table: &Table, files: &mut Files) {
    for direction in [Direction::T, Direction::R] {
        let krate = &table.dialect.named(direction.enums());
        let (small, rows, cases) = (
            direction.small(),
            table.by_number(direction),
            table.by_case(direction),
        );
        files.put(
            format!("crates/{krate}/src/lib.rt"),
            source(table, direction, &rows, &cases),
        );
        files.put(
            format!("crates/{krate}/specs/Views.antt"),
            views(table, direction, &cases),
        );
        files.put(
            format!("crates/{krate}/specs/Made.antt"),
            made(table, &cases),
        );
        files.put(
            format!("crates/{krate}/specs/Built.antt"),
            built(direction, krate, &rows, &cases),
        );
        files.answers(
            krate,
            &format!("read_{small}message"),
            read_proof(table, direction, &rows),
        );
        files.answers(
            krate,
            &format!("write_{small}message"),
            write_proof(direction, krate, &cases),
        );
    }
    write_known(table, files);
}

/// What stretches and pairs have to know of the types.
fn write_known(table: &Table, files: &mut Files) {
    let stretch = table.dialect.named("stretch");
    files.put(format!("crates/{stretch}/specs/Known.antt"), known(table));
    files.put(
        format!("crates/{stretch}/specs/Fitting.antt"),
        fitting(table),
    );
    // One that stands over another knows the same types.
    if table.dialect.over.is_none() {
        let known = table.dialect.named("known");
        files.put(format!("crates/pairs/src/{known}.rt"), known_request(table));
    }
}

/// A case of the enum, with what it holds.
fn holding(m: &Message, what: &str) -> String {
    match m.is_empty() {
        true => m.case.clone(),
        false => format!("{}({what})", m.case),
    }
}

/// The same as a pattern of a definition.
fn pattern(m: &Message) -> String {
    match m.is_empty() {
        true => format!("M.{}", m.case),
        false => format!("(M.{} m)", m.case),
    }
}

fn source(table: &Table, direction: Direction, rows: &[&Message], cases: &[&Message]) -> String {
    enums(table, direction, rows, cases)
        + &read(direction, rows)
        + &type_of(direction, cases)
        + &write_body(direction, cases)
}

fn enums(table: &Table, direction: Direction, rows: &[&Message], cases: &[&Message]) -> String {
    let (d, s) = (direction.letter(), direction.small());
    let (many, count) = (direction.enums(), rows.len());
    let (krate, tables) = (table.dialect.named(many), table.dialect.tables);
    let records = rows.iter().filter(|m| !m.is_empty());
    let mut uses: BTreeSet<String> = records
        .map(|m| format!("use {}::{};\n", m.module(), m.record()))
        .collect();
    uses.extend([
        "use numbers::{Fault, Place, Refusal};\n".to_string(),
    ]);
    let uses: String = uses.into_iter().collect();
    let holds: String = cases
        .iter()
        .map(|m| format!("    {},\n", holding(m, &m.record())))
        .collect();
    format!(
        "// The {count} {many} in one enum: a body read by its type number, and written by its case.

#![tactic(auto)]

ghost use Rattle.std.specs.Prelude.{{◌≡◌}};
ghost use Rattle.laying.specs.Laying.{{Written}};
ghost use Rattle.{tables}.{{table_{s}}};
ghost use Rattle.layouts.specs.Bodies.{{read_body, finish_at}};
ghost use Rattle.{krate}.specs.Views.{{type_{s}, layout_{s}, values_{s}, view_{s}}};

{uses}
{DERIVES}pub enum {d}message {{
{holds}}}

// A body that was read: the message and the position after its fields; or why it is refused, and where.
pub type {d}body = Result<({d}message, usize), Fault>;
"
    )
}

fn read(direction: Direction, rows: &[&Message]) -> String {
    let (d, small) = (direction.letter(), direction.small());
    let arms: String = rows.iter().map(|m| read_arm(m, d)).collect();
    format!(
        "
fn finish(m: {d}message, end: Place) -> {d}body
    ensures {{ view_{small} result ≡ finish_at (type_{small} m) (values_{small} m) end }}
{{
    Ok((m, end?))
}}

// The type decides the body.
pub fn read_{small}message(s: &[u8], ty: u8, p: Place) -> {d}body
    ensures {{ view_{small} result ≡ read_body table_{small} ty s.now p }}
{{
    match ty {{
{arms}        _ => Err(Fault(Refusal::UnknownType, 0)),
    }}
}}
"
    )
}

fn type_of(direction: Direction, cases: &[&Message]) -> String {
    let (d, small) = (direction.letter(), direction.small());
    let arms: String = cases
        .iter()
        .map(|m| format!("        {d}message::{} => {},\n", holding(m, "_"), m.number))
        .collect();
    format!(
        "
// The number of a message's type.
pub fn type_of(m: {d}message) -> u8
    ensures {{ result ≡ type_{small} m }}
{{
    match m {{
{arms}    }}
}}
"
    )
}

fn write_body(direction: Direction, cases: &[&Message]) -> String {
    let (d, small) = (direction.letter(), direction.small());
    let arm = |m: &&Message| match m.is_empty() {
        true => format!(
            "        {d}message::{} => laying::begun(p, p, out.len()),\n",
            m.case
        ),
        false => format!(
            "        {d}message::{}(x) => {}::write_{}(out, p, lent, x),\n",
            m.case,
            m.module(),
            m.small()
        ),
    };
    let arms: String = cases.iter().map(arm).collect();
    format!(
        "
// A body written at a place: its fields' refusals in order, then 10, then 11; a refusal leaves the output as it was.
pub fn write_{small}message(out: &mut [u8], p: Place, lent: &[u8], m: {d}message) -> Place
    ensures {{ Written (layout_{small} m) lent.now (values_{small} m) out.old p out.new result }}
{{
    match m {{
{arms}    }}
}}
"
    )
}

fn read_arm(m: &Message, d: char) -> String {
    match m.is_empty() {
        true => format!(
            "        {} => finish({d}message::{}, p),\n",
            m.number, m.case
        ),
        false => format!(
            "        {} => {{
            let r = {}::read_{}(s, p);
            finish({d}message::{}(r.value), r.next)
        }}
",
            m.number,
            m.module(),
            m.small(),
            m.case
        ),
    }
}

// ---- definitions

/// The `use` lines of the records' values.
fn values_uses(table: &Table, cases: &[&Message]) -> String {
    let mut text = String::new();
    for from in table.dialect.records() {
        let values: Vec<String> = cases
            .iter()
            .filter(|m| m.dialect == from && !m.is_empty())
            .map(|m| m.small())
            .collect();
        if !values.is_empty() {
            text += &format!(
                "use Rattle.{from}.specs.Records.{{{}}}\n",
                values.join(", ")
            );
        }
    }
    text
}

fn views(table: &Table, direction: Direction, cases: &[&Message]) -> String {
    let (d, s) = (direction.letter(), direction.small());
    let krate = &table.dialect.named(direction.enums());
    let lists = match cases.iter().any(|m| m.is_empty()) {
        true => "List, [], Result, Ok, Err",
        false => "List, Result, Ok, Err",
    };
    let mut text = format!(
        "-- For each case of `{d}message` its number (F3.2), its layout and its values.\nuse Rattle.std.specs.Prelude.{{ℕ, {lists}}}\nuse Rattle.fields.specs.Layouts.{{Layout}}\nuse Rattle.fields.specs.Values.{{Value}}\n{}",
        layouts(cases, "", "")
    );
    text += &values_uses(table, cases);
    text += "use Rattle.layouts.specs.Bodies.{Answer, accepted, refused}\nuse Rattle.numbers.specs.declared.Fault.{Fault}\n";
    text += &declared(krate, d);
    text += &format!("\nabbrev pub type_{s} : {d}message → ℕ\n");
    for m in cases {
        text += &format!("type_{s} {} = {}\n", pattern(m), m.number);
    }
    text += &format!("\nunfoldable pub layout_{s} : {d}message → Layout\n");
    for m in cases {
        text += &format!("layout_{s} {} = {}\n", pattern(m), m.layout());
    }
    text += &format!("\nunfoldable pub values_{s} : {d}message → List Value\n");
    for m in cases {
        text += &match m.is_empty() {
            true => format!("values_{s} {} = []\n", pattern(m)),
            false => format!("values_{s} {} = {} m\n", pattern(m), m.small()),
        };
    }
    text + &format!(
        "
-- a body that was read, and where it ends; or its refusal
abbrev pub {d}body : Type 0
{d}body = Result ({d}message × ℕ) Fault

-- a body seen as its number, its values and where it ends; or its refusal
unfoldable pub view_{s} : {d}body → Answer
view_{s} (Ok (m, n)) = accepted (type_{s} m) (values_{s} m) n
view_{s} (Err f) = refused f.0 f.1
"
    )
}

fn declared(krate: &str, d: char) -> String {
    format!(
        "use Rattle.{krate}.specs.declared.{d}message.{{{d}message}}
use Rattle.{krate}.specs.declared.{d}message.TheVariants as M
"
    )
}

/// A field from the values of its record, of which the i-th is its first.
fn rebuilt(f: &Field, i: usize) -> String {
    let number = |i: usize| format!("num_of (nth {i} vs)");
    let span =
        |i: usize| format!("record {{ start = start_of (nth {i} vs); len = len_of (nth {i} vs) }}");
    let value = match f.kind {
        Kind::Number(_) => number(i),
        Kind::Qid => format!(
            "record {{ ty = {}; version = {}; path = {} }}",
            number(i),
            number(i + 1),
            number(i + 2)
        ),
        Kind::Str | Kind::Data => span(i),
        Kind::Names | Kind::Qids => format!(
            "record {{ count = count_of (nth {i} vs); elements = {} }}",
            span(i)
        ),
        Kind::Stat => format!("made_stat (slots_of (nth {i} vs))"),
        Kind::UnixStat => format!("made_unix (slots_of (nth {i} vs))"),
        _ => format!("record {{ 0 = {} }}", number(i)),
    };
    format!("{} = {value}", quoted(&f.name))
}

/// A record made of its values, and that they determine it.
fn remade(m: &Message) -> String {
    let mut i = 0;
    let mut fields = vec![];
    for f in &m.fields {
        fields.push(rebuilt(f, i));
        i += if f.kind == Kind::Qid { 3 } else { 1 };
    }
    let (record, small) = (m.record(), m.small());
    format!(
        "
abbrev pub made_{small} : List Value → {record}
made_{small} vs = record {{ {} }}

pub one_{small} : (m m' : {record}) → {small} m ≡ {small} m' → m ≡ m'
one_{small} m m' e = ap made_{small} e
",
        fields.join("; ")
    )
}

fn made(table: &Table, cases: &[&Message]) -> String {
    let mut text = "-- A record is determined by its values: it can be made of them again.
use Rattle.std.specs.Prelude.{ℕ, ◌≡◌, List, get_or}
use Rattle.std.proofs.Common.{ap}
use Rattle.fields.specs.Values.{Value, val, num_of, start_of, len_of, count_of}
"
    .to_string();
    let records: Vec<_> = cases.iter().filter(|m| !m.is_empty()).collect();
    text += &values_uses(table, cases);
    for (kind, made) in [(Kind::Stat, "made_stat"), (Kind::UnixStat, "made_unix")] {
        if records
            .iter()
            .any(|m| m.fields.iter().any(|f| f.kind == kind))
        {
            text += &format!("use Rattle.fields.specs.Values.{{slots_of}}\nuse Rattle.stats.specs.Stats.{{{made}}}\n");
        }
    }
    for m in &records {
        let record = m.record();
        text += &format!(
            "use Rattle.{}.specs.declared.{}.{record}.{{{record}}}\n",
            m.dialect, m.family
        );
    }
    text += "\nabbrev nth : ℕ → List Value → Value\nnth i vs = get_or vs i (val 0)\n";
    text + &records.iter().map(|m| remade(m)).collect::<String>()
}

fn message(m: &Message) -> String {
    match m.is_empty() {
        true => format!("M.{}", m.case),
        false => format!("M.{} (made_{} vs)", m.case, m.small()),
    }
}

/// Tests of the number, one inside the other; the last message is what is left.
fn tests(rows: &[&Message], depth: usize) -> String {
    let indent = "      ".repeat(depth);
    match rows {
        [] => String::new(),
        [m] => format!("{indent}{}\n", message(m)),
        [m, rest @ ..] => {
            format!("{indent}elim (eqb ty {}) [\n{indent}  | true ↦ {}\n{indent}  | false ↦\n{}{indent}]\n", m.number, message(m), tests(rest, depth + 1))
        }
    }
}

fn built(direction: Direction, krate: &str, rows: &[&Message], cases: &[&Message]) -> String {
    let (d, s) = (direction.letter(), direction.small());
    let mut text = "-- A view says all: a message can be built again from its number and its values, so two messages, and two bodies, with one view are equal.
use Rattle.std.specs.Prelude.{ℕ, ◌≡◌, refl, true, false, List, eqb, Ok, Err}
use Rattle.std.proofs.Common.{sym, ap, ap₂, ◌∙◌}
use Rattle.fields.specs.Values.{Value}
use Rattle.layouts.specs.Bodies.{Answer, accepted, refused}
"
    .to_string();
    let made: Vec<String> = cases
        .iter()
        .filter(|m| !m.is_empty())
        .map(|m| format!("made_{}", m.small()))
        .collect();
    text += &format!(
        "use Rattle.{krate}.specs.Views.{{{d}body, type_{s}, values_{s}, view_{s}}}\nuse Rattle.{krate}.specs.Made.{{{}}}\n{}",
        made.join(", "),
        declared(krate, d)
    );
    text += &format!("\nunfoldable pub built : ℕ → List Value → {d}message\nbuilt ty vs =\n");
    text += &tests(rows, 0)
        .lines()
        .map(|line| format!("    {line}\n"))
        .collect::<String>();
    text += &format!("\npub rebuilt : (m : {d}message) → built (type_{s} m) (values_{s} m) ≡ m\nunfolding built values_{s}\n");
    for m in cases {
        text += &format!("rebuilt {} = refl\n", pattern(m));
    }
    text + &format!(
        "
pub one_message : (m m' : {d}message) → type_{s} m ≡ type_{s} m' → values_{s} m ≡ values_{s} m' → m ≡ m'
one_message m m' e f = sym (rebuilt m) ∙ ap₂ built e f ∙ rebuilt m'

-- the body that an answer stands for
unfoldable pub body_in : Answer → {d}body
body_in (accepted ty vs n) = Ok (built ty vs, n)
body_in (refused k at) = Err (k, at)

rebodied : (r : {d}body) → body_in (view_{s} r) ≡ r
unfolding body_in view_{s}
rebodied (Ok (m, n)) = ap (λ (x : {d}message). Ok (x, n)) (rebuilt m)
rebodied (Err f) = refl

pub one_body : (r r' : {d}body) → view_{s} r ≡ view_{s} r' → r ≡ r'
one_body r r' e = sym (rebodied r) ∙ ap body_in e ∙ rebodied r'
"
    )
}

/// That the type of each case is in its table. Three parts of the text are the same whatever the messages are.
fn known(table: &Table) -> String {
    let rows = |direction: Direction, law: &str, cases: &str| -> String {
        let named = |m: &&Message| format!("{law} {} = refl\n", pattern(m).replace("M.", cases));
        table.by_case(direction).iter().map(named).collect()
    };
    let [head, between, end] = KNOWN;
    head.replace("TABLES", table.dialect.tables)
        .replace("REQUESTS", &table.dialect.named("requests"))
        .replace("REPLIES", &table.dialect.named("replies"))
        + &rows(Direction::T, "row_of_request", "M.")
        + between
        + &rows(Direction::R, "row_of_reply", "Q.")
        + end
}

/// What the machine value of a record says of the values of a field: `at` is the path to the field, `limit` to the data's limit.
fn field_fits(f: &Field, at: &str, limit: &str) -> Vec<String> {
    match f.kind {
        Kind::Number(_) => vec![format!("{at}.fits")],
        Kind::Qid => ["", ".1", ".1.1"]
            .iter()
            .map(|rest| format!("{at}{rest}.0.fits"))
            .collect(),
        Kind::Str | Kind::Names | Kind::Qids => vec!["tt".to_string()],
        Kind::Data => vec![limit.to_string()],
        Kind::Stat => vec![tupled(&stat_fits(at))],
        Kind::UnixStat => vec![tupled(&unix_fits(at))],
        _ => vec![format!("{at}.0.fits")],
    }
}

/// The same of a stat's: seven fields of numbers, of which the third is a qid, and four strings.
fn stat_fits(at: &str) -> Vec<String> {
    let mut parts = vec![];
    for i in 0..7 {
        let at = format!("{at}{}.0", ".1".repeat(i));
        match i {
            2 => parts.extend(["", ".1", ".1.1"].map(|rest| format!("{at}{rest}.0.fits"))),
            _ => parts.push(format!("{at}.fits")),
        }
    }
    parts.extend(["tt"; 4].map(String::from));
    parts
}

/// The same of 9P2000.u's, which has that of 9P2000 for its first field, then a string and three numbers.
fn unix_fits(at: &str) -> Vec<String> {
    let mut parts = stat_fits(&format!("{at}.0"));
    parts.push("tt".to_string());
    parts.extend((2..5).map(|i| format!("{at}{}.0.fits", ".1".repeat(i))));
    parts
}

fn tupled(parts: &[String]) -> String {
    parts
        .iter()
        .rev()
        .fold("tt".to_string(), |rest, part| format!("({part}, {rest})"))
}

/// That the values of a case fit: the case holds its record after its tag, and the record its fields in order.
fn case_fits(m: &Message, law: &str) -> String {
    let mut parts: Vec<String> = vec![];
    for (i, f) in m.fields.iter().enumerate() {
        let at = format!("g.1.0{}.0", ".1".repeat(i));
        let limit = format!("l{}.0", ".1".repeat(parts.len()));
        parts.extend(field_fits(f, &at, &limit));
    }
    format!("{law} {} g l = {}\n", pattern(m), tupled(&parts))
}

/// That the values of a record fit, whose machine value is one.
fn fitting(table: &Table) -> String {
    let mut text = "-- A record's numbers fit their fields where its machine value is well typed (`WT`), as that of what a program holds is (`Held.antt`).
use mir.Val.{WT}
use Rattle.framing.specs.ReadBack.{Readable}
use Rattle.framing.specs.Limits.{Limited}
"
    .to_string();
    for (direction, letter) in [(Direction::T, 'M'), (Direction::R, 'Q')] {
        let (krate, d) = (table.dialect.named(direction.enums()), direction.letter());
        let s = direction.small();
        text += &format!(
            "use Rattle.{krate}.specs.Views.{{layout_{s}, values_{s}}}
use Rattle.{krate}.specs.declared.{d}message.{{{d}message}}
use Rattle.{krate}.specs.declared.{d}message.TheVariants as {letter}
use Rattle.{krate}.proofs.{d}message.TheLaws.{{lowered as lowered{d}{}}}
",
            match direction {
                Direction::T => ", the_told as told",
                Direction::R => "",
            }
        );
    }
    text += "\n-- in the pair of a `Result` a request is told by its row, which says the same of each case\npub told_request : (m : Tmessage) → WT (told.val m) → WT (loweredT m)\n";
    for m in table.by_case(Direction::T) {
        text += &format!("told_request {} g = g\n", pattern(m));
    }
    for (direction, law, letter) in [
        (Direction::T, "request_fits", "M."),
        (Direction::R, "reply_fits", "Q."),
    ] {
        let (d, s) = (direction.letter(), direction.small());
        text += &format!("\npub {law} : (m : {d}message) → WT (lowered{d} m) → Limited (layout_{s} m) (values_{s} m) → Readable (layout_{s} m) (values_{s} m)\nunfolding layout_{s} values_{s}\n");
        for m in table.by_case(direction) {
            text += &case_fits(m, law).replace("M.", letter);
        }
    }
    text
}

fn known_request(table: &Table) -> String {
    let rows = table.by_number(Direction::T);
    let numbers: Vec<String> = rows.iter().map(|m| m.number.to_string()).collect();
    let tables = table.dialect.tables;
    format!(
        "// Whether a type is a request's: one of the {}.

ghost use Rattle.std.specs.Prelude.{{◌≡◌}};
ghost use Rattle.{tables}.{{table_t}};
ghost use Rattle.pairs.specs.Pairs.{{knows}};

pub(crate) fn known_request(ty: u8) -> bool
    ensures {{ result ≡ knows table_t ty }}
{{
    matches!(ty, {})
}}
",
        rows.len(),
        numbers.join(" | ")
    )
}

const KNOWN: [&str; 3] = [
    include_str!("known/head.antt.txt"),
    include_str!("known/between.antt.txt"),
    include_str!("known/end.antt.txt"),
];

// ---- proofs

fn read_proof(table: &Table, direction: Direction, rows: &[&Message]) -> String {
    let s = direction.small();
    let krate = &table.dialect.named(direction.enums());
    let mut text = "-- Each arm is the row of its number; the rest is a number that has no row.
use mathlib.Core.Path.{◌∙◌}
"
    .to_string();
    if rows.iter().any(|m| m.is_empty()) {
        text += "use Rattle.fields.proofs.FieldLaws.{done}\n";
    }
    text += &format!(
        "use Rattle.{}.{{table_{s}}}
use Rattle.layouts.proofs.BodyLaws.{{known_body, unknown_body}}
use Rattle.{krate}.specs.Views.{{values_{s}, view_{s}}}
{}",
        table.dialect.tables,
        goals(krate, &format!("read_{s}message"))
    );
    let mut calls = Calls::default();
    for m in rows {
        let n = m.number;
        let finish = calls.in_arm("finish", &n.to_string());
        let fields = match m.is_empty() {
            true => "done".to_string(),
            false => format!("c.read_{}-r.ensures", m.small()),
        };
        text += &answer_unfolding(
            &format!("returns-in-{n}"),
            &format!("values_{s}"),
            &format!("rw c.in-{n}.is (c.{finish}.ensures ∙ known_body {n} {fields})"),
        );
    }
    text + &answer_unfolding(
        "returns-in_default",
        &format!("view_{s}"),
        &format!("unknown_body table_{s} _ _ _ c.in_default.in_default-own.rest"),
    )
}

fn write_proof(direction: Direction, krate: &str, cases: &[&Message]) -> String {
    let s = direction.small();
    let mut text = "-- Each arm is the record that its case holds.\n".to_string();
    if cases.iter().any(|m| m.is_empty()) {
        text += "use Rattle.laying.proofs.WritingLaws.{written_nothing}\n";
    }
    text += &format!(
        "use Rattle.{krate}.specs.Views.{{layout_{s}, values_{s}}}\n{}",
        goals(krate, &format!("write_{s}message"))
    );
    let mut calls = Calls::default();
    for m in cases {
        let case = &m.case;
        let written = match m.is_empty() {
            true => format!(
                "(written_nothing c.{}.ensures)",
                calls.in_arm("begun", case)
            ),
            false => format!("c.write_{}.ensures", m.small()),
        };
        text += &answer_unfolding(
            &format!("returns-in-{case}"),
            &format!("layout_{s} values_{s}"),
            &format!("rw c.in-{case}.is {written}"),
        );
    }
    text
}
