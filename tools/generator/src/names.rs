//! Names as the two languages want them, and as the prover gives them to goals and facts.

use std::collections::BTreeSet;

/// A field's name in a definition: a word of antt's own stands in brackets.
pub fn quoted(name: &str) -> String {
    match name {
        "data" => format!("«{name}»"),
        _ => name.to_string(),
    }
}

/// The calls of a match, by arm. The prover names a call after its function, and after its arm, too, where an arm before it has one of that
/// name: `begun`, `begun-in-33`.
#[derive(Default)]
pub struct Calls(BTreeSet<String>);

impl Calls {
    pub fn in_arm(&mut self, function: &str, arm: &str) -> String {
        match self.0.insert(function.to_string()) {
            true => function.to_string(),
            false => format!("{function}-in-{arm}"),
        }
    }
}

/// The `use` line of a function's goals.
pub fn goals(krate: &str, path: &str) -> String {
    format!("use Rattle.{krate}.proofs.{path}.Goals as goal\n")
}

/// A goal, and what answers it, on the same line or on those below it.
pub fn answer(goal: &str, term: &str) -> String {
    let term = match term.starts_with('\n') {
        true => term.to_string(),
        false => format!(" {term}"),
    };
    format!("\npub {goal} : goal.{goal}\n{goal} c ={term}\n")
}

/// The same where the answer unfolds definitions, which are named.
pub fn answer_unfolding(goal: &str, definitions: &str, term: &str) -> String {
    format!("\npub {goal} : goal.{goal}\nunfolding {definitions}\n{goal} c = {term}\n")
}
