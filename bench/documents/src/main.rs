//! Reads a configuration from standard input into typed structs, and says how many rulesets and rules it has.
use serde::Deserialize;
use std::io::{self, Read};

#[derive(Deserialize)]
struct Document {
    #[serde(default)]
    lists: Vec<List>,
    #[serde(default)]
    rulesets: Vec<Ruleset>,
}

#[derive(Deserialize)]
struct List {
    name: String,
    kind: String,
    items: Vec<String>,
}

#[derive(Deserialize)]
struct Ruleset {
    id: String,
    kind: String,
    phase: String,
    #[serde(default)]
    rules: Vec<Rule>,
}

#[derive(Deserialize)]
struct Rule {
    id: String,
    expression: String,
    action: String,
}

/// How many bytes the texts of the document have, so that none of them is left out.
fn text_bytes(document: &Document) -> usize {
    let lists: usize = document
        .lists
        .iter()
        .map(|list| list.name.len() + list.kind.len() + list.items.iter().map(String::len).sum::<usize>())
        .sum();
    let rulesets: usize = document
        .rulesets
        .iter()
        .map(|set| {
            let rules: usize = set.rules.iter().map(|rule| rule.id.len() + rule.expression.len() + rule.action.len()).sum();
            set.id.len() + set.kind.len() + set.phase.len() + rules
        })
        .sum();
    lists + rulesets
}

fn main() {
    let mut text = Vec::new();
    io::stdin().read_to_end(&mut text).unwrap();
    let document: Document = serde_json::from_slice(&text).unwrap();
    let rules: usize = document.rulesets.iter().map(|set| set.rules.len()).sum();
    eprintln!("{} bytes of texts", text_bytes(&document));
    println!("ok {} {}", document.rulesets.len(), rules);
}
