//! Attribute documents. A line of the text is a section and a name, with a space between them.
use super::document::{Document, Name};

fn name(text: &str) -> Name {
    Name(String::from(text))
}

// Returns the sections and names of the lines.
fn names(lines: &str) -> Vec<(Name, Name)> {
    let mut names = Vec::new();
    for line in lines.lines() {
        if let Some((section, own)) = line.split_once(' ') {
            names.push((name(section), name(own)));
        }
    }
    names
}

// Sets each name of each line to itself, and returns how many names were present.
fn set_all(document: &mut Document, lines: &str) -> u64 {
    let mut there = 0u64;
    for line in lines.lines() {
        if let Some((section, own)) = line.split_once(' ') {
            let text = String::from(own);
            let old = document.set(name(section), name(own), text);
            there = there.wrapping_add(u64::from(old.is_some()));
        }
    }
    there
}

fn document_filled(lines: &str) -> Document {
    let mut document = Document::default();
    set_all(&mut document, lines);
    document
}

#[inline(never)]
pub fn document_new(lines: &[u8], _: &[u8], rounds: u64) -> u64 {
    let Ok(lines) = str::from_utf8(lines) else {
        return u64::MAX;
    };
    rounds!(rounds, |sum, round| {
        let document = document_filled(lines);
        sum = sum.wrapping_add(document.len() as u64 ^ round);
    })
}

#[inline(never)]
pub fn document_present(lines: &[u8], _: &[u8], rounds: u64) -> u64 {
    let Ok(lines) = str::from_utf8(lines) else {
        return u64::MAX;
    };
    let mut document = document_filled(lines);
    rounds!(rounds, |sum, round| {
        sum = sum.wrapping_add(set_all(&mut document, lines) ^ round);
    })
}

#[inline(never)]
pub fn document_get(lines: &[u8], probes: &[u8], rounds: u64) -> u64 {
    let (Ok(lines), Ok(probes)) = (str::from_utf8(lines), str::from_utf8(probes)) else {
        return u64::MAX;
    };
    let document = document_filled(lines);
    let probes = names(probes);
    rounds!(rounds, probes.iter(), |sum, round, probe| {
        if let Some(text) = document.get(&probe.0, &probe.1) {
            sum = sum.wrapping_add(text.len() as u64 ^ round);
        }
    })
}

#[inline(never)]
pub fn document_merge(lines: &[u8], others: &[u8], rounds: u64) -> u64 {
    let (Ok(lines), Ok(others)) = (str::from_utf8(lines), str::from_utf8(others)) else {
        return u64::MAX;
    };
    rounds!(rounds, |sum, round| {
        let mut document = document_filled(lines);
        let mut other = document_filled(others);
        document.merge(&mut other);
        sum = sum.wrapping_add(document.len() as u64 ^ round);
    })
}

// A text is written in each round, so that the compiler cannot compare once for all rounds.
#[inline(never)]
pub fn document_same(lines: &[u8], others: &[u8], rounds: u64) -> u64 {
    let (Ok(lines), Ok(others)) = (str::from_utf8(lines), str::from_utf8(others)) else {
        return u64::MAX;
    };
    let mut document = document_filled(lines);
    let mut other = document_filled(others);
    rounds!(rounds, |sum, round| {
        let text = if round & 1 == 0 { "even" } else { "odd" };
        document.set(name("turn"), name("turn"), String::from(text));
        other.set(name("turn"), name("turn"), String::from(text));
        if document.same(&other) {
            sum = sum.wrapping_add(round);
        }
    })
}
