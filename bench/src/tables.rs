//! Markdown.

use crate::grounds::KINDS;
use crate::trials::{Figure, Own, Row, Trial, OUTLETS, ROWS};

/// A table whose first columns hold words and the others numbers.
pub fn table(words: usize, heads: &[&str], rows: &[Vec<String>]) {
    println!("| {} |", heads.join(" | "));
    println!("|{}{}", "---|".repeat(words), "---:|".repeat(heads.len() - words));
    for row in rows {
        println!("| {} |", row.join(" | "));
    }
    println!();
}

/// A number with commas between thousands.
pub fn grouped(number: usize) -> String {
    if number < 1000 {
        number.to_string()
    } else {
        format!("{},{:03}", grouped(number / 1000), number % 1000)
    }
}

/// Two digits after the point, or as many as show two that count.
fn ratio(ratio: f64) -> String {
    match ratio {
        r if r >= 0.1 => format!("{r:.2}"),
        r if r >= 0.01 => format!("{r:.3}"),
        r => format!("{r:.4}"),
    }
}

/// A figure's number as text, or a mark if it does not stand out from the noise.
fn marked(figure: &Figure, text: String) -> String {
    if figure.sure {
        text
    } else {
        "~".to_string()
    }
}

/// One size, by ground.
pub struct Size {
    pub name: String,
    pub grounds: Vec<Trial>,
}

/// What was aimed at on each ground, beside plain C or other work of the library, and what came of
/// it.
pub fn aims(size: &Size) {
    println!("### {}: aims\n", size.name);
    let mut rows = Vec::new();
    let mut aimed = |row: &Row, beside: String, kind: &str, most: f64, found: String| {
        // All digits that the aim has, and at least one after the point.
        let most = format!("≤ {most:?}");
        rows.push(vec![row.work.to_string(), beside, kind.to_string(), most, found]);
    };
    for (at, row) in ROWS.iter().enumerate() {
        for (((kind, _), aim), ground) in KINDS.iter().zip(row.aims).zip(&size.grounds) {
            if let Some(aim) = aim {
                let figure = &ground.figures[at];
                let found = marked(figure, ratio(figure.library / figure.plain));
                aimed(row, format!("plain C: {}", row.plain), kind, aim, found);
            }
        }
        if let Some(Own { work, most }) = row.own {
            let other = ROWS.iter().position(|row| row.work == work).expect("a row");
            let (ground, kind) = (&size.grounds[0].figures, KINDS[0].0);
            let found = ratio(ground[at].library / ground[other].library);
            aimed(row, format!("the library: {work}"), kind, most, found);
        }
        if let (Some(most), Some(each)) = (row.each, size.grounds[0].each) {
            let found = ratio(size.grounds[0].figures[at].library / each);
            let beside = "the library: stack, dropping, a call for each outlet, once";
            aimed(row, beside.to_string(), KINDS[0].0, most, found);
        }
    }
    table(3, &["work", "beside", "ground", "aim", "found"], &rows);
}

/// The library's time divided by that of plain C and of the Rust implementation.
pub fn ratios(size: &Size) {
    println!("### {}: time of the library / time of the other\n", size.name);
    let mut heads = vec!["work".to_string(), "plain C does".to_string()];
    heads.extend(KINDS.map(|(kind, _)| format!("{kind} / C")));
    heads.extend(KINDS.map(|(kind, _)| format!("{kind} / Rust")));
    let heads: Vec<&str> = heads.iter().map(String::as_str).collect();
    let mut rows = Vec::new();
    for (at, row) in ROWS.iter().enumerate() {
        let mut words = vec![row.work.to_string(), row.plain.to_string()];
        for ground in &size.grounds {
            let figure = &ground.figures[at];
            words.push(marked(figure, ratio(figure.library / figure.plain)));
        }
        for ground in &size.grounds {
            let figure = &ground.figures[at];
            words.push(figure.rust.map_or("–".to_string(), |rust| ratio(figure.library / rust)));
        }
        rows.push(words);
    }
    table(2, &heads, &rows);
}

/// The library's nanoseconds for each cell, for all sizes.
pub fn growth(sizes: &[Size]) {
    let names: Vec<&str> = sizes.iter().map(|size| size.name.as_str()).collect();
    println!("### Nanoseconds of the library for each cell, at {}\n", names.join(" / "));
    let mut heads = vec!["work", "for each"];
    heads.extend(KINDS.map(|(kind, _)| kind));
    let mut rows = Vec::new();
    for (at, row) in ROWS.iter().enumerate() {
        if at > 0 && row.work == ROWS[at - 1].work {
            continue;
        }
        let mut words = vec![row.work.to_string(), row.unit.to_string()];
        for ground in 0..KINDS.len() {
            let costs: Vec<String> = sizes
                .iter()
                .map(|size| {
                    let figure = &size.grounds[ground].figures[at];
                    marked(figure, format!("{:.1}", figure.library / figure.units * 1e9))
                })
                .collect();
            words.push(costs.join(" / "));
        }
        rows.push(words);
    }
    table(2, &heads, &rows);
}

/// Milliseconds of each at one size: the library's CPU time and wall time, plain C, Rust.
pub fn times(size: &Size) {
    println!("### {}: milliseconds, library (wall) / C / Rust\n", size.name);
    let mut heads = vec!["work", "plain C does"];
    heads.extend(KINDS.map(|(kind, _)| kind));
    let mut rows = Vec::new();
    for (at, row) in ROWS.iter().enumerate() {
        let mut words = vec![row.work.to_string(), row.plain.to_string()];
        for ground in &size.grounds {
            let figure = &ground.figures[at];
            let mut text = marked(figure, milliseconds(figure.library));
            if let Some(wall) = figure.wall {
                text += &format!(" ({})", milliseconds(wall));
            }
            text += &format!(" / {}", milliseconds(figure.plain));
            text += &figure.rust.map_or(String::new(), |rust| format!(" / {}", milliseconds(rust)));
            words.push(text);
        }
        rows.push(words);
    }
    table(2, &heads, &rows);
}

/// The cells that a search with dropping visits by 01's rule and by the tight limit, for all sizes.
pub fn visits(sizes: &[Size]) {
    println!(
        "### Cells visited with dropping, to the mouth: by the first limit and by the tight one\n"
    );
    let mut rows = Vec::new();
    for size in sizes {
        for ((kind, _), Trial { visits, .. }) in KINDS.iter().zip(&size.grounds) {
            rows.push(vec![
                size.name.clone(),
                kind.to_string(),
                grouped(visits.cells),
                grouped(visits.first),
                grouped(visits.tight),
                milliseconds(visits.first_taken),
                milliseconds(visits.tight_taken),
            ]);
        }
    }
    let heads = ["size", "ground", "cells", "first", "tight", "C, first, ms", "C, tight, ms"];
    table(2, &heads, &rows);
}

/// What tracing all outlets takes at one size with the second search of each outlet and without it,
/// and the cells that one search of each visits.
pub fn second_searches(size: &Size) {
    println!(
        "### {}: trace all, {OUTLETS} outlets: accepted, and refused with 21 after one search of \
         each outlet\n",
        size.name
    );
    let mut rows = Vec::new();
    for ((kind, _), Trial { searches, .. }) in KINDS.iter().zip(&size.grounds) {
        rows.push(vec![
            kind.to_string(),
            grouped(searches.visited),
            milliseconds(searches.accepted),
            milliseconds(searches.refused),
            marked(&searches.second, milliseconds(searches.second.library)),
        ]);
    }
    let heads = ["ground", "visited", "accepted, ms", "refused, ms", "second search, ms"];
    table(1, &heads, &rows);
}

fn milliseconds(seconds: f64) -> String {
    match seconds * 1e3 {
        ms if ms >= 100.0 => format!("{ms:.0}"),
        ms if ms >= 1.0 => format!("{ms:.1}"),
        ms => format!("{ms:.3}"),
    }
}
