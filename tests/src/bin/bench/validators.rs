//! The first tables: the library against the rival and the ordinary validator in each version, on images of 8 MiB and of 64 MiB.

use super::asked::Asked;
use super::growth;
use super::rows::{ORDINARY, RIVAL, Row};
use cfb_tests::bench::Scale;

/// Prints them; how many answers are wrong.
pub fn tables(asked: &Asked) -> u32 {
    let tables: Vec<(Scale, Vec<Row>)> = asked.scales().map(|scale| (scale, table(asked, scale))).collect();
    println!("| library's time divided by | the rival's: mean | worst | the ordinary one's: mean | worst |");
    println!("|---|---|---|---|---|");
    tables.iter().for_each(|(scale, rows)| summary(*scale, rows));
    println!();
    for (short, rows) in &tables {
        let same = |long: &Scale| long.geometry == short.geometry && long.size.mib > short.size.mib;
        if let Some((_, long)) = tables.iter().find(|(long, _)| same(long)) {
            growth::table(short.geometry.major, rows, long);
        }
    }
    tables.iter().flat_map(|(_, rows)| rows).filter(|row| row.wrong()).count() as u32
}

/// One version at one size.
fn table(asked: &Asked, scale: Scale) -> Vec<Row> {
    let rows: Vec<Row> = asked.makes().map(|make| Row::new(make, scale, asked.rounds())).collect();
    println!(
        "| {} | answer | library ms | rival ms | ordinary ms | library / rival | library / ordinary | library, slowest good image = 1 |",
        title(scale)
    );
    println!("|---|---|---|---|---|---|---|---|");
    let slowest = rows.iter().filter(|row| row.good()).map(|row| row.times[0]).fold(0.0, f64::max);
    for row in &rows {
        let [ours, rival, ordinary] = row.times;
        let ratios = format!("{:.2} | {:.2} | {:.2}", row.ratio(RIVAL), row.ratio(ORDINARY), ours / slowest);
        println!("| {} | {} | {ours:.3} | {rival:.3} | {ordinary:.3} | {ratios} |", row.name, row.answer());
    }
    println!();
    rows
}

fn title(scale: Scale) -> String {
    format!("{} MiB, version {}", scale.size.mib, scale.geometry.major)
}

/// The geometric mean and the greatest of both ratios.
fn summary(scale: Scale, rows: &[Row]) {
    let columns = |other: usize| {
        let mean = rows.iter().map(|row| row.ratio(other).ln()).sum::<f64>() / rows.len() as f64;
        let worst = rows.iter().max_by(|a, b| a.ratio(other).total_cmp(&b.ratio(other))).expect("a row");
        format!("{:.2} | {:.2} ({})", mean.exp(), worst.ratio(other), worst.name)
    };
    println!("| {} | {} | {} |", title(scale), columns(RIVAL), columns(ORDINARY));
}
