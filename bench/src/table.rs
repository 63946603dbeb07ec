//! Tables: nanoseconds per record and their ratios, a row for each group.

use crate::records::Record;

/// Records that are timed together, the row of a table.
pub type Group<'a> = Vec<&'a Record>;

/// A program's nanoseconds per record for each group, NaN where it does not
/// convert them.
pub struct Column {
    pub name: &'static str,
    pub times: Vec<f64>,
}

/// A group for each type.
pub fn by_type(records: &[Record]) -> Vec<Group<'_>> {
    records.chunk_by(|a, b| a.kind == b.kind).map(|group| group.iter().collect()).collect()
}

/// A group for each record.
pub fn by_record(records: &[Record]) -> Vec<Group<'_>> {
    records.iter().map(|record| vec![record]).collect()
}

/// Prints the times, and the first program's by each other's.
pub fn table(title: &str, groups: &[Group], columns: &[Column]) {
    print!("\n{title:18}");
    columns.iter().for_each(|column| print!("{:>13}", column.name));
    columns[1..].iter().for_each(|column| print!("{:>14}", format!("/ {}", column.name)));
    println!();
    for (row, group) in groups.iter().enumerate() {
        let octets: usize = group.iter().map(|record| record.rdata.len()).sum();
        print!("{:11}{:7}", group[0].kind, octets / group.len());
        columns.iter().for_each(|column| cell(column.times[row], 13, 1));
        columns[1..].iter().for_each(|column| cell(columns[0].times[row] / column.times[row], 14, 2));
        println!();
    }
}

/// Prints the geometric mean of each ratio over the rows that have it.
pub fn geometric_means(columns: &[Column]) {
    print!("{:1$}", "geometric mean", 18 + 13 * columns.len());
    for column in &columns[1..] {
        let ratios = columns[0].times.iter().zip(&column.times).map(|(first, other)| first / other);
        let logs: Vec<f64> = ratios.filter(|ratio| !ratio.is_nan()).map(f64::ln).collect();
        cell((logs.iter().sum::<f64>() / logs.len() as f64).exp(), 14, 2);
    }
    println!();
}

fn cell(value: f64, width: usize, digits: usize) {
    if value.is_nan() {
        print!("{:>width$}", "-");
    } else {
        print!("{value:width$.digits$}");
    }
}
