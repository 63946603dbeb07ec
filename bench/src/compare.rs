//! Programs that convert records, side by side, in one direction.

use std::collections::HashMap;
use std::hint::black_box;
use std::time::Duration;

use crate::dnspython;
use crate::peers::{peers, Kept};
use crate::records::{Corpus, Record};
use crate::table::{by_record, by_type, geometric_means, table, Column, Group};
use crate::timing::{in_turns, ROUNDS};

pub const ROUND: Duration = Duration::from_millis(50);

/// Converts a record into the buffer: the count of octets, if it accepts.
type Convert = fn(&Record, &mut [u8]) -> Option<usize>;

/// One that may know which peer it is.
type Bound = Box<dyn Fn(&Record, &mut [u8]) -> Option<usize>>;

/// Reading or printing.
pub struct Direction {
    pub name: &'static str,
    /// What is converted.
    pub octets: fn(&Record) -> &[u8],
    /// What must come out, by the independent program; none where it refuses.
    pub wanted: fn(&Record) -> Option<Vec<u8>>,
    pub ours: Convert,
    pub theirs: Convert,
    pub peer: fn(&Kept, &mut [u8]) -> Option<usize>,
    /// Peers must have the same result, else it is enough that they have one.
    pub exact: bool,
    pub dnspython: fn(&dnspython::Times) -> &HashMap<String, f64>,
}

pub struct Program {
    pub name: &'static str,
    convert: Bound,
    /// The types that are left out.
    without: Vec<&'static str>,
}

impl Direction {
    /// The library and the independent program.
    pub fn programs(&self) -> Vec<Program> {
        vec![
            Program { name: "extlang", convert: Box::new(self.ours), without: Vec::new() },
            Program { name: "independent", convert: Box::new(self.theirs), without: Vec::new() },
        ]
    }

    /// The times say something only where the library does what the other does.
    pub fn check(&self, record: &Record, out: &mut [u8]) -> Result<(), String> {
        let wanted = (self.wanted)(record);
        let count = (self.ours)(record, out);
        if wanted.is_none() || count.map(|count| &out[..count]) != wanted.as_deref() {
            let (kind, octets) = (record.kind, record.rdata.len());
            return Err(format!(
                "{}: {kind} of {octets} octets: a program refuses it, or the results differ.",
                self.name
            ));
        }
        Ok(())
    }

    /// The peers that are wanted and installed, each without the types of which
    /// it does not convert all records.
    fn peers(&self, wanted: fn(&str) -> bool, records: &[Record], out: &mut [u8]) -> Vec<Program> {
        let convert = self.peer;
        let peer = |(index, name): (usize, &'static str)| Program {
            name,
            convert: Box::new(move |record, out| convert(&record.kept[index], out)),
            without: Vec::new(),
        };
        let names = peers().into_iter().map(|peer| peer.name).enumerate();
        let mut programs: Vec<Program> = names.filter(|(_, name)| wanted(name)).map(peer).collect();
        programs.iter_mut().for_each(|program| self.leave_out(program, records, out));
        programs
    }

    /// Says at how many records a peer's result is the same, and what is left out.
    fn leave_out(&self, program: &mut Program, records: &[Record], out: &mut [u8]) {
        let mut same = 0;
        for record in records {
            let result = (program.convert)(record, out);
            let equal = result.is_some_and(|count| (self.wanted)(record).as_deref() == Some(&out[..count]));
            same += usize::from(equal);
            let good = if self.exact { equal } else { result.is_some() };
            if !good && !program.without.contains(&record.kind) {
                program.without.push(record.kind);
            }
        }
        print!("{}'s result is the same at {same} of {} records", program.name, records.len());
        match program.without[..] {
            [] => println!(),
            _ => println!(", and it is left out at {}", program.without.join(" ")),
        }
    }

    /// The tables of the corpus.
    pub fn run(
        &self,
        corpus: &Corpus,
        python: Option<&dnspython::Times>,
        out: &mut [u8],
    ) -> Result<(), String> {
        print!("\n{}: ns per record, by type and mean octets of RDATA, ", self.name);
        println!("median of {ROUNDS} rounds each");
        for records in [&corpus.short, &corpus.long] {
            records.iter().try_for_each(|record| self.check(record, out))?;
        }
        let mut programs = self.programs();
        programs.extend(self.peers(|_| true, &corpus.short, out));
        let groups = by_type(&corpus.short);
        let mut columns = times(&programs, &groups, out);
        columns.extend(python.map(|python| from_python((self.dnspython)(python), &groups)));
        table("short records", &groups, &columns);
        geometric_means(&columns);

        let mut programs = self.programs();
        programs.extend(self.peers(|name| name == "Knot", &corpus.long, out));
        let groups = by_record(&corpus.long);
        table("long records", &groups, &times(&programs, &groups, out));
        Ok(())
    }
}

fn from_python(times: &HashMap<String, f64>, groups: &[Group]) -> Column {
    let time = |group: &Group| times.get(group[0].kind).copied().unwrap_or(f64::NAN);
    Column { name: "dnspython", times: groups.iter().map(time).collect() }
}

/// Nanoseconds per record. A round has every group and every program, so rows
/// are as comparable as columns.
pub fn times(programs: &[Program], groups: &[Group], out: &mut [u8]) -> Vec<Column> {
    let converts =
        |(group, program): &(usize, usize)| !programs[*program].without.contains(&groups[*group][0].kind);
    let pairs = (0..groups.len()).flat_map(|group| (0..programs.len()).map(move |program| (group, program)));
    let turns: Vec<(usize, usize)> = pairs.filter(converts).collect();
    let passes = in_turns(turns.len(), ROUND, |turn| {
        let (group, program) = turns[turn];
        for record in &groups[group] {
            black_box((programs[program].convert)(black_box(record), out));
        }
    });
    let empty = |program: &Program| Column { name: program.name, times: vec![f64::NAN; groups.len()] };
    let mut columns: Vec<Column> = programs.iter().map(empty).collect();
    for ((group, program), pass) in turns.into_iter().zip(passes) {
        columns[program].times[group] = pass / groups[group].len() as f64;
    }
    columns
}
