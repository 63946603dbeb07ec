//! The command: `independent MODE …`.

use std::io::{self, BufRead, BufReader, BufWriter, Read, Write};
use std::path::Path;

use independent::{generate, job, probe};

const USAGE: &str = "usage: independent MODE
  probe                     answers request lines
  job                       runs one job
  judge-requests N SEED     writes request lines for probe: the limit cases of
                            stanzas, then N random ones
  print-requests N SEED     N random request lines
  read-requests N SEED      N random request lines
  salt-requests N SEED      N random request lines about X[C], to print and to read
  catalogue-requests N SEED N random request lines with a lent catalogue, to print and to
                            read, a few to judge
  stored-requests N SEED    N random request lines with a stored description, a third each
                            to judge, to print and to read
  limit-requests            the large request lines
  job-requests N SEED DIR   N random jobs as files 000000.job, 000001.job, ... in DIR";

fn main() -> io::Result<()> {
    let arguments: Vec<String> = std::env::args().skip(1).collect();
    let words: Vec<&str> = arguments.iter().map(String::as_str).collect();
    match words[..] {
        ["probe"] => answer_requests(),
        ["job"] => run_job(),
        ["limit-requests"] => write_lines(generate::limit_requests()),
        [mode, count, seed, ref rest @ ..] => match (count.parse(), seed.parse()) {
            (Ok(count), Ok(seed)) => generate_requests(mode, count, seed, rest),
            _ => explain(),
        },
        _ => explain(),
    }
}

fn explain() -> io::Result<()> {
    eprintln!("{USAGE}");
    std::process::exit(2);
}

fn generate_requests(mode: &str, count: u64, seed: u64, rest: &[&str]) -> io::Result<()> {
    match (mode, rest) {
        ("judge-requests", []) => write_lines(generate::judge_requests(count, seed)),
        ("print-requests", []) => write_lines(generate::print_requests(count, seed)),
        ("read-requests", []) => write_lines(generate::read_requests(count, seed)),
        ("salt-requests", []) => write_lines(generate::salt_requests(count, seed)),
        ("catalogue-requests", []) => write_lines(generate::catalogue_requests(count, seed)),
        ("stored-requests", []) => write_lines(generate::stored_requests(count, seed)),
        ("job-requests", [directory]) => {
            let directory = Path::new(directory);
            std::fs::create_dir_all(directory)?;
            (0..count).try_for_each(|index| {
                std::fs::write(directory.join(format!("{index:06}.job")), generate::job(seed, index))
            })
        }
        _ => explain(),
    }
}

fn write_lines(lines: impl Iterator<Item = Vec<u8>>) -> io::Result<()> {
    let mut output = BufWriter::with_capacity(1 << 16, io::stdout().lock());
    for line in lines {
        output.write_all(&line)?;
        output.write_all(b"\n")?;
    }
    output.flush()
}

/// One answer line for each request line. Answers are written out as soon as no
/// further whole request is at hand.
fn answer_requests() -> io::Result<()> {
    let mut input = BufReader::with_capacity(1 << 16, io::stdin().lock());
    let mut output = BufWriter::with_capacity(1 << 16, io::stdout().lock());
    let mut line = Vec::new();
    while input.read_until(b'\n', &mut line)? > 0 {
        if line.last() == Some(&b'\n') {
            line.pop();
        }
        output.write_all(&probe::answer(&line))?;
        output.write_all(b"\n")?;
        line.clear();
        if !input.buffer().contains(&b'\n') {
            output.flush()?;
        }
    }
    output.flush()
}

/// Reads no more of the input than shows that a job is too long.
fn run_job() -> io::Result<()> {
    let mut input = Vec::new();
    io::stdin().lock().take(65_536).read_to_end(&mut input)?;
    io::stdout().lock().write_all(&job(&input))
}
