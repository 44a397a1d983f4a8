//! Runs the replay and the oracle on schedules of every profile, and shows the
//! first difference with a small schedule that brings it about. With `--worlds` it
//! is a program that tells the world after each act, too, and the oracle does.

use std::env;
use std::fs::{self, File};
use std::path::{Path, PathBuf};
use std::process::{self, Command, ExitCode};

use oracle::MUTATED;
use oracle::minimise::minimise;
use oracle::profiles::PROFILES;
use oracle::records::LENGTH;
use oracle::text::disassemble;

const USAGE: &str = "usage: REPLAY=program compare SEEDS COUNT [--first]
       WORLDS=program compare SEEDS COUNT --worlds [--first]";

fn main() -> ExitCode {
    match run() {
        Ok(0) => ExitCode::SUCCESS,
        Ok(_) => ExitCode::FAILURE,
        Err(what) => {
            eprintln!("compare: {what}");
            println!("0 passed, 1 failed");
            ExitCode::FAILURE
        }
    }
}

/// Says how many schedules failed.
fn run() -> Result<usize, String> {
    let (flags, numbers): (Vec<String>, Vec<String>) =
        env::args().skip(1).partition(|argument| argument.starts_with("--"));
    let [seeds, count] = &numbers[..] else { return Err(USAGE.to_string()) };
    let seeds: u64 = seeds.parse().map_err(|_| USAGE)?;
    let count: usize = count.parse().map_err(|_| USAGE)?;
    let (mut first, mut worlds) = (false, false);
    for flag in &flags {
        match flag.as_str() {
            "--first" => first = true,
            "--worlds" => worlds = true,
            _ => return Err(USAGE.to_string()),
        }
    }
    if let Some(source) = MUTATED {
        return Err(format!("the oracle was built from another {source} than the listed one"));
    }
    let programs = Programs::find(worlds)?;
    let comparison = programs.compare_all(seeds, count, first);
    programs.clean_up();
    let Comparison { passed, failed, records } = comparison?;
    println!("{records} records compared");
    println!("{passed} passed, {failed} failed");
    Ok(failed)
}

struct Programs {
    generator: PathBuf,
    oracle: PathBuf,
    /// What is compared with the oracle: the replay, or the program that tells the
    /// worlds too.
    replay: PathBuf,
    worlds: bool,
    /// For the schedules, which the programs read from a file.
    scratch: PathBuf,
}

#[derive(Default)]
struct Comparison {
    passed: usize,
    failed: usize,
    records: usize,
}

/// What a program wrote, and whether it ended well.
#[derive(PartialEq, Eq)]
struct Answer {
    text: String,
    well: bool,
}

impl Programs {
    fn find(worlds: bool) -> Result<Programs, String> {
        let own = env::current_exe().map_err(in_words)?;
        let beside = |name| own.with_file_name(name);
        let named = if worlds { "WORLDS" } else { "REPLAY" };
        let replay = PathBuf::from(env::var_os(named).ok_or(USAGE)?);
        let scratch = env::temp_dir().join(format!("oracle-compare-{}", process::id()));
        fs::create_dir_all(&scratch).map_err(in_words)?;
        let (generator, oracle) = (beside("gen"), beside("oracle"));
        Ok(Programs { generator, oracle, replay, worlds, scratch })
    }

    fn clean_up(&self) {
        // What is left behind is a few bytes in a folder for such things.
        fs::remove_dir_all(&self.scratch).ok();
    }

    fn compare_all(&self, seeds: u64, count: usize, first: bool) -> Result<Comparison, String> {
        let mut comparison = Comparison::default();
        for seed in 1..=seeds {
            for profile in &PROFILES {
                let schedule = self.generate(profile.name, seed, count)?;
                let (replayed, answered) = self.answers(&schedule)?;
                if replayed == answered && answered.well {
                    comparison.passed += 1;
                    comparison.records += answered.records().saturating_sub(1);
                    continue;
                }
                comparison.failed += 1;
                comparison.records += records_alike(&replayed, &answered);
                let difference = self.difference(&replayed, &answered);
                println!("{} {seed} {count}: {difference}", profile.name);
                if comparison.failed == 1 {
                    self.show_smallest(&schedule)?;
                }
                if first {
                    return Ok(comparison);
                }
            }
        }
        Ok(comparison)
    }

    fn generate(&self, profile: &str, seed: u64, count: usize) -> Result<Vec<u8>, String> {
        let mut command = Command::new(&self.generator);
        command.args([profile, &seed.to_string(), &count.to_string()]);
        let output = command.output().map_err(in_words)?;
        if output.status.success() {
            Ok(output.stdout)
        } else {
            Err(format!("gen failed: {}", String::from_utf8_lossy(&output.stderr)))
        }
    }

    /// What the replay and the oracle say to a schedule.
    fn answers(&self, schedule: &[u8]) -> Result<(Answer, Answer), String> {
        let file = self.scratch.join("schedule");
        fs::write(&file, schedule).map_err(in_words)?;
        let asked: &[&str] = if self.worlds { &["--worlds"] } else { &[] };
        Ok((answer(&self.replay, &[], &file)?, answer(&self.oracle, asked, &file)?))
    }

    fn show_smallest(&self, schedule: &[u8]) -> Result<(), String> {
        let records: Vec<&[u8]> = schedule.chunks(LENGTH).collect();
        let smallest = minimise(records, |records| {
            let (replayed, answered) = self.answers(&records.concat())?;
            let differ = replayed != answered || !answered.well;
            Ok::<_, String>(differ.then(|| records_alike(&replayed, &answered)))
        })?;
        let schedule = smallest.concat();
        let (replayed, answered) = self.answers(&schedule)?;
        println!("the smallest schedule found, {} records:", smallest.len());
        print!("{}", disassemble(&schedule));
        println!("{}", self.difference(&replayed, &answered));
        Ok(())
    }

    fn difference(&self, replayed: &Answer, answered: &Answer) -> String {
        let number = first_difference(replayed, answered);
        let told = |answer: &Answer| match (answer.text.lines().nth(number), answer.well) {
            (Some(line), _) => line.to_string(),
            (None, true) => "nothing more".to_string(),
            (None, false) => "nothing more, and fails".to_string(),
        };
        let name = if self.worlds { "worlds" } else { "replay" };
        format!("{name} has \"{}\", oracle has \"{}\"", told(replayed), told(answered))
    }
}

impl Answer {
    /// The lines of records, and the tally: those on worlds are indented.
    fn records(&self) -> usize {
        self.text.lines().filter(|line| !is_on_world(line)).count()
    }
}

fn is_on_world(line: &str) -> bool {
    line.starts_with(' ')
}

fn answer(program: &Path, asked: &[&str], schedule: &Path) -> Result<Answer, String> {
    let input = File::open(schedule).map_err(in_words)?;
    let output = Command::new(program)
        .args(asked)
        .stdin(input)
        .output()
        .map_err(|error| format!("{}: {error}", program.display()))?;
    let text = String::from_utf8_lossy(&output.stdout).into_owned();
    Ok(Answer { text, well: output.status.success() })
}

/// The number of the first line in which the two differ.
fn first_difference(replayed: &Answer, answered: &Answer) -> usize {
    let lines = replayed.text.lines().zip(answered.text.lines());
    lines.take_while(|(replayed, answered)| replayed == answered).count()
}

/// The number of records that both tell alike, with the worlds after them.
fn records_alike(replayed: &Answer, answered: &Answer) -> usize {
    let number = first_difference(replayed, answered);
    let mut rest = answered.text.lines().skip(number);
    let alike = answered.text.lines().take(number).filter(|line| !is_on_world(line)).count();
    // One more is told, where a line on the world after it is not.
    alike - usize::from(rest.next().is_some_and(is_on_world))
}

fn in_words(error: std::io::Error) -> String {
    error.to_string()
}
