//! Times the proved planner beside a listing program in C, on the same inputs in the same run.
//!
//!     bench INSTANCES LISTING
//!
//! INSTANCES is a folder with inputs of the listing program, LISTING the program. `LISTING N < FILE`
//! plans N times and tells the time of one plan, as `3.14 us/plan`, on its standard error.

use model::calls::{encode, Call, ANSWER_SIZE};
use model::generate;
use model::instance::Instance;
use model::library::Library;
use model::planner::{Model, Planner};
use model::random::Random;
use model::stack;
use std::env;
use std::error::Error;
use std::fs;
use std::hint::black_box;
use std::io::Write;
use std::path::{Path, PathBuf};
use std::process::{Command, Stdio};
use std::time::Instant;

type Failure = Box<dyn Error>;

/// How often all are timed in turn.
const ROUNDS: usize = 41;
/// About how long each is timed in a round, in microseconds: short, so that other work on the machine spoils few rounds.
const ROUND: f64 = 4_000.0;
/// The plans of the round that tells how many a round takes.
const FIRST: u32 = 5;
/// How many random lists of calls are looked at for their stack.
const RANDOM_LISTS: u64 = 1_000;
/// The octets of the longest gate list.
const BUFFER: usize = 15_365;

fn main() -> Result<(), Failure> {
    let words: Vec<String> = env::args().skip(1).collect();
    let [folder, listing] = &words[..] else {
        return Err("bench INSTANCES LISTING".into());
    };
    let listing = Path::new(listing);
    let files = files(folder)?;
    println!("Times in microseconds, of the quickest of {ROUNDS} rounds; in brackets the median of the rounds.");
    println!("ratio: planner / listing program. list ratio: all gate lists of the planner / of the model.");
    println!("instance  flows held  planner           listing           ratio         lists             list ratio");
    for file in &files {
        let instance = read(file)?;
        let times = measure(&instance, listing)?;
        let held = answers(&instance)?.iter().filter(|answer| answer[0] == 1).count();
        let (ratio, list_ratio) = (times.planner.over(times.listing), times.lists.over(times.model_lists));
        let flows = instance.flows().len();
        println!("{:9} {flows:5} {held:4}  {times}  {ratio:12}  {:16}  {list_ratio}", name(file), times.lists);
    }
    println!("\ngrowth from the first 16 to all 64 flows of an instance");
    for file in &files {
        let instance = read(file)?;
        if instance.flows().len() == 64 {
            let few = measure(&instance.with_flows(16), listing)?;
            let all = measure(&instance, listing)?;
            let growth = (all.planner.over(few.planner), all.listing.over(few.listing), all.lists.over(few.lists));
            println!("{:9} planner {}, listing program {}, gate lists {}", name(file), growth.0, growth.1, growth.2);
        }
    }
    println!("\nstack of the deepest list of calls: {} octets", deepest(&files)?);
    Ok(())
}

fn files(folder: &str) -> Result<Vec<PathBuf>, Failure> {
    let mut files = fs::read_dir(folder)?.map(|entry| entry.map(|e| e.path())).collect::<Result<Vec<_>, _>>()?;
    files.sort();
    Ok(files)
}

fn name(file: &Path) -> String {
    file.file_stem().unwrap_or_default().to_string_lossy().into_owned()
}

fn read(file: &Path) -> Result<Instance, Failure> {
    Instance::new(fs::read(file)?).ok_or_else(|| format!("{}: no whole ports", file.display()).into())
}

/// The most octets of stack that an instance with all its gate lists takes, or one of some random lists.
fn deepest(files: &[PathBuf]) -> Result<usize, Failure> {
    let mut deepest = 0;
    for file in files {
        let instance = read(file)?;
        let job = Job::new(&Library, &instance, &instance.calls_with_gate_lists());
        let depth = stack::depth(|| {
            job.mean(1);
        });
        deepest = deepest.max(depth);
    }
    for list in 0..RANDOM_LISTS {
        let mut case = generate::case(&mut Random::of_list(1, list));
        let depth = stack::depth(|| {
            Library.perform(&case.filling, &case.list, &mut case.answers, &mut case.buffer);
        });
        deepest = deepest.max(depth);
    }
    Ok(deepest)
}

/// One figure of many rounds.
#[derive(Clone, Copy)]
struct Figure {
    least: f64,
    median: f64,
}

impl Figure {
    fn of(mut rounds: Vec<f64>) -> Figure {
        rounds.sort_by(f64::total_cmp);
        Figure { least: rounds[0], median: rounds[rounds.len() / 2] }
    }

    fn less(self, other: Figure) -> Figure {
        Figure { least: self.least - other.least, median: self.median - other.median }
    }

    fn over(self, other: Figure) -> Figure {
        Figure { least: self.least / other.least, median: self.median / other.median }
    }
}

impl std::fmt::Display for Figure {
    fn fmt(&self, f: &mut std::fmt::Formatter) -> std::fmt::Result {
        f.pad(&format!("{:.2} [{:.2}]", self.least, self.median))
    }
}

struct Times {
    /// Set-up, offers and flowspan.
    planner: Figure,
    listing: Figure,
    /// The gate lists of all ports.
    lists: Figure,
    model_lists: Figure,
}

impl std::fmt::Display for Times {
    fn fmt(&self, f: &mut std::fmt::Formatter) -> std::fmt::Result {
        write!(f, "{:16}  {:16}", self.planner, self.listing)
    }
}

fn measure(instance: &Instance, listing: &Path) -> Result<Times, Failure> {
    if instance.listing(&answers(instance)?) != list(listing, 1, instance)?.0 {
        return Err("the planner and the listing program answer differently".into());
    }
    let (plain, gated) = (instance.calls(), instance.calls_with_gate_lists());
    let jobs = [
        Job::new(&Library, instance, &plain),
        Job::new(&Library, instance, &gated),
        Job::new(&Model, instance, &plain),
        Job::new(&Model, instance, &gated),
    ];
    let plans = jobs.each_ref().map(|job| plans_of_a_round(job.mean(FIRST)));
    let listings = plans_of_a_round(time(listing, FIRST, instance)?);
    let mut rounds = [const { Vec::new() }; 4];
    let mut listing_rounds = Vec::new();
    for _ in 0..ROUNDS {
        for k in 0..jobs.len() {
            rounds[k].push(jobs[k].mean(plans[k]));
        }
        listing_rounds.push(time(listing, listings, instance)?);
    }
    let [planner, with_lists, model, model_with_lists] = rounds.map(Figure::of);
    Ok(Times {
        planner,
        listing: Figure::of(listing_rounds),
        lists: with_lists.less(planner),
        model_lists: model_with_lists.less(model),
    })
}

fn plans_of_a_round(time: f64) -> u32 {
    (ROUND / time).clamp(f64::from(FIRST), 1e6) as u32
}

/// The answers of the planner, one a call.
fn answers(instance: &Instance) -> Result<Vec<[u8; ANSWER_SIZE]>, Failure> {
    let calls = instance.calls();
    let mut answers = vec![0; calls.len() * ANSWER_SIZE];
    let returned = Library.perform(&instance.filling(), &encode(&calls), &mut answers, &mut []);
    if returned != calls.len() as i64 {
        return Err(format!("the planner returns {returned}").into());
    }
    Ok(answers.chunks(ANSWER_SIZE).map(|octets| octets.try_into().expect("16 octets")).collect())
}

/// A list of calls to be timed.
struct Job<'a> {
    planner: &'a (dyn Planner + Sync),
    instance: &'a Instance,
    list: Vec<u8>,
    answers: usize,
}

impl<'a> Job<'a> {
    fn new(planner: &'a (dyn Planner + Sync), instance: &'a Instance, calls: &[Call]) -> Job<'a> {
        Job { planner, instance, list: encode(calls), answers: calls.len() * ANSWER_SIZE }
    }

    /// The mean time of so many plans, in microseconds.
    fn mean(&self, plans: u32) -> f64 {
        let filling = self.instance.filling();
        let mut answers = vec![0; self.answers];
        let mut buffer = vec![0; BUFFER];
        let begun = Instant::now();
        for _ in 0..plans {
            black_box(self.planner.perform(&filling, black_box(&self.list), &mut answers, &mut buffer));
        }
        begun.elapsed().as_secs_f64() * 1e6 / f64::from(plans)
    }
}

/// The mean time of so many plans of the listing program, in microseconds.
fn time(program: &Path, plans: u32, instance: &Instance) -> Result<f64, Failure> {
    list(program, plans, instance)?.1.ok_or_else(|| "the listing program tells no time".into())
}

/// What the listing program prints of an instance, and its time of one plan in microseconds.
fn list(program: &Path, plans: u32, instance: &Instance) -> Result<(String, Option<f64>), Failure> {
    let mut child = Command::new(program)
        .arg(plans.to_string())
        .stdin(Stdio::piped())
        .stdout(Stdio::piped())
        .stderr(Stdio::piped())
        .spawn()?;
    child.stdin.take().ok_or("no standard input")?.write_all(instance.octets())?;
    let output = child.wait_with_output()?;
    let told = String::from_utf8(output.stderr)?;
    let time = told.split_whitespace().next().and_then(|word| word.parse().ok());
    Ok((String::from_utf8(output.stdout)?, time))
}
