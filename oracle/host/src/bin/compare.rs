//! Compares the original Rust with the port, class by class, and says how many
//! jobs and codes there were. It exits with 1 if any job differs.

use std::{
    fs,
    path::{Path, PathBuf},
    time::{Duration, Instant},
};

use host::{
    classes::{CLASSES, Class, damaged, unlike_worked},
    compare::{self, Tally},
    driver, port,
    reduce::reduce,
    rng::Rng,
    text,
};
use oracle_job::Job;

const USAGE: &str = "usage: compare [--quick] [--seed N] [--times N] [--only CLASS] [--stop]";

/// How many of the differing jobs are written out.
const WRITTEN: u64 = 20;

struct Options {
    quick: bool,
    seed: u64,
    times: u64,
    only: Option<String>,
    /// Ends at the first job that differs.
    stop: bool,
}

fn options() -> Option<Options> {
    let mut options = Options { quick: false, seed: 20_261_007, times: 1, only: None, stop: false };
    let mut arguments = std::env::args().skip(1);
    while let Some(argument) = arguments.next() {
        match argument.as_str() {
            "--quick" => options.quick = true,
            "--stop" => options.stop = true,
            "--seed" => options.seed = arguments.next()?.parse().ok()?,
            "--times" => options.times = arguments.next()?.parse().ok()?,
            "--only" => options.only = Some(arguments.next()?),
            _ => return None,
        }
    }
    let known = |name: &String| CLASSES.iter().any(|class| class.name == name);
    options.only.as_ref().is_none_or(known).then_some(options)
}

fn main() {
    let Some(options) = options() else {
        eprintln!("{USAGE}");
        std::process::exit(2);
    };
    println!("the original Rust against {}", port::NAME);
    println!("seed {}", options.seed);
    let mut run = Run::new(&options);
    for (number, class) in CLASSES.iter().enumerate() {
        if options.only.as_ref().is_none_or(|only| only == class.name) {
            run.class(class, options.seed ^ (number as u64) << 32, count(class, &options));
        }
    }
    if options.only.is_none() {
        run.worked_cases();
    }
    println!("{:14} {:>9} verdicts  {}", "check-lists", run.lists.total(), run.lists);
    println!("{:14} {:>9} verdicts  {}", "check-damaged", run.damaged.total(), run.damaged);
    let (shuffle, check) = (run.codes.missing(0..=12), run.damaged.missing((0..=5).chain(30..=41)));
    println!("codes that never came: shuffle {shuffle}, check {check}");
    println!("{} jobs, {} differ", run.jobs, run.differ);
    std::process::exit(i32::from(run.differ > 0));
}

fn count(class: &Class, options: &Options) -> u64 {
    if options.quick { class.quick } else { class.full * options.times }
}

struct Run {
    jobs: u64,
    differ: u64,
    codes: Tally,
    lists: Tally,
    damaged: Tally,
    planned: u64,
    started: Instant,
    told: Instant,
    stop: bool,
}

impl Run {
    fn new(options: &Options) -> Self {
        let planned = CLASSES.iter().map(|class| count(class, options)).sum();
        let now = Instant::now();
        Self {
            jobs: 0,
            differ: 0,
            codes: Tally::default(),
            lists: Tally::default(),
            damaged: Tally::default(),
            planned,
            started: now,
            told: now,
            stop: options.stop,
        }
    }

    fn class(&mut self, class: &Class, seed: u64, count: u64) {
        let mut tally = Tally::default();
        let mut rng = Rng::new(!seed);
        (class.make)(&mut Rng::new(seed), count, &mut |job| {
            if self.stop && self.differ > 0 {
                return;
            }
            tally.add(self.job(&mut rng, &job));
            self.tell(class.name, tally.total(), count);
        });
        println!("{:14} {:>9} jobs      {tally}", class.name, tally.total());
        self.codes.merge(&tally);
    }

    /// A worked case that the original answers in another way than document 01.
    fn worked_cases(&mut self) {
        for line in unlike_worked() {
            println!("unlike the worked case: {line}");
            self.differ += 1;
        }
    }

    /// Compares the shuffle of one job, then the checker on what it wrote and
    /// on a damaged copy of that.
    fn job(&mut self, rng: &mut Rng, job: &Job) -> u32 {
        self.jobs += 1;
        let (rust, difference) = compare::shuffles(job);
        if let Some(difference) = difference {
            self.report(job, &difference);
            return rust.answer.code;
        }
        let list = compare::list_of(job, &rust);
        let expected = compare::expected(&list, &rust);
        let (verdict, spill, difference) = compare::verdicts(&list);
        self.lists.add(verdict.code);
        let difference = difference.or_else(|| {
            let same = verdict == expected && spill == rust.after.spill;
            (!same).then(|| format!("verdict: {verdict:?}, but the shuffle means {expected:?}"))
        });
        if let Some(difference) = difference {
            self.report_list(&list, &difference);
        }
        let copy = damaged(rng, &list);
        let (verdict, _, difference) = compare::verdicts(&copy);
        self.damaged.add(verdict.code);
        if let Some(difference) = difference {
            self.report_list(&copy, &difference);
        }
        rust.answer.code
    }

    /// Shows on the side how far the run is and how fast.
    fn tell(&mut self, class: &str, done: u64, count: u64) {
        if self.jobs % 16 != 0 || self.told.elapsed() < Duration::from_secs(5) {
            return;
        }
        self.told = Instant::now();
        let speed = self.jobs as f64 / self.started.elapsed().as_secs_f64();
        let percent = 100 * self.jobs / self.planned.max(1);
        let differ = self.differ;
        eprintln!(
            "  {class} {done} of {count}, {} jobs so far ({percent}%), {speed:.0} a second, {differ} differ",
            self.jobs,
        );
    }

    /// Writes a differing job, made as small as it gets, as a job file.
    fn report(&mut self, job: &Job, difference: &str) {
        self.differ += 1;
        if self.differ > WRITTEN {
            return;
        }
        let differs = |job: &Job| compare::shuffles(job).1.is_some();
        let lent = driver::lend(job);
        let small = reduce(if differs(&lent) { lent } else { job.clone() }, &differs);
        let rust = compare::ask(&small, stack_scheduling::original::shuffle);
        let port = compare::ask(&small, port::shuffle);
        let (asked, found) = (text::job(&small), compare::shuffles(&small).1.unwrap_or_default());
        let lines = format!(
            "{asked}\n  {found}\n  Rust {}\n  port {}\n  found as {}\n  {difference}\n",
            text::answer(&rust.after, &rust.answer),
            text::answer(&port.after, &port.answer),
            text::job(job),
        );
        self.write(&small, &lines);
    }

    fn report_list(&mut self, list: &Job, difference: &str) {
        self.differ += 1;
        if self.differ > WRITTEN {
            return;
        }
        let words = &list.ops[..list.ops.len().min(400)];
        let lines = format!("{}\n  words {words:?}\n  {difference}\n", text::job(list));
        self.write(list, &lines);
    }

    fn write(&self, job: &Job, lines: &str) {
        let folder = std::env::var_os("ORACLE_DIFFER").map_or("differ".into(), PathBuf::from);
        let name = folder.join(format!("{}.job", self.differ));
        print!("differs ({}): {lines}", name.display());
        if let Err(error) = save(&folder, &name, job, lines) {
            eprintln!("{}: {error}", name.display());
        }
    }
}

fn save(folder: &Path, name: &Path, job: &Job, lines: &str) -> std::io::Result<()> {
    fs::create_dir_all(folder)?;
    fs::write(name, driver::bytes(job))?;
    fs::write(name.with_extension("txt"), lines)
}
