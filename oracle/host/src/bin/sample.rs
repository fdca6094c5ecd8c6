//! Prints the fixed sample, for a reader without Rust at hand. Two lines a job:
//! the job, then its answer.

use host::{sample::sample, text};

fn main() {
    let each: usize = match std::env::args().nth(1).map(|count| count.parse()) {
        Some(Ok(each)) => each,
        _ => {
            eprintln!("usage: sample N, for at most N jobs of each class and code");
            std::process::exit(2);
        }
    };
    sample(each, &mut |class, jobs| {
        println!("# {class}");
        for job in jobs {
            println!("{}\n    {}", text::job(&job.asked), text::answer(&job.after, &job.answer));
        }
    });
}
