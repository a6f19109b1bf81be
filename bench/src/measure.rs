//! The time that the two checkers take for a line.

use std::hash::{BuildHasher, RandomState};
use std::hint::black_box;
use std::time::{Duration, Instant};

use crate::generate::sound_listing;
use crate::hash::BuildQuick;
use crate::listing::{Answer, Line, Rule, page};
use crate::{boundary, checker};

const SIZES: [usize; 4] = [1_000, 4_000, 16_000, 65_535];
const RULE: Rule = Rule::LeastBound;
const SEED: u64 = 1;

/// Measuring a row goes on for so long, and for at least so many runs of each checker.
const TIME: Duration = Duration::from_millis(1_500);
const RUNS: usize = 9;

#[derive(Clone, Copy)]
enum Form {
    Page,
    Table,
}

/// Nanoseconds a line.
struct Row {
    plain: f64,
    quick: f64,
    proved: Option<f64>,
}

/// Prints the table of times.
pub fn bench() {
    println!("ns per line, best of at least {RUNS} runs in one process on the same bytes");
    println!("plain: unproved Rust, std HashMap; quick: the same with a quick unkeyed hash\n");
    println!(
        "        lines   proved    plain    quick   proved/plain  proved/quick  proved, 1,000 lines = 1"
    );
    for form in [Form::Page, Form::Table] {
        let mut first = None;
        for size in SIZES {
            let row = measure(form, size);
            let first = *first.get_or_insert(row.proved);
            print_row(form, size, &row, first);
        }
    }
}

fn print_row(form: Form, size: usize, row: &Row, first: Option<f64>) {
    let form = match form {
        Form::Page => "page",
        Form::Table => "table",
    };
    let Row { plain, quick, .. } = row;
    match row.proved.zip(first) {
        Some((proved, first)) => println!(
            "{form:5} {size:7} {proved:8.1} {plain:8.1} {quick:8.1} {:14.2} {:13.2} {:24.2}",
            proved / plain,
            proved / quick,
            proved / first
        ),
        None => println!("{form:5} {size:7} {:>8} {plain:8.1} {quick:8.1}", "-"),
    }
}

fn measure(form: Form, size: usize) -> Row {
    let mut lines = sound_listing(RULE, size, SEED);
    let mut bytes = page(&lines);
    let (mut plain, mut quick, mut proved) = (Duration::MAX, Duration::MAX, Duration::MAX);
    let start = Instant::now();
    let mut runs = 0;
    while runs < RUNS || start.elapsed() < TIME {
        runs += 1;
        plain = plain.min(time(size, || plain_check::<RandomState>(form, &bytes, &lines)));
        quick = quick.min(time(size, || plain_check::<BuildQuick>(form, &bytes, &lines)));
        if boundary::LINKED {
            proved = proved.min(time(size, || match form {
                Form::Page => boundary::check_page(black_box(&mut bytes), RULE),
                Form::Table => boundary::check_table(black_box(&mut lines), RULE),
            }));
        }
    }
    let per_line = |time: Duration| time.as_nanos() as f64 / size as f64;
    Row { plain: per_line(plain), quick: per_line(quick), proved: boundary::LINKED.then(|| per_line(proved)) }
}

fn plain_check<S: BuildHasher + Default>(form: Form, bytes: &[u8], lines: &[Line]) -> Answer {
    match form {
        Form::Page => checker::check_page::<S>(black_box(bytes), RULE),
        Form::Table => checker::check_table::<S>(black_box(lines), RULE),
    }
}

/// The time of one run, which must find the listing sound.
fn time(size: usize, run: impl FnOnce() -> Answer) -> Duration {
    let start = Instant::now();
    let answer = run();
    let time = start.elapsed();
    assert_eq!(answer, Answer::granted(size));
    time
}
