//! Many listings, good and damaged, through both checkers.

use std::collections::BTreeMap;
use std::fs;
use std::hash::RandomState;
use std::io;

use crate::columns::{Column, columns_of};
use crate::damage::{Change, crossed, damaged, neighbours, random_listing, slice, with_column, with_twin};
use crate::damage_page::{damaged_page, large_pages};
use crate::generate::sound_listing;
use crate::listing::{Answer, Line, MAX_LINES, PLACE, Rule, code::*, page};
use crate::random::Random;
use crate::{boundary, checker, corpus};

/// How many listings are made of one generated one.
const SHARE: usize = 50;

/// How many differences are written out.
const SHOWN: usize = 10;

const DIRECTORY: &str = "differences";

/// Compares the answers on so many listings. True if they never differ.
pub fn compare(listings: usize, seed: u64) -> io::Result<bool> {
    let mut comparison = Comparison::default();
    let mut random = Random::new(seed);
    comparison.corpus()?;
    comparison.large(random.draw())?;
    comparison.changed_by_code(listings / 2, &mut random)?;
    let mut base = Vec::new();
    let mut base_rule = Rule::EqualBounds;
    while comparison.listings < listings {
        if comparison.listings % SHARE == 0 || base.is_empty() {
            base_rule = random.pick(&Rule::BOTH);
            let most = random.pick(&[10, 40, 150, 400]);
            base = sound_listing(base_rule, random.between(1, most), random.draw());
        }
        let rule = if random.chance(90) { base_rule } else { base_rule.other() };
        match random.below(20) {
            0 => comparison.listing(&base, rule)?,
            1 | 2 => comparison.listing(&random_listing(&mut random), rule)?,
            3..7 => comparison.page(damaged_page(&page(&base), &mut random), rule)?,
            many => {
                let mut lines = damaged(&base, &mut random);
                if many == 7 && !lines.is_empty() {
                    lines = damaged(&lines, &mut random);
                }
                comparison.listing(&lines, rule)?;
            }
        }
    }
    comparison.report();
    Ok(comparison.differences == 0)
}

#[derive(Default)]
struct Comparison {
    listings: usize,
    differences: usize,
    by_answer: BTreeMap<(u8, u8), usize>,
    /// How often a line of this code was the first at fault, by cause.
    by_code: BTreeMap<(u8, u8), usize>,
}

impl Comparison {
    fn corpus(&mut self) -> io::Result<()> {
        for entry in corpus::entries() {
            for rule in Rule::BOTH {
                self.page(entry.bytes.clone(), rule)?;
            }
            if let Ok(lines) = checker::adopt(&entry.bytes) {
                Rule::BOTH.into_iter().try_for_each(|rule| self.table(&lines, rule))?;
            }
        }
        Ok(())
    }

    /// Listings and files as long as they may be, and longer.
    fn large(&mut self, seed: u64) -> io::Result<()> {
        for rule in Rule::BOTH {
            let longest = sound_listing(rule, MAX_LINES, seed);
            for bytes in large_pages(&longest) {
                self.page(bytes, rule)?;
            }
            self.table(&longest, rule)?;
            self.table(&[&longest[..], &longest[..1]].concat(), rule)?;
            self.table(&[], rule)?;
            self.page(Vec::new(), rule)?;
        }
        Ok(())
    }

    /// Lines of each code with what they need, the last one changed in each column and way.
    fn changed_by_code(&mut self, listings: usize, random: &mut Random) -> io::Result<()> {
        let end = self.listings + listings;
        while self.listings < end {
            let rule = random.pick(&Rule::BOTH);
            let base = sound_listing(rule, random.between(500, 2_500), random.draw());
            for code in KNOWN {
                // A line that only writes something down has little that can be wrong.
                let share = if code < RAISE { 20 } else { 100 };
                if self.listings < end && random.chance(share) {
                    self.line_of_code_changed(&base, code, rule, random)?;
                }
            }
        }
        Ok(())
    }

    fn line_of_code_changed(
        &mut self,
        base: &[Line],
        code: u8,
        rule: Rule,
        random: &mut Random,
    ) -> io::Result<()> {
        let of_code: Vec<usize> = (0..base.len()).filter(|&line| base[line].code == code).collect();
        if of_code.is_empty() {
            return Ok(());
        }
        let last = random.below(of_code.len());
        let mut targets = of_code[last.saturating_sub(random.below(6))..=last].to_vec();
        targets.extend(neighbours(base, of_code[last]));
        self.last_line_changed(&slice(base, &targets), rule, random)
    }

    fn last_line_changed(&mut self, lines: &[Line], rule: Rule, random: &mut Random) -> io::Result<()> {
        self.listing(lines, rule)?;
        let last = lines.len() - 1;
        let used = columns_of(lines[last].code).map_or(0, <[Column]>::len);
        let mut damaged: Vec<_> = (0..10).map(|_| crossed(lines, last, random)).collect();
        for column in 0..used {
            damaged.extend(Change::ALL.map(|change| with_column(lines, last, column, change, random)));
            damaged.extend((0..3).map(|_| with_column(lines, last, column, Change::Alike, random)));
            damaged.extend((0..5).filter_map(|_| with_twin(lines, last, column, random)));
        }
        damaged.extend((used..7).map(|column| with_column(lines, last, column, Change::Earlier, random)));
        for changed in damaged.into_iter().filter(|changed| changed != lines) {
            self.listing(&changed, rule)?;
        }
        Ok(())
    }

    /// Compares on the lines, as a page and as a table.
    fn listing(&mut self, lines: &[Line], rule: Rule) -> io::Result<()> {
        self.page(page(lines), rule)?;
        self.table(lines, rule)
    }

    fn page(&mut self, mut bytes: Vec<u8>, rule: Rule) -> io::Result<()> {
        let plain = checker::check_page::<RandomState>(&bytes, rule);
        let before = bytes.clone();
        let proved = boundary::check_page(&mut bytes, rule);
        self.listings += 1;
        self.count(plain, &before);
        if proved != plain {
            self.differ("page", &before, rule, plain, proved)?;
        } else if bytes != before {
            self.differ("page, changed by the call", &before, rule, plain, proved)?;
        }
        Ok(())
    }

    fn table(&mut self, lines: &[Line], rule: Rule) -> io::Result<()> {
        let plain = checker::check_table::<RandomState>(lines, rule);
        let mut copy = lines.to_vec();
        let proved = boundary::check_table(&mut copy, rule);
        if proved != plain {
            self.differ("table", &page(lines), rule, plain, proved)?;
        } else if copy != lines {
            self.differ("table, changed by the call", &page(lines), rule, plain, proved)?;
        }
        Ok(())
    }

    fn count(&mut self, answer: Answer, bytes: &[u8]) {
        *self.by_answer.entry((answer.number, answer.cause)).or_default() += 1;
        if answer.number == 13 {
            let first = answer.place as usize * PLACE;
            let line = checker::adopt(&bytes[first - PLACE..first]);
            let code = line.map_or(0, |lines| lines[0].code);
            *self.by_code.entry((answer.cause, code)).or_default() += 1;
        }
    }

    fn differ(
        &mut self,
        form: &str,
        bytes: &[u8],
        rule: Rule,
        plain: Answer,
        proved: Answer,
    ) -> io::Result<()> {
        self.differences += 1;
        if self.differences > SHOWN {
            return Ok(());
        }
        fs::create_dir_all(DIRECTORY)?;
        let file = format!("{DIRECTORY}/{}-{}.page", self.differences, rule.name());
        fs::write(&file, bytes)?;
        println!("{file} ({form}): plain {plain}, proved {proved}");
        Ok(())
    }

    fn report(&self) {
        println!("{} listings, {} differences", self.listings, self.differences);
        println!("\nanswer  cause  listings");
        for ((number, cause), count) in &self.by_answer {
            println!("{number:6}  {cause:5}  {count:8}");
        }
        for cause in 2..=5 {
            let counts = self.by_code.iter().filter(|((of, _), _)| *of == cause);
            let counts: Vec<String> = counts.map(|((_, code), count)| format!("{code}: {count}")).collect();
            println!("\ncause {cause} by the line's code\n{}", counts.join(", "));
        }
    }
}
