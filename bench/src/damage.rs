//! Damaged copies of good listings. Some damage leaves them good.

use std::cmp::Reverse;

use crate::columns::{Column, Kind, columns_of, kind_of};
use crate::listing::{Line, code};
use crate::random::Random;

/// How a column is changed.
#[derive(Clone, Copy)]
pub enum Change {
    Zero,
    Itself,
    Forward,
    Last,
    Up,
    Down,
    /// To some earlier line.
    Earlier,
    /// To some earlier line of the same code as the one named before.
    Alike,
}

impl Change {
    pub const ALL: [Change; 8] = [
        Change::Zero,
        Change::Itself,
        Change::Forward,
        Change::Last,
        Change::Up,
        Change::Down,
        Change::Earlier,
        Change::Alike,
    ];
}

/// The listing with one column changed, both counted from 0.
pub fn with_column(
    lines: &[Line],
    line: usize,
    column: usize,
    change: Change,
    random: &mut Random,
) -> Vec<Line> {
    let old = lines[line].columns[column];
    let number = line as u16 + 1;
    let new = match change {
        Change::Zero => 0,
        Change::Itself => number,
        Change::Forward => number.saturating_add(random.between(1, 3) as u16),
        Change::Last => 65_535,
        Change::Up => old.wrapping_add(1),
        Change::Down => old.wrapping_sub(1),
        Change::Earlier => random.between(1, line + 1) as u16,
        Change::Alike => alike(lines, line, column, random),
    };
    let mut damaged = lines.to_vec();
    damaged[line].columns[column] = new;
    damaged
}

/// A line before `line` that may stand in the column instead: one of the sort of the line named
/// there, most often the most like it, or one of the column's kind.
fn alike(lines: &[Line], line: usize, column: usize, random: &mut Random) -> u16 {
    let old = lines[line].columns[column];
    let others = of_same_sort(lines, line, old);
    match random.below(10) {
        0..4 if !others.is_empty() => random.pick(&others),
        0..8 if !others.is_empty() => random.pick(&nearest(lines, others, old)),
        _ => match columns_of(lines[line].code).and_then(|columns| columns.get(column)) {
            Some(Column::Line(kind) | Column::LineOrNone(kind)) => {
                some_of_kind(&lines[..line], *kind, random)
            }
            _ => random.below(4) as u16,
        },
    }
}

/// The numbers of the other lines before `line` that are of the sort of line `number`.
fn of_same_sort(lines: &[Line], line: usize, number: u16) -> Vec<u16> {
    let Some(named) = usize::from(number).checked_sub(1).and_then(|number| lines.get(number)) else {
        return Vec::new();
    };
    let numbers = (1..).zip(&lines[..line]);
    let others = numbers.filter(|(other, line)| *other != number && sort(line.code) == sort(named.code));
    others.map(|(other, _)| other).collect()
}

/// The code, but one for all subtypes and one for all terms' types.
fn sort(code: u8) -> u8 {
    match code {
        code::SUB_REFL..=code::SUB_ALL_LEAST => code::SUB_REFL,
        code::HAS_SUBSUMED..=code::HAS_REC => code::HAS_SUBSUMED,
        _ => code,
    }
}

/// Of these lines the three that are most like line `number`.
fn nearest(lines: &[Line], mut numbers: Vec<u16>, number: u16) -> Vec<u16> {
    let line = &lines[usize::from(number) - 1];
    numbers.sort_by_cached_key(|other| Reverse(likeness(lines, line, &lines[usize::from(*other) - 1])));
    numbers.truncate(3);
    numbers
}

/// How much two lines have in common in what they say: the columns, and the lines that are named there.
fn likeness(lines: &[Line], one: &Line, other: &Line) -> usize {
    let line = |number: u16| usize::from(number).checked_sub(1).and_then(|number| lines.get(number));
    let columns = columns_of(one.code).unwrap_or(&[]);
    let pairs = one.columns.into_iter().zip(other.columns).zip(columns);
    pairs
        .map(|((one, other), column)| match (column, line(one), line(other)) {
            (Column::LineOrNone(_), _, _) => 0,
            _ if one == other => 10,
            (Column::Line(_), Some(one), Some(other)) if one.code == other.code => {
                1 + one.columns[..2].iter().zip(other.columns).filter(|(one, other)| **one == *other).count()
            }
            _ => 0,
        })
        .sum()
}

/// For each line that the line, from 0, names, others that are most like it: their places from 0.
pub fn neighbours(lines: &[Line], line: usize) -> Vec<usize> {
    let numbers = named(&lines[line]);
    let numbers = numbers.flat_map(|number| nearest(lines, of_same_sort(lines, line, number), number));
    numbers.map(|number| usize::from(number) - 1).collect()
}

/// The listing with some columns of the line, from 0, taken from another line of its code.
pub fn crossed(lines: &[Line], line: usize, random: &mut Random) -> Vec<Line> {
    let others: Vec<usize> = (0..line).filter(|&other| lines[other].code == lines[line].code).collect();
    let mut damaged = lines.to_vec();
    if !others.is_empty() {
        let other = random.pick(&others);
        for column in 0..7 {
            if random.chance(40) {
                damaged[line].columns[column] = lines[other].columns[column];
            }
        }
    }
    damaged
}

/// The listing in which the line's column names, instead of the type, term or environment there, one
/// that is almost the same. None if it names no such line.
pub fn with_twin(lines: &[Line], line: usize, column: usize, random: &mut Random) -> Option<Vec<Line>> {
    let named = usize::from(lines[line].columns[column]).checked_sub(1).filter(|&named| named < line)?;
    match columns_of(lines[line].code)?.get(column)? {
        Column::Line(kind @ (Kind::Type | Kind::Term | Kind::Environment)) => {
            let twin = twin(&lines[..line], lines[named], *kind, random);
            let standing = lines[..line].iter().position(|standing| *standing == twin);
            let mut damaged = match standing {
                Some(_) => lines.to_vec(),
                None => with_inserted(lines, line, twin, true),
            };
            let target = if standing.is_some() { line } else { line + 1 };
            damaged[target].columns[column] = standing.unwrap_or(line) as u16 + 1;
            Some(damaged)
        }
        _ => None,
    }
}

/// The line with another code of the kind, or with one column changed.
fn twin(earlier: &[Line], line: Line, kind: Kind, random: &mut Random) -> Line {
    let codes: Vec<u8> = code::KNOWN.into_iter().filter(|&code| kind_of(code) == Some(kind)).collect();
    let mut twin = line;
    let changed = random.below(3);
    if changed == 2 {
        twin.code = random.pick(&codes);
    }
    let columns = columns_of(twin.code).unwrap_or(&[]);
    for (place, number) in twin.columns.iter_mut().enumerate() {
        *number = match columns.get(place) {
            None => 0,
            Some(Column::Number) if changed == 2 || changed == place => random.between(1, 4) as u16,
            Some(Column::Line(kind)) if *number == 0 || changed == place => {
                some_of_kind(earlier, *kind, random)
            }
            Some(_) => *number,
        };
    }
    twin
}

/// The lines that the targets, counted from 0, name directly or through others, and they themselves,
/// in order and renumbered. Nothing else is needed for them to be sound.
pub fn slice(lines: &[Line], targets: &[usize]) -> Vec<Line> {
    let mut needed = vec![false; lines.len() + 1];
    for &target in targets {
        needed[target + 1] = true;
    }
    for number in (1..=lines.len()).rev() {
        if needed[number] {
            named(&lines[number - 1]).for_each(|named| needed[usize::from(named)] = true);
        }
    }
    let kept: Vec<usize> = (1..=lines.len()).filter(|&number| needed[number]).collect();
    let mut new_numbers = vec![0; lines.len() + 1];
    (1..).zip(&kept).for_each(|(new, &old)| new_numbers[old] = new);
    let mut sliced: Vec<Line> = kept.iter().map(|&number| lines[number - 1]).collect();
    renumber(&mut sliced, |old| new_numbers[usize::from(old)]);
    sliced
}

/// The listing, not empty, with one thing of any sort wrong.
pub fn damaged(lines: &[Line], random: &mut Random) -> Vec<Line> {
    let line = some_line(lines, random);
    match random.below(25) {
        0..10 => {
            let column = some_column(&lines[line], random);
            let change = if random.chance(40) { Change::Alike } else { random.pick(&Change::ALL) };
            with_column(lines, line, column, change, random)
        }
        10 | 11 => with_code(lines, line, random),
        12 => with_columns_swapped(lines, line, random),
        13 => swapped(lines, line, random),
        14 => cut_out(lines, line, random.chance(50)),
        15 => repeated(lines, line, random),
        16 => reordered(lines, random),
        17 => {
            let inserted = some_random_line(line, random);
            with_inserted(lines, line, inserted, random.chance(50))
        }
        18 => {
            let inserted = likely_line(lines, line, random);
            with_inserted(lines, line, inserted, true)
        }
        19 => crossed(lines, line, random),
        20..24 => {
            let column = some_column(&lines[line], random);
            with_twin(lines, line, column, random).unwrap_or_else(|| lines.to_vec())
        }
        _ => extended(lines, random),
    }
}

/// A line from 0. Each code that occurs is as likely as another, half of the time.
fn some_line(lines: &[Line], random: &mut Random) -> usize {
    let any = random.below(lines.len());
    if random.chance(50) {
        return any;
    }
    let code = random.pick(&code::KNOWN);
    let of_code: Vec<usize> = (0..lines.len()).filter(|&n| lines[n].code == code).collect();
    if of_code.is_empty() { any } else { random.pick(&of_code) }
}

/// A column from 0, most often one that the code has.
fn some_column(line: &Line, random: &mut Random) -> usize {
    let used = columns_of(line.code).map_or(0, <[Column]>::len);
    if used == 0 || random.chance(10) { random.below(7) } else { random.below(used) }
}

fn with_code(lines: &[Line], line: usize, random: &mut Random) -> Vec<Line> {
    let mut damaged = lines.to_vec();
    let old = damaged[line].code;
    damaged[line].code = match random.below(4) {
        0 => random.below(256) as u8,
        1 => random.pick(&code::KNOWN),
        2 => old.wrapping_add(1),
        _ => old.wrapping_sub(1),
    };
    damaged
}

fn with_columns_swapped(lines: &[Line], line: usize, random: &mut Random) -> Vec<Line> {
    let mut damaged = lines.to_vec();
    let (first, second) = (some_column(&lines[line], random), some_column(&lines[line], random));
    damaged[line].columns.swap(first, second);
    damaged
}

fn swapped(lines: &[Line], line: usize, random: &mut Random) -> Vec<Line> {
    let mut damaged = lines.to_vec();
    let other = if random.chance(50) { (line + 1) % lines.len() } else { random.below(lines.len()) };
    damaged.swap(line, other);
    damaged
}

/// Without the line. If renumbered, later columns still name what they named, and 0 for the line.
fn cut_out(lines: &[Line], line: usize, renumbered: bool) -> Vec<Line> {
    let number = line as u16 + 1;
    let mut damaged = lines.to_vec();
    damaged.remove(line);
    if renumbered {
        renumber(&mut damaged, |old| match old {
            _ if old < number => old,
            _ if old == number => 0,
            _ => old - 1,
        });
    }
    damaged
}

fn repeated(lines: &[Line], line: usize, random: &mut Random) -> Vec<Line> {
    let place = random.between(line + 1, lines.len());
    with_inserted(lines, place, lines[line], random.chance(80))
}

/// With a line before the one at `place`. If renumbered, the others' columns name what they named.
fn with_inserted(lines: &[Line], place: usize, inserted: Line, renumbered: bool) -> Vec<Line> {
    let mut damaged = lines.to_vec();
    if renumbered {
        renumber(&mut damaged, |old| if usize::from(old) > place { old.saturating_add(1) } else { old });
    }
    damaged.insert(place, inserted);
    damaged
}

/// The same lines in another order in which each stands after those that it names.
pub fn reordered(lines: &[Line], random: &mut Random) -> Vec<Line> {
    let mut waiting: Vec<usize> = (0..lines.len()).collect();
    let mut new_numbers = vec![0; lines.len() + 1];
    let mut order = Vec::with_capacity(lines.len());
    while !waiting.is_empty() {
        random.shuffle(&mut waiting);
        let before = order.len();
        waiting.retain(|&line| {
            let ready = named(&lines[line]).all(|number| new_numbers.get(usize::from(number)) != Some(&0));
            if ready {
                order.push(lines[line]);
                new_numbers[line + 1] = order.len() as u16;
            }
            !ready
        });
        if order.len() == before {
            // Lines that name each other: as they stand.
            order.extend(waiting.drain(..).map(|line| lines[line]));
        }
    }
    renumber(&mut order, |old| new_numbers.get(usize::from(old)).copied().unwrap_or(old));
    order
}

/// The lines that the line names.
fn named(line: &Line) -> impl Iterator<Item = u16> {
    let columns = columns_of(line.code).unwrap_or(&[]);
    let numbers = line.columns.into_iter().zip(columns);
    numbers
        .filter(|(number, column)| *number != 0 && !matches!(column, Column::Number))
        .map(|(number, _)| number)
}

/// Changes every number of a line in a column that names one.
fn renumber(lines: &mut [Line], new: impl Fn(u16) -> u16) {
    for line in lines {
        let columns = columns_of(line.code).unwrap_or(&[]);
        for (number, column) in line.columns.iter_mut().zip(columns) {
            if *number != 0 && !matches!(column, Column::Number) {
                *number = new(*number);
            }
        }
    }
}

/// With one to three more lines, each likely in form.
fn extended(lines: &[Line], random: &mut Random) -> Vec<Line> {
    let mut damaged = lines.to_vec();
    for _ in 0..random.between(1, 3) {
        let line = likely_line(&damaged, damaged.len(), random);
        damaged.push(line);
    }
    damaged
}

/// A line of a known code that names earlier lines of the right kinds, if there are such.
fn likely_line(lines: &[Line], place: usize, random: &mut Random) -> Line {
    let code = random.pick(&code::KNOWN);
    let mut line = Line::new(code, &[]);
    let columns = columns_of(code).unwrap_or(&[]);
    for (number, column) in line.columns.iter_mut().zip(columns) {
        *number = match column {
            Column::Number if code == code::NAME => {
                random.pick(&[0, 0x6100, 0x6162, 0x6130, 0x4100, 0x6075, 0x3031])
            }
            Column::Number => random.below(4) as u16,
            Column::LineOrNone(_) if random.chance(30) => 0,
            Column::Line(kind) | Column::LineOrNone(kind) => some_of_kind(&lines[..place], *kind, random),
        };
    }
    line
}

fn some_of_kind(lines: &[Line], kind: Kind, random: &mut Random) -> u16 {
    let numbers: Vec<u16> = (1..)
        .zip(lines)
        .filter(|(_, line)| kind_of(line.code) == Some(kind))
        .map(|(number, _)| number)
        .collect();
    if numbers.is_empty() { 0 } else { random.pick(&numbers) }
}

/// A line with any numbers, most of them low.
fn some_random_line(place: usize, random: &mut Random) -> Line {
    let code = if random.chance(90) { random.pick(&code::KNOWN) } else { random.below(256) as u8 };
    let used = columns_of(code).map_or(7, <[Column]>::len);
    let mut line = Line::new(code, &[]);
    for number in &mut line.columns[..used] {
        *number = if random.chance(98) { random.below(place + 2) as u16 } else { random.draw() as u16 };
    }
    line
}

/// Some lines without any sense.
pub fn random_listing(random: &mut Random) -> Vec<Line> {
    (0..random.between(1, 12))
        .map(|place| {
            let simple = [Line::new(code::ENV_EMPTY, &[]), Line::new(code::TYPE_TOP, &[])];
            if place < 2 && random.chance(80) { simple[place] } else { some_random_line(place, random) }
        })
        .collect()
}

#[cfg(test)]
mod tests {
    use super::*;
    use crate::checker::check_table;
    use crate::generate::sound_listing;
    use crate::listing::{Answer, Rule};
    use std::hash::RandomState;

    fn answer(lines: &[Line]) -> Answer {
        check_table::<RandomState>(lines, Rule::LeastBound)
    }

    #[test]
    fn another_order_stays_sound() {
        let mut random = Random::new(1);
        for seed in 0..100 {
            let lines = sound_listing(Rule::LeastBound, 200, seed);
            let reordered = reordered(&lines, &mut random);
            assert_ne!(reordered, lines);
            assert_eq!(answer(&reordered), Answer::granted(200));
        }
    }

    #[test]
    fn a_slice_stays_sound() {
        for seed in 0..20 {
            let lines = sound_listing(Rule::LeastBound, 400, seed);
            for target in 0..400 {
                let sliced = slice(&lines, &[target, target / 2]);
                assert_eq!(answer(&sliced), Answer::granted(sliced.len()));
                assert_eq!(sliced.last().map(|line| line.code), Some(lines[target].code));
            }
        }
    }

    #[test]
    fn a_repeated_line_is_found_where_it_stands() {
        let lines = sound_listing(Rule::LeastBound, 200, 1);
        for place in 10..=200 {
            let damaged = with_inserted(&lines, place, lines[place - 10], true);
            assert_eq!(answer(&damaged), Answer::unsound(place + 1, 4));
        }
    }

    #[test]
    fn damage_does_harm_most_often() {
        let mut random = Random::new(2);
        let lines = sound_listing(Rule::LeastBound, 300, 2);
        let harmed = (0..1_000).filter(|_| answer(&damaged(&lines, &mut random)).number == 13).count();
        assert!(harmed > 600, "{harmed} of 1,000");
    }
}
