//! Damaged copies of good pages. Some damage leaves them good.

use crate::listing::{Line, MAX_LINES, PLACE, page, place, write_number};
use crate::random::Random;

/// The bytes with one thing wrong that a page may have wrong, or that leaves it a page.
pub fn damaged_page(page: &[u8], random: &mut Random) -> Vec<u8> {
    let mut bytes = page.to_vec();
    let at = random.below(bytes.len());
    match random.below(12) {
        0 => bytes[at] = random.draw() as u8,
        1 | 2 => bytes[at] = random.pick(b" 0123456789\n\t\r+-/:x\0"),
        3 => damage_field(&mut bytes, random, with_leading_zero),
        4 => damage_field(&mut bytes, random, |field, _| field.fill(b' ')),
        5 => damage_field(&mut bytes, random, left_justified),
        6 => damage_field(&mut bytes, random, with_number_at_the_limit),
        7 => bytes.truncate(at),
        8 => _ = bytes.remove(at),
        9 => bytes.insert(at, random.pick(b" 0123456789\n\t\rx")),
        10 => bytes.extend((0..random.between(1, 100)).map(|_| random.draw() as u8)),
        _ => {
            let end = (at / PLACE + 1) * PLACE - 1;
            bytes[end] = random.pick(b"\r 0\0");
        }
    }
    bytes
}

fn damage_field(bytes: &mut [u8], random: &mut Random, damage: impl Fn(&mut [u8], &mut Random)) {
    let start = random.below(bytes.len() / PLACE) * PLACE;
    let (first, last) =
        random.pick(&[(0, 3), (3, 9), (9, 15), (15, 21), (21, 27), (27, 33), (33, 39), (39, 45)]);
    damage(&mut bytes[start + first..start + last], random);
}

fn with_leading_zero(field: &mut [u8], _: &mut Random) {
    if let Some(space) = field.iter().rposition(|&byte| byte == b' ') {
        field[space] = b'0';
    }
}

fn left_justified(field: &mut [u8], _: &mut Random) {
    let spaces = field.iter().take_while(|&&byte| byte == b' ').count();
    field.rotate_left(spaces);
}

/// With a number at the limit of what the field may hold, or beyond.
fn with_number_at_the_limit(field: &mut [u8], random: &mut Random) {
    let numbers: &[u32] = if field.len() == 3 {
        &[255, 256, 257, 265, 300, 999]
    } else {
        &[65_535, 65_536, 65_537, 65_545, 65_600, 66_000, 70_000, 99_999, 100_000, 131_072, 655_350, 999_999]
    };
    write_number(field, random.pick(numbers));
}

/// Files at the end of the room: of 65,535 to 65,537 places, some with a fault there.
pub fn large_pages(longest: &[Line]) -> Vec<Vec<u8>> {
    assert_eq!(longest.len(), MAX_LINES);
    let whole = page(longest);
    let one_more = [&whole[..], &place(&longest[0])].concat();
    let last = (MAX_LINES - 1) * PLACE;
    let mut repeated = whole.clone();
    repeated[last..].copy_from_slice(&place(&longest[0]));
    let mut fault_in_last = one_more.clone();
    fault_in_last[last] = b'x';
    let mut fault_beyond = one_more.clone();
    fault_beyond[last + PLACE] = b'x';
    let incomplete =
        [whole[..whole.len() - 1].to_vec(), [&whole[..], b"x"].concat(), [&one_more[..], b"x"].concat()];
    let mut pages = vec![whole, one_more, repeated, fault_in_last, fault_beyond];
    pages.extend(incomplete);
    pages
}

#[cfg(test)]
mod tests {
    use super::*;
    use crate::checker::adopt;
    use crate::generate::sound_listing;
    use crate::listing::Rule;

    #[test]
    fn damage_does_harm_most_often() {
        let mut random = Random::new(2);
        let page = page(&sound_listing(Rule::LeastBound, 300, 2));
        let harmed = (0..1_000).filter(|_| adopt(&damaged_page(&page, &mut random)).is_err()).count();
        assert!(harmed > 600, "{harmed} of 1,000");
    }
}
