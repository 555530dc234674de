//! Random inputs: pairs of lines, most of them good, and whole inputs with odd ends. The same seed
//! and number always make the same bytes. And all small cases.

mod damage;
pub mod enumerate;
mod sorts;
mod spelling;

use lists::rng::Rng;

use crate::sort::Sort;

/// The inputs of one seed: pairs by number, then whole inputs by number.
const WHOLE: u64 = 1 << 32;

/// How the last pair of an input ends.
#[derive(Clone, Copy)]
enum End {
    WithLf,
    WithoutLf,
    Single,
    SingleWithoutLf,
}

/// So many pairs, the last of which ends in one of four ways by the seed.
pub fn pairs(seed: u64, count: u64) -> impl Iterator<Item = Vec<u8>> {
    let end = [End::WithLf, End::WithoutLf, End::Single, End::SingleWithoutLf][(seed % 4) as usize];
    (0..count).map(move |index| {
        let [first, second] = pair(&mut Rng::of_list(seed, index));
        match if index + 1 == count { end } else { End::WithLf } {
            End::WithLf => [&first[..], b"\n", &second[..], b"\n"].concat(),
            End::WithoutLf => [&first[..], b"\n", &second[..]].concat(),
            End::Single => [&first[..], b"\n"].concat(),
            End::SingleWithoutLf => first,
        }
    })
}

/// An input of up to six lines; its last line may lack its LF.
pub fn whole(seed: u64, index: u64) -> Vec<u8> {
    let rng = &mut Rng::of_list(seed, WHOLE + index);
    let mut input = Vec::new();
    for _ in 0..rng.below(7) {
        input.extend(short_line(rng));
        input.push(b'\n');
    }
    if rng.chance(50) {
        input.pop();
    }
    input
}

fn short_line(rng: &mut Rng) -> Vec<u8> {
    let words = rng.between(1, 4);
    let sort = sorts::sort(rng, words);
    match rng.below(20) {
        0..11 => spelling::line(rng, &sort),
        11..15 => damage::damaged(rng, &sort),
        15 | 16 => Vec::new(),
        17 => vec![b' '; rng.between(1, 3)],
        18 => spelling::near_limit(rng, &sort),
        _ => b"\r".to_vec(),
    }
}

/// Two lines without their LF.
fn pair(rng: &mut Rng) -> [Vec<u8>; 2] {
    let sort = sorts::any_size(rng);
    let [first, second] = related(rng, sort);
    let [mut lhs, mut rhs] = if rng.chance(12) {
        [&first, &second].map(|sort| spelling::near_limit(rng, sort))
    } else {
        [&first, &second].map(|sort| spelling::line(rng, sort))
    };
    match rng.below(100) {
        0..15 => lhs = damage::damaged(rng, &first),
        15..30 => rhs = damage::damaged(rng, &second),
        30..33 => [lhs, rhs] = [&first, &second].map(|sort| damage::damaged(rng, sort)),
        33 => lhs = damage::far_too_long(rng, lhs),
        34 => rhs = damage::far_too_long(rng, rhs),
        _ => {}
    }
    [lhs, rhs]
}

/// Two sorts, made from one or from one and another.
fn related(rng: &mut Rng, sort: Sort) -> [Sort; 2] {
    use sorts::Way;
    let other = match rng.below(100) {
        0..10 => sort.clone(),
        10..30 => sorts::moved(rng, &sort, Way::Up),
        30..42 => sorts::moved(rng, &sort, Way::Down),
        42..58 => sorts::converted(rng, &sort),
        58..78 => sorts::moved(rng, &sort, Way::Like),
        78..86 => {
            let like = sorts::moved(rng, &sort, Way::Like);
            sorts::one_part_other(rng, &like)
        }
        86..90 => return [sorts::outermost(&sort, Way::Down), sorts::outermost(&sort, Way::Up)],
        _ => sorts::any_size(rng),
    };
    [sort, other]
}
