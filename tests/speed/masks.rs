//! The operations on masks by hand, over words of 64 bits: the peer of `tests/speed/masks`.
//!
//!     masks OPERATION BITS     OPERATION is none, count, mask, range, both or combine; BITS is half, few or run
//!
//! `none`, `mask` and `both` do what the others need first, so that it can be taken off.

#[inline(never)]
fn count(words: &[u64]) -> usize {
    words.iter().map(|word| word.count_ones() as usize).sum()
}

#[inline(never)]
fn first(words: &[u64]) -> Option<usize> {
    let place = words.iter().position(|&word| word != 0)?;
    Some(64 * place + words[place].trailing_zeros() as usize)
}

#[inline(never)]
fn last(words: &[u64]) -> Option<usize> {
    let place = words.iter().rposition(|&word| word != 0)?;
    Some(64 * place + 63 - words[place].leading_zeros() as usize)
}

fn range(words: &[u64], count: usize) -> Option<(usize, usize)> {
    let (first, last) = (first(words)?, last(words)?);
    (last - first + 1 == count).then_some((first, last + 1))
}

/// The 64 bits from `index` on.
fn window(words: &[u64], index: usize) -> u64 {
    let (place, by) = (index / 64, index % 64);
    if by == 0 {
        words[place]
    } else {
        (words[place] >> by) | (words.get(place + 1).copied().unwrap_or(0) << (64 - by))
    }
}

#[inline(never)]
fn combine(outer: &[u64], inner: &[u64]) -> Vec<u64> {
    let mut combined = Vec::with_capacity(outer.len());
    let mut used = 0;
    for &word in outer {
        let mut spread = 0;
        if word == u64::MAX {
            spread = window(inner, used);
            used += 64;
        } else if word != 0 {
            let (mut left, mut bits) = (word, window(inner, used));
            used += word.count_ones() as usize;
            while left != 0 {
                spread |= (bits & 1) << left.trailing_zeros();
                bits >>= 1;
                left &= left - 1;
            }
        }
        combined.push(spread);
    }
    combined
}

/// `len` bits: half of them true, or one in 128, by a generator of random numbers; or one run of true bits.
fn bits(len: usize, which: &str) -> Vec<u64> {
    let mut words = vec![0; len.div_ceil(64)];
    let mut state: u64 = 12345;
    for index in 0..len {
        state = state.wrapping_mul(6364136223846793005).wrapping_add(1442695040888963407);
        let bit = match which {
            "few" => state >> 57 == 1,
            "run" => len / 3 <= index && index < len / 2,
            _ => state >> 63 == 1,
        };
        words[index / 64] |= u64::from(bit) << (index % 64);
    }
    words
}

fn told(operation: &str, which: &str) -> usize {
    let outer = bits(1 << 24, which);
    if operation == "none" {
        return 1 << 24;
    }
    let chosen = count(&outer);
    match operation {
        "count" | "mask" => return chosen,
        "range" => return range(&outer, chosen).map_or(0, |(first, _)| first),
        _ => {}
    }
    let inner = bits(chosen, "half");
    if operation == "both" {
        return count(&inner);
    }
    let _inner_count = std::hint::black_box(count(&inner));
    count(&combine(&outer, &inner))
}

fn main() {
    let words: Vec<String> = std::env::args().collect();
    println!("{}", told(&words[1], &words[2]));
}
