// Texts spoiled as a hand or a careless program would spoil them: bytes, numbers and lines.
use crate::model::Numbers;

/// Where the numbers of a text stand, without their signs.
fn numbers(text: &[u8]) -> Vec<(usize, usize)> {
    let mut found = vec![];
    let mut k = 0;
    while k < text.len() {
        let from = k;
        while k < text.len() && text[k].is_ascii_digit() { k += 1 }
        if k > from { found.push((from, k)) }
        k += 1;
    }
    found
}

/// A number spelled anew: 17 to 20 digits, a leading zero, a zero with or without a sign, a sign more, no digit, a neighbour, or the ends of the types.
fn respelled(r: &mut Numbers, digits: &str) -> String {
    let n: i128 = digits.parse().unwrap_or(0);
    match r.below(16) {
        0 => format!("0{digits}"),
        1 => format!("00{digits}"),
        2 => "-0".into(),
        3 => "0".into(),
        4 => format!("-{digits}"),
        5 => format!("--{digits}"),
        6 => "999999999999999999".into(),
        7 => "1000000000000000000".into(),
        8 => format!("{}", 100_000_000_000_000_000 + r.below(1_000_000_000) as i64),
        9 => format!("{}{}", 1 + r.below(9), "0123456789012345678".get(..15 + r.below(5) as usize).unwrap()),
        10 => String::new(),
        11 => format!("+{digits}"),
        12 => [4294967295u64, 4294967296, 2147483647, 2147483648, 1048576, 1048577][r.below(6) as usize].to_string(),
        13 => format!("{}", n + 1),
        14 => format!("{}", (n - 1).max(0)),
        _ => format!("-{}", "999999999999999999".get(..1 + r.below(18) as usize).unwrap()),
    }
}

fn lines(text: &[u8]) -> Vec<Vec<u8>> { text.split_inclusive(|&b| b == b'\n').map(|l| l.to_vec()).collect() }

/// One thing changed.
pub fn spoiled(r: &mut Numbers, mut text: Vec<u8>) -> Vec<u8> {
    let at = r.below(text.len().max(1) as u64) as usize;
    let odd = [b' ', b'(', b')', b'\n', b'-', b'0', b'9', b'1', b'\r', b'\t', b'r', 0, 255, b'a'];
    let any = if r.below(8) == 0 { r.next() as u8 } else { odd[r.below(odd.len() as u64) as usize] };
    match r.below(12) {
        0 if !text.is_empty() => { text.remove(at); }
        1 => text.insert(at, any),
        2 if !text.is_empty() => text.insert(at, text[at]),
        3 if !text.is_empty() => text[at] = any,
        4 => { let ends: Vec<usize> = (0..text.len()).filter(|&k| text[k] == b'\n').collect(); if !ends.is_empty() { text.insert(ends[r.below(ends.len() as u64) as usize], b'\r') } }
        5..=7 => {
            let all = numbers(&text);
            if let Some(&(from, to)) = all.get(r.below(all.len().max(1) as u64) as usize) {
                let new = respelled(r, std::str::from_utf8(&text[from..to]).unwrap());
                text.splice(from..to, new.bytes());
            }
        }
        8 => { let gaps: Vec<usize> = (0..text.len()).filter(|&k| text[k] == b' ').collect(); if !gaps.is_empty() { text.insert(gaps[r.below(gaps.len() as u64) as usize], b' ') } }
        9 => {
            let mut all = lines(&text);
            let (a, b) = (r.below(all.len().max(1) as u64) as usize, r.below(all.len().max(1) as u64) as usize);
            match r.below(3) { 0 if a < all.len() => { all.remove(a); } 1 if a < all.len() => all.insert(b, all[a].clone()), _ if a < all.len() && b < all.len() => all.swap(a, b), _ => {} }
            text = all.concat();
        }
        10 => { let more = [&b"\n"[..], b" ", b")", b")\n", b"0", b"(row 0 1)\n", b"\r\n", b"\0"][r.below(8) as usize]; text.extend_from_slice(more) }
        _ => text.truncate(at),
    }
    text
}
