//! Records: what was written is found as written, and what was changed is found.
use clockbox::night::Random;
use clockbox::replay::{Differs, Replay};
use clockbox::station::Rules;

/// The first line that differs, by its place.
fn first_difference(rules: Rules, text: &[u8]) -> Option<(usize, Differs)> {
    let mut replay = Replay::new(rules);
    let lines: Vec<&[u8]> = text.strip_suffix(b"\n").unwrap_or(text).split(|&byte| byte == b'\n').filter(|line| !line.is_empty()).collect();
    for (place, line) in lines.iter().enumerate() {
        if let Err(differs) = replay.line(line) {
            return Some((place, differs));
        }
    }
    replay.end().err().map(|differs| (lines.len(), differs))
}

/// What was written is found as written; and a line whose times or names were changed is found, with the line as it was.
pub fn check(seed: u64, rules: Rules, text: &[u8]) {
    assert_eq!(first_difference(rules, text), None);
    let mut random = Random(seed);
    let lines: Vec<&[u8]> = text.split(|&byte| byte == b'\n').collect();
    let said: Vec<usize> = (0..lines.len()).filter(|&place| matches!(lines[place].get(..2), Some(b"04" | b"06" | b"16"))).collect();
    if said.is_empty() {
        return;
    }
    let place = random.pick(&said);
    let mut changed: Vec<Vec<u8>> = lines.iter().map(|line| line.to_vec()).collect();
    let from = match &changed[place][..2] {
        b"04" => 20,
        b"06" => 18,
        _ => 2,
    };
    let digit = random.between(from, changed[place].len() as u64 - 1) as usize;
    changed[place][digit] = if changed[place][digit] == b'0' { b'1' } else { b'0' };
    let expected = Differs(Some(lines[place].to_vec()));
    assert_eq!(first_difference(rules, &changed.join(&b'\n')), Some((place, expected)));
}
