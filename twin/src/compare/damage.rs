//! Damage to a trace, and bytes that never were one.

use crate::dice::Dice;

/// Bytes that traces are made of, and bytes close to them.
const LETTERS: &[u8] = b"op=countpublishadoptacquirereleaserevoke0123456789\n\n=\r \t\0/:";

/// One damage at any place.
pub fn damage(dice: &mut Dice, text: &mut Vec<u8>) {
    let place = dice.below(text.len() + 1);
    match dice.below(16) {
        0 => change(text, place, |byte, dice| byte ^ (1 << dice.below(8)), dice),
        1 => change(text, place, |_, dice| dice.throw() as u8, dice),
        2 => change(text, place, |_, dice| dice.pick(LETTERS), dice),
        3 => change(text, place, |byte, _| byte.to_ascii_uppercase(), dice),
        4 => drop(text.splice(place..text.len().min(place + 1), [])),
        5 => text.insert(place, dice.throw() as u8),
        6 => text.insert(place, dice.pick(LETTERS)),
        7 => text.truncate(place),
        8 => drop(text.pop()),
        9 => on_lines(text, |lines| {
            let (one, other) = (dice.below(lines.len()), dice.below(lines.len()));
            lines.swap(one, other);
        }),
        10 => on_lines(text, |lines| {
            let line = dice.below(lines.len());
            lines.remove(line);
        }),
        11 => on_lines(text, |lines| {
            let line = dice.below(lines.len());
            lines.insert(line, lines[line].clone());
        }),
        12 => on_lines(text, |lines| {
            // A carriage return before every line feed, or before one.
            let all = dice.once_in(2);
            let only = dice.below(lines.len());
            for (number, line) in lines.iter_mut().enumerate() {
                if all || number == only {
                    line.insert(line.len() - 1, b'\r');
                }
            }
        }),
        13 => on_lines(text, |lines| {
            // A blank line before any line.
            let line = dice.below(lines.len());
            lines.insert(line, b"\n".to_vec());
        }),
        14 => {
            // A digit becomes a byte beside the digits, or a letter.
            let digits: Vec<usize> = (0..text.len())
                .filter(|&place| text[place].is_ascii_digit())
                .collect();
            if !digits.is_empty() {
                let place = dice.pick(&digits);
                text[place] = dice.pick(b"/:-.aO");
            }
        }
        _ => on_lines(text, |lines| {
            // A blank at a line's start or end, or around its sign.
            let number = dice.below(lines.len());
            let line = &mut lines[number];
            let sign = line.iter().position(|&byte| byte == b'=').unwrap_or(0);
            let place = dice.pick(&[0, sign, sign + 1, line.len() - 1]);
            line.insert(place.min(line.len()), dice.pick(b"  \t"));
        }),
    }
}

fn change(text: &mut [u8], place: usize, to: fn(u8, &mut Dice) -> u8, dice: &mut Dice) {
    if let Some(byte) = text.get_mut(place) {
        *byte = to(*byte, dice);
    }
}

/// Works on the lines, each with its line feed; the last one may lack it. Does
/// nothing to an empty text.
fn on_lines(text: &mut Vec<u8>, work: impl FnOnce(&mut Vec<Vec<u8>>)) {
    let mut lines: Vec<Vec<u8>> = text
        .split_inclusive(|&byte| byte == b'\n')
        .map(<[u8]>::to_vec)
        .collect();
    if !lines.is_empty() {
        work(&mut lines);
        *text = lines.concat();
    }
}

/// Nothing, any bytes, letters of traces, or lines of traces in any order.
pub fn noise(mut dice: Dice) -> Vec<u8> {
    let length = dice.below(300);
    match dice.below(4) {
        0 => Vec::new(),
        1 => (0..length).map(|_| dice.throw() as u8).collect(),
        2 => (0..length).map(|_| dice.pick(LETTERS)).collect(),
        _ => {
            let lines = [
                "op=count\n",
                "op=count\n",
                "op=revoke\nid=0\n",
                "op=publish\nowner=4\n",
                "generation=0\n",
                "port=7\n",
                "payload=900\n",
                "id=0\n",
                "op=read\n",
                "lease=0\n",
                "op=\n",
                "\n",
            ];
            (0..dice.between(1, 20))
                .flat_map(|_| dice.pick(&lines).bytes())
                .collect()
        }
    }
}
