//! The trace text: blocks read, answers written.

use crate::command::{number, Answer, Command, Op, ROWS};

/// Reads the block at the text's start: its op, its command and the text after it.
/// None when the block is wrong or unfinished.
pub fn read_block(text: &[u8]) -> Option<(Op, Command, &[u8])> {
    let (word, mut rest) = read_line("op", text)?;
    let &(op, _, keys) = ROWS.iter().find(|row| row.1.as_bytes() == word)?;
    let mut values = Vec::new();
    for key in keys {
        let (digits, after) = read_line(key, rest)?;
        values.push(read_number(digits)?);
        rest = after;
    }
    Some((op, Command::from_values(op, &values)?, rest))
}

/// Reads `KEY=value` and one line feed: the value and the text after the line.
fn read_line<'a>(key: &str, text: &'a [u8]) -> Option<(&'a [u8], &'a [u8])> {
    let text = text.strip_prefix(key.as_bytes())?.strip_prefix(b"=")?;
    let end = text.iter().position(|&byte| byte == b'\n')?;
    Some((&text[..end], &text[end + 1..]))
}

/// 1 to 20 decimal digits, leading zeros allowed, of at most 64 bits.
fn read_number(digits: &[u8]) -> Option<u64> {
    if digits.is_empty() || digits.len() > 20 {
        return None;
    }
    digits.iter().try_fold(0u64, |value, byte| match byte {
        b'0'..=b'9' => value.checked_mul(10)?.checked_add(u64::from(byte - b'0')),
        _ => None,
    })
}

/// Adds the answer's block to the output.
pub fn write_answer(answer: &Answer, output: &mut Vec<u8>) {
    write_line("answer", u64::from(number(answer)), output);
    for (key, value) in answer.iter().flatten() {
        write_line(key, *value, output);
    }
}

fn write_line(key: &str, value: u64, output: &mut Vec<u8>) {
    output.extend_from_slice(format!("{key}={value}\n").as_bytes());
}
