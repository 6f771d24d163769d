//! Traces at the program's limits: answers that fill their room, and input of just
//! 65,536 bytes and more.

use twin::command::Op;
use twin::run::{BLOCK_ROOM, ROOM, TRACE};

use crate::damage::noise;
use crate::dice::Dice;
use crate::story::Story;

/// Answers up to an exact number of bytes left, mostly just around 96; then no block,
/// a block, several, or a wrong one.
pub fn no_room(dice: Dice) -> Vec<u8> {
    let mut story = Story::new(dice);
    story.say(Op::Publish, &[4, 0, 7, u64::MAX]);
    story.say(Op::Acquire, &[0, 5, 1]);
    let left = match story.dice.below(4) {
        0 => story.dice.between(BLOCK_ROOM, 2 * BLOCK_ROOM),
        _ => story.dice.between(BLOCK_ROOM - 3, BLOCK_ROOM + 2),
    };
    // Stretches of one command, so that the trace stays easy to read.
    while story.answered + left + 150 < ROOM {
        let op = story
            .dice
            .weigh(&[(4, Op::Read), (2, Op::Observe), (1, Op::Count)]);
        let values = if op == Op::Count { &[][..] } else { &["0"] };
        for _ in 0..story.dice.between(1, 1500) {
            if story.answered + left + 150 < ROOM {
                story.say_words(op, values);
            }
        }
    }
    // The gap is at least 80 bytes, so answers of 9 and of 10 bytes can fill it.
    let gap = (ROOM - left).saturating_sub(story.answered);
    for _ in 0..gap % 9 {
        story.say_words(Op::Resolve, &["8"]);
    }
    for _ in 0..gap / 9 - gap % 9 {
        story.say_words(Op::Revoke, &["1"]);
    }
    for _ in 0..story.dice.pick(&[0, 1, 1, 2, 9]) {
        let op = story
            .dice
            .pick(&[Op::Count, Op::Read, Op::Observe, Op::Revoke]);
        story.any(op);
    }
    if story.dice.once_in(3) {
        let wrong = story
            .dice
            .pick(&[&b"op=count"[..], b"\n", b"op=counts\n", b"\0"]);
        story.text.extend_from_slice(wrong);
    }
    story.text
}

/// Right blocks up to an exact length, at or beyond 65,536 bytes; or noise.
pub fn too_long(mut dice: Dice) -> Vec<u8> {
    let length = match dice.below(8) {
        0 => TRACE - 1,
        1 => TRACE,
        2..=4 => TRACE + 1,
        5 => dice.between(TRACE + 2, TRACE + 100),
        6 => dice.between(TRACE, 2 * TRACE),
        _ => dice.pick(&[2 * TRACE, 2 * TRACE + 9, 3 * TRACE, 4 * TRACE + 1]),
    };
    if dice.once_in(8) {
        let mut text = noise(dice);
        text.resize(length, b'\n');
        return text;
    }
    let mut story = Story::new(dice);
    story.say(Op::Publish, &[4, 0, 7, 900]);
    let id = story.dice.below(2);
    // A revoke block takes 15 to 34 bytes, by its leading zeros.
    loop {
        let left = length - story.text.len();
        let longest = match left {
            0 => return story.text,
            1..=34 => left,
            35..=68 => left / 2,
            _ => 34,
        };
        let digits = format!("{:0>1$}", id, longest - 14);
        story.say_words(Op::Revoke, &[&digits]);
    }
}
