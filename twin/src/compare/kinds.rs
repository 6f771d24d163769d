//! The kinds of trace, from a few blocks to full tables.

use twin::command::{Op, ROWS};
use twin::table::{PublicationId, LEASES, PUBLICATIONS};

use crate::damage::{damage, noise};
use crate::dice::Dice;
use crate::limits::{no_room, too_long};
use crate::story::Story;

/// Makes a trace from its dice.
type Maker = fn(Dice) -> Vec<u8>;

/// Each kind's weight and maker. The short ones are most of all traces.
const KINDS: [(usize, Maker); 12] = [
    (330, |dice| story(dice, mix)),
    (100, |dice| story(dice, drain)),
    (80, |dice| story(dice, ports)),
    (90, |dice| story(dice, replaces)),
    (90, |dice| story(dice, adopts)),
    (90, |dice| story(dice, edges)),
    (120, damaged),
    (40, noise),
    (12, |dice| story(dice, full_of_publications)),
    (12, |dice| story(dice, full_of_leases)),
    (16, no_room),
    (14, too_long),
];

/// The trace of this number.
pub fn trace(seed: u64, number: u64) -> Vec<u8> {
    let mut dice = Dice::of(seed, number);
    let make = dice.weigh(&KINDS);
    make(dice)
}

fn story(dice: Dice, tell: fn(&mut Story)) -> Vec<u8> {
    let mut story = Story::new(dice);
    tell(&mut story);
    story.text
}

/// Any commands in any order.
fn mix(story: &mut Story) {
    for _ in 0..story.dice.between(1, 30) {
        let op = story.dice.weigh(&[
            (20, Op::Publish),
            (7, Op::Adopt),
            (16, Op::Acquire),
            (12, Op::Release),
            (8, Op::Revoke),
            (9, Op::Replace),
            (10, Op::Reclaim),
            (8, Op::Read),
            (5, Op::Observe),
            (5, Op::Resolve),
            (3, Op::Count),
        ]);
        story.any(op);
    }
    story.look();
}

/// A publication is leased, revoked, and reclaimed once its last lease is released.
fn drain(story: &mut Story) {
    for _ in 0..story.dice.between(1, 3) {
        story.any(Op::Publish);
    }
    let id = story.dice.below(story.store.publications.len()) as u64;
    for _ in 0..story.dice.between(1, 6) {
        story.say(Op::Acquire, &[id, 5, 1]);
        if story.dice.once_in(4) {
            story.any(Op::Acquire);
        }
    }
    story.say(Op::Reclaim, &[id]);
    story.say(Op::Revoke, &[id]);
    while story.store.is_relied_on(PublicationId(id)) {
        story.say(Op::Reclaim, &[id]);
        let lease = story.active_lease();
        story.say(Op::Release, &[lease]);
        if story.dice.once_in(2) {
            story.say(Op::Read, &[lease]);
        }
    }
    for op in [Op::Reclaim, Op::Reclaim, Op::Observe, Op::Revoke] {
        story.say(op, &[id]);
    }
    story.look();
}

/// Few ports, published on, revoked and published on again.
fn ports(story: &mut Story) {
    let ports = story.dice.between(1, 3);
    for _ in 0..story.dice.between(4, 20) {
        let port = story.dice.below(ports) as u64;
        let values = [story.owner(), story.generation(), port, story.payload()];
        story.say(Op::Publish, &values);
        if story.dice.once_in(2) {
            story.any(Op::Revoke);
        }
        if story.dice.once_in(4) {
            story.any(Op::Reclaim);
        }
        story.say(Op::Resolve, &[port]);
    }
    story.look();
}

/// Handles replaced again and again, by right and wrong holders, and read.
fn replaces(story: &mut Story) {
    for _ in 0..story.dice.between(1, 4) {
        story.any(Op::Publish);
        story.any(Op::Acquire);
    }
    for _ in 0..story.dice.between(3, 20) {
        let op = story.dice.weigh(&[
            (12, Op::Replace),
            (3, Op::Read),
            (3, Op::Observe),
            (1, Op::Adopt),
            (1, Op::Revoke),
            (1, Op::Reclaim),
        ]);
        story.any(op);
    }
    story.look();
}

/// Publications adopted before, during and after their leases.
fn adopts(story: &mut Story) {
    for _ in 0..story.dice.between(1, 4) {
        let generation = u64::from(story.dice.once_in(5));
        let values = [story.owner(), generation, story.port(), story.payload()];
        story.say(Op::Publish, &values);
    }
    for _ in 0..story.dice.between(3, 16) {
        let op = story.dice.weigh(&[
            (10, Op::Adopt),
            (4, Op::Acquire),
            (4, Op::Release),
            (2, Op::Revoke),
            (3, Op::Reclaim),
            (2, Op::Replace),
        ]);
        story.any(op);
    }
    story.look();
}

/// Words for values at the edges of the rules for digits and widths.
const WORDS: [&str; 36] = [
    "0",
    "00",
    "00000000000000000000",
    "000000000000000000000",
    "00000000000000000001",
    "000000000000000000001",
    "4294967295",
    "4294967296",
    "4294967297",
    "00000000004294967295",
    "00000000004294967296",
    "000000000004294967295",
    "9223372036854775808",
    "9999999999999999999",
    "10000000000000000000",
    "18446744073709551609",
    "18446744073709551614",
    "18446744073709551615",
    "18446744073709551616",
    "18446744073709551617",
    "18446744073709551625",
    "018446744073709551615",
    "20000000000000000000",
    "36893488147419103232",
    "99999999999999999999",
    "100000000000000000000",
    "",
    "-1",
    "+1",
    "0x1",
    "1/",
    ":",
    " 1",
    "1 ",
    "1\r",
    "1\n",
];

/// Values at every edge in every key; a word that isn't by the rules ends it.
fn edges(story: &mut Story) {
    for _ in 0..story.dice.below(4) {
        story.any(Op::Publish);
        story.any(Op::Acquire);
    }
    for _ in 0..story.dice.between(1, 8) {
        let (op, _, keys) = story.dice.pick(&ROWS);
        let mut values: Vec<String> = keys.iter().map(|_| story.edge().to_string()).collect();
        for (key, value) in keys.iter().zip(&mut values) {
            if *key == "port" && story.dice.once_in(2) {
                *value = story.port().to_string();
            }
            if story.dice.once_in(5) {
                *value = story.dice.pick(&WORDS).to_string();
            }
        }
        let words: Vec<&str> = values.iter().map(String::as_str).collect();
        if story.say_words(op, &words).is_none() && story.dice.once_in(2) {
            break;
        }
    }
    story.look();
}

/// A trace of another kind with its bytes or lines damaged.
fn damaged(mut dice: Dice) -> Vec<u8> {
    let make: fn(&mut Story) = dice.weigh(&[
        (30, mix),
        (10, drain),
        (10, ports),
        (10, replaces),
        (10, adopts),
        (10, edges),
        (1, full_of_publications),
        (1, full_of_leases),
    ]);
    let mut story = Story::new(dice);
    make(&mut story);
    let Story {
        mut dice, mut text, ..
    } = story;
    for _ in 0..dice.weigh(&[(6, 1), (2, 2), (1, 4)]) {
        damage(&mut dice, &mut text);
    }
    text
}

/// Publishes until the table holds 96, reclaimed ones included, and further.
fn full_of_publications(story: &mut Story) {
    let once_in = story.dice.pick(&[2, 5, 100]);
    while story.store.publications.len() < PUBLICATIONS {
        let port = story.free_port();
        let values = [story.owner(), story.generation(), port, story.payload()];
        story.say(Op::Publish, &values);
        if story.dice.once_in(once_in) {
            let id = story.id();
            story.say(Op::Revoke, &[id]);
            story.say(Op::Reclaim, &[id]);
        }
        if story.dice.once_in(20) {
            story.any(Op::Publish);
        }
    }
    for _ in 0..story.dice.between(1, 4) {
        // On a free port, on a held one, and on any.
        let free = story.free_port();
        let held = story.store.publications.iter().find(|one| one.visible);
        let held = held.map_or(free, |one| u64::from(one.port.0));
        let port = story.dice.pick(&[free, held]);
        story.say(Op::Publish, &[4, 0, port, 900]);
        story.any(Op::Publish);
    }
    if story.dice.once_in(4) {
        fill_leases(story);
    }
    mix(story);
}

/// Acquires until 128 leases are active, and further; then lets some go.
fn full_of_leases(story: &mut Story) {
    for _ in 0..story.dice.between(1, 5) {
        story.any(Op::Publish);
    }
    // Leases given out and released before, so that the counter is ahead.
    for _ in 0..story.dice.pick(&[0, 0, 10, 100]) {
        let next = story.store.counter;
        story.say(Op::Acquire, &[0, 5, 1]);
        story.say(Op::Release, &[next]);
    }
    fill_leases(story);
    for _ in 0..story.dice.between(1, 12) {
        let lease = story.active_lease();
        story.say(Op::Release, &[lease]);
        for _ in 0..story.dice.between(1, 2) {
            story.any(Op::Acquire);
        }
        story.say(Op::Read, &[lease]);
    }
    if story.dice.once_in(3) {
        while !story.store.leases.is_empty() {
            let lease = story.active_lease();
            story.say(Op::Release, &[lease]);
        }
    }
    mix(story);
}

/// Acquires on visible publications until 128 leases are active, and a few more.
fn fill_leases(story: &mut Story) {
    let mut visible = story.ids(|one| one.visible);
    if visible.is_empty() {
        let port = story.free_port();
        story.say(Op::Publish, &[4, 0, port, 900]);
        visible = story.ids(|one| one.visible);
    }
    if visible.is_empty() {
        // The table is full and nothing in it is visible.
        return;
    }
    while story.store.leases.len() < LEASES {
        let id = story.dice.pick(&visible);
        let values = [id, story.owner(), story.generation()];
        story.say(Op::Acquire, &values);
    }
    for _ in 0..story.dice.between(1, 3) {
        let id = story.dice.pick(&visible);
        story.say(Op::Acquire, &[id, 5, 1]);
        story.any(Op::Acquire);
    }
}

#[cfg(test)]
mod tests {
    use super::trace;
    use crate::pairs::Counts;
    use twin::run::program;

    #[test]
    fn every_pair_and_stop_is_met_often_enough() {
        let mut counts = Counts::default();
        for number in 0..crate::COUNT {
            counts.add(&program(&trace(crate::SEED, number)));
        }
        assert_eq!(counts.faults(), [""; 0]);
    }

    #[test]
    fn too_few_traces_are_a_fault() {
        let mut counts = Counts::default();
        counts.add(&program(b"op=count\n"));
        let faults = counts.faults();
        assert!(faults.contains(&"op=count answer=0 was met 1 times, not 100".to_string()));
        assert!(faults.contains(&"stop=12 was met 0 times, not 100".to_string()));
    }

    #[test]
    fn a_seed_makes_the_same_traces_again() {
        for number in 0..200 {
            assert_eq!(trace(7, number), trace(7, number));
            assert_ne!(
                (trace(7, number), trace(7, number + 1)),
                (trace(8, number), trace(8, number + 1))
            );
        }
    }
}
