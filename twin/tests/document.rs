//! Document 01's whole case and its bench examples, as far as a trace can tell
//! them. P9 and P12 start from a table that no trace reaches.

use twin::run::{program, run};
use twin::table::Store;

/// Blocks in short: `publish 4 0 7 900` is the block with these values.
fn trace(commands: &[&str]) -> Vec<u8> {
    let mut text = String::new();
    for command in commands {
        let mut words = command.split(' ');
        let op = words.next().unwrap();
        text += &format!("op={op}\n");
        let keys: &[&str] = match op {
            "publish" => &["owner", "generation", "port", "payload"],
            "adopt" | "acquire" => &["id", "owner", "generation"],
            "release" | "read" => &["lease"],
            "revoke" | "reclaim" | "observe" => &["id"],
            "replace" => &["id", "owner", "generation", "payload"],
            "resolve" => &["port"],
            "count" => &[],
            _ => panic!("no such command: {op}"),
        };
        assert_eq!(words.clone().count(), keys.len(), "{command}");
        for (key, value) in keys.iter().zip(words) {
            text += &format!("{key}={value}\n");
        }
    }
    text.into_bytes()
}

/// What the program writes, each answer on one line: `0 id=0`.
fn answers(commands: &[&str]) -> Vec<String> {
    let report = String::from_utf8(program(&trace(commands)).report()).unwrap();
    let answers = report
        .strip_suffix("stop=0 Done\n")
        .expect("the run ends with 0");
    answers
        .split("answer=")
        .skip(1)
        .map(|block| block.trim_end().replace('\n', " "))
        .collect()
}

/// The report's last line.
fn stop(text: &[u8]) -> String {
    let report = String::from_utf8(program(text).report()).unwrap();
    report.lines().last().unwrap().to_string()
}

#[test]
fn the_whole_case() {
    let text = b"op=publish\nowner=4\ngeneration=0\nport=7\npayload=900\nop=acquire\nid=0\n\
        owner=5\ngeneration=1\nop=revoke\nid=0\nop=reclaim\nid=0\nop=release\nlease=0\n\
        op=reclaim\nid=0\nop=count\n";
    let report = b"answer=0\nid=0\nanswer=0\nlease=0\nanswer=0\nanswer=4\nanswer=0\n\
        answer=0\npayload=900\nanswer=0\ncount=0\nstop=0 Done\n";
    assert_eq!(program(text).report(), report);
    assert_eq!(program(text).blocks.len(), 7);
    assert_eq!(program(text).read, text.len());
}

#[test]
fn p1_empty() {
    let got = answers(&["count", "resolve 7", "revoke 0"]);
    assert_eq!(got, ["0 count=0", "10", "1"]);
}

#[test]
fn p2_first_publish() {
    let got = answers(&["publish 4 0 7 900", "observe 0"]);
    assert_eq!(got, ["0 id=0", "0 revision=0 payload=900"]);
}

#[test]
fn p3_same_port_while_visible() {
    let got = answers(&["publish 4 0 7 900", "publish 5 0 7 901"]);
    assert_eq!(got, ["0 id=0", "3"]);
}

#[test]
fn p4_same_port_after_revoke() {
    let got = answers(&[
        "publish 4 0 7 900",
        "revoke 0",
        "publish 5 0 7 901",
        "count",
        "resolve 7",
    ]);
    assert_eq!(got, ["0 id=0", "0", "0 id=1", "0 count=2", "0 id=1"]);
}

#[test]
fn p5_ninety_six_records() {
    let publishes: Vec<String> = (0..96)
        .map(|port| format!("publish 4 0 {port} 1"))
        .collect();
    let mut commands: Vec<&str> = publishes.iter().map(String::as_str).collect();
    commands.extend([
        "publish 4 0 95 1",
        "publish 4 0 96 1",
        "revoke 0",
        "reclaim 0",
    ]);
    commands.extend(["count", "publish 4 0 0 1"]);
    let got = answers(&commands);
    assert_eq!(got[95], "0 id=95");
    assert_eq!(got[96..], ["7", "7", "0", "0 payload=1", "0 count=95", "7"]);
}

#[test]
fn p6_second_lease_is_1() {
    let got = answers(&[
        "publish 4 0 7 900",
        "acquire 0 5 1",
        "release 0",
        "acquire 0 5 1",
        "read 0",
        "read 2",
        "read 1",
        "release 0",
        "release 2",
    ]);
    let read = "0 id=0 revision=0 payload=900";
    assert_eq!(
        got,
        [
            "0 id=0",
            "0 lease=0",
            "0",
            "0 lease=1",
            "6",
            "1",
            read,
            "6",
            "1"
        ]
    );
}

#[test]
fn p7_leases_0_to_127() {
    let mut commands = vec!["publish 4 0 7 900"];
    commands.extend([&"acquire 0 5 1"; 129]);
    commands.extend([
        "release 64",
        "acquire 0 5 1",
        "acquire 0 5 1",
        "read 64",
        "read 128",
    ]);
    let got = answers(&commands);
    assert_eq!(got[128], "0 lease=127");
    let read = "0 id=0 revision=0 payload=900";
    assert_eq!(got[129..], ["7", "0", "0 lease=128", "7", "6", read]);
}

#[test]
fn p8_replace_when_revoked() {
    let got = answers(&[
        "publish 4 0 7 900",
        "revoke 0",
        "replace 0 5 0 901",
        "replace 0 4 0 901",
        "reclaim 0",
        "replace 0 4 0 901",
    ]);
    assert_eq!(got, ["0 id=0", "0", "8", "2", "0 payload=900", "2"]);
}

#[test]
fn replace_returns_the_earlier_handle() {
    let got = answers(&[
        "publish 4 0 7 900",
        "replace 0 4 0 901",
        "replace 0 4 1 902",
        "replace 0 4 0 903",
        "observe 0",
        "replace 1 4 0 904",
    ]);
    let observed = "0 revision=2 payload=903";
    assert_eq!(
        got,
        [
            "0 id=0",
            "0 payload=900",
            "8",
            "0 payload=901",
            observed,
            "1"
        ]
    );
}

#[test]
fn p10_adopt() {
    let got = answers(&[
        "publish 4 0 7 900",
        "adopt 0 4 1",
        "adopt 0 4 1",
        "publish 4 0 8 901",
        "adopt 1 5 1",
        "adopt 1 4 2",
        "acquire 1 5 1",
        "adopt 1 4 1",
        "adopt 1 4 0",
        "revoke 0",
        "reclaim 0",
        "adopt 0 4 1",
        "adopt 2 4 1",
    ]);
    let want = [
        "0 id=0",
        "0",
        "8",
        "0 id=1",
        "8",
        "8",
        "0 lease=0",
        "4",
        "8",
        "0",
    ];
    assert_eq!(got[..10], want);
    assert_eq!(got[10..], ["0 payload=900", "6", "1"]);
}

#[test]
fn p11_reclaim() {
    let got = answers(&[
        "publish 4 0 7 900",
        "acquire 0 5 1",
        "reclaim 0",
        "revoke 0",
        "reclaim 0",
        "release 0",
        "reclaim 0",
        "reclaim 0",
        "revoke 0",
        "observe 0",
        "acquire 0 5 1",
        "reclaim 1",
    ]);
    let drained = "0 payload=900";
    let want = [
        "0 id=0",
        "0 lease=0",
        "5",
        "0",
        "4",
        "0",
        drained,
        "6",
        "0",
        "10",
        "2",
        "1",
    ];
    assert_eq!(got, want);
}

#[test]
fn run_empty_input() {
    assert_eq!(program(b"").report(), b"stop=0 Done\n");
    assert_eq!(run(&mut Store::default(), b"", 0).stop, 0);
}

#[test]
fn run_room_of_95_and_96() {
    let count = trace(&["count"]);
    let none = run(&mut Store::default(), &count, 95);
    assert_eq!(
        (none.stop, none.read, none.answers.as_slice()),
        (12, 0, &b""[..])
    );
    let one = run(&mut Store::default(), &count, 96);
    assert_eq!(
        (one.stop, one.answers.as_slice()),
        (0, &b"answer=0\ncount=0\n"[..])
    );
    // Room is tested before the block is looked at.
    assert_eq!(run(&mut Store::default(), b"?", 95).stop, 12);
    assert_eq!(run(&mut Store::default(), b"?", 96).stop, 11);
}

#[test]
fn run_without_last_line_feed() {
    let mut text = trace(&["count", "publish 4 0 7 900"]);
    let whole = text.len();
    text.pop();
    let done = program(&text);
    assert_eq!((done.stop, done.blocks.len(), done.read), (11, 1, 9));
    assert_eq!(done.report(), b"answer=0\ncount=0\nstop=11 BadLine\n");
    // Cut anywhere inside a block, the block changes and writes nothing.
    for cut in 10..whole {
        assert_eq!(
            program(&text[..cut]).report(),
            done.report(),
            "cut at {cut}"
        );
    }
}

#[test]
fn run_widths_and_digits() {
    assert_eq!(stop(&trace(&["resolve 4294967295"])), "stop=0 Done");
    assert_eq!(stop(&trace(&["resolve 4294967296"])), "stop=11 BadLine");
    assert_eq!(
        stop(&trace(&["resolve 00000000004294967295"])),
        "stop=0 Done"
    );
    assert_eq!(
        stop(&trace(&["observe 18446744073709551615"])),
        "stop=0 Done"
    );
    assert_eq!(
        stop(&trace(&["observe 18446744073709551616"])),
        "stop=11 BadLine"
    );
    assert_eq!(
        stop(&trace(&["observe 99999999999999999999"])),
        "stop=11 BadLine"
    );
    assert_eq!(
        stop(&trace(&["observe 00000000000000000000"])),
        "stop=0 Done"
    );
    assert_eq!(
        stop(&trace(&["observe 000000000000000000000"])),
        "stop=11 BadLine"
    );
    assert_eq!(stop(b"op=observe\nid=\n"), "stop=11 BadLine");
}

#[test]
fn the_longest_trace() {
    let mut text = trace(&["count"]).repeat(7281);
    text.extend([b'?'; 7]);
    assert_eq!(text.len(), 65_536);
    assert_eq!(stop(&text), "stop=12 NoRoom");
    text.push(b'?');
    assert_eq!(program(&text).report(), b"stop=7 Capacity\n");
}
