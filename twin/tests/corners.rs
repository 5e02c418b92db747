//! The corners that the readings settle, asked by script.

use twin::script::answers;

/// Runs a script of lines and gives its answers, one for each line.
fn run(lines: &[&str]) -> Vec<String> {
    let printed = answers(lines.join("\n").as_bytes());
    printed.lines().map(str::to_string).collect()
}

fn last(lines: &[&str]) -> String {
    run(lines).pop().unwrap_or_default()
}

fn hex(map: &[(u32, u32, u32)]) -> String {
    message(1_000, 980, "00040206", map)
}

/// Channel 1, count 2, elements as (SID, use, offset).
fn message(start: u32, ack: u32, backoffs: &str, elements: &[(u32, u32, u32)]) -> String {
    let n = elements.len();
    let mut text = format!("x0102{n:02x}00{start:08x}{ack:08x}{backoffs}");
    for (sid, usage, offset) in elements {
        text += &format!("{:08x}", sid << 18 | usage << 14 | offset);
    }
    text
}

fn read(elements: &[(u32, u32, u32)]) -> String {
    last(&[&format!("read {}", hex(elements))])
}

const REQ: (u32, u32, u32) = (0x3FFF, 1, 0);

#[test]
fn count_before_length_and_length_before_backoff() {
    assert_eq!(last(&["read x"]), "refused 1 0");
    let empty = "read x0102000000000000000000ff00000000";
    assert_eq!(last(&[empty]), "refused 2 0");
    let long = format!("read {}00", message(0, 0, "10000000", &[REQ, (0, 7, 1)]));
    assert_eq!(last(&[&long]), "refused 3 0");
    for backoffs in ["10100000", "00001010", "03020000", "00000302"] {
        let line = format!("read {}", message(0, 0, backoffs, &[REQ, (0, 7, 0)]));
        assert_eq!(last(&[&line]), "refused 4 0");
    }
    let reserved = "read x010202ff000003ca000003c000040206fffc40000001c01e";
    assert_eq!(last(&[reserved]), "map 1 2 2 970 960 0 4 2 6 1 30");
}

#[test]
fn order_of_an_elements_faults() {
    assert_eq!(read(&[(0, 9, 5)]), "refused 5 0");
    assert_eq!(read(&[(5, 7, 5)]), "refused 10 0");
    assert_eq!(read(&[(0, 8, 5), (0, 7, 9)]), "refused 10 0");
    assert_eq!(read(&[(0x3E00, 1, 5_000)]), "refused 6 0");
    assert_eq!(read(&[(0x3FFF, 1, 5_000)]), "refused 7 0");
    assert_eq!(read(&[REQ, (5, 5, 4), (5, 5, 5_000)]), "refused 8 2");
    assert_eq!(read(&[REQ, (5, 5, 4), (5, 0, 5), (5, 5, 4)]), "refused 5 2");
}

#[test]
fn the_null_and_what_follows() {
    assert_eq!(read(&[REQ]), "refused 10 1");
    assert_eq!(read(&[(5, 5, 0)]), "refused 10 1");
    assert_eq!(read(&[REQ, (0, 7, 9), (0, 7, 9)]), "refused 10 2");
    assert_eq!(read(&[REQ, (0, 7, 9), (5, 4, 9)]), "refused 10 2");
    assert_eq!(read(&[REQ, (0, 7, 9), (5, 8, 4_097)]), "refused 7 2");
    assert_eq!(read(&[REQ, (0, 7, 9), (0, 5, 8)]), "refused 6 2");
    let all = [REQ, (0, 7, 9), (5, 5, 9), (5, 6, 9), (5, 8, 9)];
    assert_eq!(read(&all), "map 1 2 5 1000 980 0 4 2 6 1 9");
    let after = format!("after {}", hex(&all));
    assert_eq!(last(&[&after]), "x001540090015800900160009");
    let refused = format!("after {}", hex(&[REQ, (0, 7, 9), (5, 4, 9)]));
    assert_eq!(last(&[&refused]), "x");
}

#[test]
fn offsets_at_the_limit() {
    assert_eq!(read(&[REQ, (5, 5, 4_096), (0, 7, 4_097)]), "refused 8 2");
    assert_eq!(read(&[REQ, (5, 5, 4_096), (0, 7, 4_096)]), "refused 7 2");
    assert_eq!(read(&[REQ, (5, 5, 4_096)]), "refused 10 2");
    assert_eq!(read(&[(5, 5, 0), (5, 5, 256), (0, 7, 256)]), "refused 9 1");
    assert_eq!(
        read(&[(5, 4, 0), (0, 7, 256)]),
        "map 1 2 2 1000 980 0 4 2 6 1 256"
    );
}

#[test]
fn sids_for_each_use() {
    for (usage, good, bad) in [
        (
            1,
            vec![1, 0x3DFF, 0x3E01, 0x3EFF, 0x3FFF],
            vec![0, 0x3E00, 0x3F00, 0x3FFE],
        ),
        (
            2,
            vec![0x2000, 0x3DFF, 0x3FF1, 0x3FFE],
            vec![0, 0x1FFF, 0x3E00, 0x3FF0, 0x3FFF],
        ),
        (
            3,
            vec![0x2000, 0x3DFF, 0x3FFF],
            vec![0, 0x1FFF, 0x3E00, 0x3FFE],
        ),
        (4, vec![1, 0x1FFF], vec![0, 0x2000, 0x3FFF]),
        (5, vec![1, 0x1FFF], vec![0, 0x2000, 0x3FFF]),
        (6, vec![1, 0x1FFF], vec![0, 0x2000, 0x3FFF]),
    ] {
        for sid in good {
            assert!(read(&[(sid, usage, 0), (0, 7, 9)]).starts_with("map"));
        }
        for sid in bad {
            assert_eq!(read(&[(sid, usage, 0), (0, 7, 9)]), "refused 6 0");
        }
    }
    assert_eq!(read(&[REQ, (1, 7, 9)]), "refused 6 1");
    assert_eq!(read(&[REQ, (0, 7, 9), (0x2000, 8, 9)]), "refused 6 2");
}

#[test]
fn values_too_wide_for_the_writer() {
    let write = |elements: &str| last(&[&format!("write 0 1 2 0 0 0 0 0 0 {elements}")]);
    assert_eq!(write("16384 1 0 0 7 9"), "refused 6 0 x");
    assert_eq!(write("5 17 0 0 7 9"), "refused 5 0 x");
    assert_eq!(write("5 1 16384 0 7 9"), "refused 7 0 x");
    assert_eq!(write("5 1 0 0 7 16393"), "refused 8 1 x");
    assert_eq!(write("5 1 0 0 7 9 5 5 16393"), "refused 7 2 x");
    assert_eq!(write("5 1 0 0 7 9"), "refused 11 0 x");
    let spare = "write 26 1 2 0 0 0 0 0 0 16383 1 0 0 7 1";
    let expected = "wrote 24 x0102020000000000000000000000000\
                    0fffc40000001c001a5a5";
    assert_eq!(last(&[spare]), expected);
}

#[test]
fn span_at_its_edge() {
    assert_eq!(last(&["span 0 30 2147483617 30"]), "span 0 2147483647 0");
    assert_eq!(last(&["span 0 30 2147483618 30"]), "span none 0");
    assert_eq!(last(&["span 0 30 2147483617 31"]), "span none 0");
    assert_eq!(last(&["span 7 9 7 30"]), "span 7 37 0");
    assert_eq!(last(&["span 4294967290 30 3 0"]), "span 4294967290 24 0");
    assert_eq!(last(&["span"]), "span none 0");
}

#[test]
fn record_is_checked_first() {
    let busy = "record 0 5 1 2 0 0 0 1 9 0 0 0 0";
    assert!(last(&[busy, "offer 0 0"]).starts_with("refused 17 0"));
    assert!(last(&["offer 0 0"]).starts_with("refused 6 0"));
    let fine = "record 0 5 1 2 1 0 0 2 255 15 32767 16 0";
    assert!(last(&[fine, "offer 0 0"]).starts_with("refused 16 0"));
    for odd in [
        "record 0 5 1 2 1 0 0 2 256 15 32767 16 0",
        "record 0 5 1 2 1 0 0 2 255 16 32767 16 0",
        "record 0 5 1 2 1 0 0 2 255 15 32768 16 0",
        "record 0 5 1 2 1 0 0 2 255 15 32767 17 0",
        "record 0 5 1 2 1 0 0 3 255 16 0 16 0",
        "record 0 5 1 2 1 0 0 3 255 15 0 17 0",
    ] {
        assert!(last(&[odd, "hear 0 0 0 x"]).starts_with("refused 17 0"));
    }
}

#[test]
fn stale_and_late() {
    let hear = |end: &str, present: u32| {
        let record = format!("record 0 5 1 2 1 {end} 0 0 0 0 0 0");
        let map = hex(&[REQ, (0, 7, 9)]);
        last(&[&record, &format!("hear 0 {present} 0 {map}")])
    };
    assert!(hear("1 1000", 999).starts_with("heard 0 none"));
    assert!(hear("1 1001", 999).starts_with("refused 14 0"));
    assert!(hear("0 1001", 999).starts_with("heard 0 none"));
    assert!(hear("1 2147484649", 999).starts_with("heard 0 none"));
    assert!(hear("1 2147484648", 999).starts_with("refused 14 0"));
    assert!(hear("0 0", 1_000).starts_with("refused 15 0"));
    assert!(hear("0 0", 2_147_484_648).starts_with("refused 15 0"));
    assert!(hear("0 0", 2_147_484_649).starts_with("heard 0 none"));
    assert!(hear("1 1001", 1_000).starts_with("refused 14 0"));
}

/// One hearing of a station, SID 5 and r 2, in the state given.
fn heard(state: &str, draw: u32, map: &str) -> String {
    let record = format!("record 0 5 1 2 2 0 0 {state}");
    last(&[&record, &format!("hear 0 999 {draw} {map}")])
}

#[test]
fn a_burst_ends_the_hearing() {
    let grant = hex(&[REQ, (5, 6, 6), (5, 5, 9), (0, 7, 11)]);
    let idle = "heard 2 none 5 1 2 2 1 1011 0 0 0 0 0 0";
    for state in ["0 0 0 0 0 0", "1 9 0 0 0 0", "2 9 3 0 0 0", "3 9 3 0 0 900"] {
        assert_eq!(heard(state, 0, &grant), idle);
    }
    let beside = hex(&[REQ, (5, 6, 6), (0, 7, 11), (5, 6, 11)]);
    let stays = "heard 1 none 5 1 2 2 1 1011 3 9 3 0 0 900";
    assert_eq!(heard("3 9 3 0 0 900", 0, &beside), stays);
    let idle = "heard 1 none 5 1 2 2 1 1011 0 0 0 0 0 0";
    assert_eq!(heard("2 9 3 0 0 0", 0, &beside), idle);
    let acknowledged = hex(&[REQ, (5, 6, 6), (0, 7, 11), (5, 8, 11)]);
    assert_eq!(heard("3 9 3 0 0 900", 0, &acknowledged), idle);
}

#[test]
fn losses() {
    let plain = hex(&[REQ, (0, 7, 11)]);
    let sent = "heard 0 1004 5 1 2 2 1 1011 3 9 4 0 1 1004";
    assert_eq!(heard("3 9 3 0 0 900", 18, &plain), sent);
    let kept = "heard 0 none 5 1 2 2 1 1011 2 9 4 0 1 0";
    assert_eq!(heard("3 9 3 0 0 900", 5, &plain), kept);
    let dropped = "heard 0 none 5 1 2 2 1 1011 0 0 0 0 0 0";
    assert_eq!(heard("3 9 3 0 16 900", 0, &plain), dropped);
    let lowered = "heard 0 1000 5 1 2 2 1 1011 3 9 6 0 1 1000";
    assert_eq!(heard("3 9 15 0 0 900", 0, &plain), lowered);
    let pending = hex(&[REQ, (0, 7, 11), (5, 5, 11)]);
    let stays = "heard 0 none 5 1 2 2 1 1011 3 9 3 0 16 900";
    assert_eq!(heard("3 9 3 0 16 900", 0, &pending), stays);
}

#[test]
fn own_requests() {
    let short = hex(&[REQ, (5, 1, 2), (0, 7, 3)]);
    let kept = "heard 0 none 5 1 2 2 1 1003 2 9 3 0 0 0";
    assert_eq!(heard("2 9 3 1 0 0", 0, &short), kept);
    let second = hex(&[REQ, (5, 1, 2), (9, 5, 3), (5, 1, 5), (0, 7, 7)]);
    let sent = "heard 0 1005 5 1 2 2 1 1007 3 9 3 0 0 1005";
    assert_eq!(heard("2 9 3 0 0 0", 0, &second), sent);
    assert_eq!(heard("2 9 3 9 0 0", 0, &second), sent);
    let group = hex(&[(0x2005, 1, 0), (0x2005, 2, 8), (0, 7, 16)]);
    let kept = "heard 0 none 5 1 2 2 1 1016 2 9 3 0 0 0";
    assert_eq!(heard("2 9 3 0 0 0", 0, &group), kept);
}

#[test]
fn grants_asked_for() {
    let map = hex(&[(5, 5, 0), (6, 6, 2), (5, 6, 5), (0, 7, 9), (5, 5, 9)]);
    let grant = |asked: &str| last(&[&format!("grant {asked} {map}")]);
    assert_eq!(grant("5 0"), "grant 1000 2");
    assert_eq!(grant("5 1"), "grant 1005 4");
    assert_eq!(grant("5 2"), "none");
    assert_eq!(grant("0 0"), "none");
    assert_eq!(grant("65541 0"), "none");
}

#[test]
fn tables() {
    let map = hex(&[REQ, (0, 7, 9)]);
    let table = |front: &str| last(&["station 1 5 1 2 1", &format!("table {front} {map}")]);
    assert_eq!(table("0 0 999 0"), "table 0");
    assert_eq!(table("0 3 999 4 0 0 0 0"), "table 0 6 0 6 9999");
    assert_eq!(table("0 3 999 3 0 0"), "table 17 9999 9999 9999");
    assert_eq!(table("0 3 999 2 0 0 0"), "table 17 9999 9999");
    assert_eq!(table("38 3 999 3 0 0 0"), "bad");
}

#[test]
fn headend_handed_in() {
    let refused = |fields: &str| {
        let answer = last(&[&format!("holding 0 {fields}"), "request 0 9 9 5"]);
        answer.split(' ').take(3).collect::<Vec<_>>().join(" ")
    };
    assert_eq!(refused("9 0 1 2 1 0 0 0 7 65 0 0 0"), "refused 4 0");
    assert_eq!(refused("9 0 1 2 0 0 0 0 7 65 1 1 0"), "refused 6 0");
    assert_eq!(refused("9 0 1 2 0 0 0 0 7 2 1 0 0 1 1 0"), "refused 17 0");
    assert_eq!(refused("9 0 1 2 0 0 0 0 7 1 1 1 0 0 0 0"), "taken 9 0");
    assert_eq!(refused("9 0 1 2 0 0 0 0 7 2 1 1 0 1 1 0"), "taken 9 0");
}

#[test]
fn fresh_headend() {
    let fresh = "headend 0 1000 1 2 0 0 0 0 0";
    for (first, number) in [(999, 20), (1_000, 21), (1_001, 21)] {
        let request = format!("request 0 5 9 {first}");
        assert!(last(&[fresh, &request]).starts_with(&format!("refused {number} 0")));
    }
    assert!(last(&[fresh, "issue 0 999 1 1 24"]).starts_with("refused 22 0"));
    assert!(last(&[fresh, "issue 0 1001 1 1 24"]).starts_with("refused 22 0"));
    assert!(last(&[fresh, "issue 0 1000 1 1 24"]).starts_with("issued 24"));
}

#[test]
fn grants_are_a_prefix() {
    let held = "holding 0 1000 950 1 2 0 4 2 6 10 3 5 10 960 6 11 961 7 1 962";
    let answer = last(&[held, "issue 0 960 5 25 36"]);
    let map = message(
        1_000,
        960,
        "00040206",
        &[REQ, (5, 5, 5), (0, 7, 15), (6, 5, 15), (7, 5, 15)],
    );
    let after = "1015 960 1 2 0 4 2 6 10 2 6 11 961 7 1 962";
    assert_eq!(answer, format!("issued 36 {map} {after}"));
    let answer = last(&[held, "issue 0 960 5 26 36"]);
    let map = message(
        1_000,
        960,
        "00040206",
        &[REQ, (5, 5, 5), (6, 6, 15), (0, 7, 26), (7, 5, 26)],
    );
    assert_eq!(
        answer,
        format!("issued 36 {map} 1026 960 1 2 0 4 2 6 10 1 7 1 962")
    );
    let short = last(&[held, "issue 0 960 5 26 35", "held 0"]);
    assert_eq!(short, held.replace("holding 0", "headend"));
}

#[test]
fn spare_places() {
    let fresh = "headend 0 1000 1 2 0 0 0 0 0";
    let zeros = " 0".repeat(192);
    let all = last(&[fresh, "held 0 64"]);
    assert_eq!(all, format!("headend 1000 1000 1 2 0 0 0 0 0 0{zeros}"));
    let held = "holding 0 1000 950 1 2 0 4 2 6 10 2 5 9 960 6 10 961 7 11 962 8 12 963";
    let request = "request 0 9 13 970";
    let taken = "headend 1000 950 1 2 0 4 2 6 10 3 5 9 960 6 10 961 9 13 970";
    assert_eq!(last(&[held, request, "held 0"]), taken);
    let spare = last(&[held, request, "held 0 4"]);
    assert_eq!(spare, format!("{taken} 8 12 963"));
    let after = last(&[held, request, "issue 0 970 5 14 36", "held 0 4"]);
    let rest = "headend 1014 970 1 2 0 4 2 6 10 2 6 10 961 9 13 970 0 0 0 0 0 0";
    assert_eq!(after, rest);
    assert_eq!(last(&[held, "held 0 1"]).split(' ').count(), 14);
    assert_eq!(last(&[held, "held 0 65"]), "bad");
    assert_eq!(last(&[held, "held 0 1 1"]), "bad");
}

#[test]
fn lines_of_other_forms() {
    for line in [
        "Read x",
        " read x",
        "read x ",
        "read  x",
        "read x0",
        "read xAB",
        "read",
        "read x x",
        "earlier 1",
        "earlier 1 2 3",
        "earlier 1 4294967296",
        "earlier 1 00000000002",
        "earlier -1 2",
        "show 40",
        "held 4",
        "station 0 5 256 0 1",
        "hear 0 0 65536 x",
        "record 0 5 1 2 1 2 0 0 0 0 0 0 0",
        "record 0 5 1 2 1 0 0 4 0 0 0 0 0",
        "span 1",
        "write 1001 1 2 0 0 0 0 0 0",
        "write 9 1 2 0 0 0 0 0 0 1",
        "earlier\t1 2",
        "read x00\r",
        "issue 0 0 1 1 1001",
        "headend 0 0 1 2 0 0 0 256 0",
        " ",
        "x",
    ] {
        assert_eq!(last(&[line]), "bad", "{line}");
    }
    assert_eq!(
        run(&["earlier 1 0000000002", "", "earlier 2 1"]),
        ["yes", "no"]
    );
}
