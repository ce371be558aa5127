//! Worked cases of the manual.

use simulator::script::run;

fn answers(script: &str) -> String {
    let mut out = Vec::new();
    run(script.as_bytes(), &mut out, |_, _| {});
    String::from_utf8(out).expect("answers are ASCII")
}

/// Runs lines of `command => answer behind the line number`.
fn check(cases: &[(&str, &str)]) {
    let script: String = cases.iter().map(|(line, _)| format!("{line}\n")).collect();
    let expected: String =
        cases.iter().enumerate().map(|(index, (_, answer))| format!("{} {answer}\n", index + 1)).collect();
    assert_eq!(answers(&script), expected);
}

#[test]
fn the_printed_example() {
    let script = "\
open 0 1 free
issue 0 2 gold 100
send 0 0 2 5 gold 40 0
receive 0 0 1
send 1 0 5 3 transfer/channel-0/gold 10 0
audit
";
    let expected = "\
1 ok 0
2 ok
3 ok 1
4 ok 1
5 ok 1
6 ok
audit 1 1 2
token 0 gold 100 90 10
escrow 0 0 gold 40 30 10
";
    assert_eq!(answers(script), expected);
}

#[test]
fn a_strict_link_keeps_the_order() {
    check(&[
        ("open 0 1 strict", "ok 0"),
        ("issue 0 0 gold 100", "ok"),
        ("send 0 0 0 1 gold 1 0", "ok 1"),
        ("send 0 0 0 1 gold 2 0", "ok 2"),
        ("receive 0 0 2", "no 26 book"),
        ("receive 0 0 1", "ok 1"),
        ("receive 0 0 1", "no 25 book"),
        ("receive 0 0 2", "ok 1"),
        ("ack 0 0 2", "no 29 world"),
        ("ack 0 0 1", "ok"),
        ("ack 0 0 2", "ok"),
        ("ack 0 0 2", "no 19 world"),
    ]);
}

#[test]
fn a_timeout_closes_a_strict_link_both_ways() {
    check(&[
        ("open 1 0 strict", "ok 0"),
        ("issue 0 0 gold 100", "ok"),
        ("issue 1 0 iron 50", "ok"),
        ("send 0 0 0 1 gold 10 0", "ok 1"),
        ("send 0 0 0 1 gold 20 2", "ok 2"),
        ("send 1 0 0 1 iron 5 0", "ok 1"),
        ("receive 0 1 1", "ok 1"),
        ("timeout 0 1 2", "no 21 world"),
        ("tick 1 2", "ok"),
        ("send 0 0 0 1 gold 1 2", "no 17 world"),
        ("receive 0 1 2", "no 20 world"),
        ("timeout 0 1 2", "ok"),
        ("send 0 0 0 1 gold 1 0", "no 16 world"),
        ("receive 0 0 1", "no 16 world"),
        ("timeout 0 0 1", "ok"),
        ("timeout 0 1 1", "no 28 book"),
        ("ack 0 1 1", "ok"),
        ("pay 0 0 2 gold 91", "no 32 ledger"),
        ("pay 0 0 2 gold 90", "ok"),
        ("pay 1 0 2 iron 50", "ok"),
    ]);
}

#[test]
fn a_sister_link_makes_the_trace_longer() {
    check(&[
        ("open 0 1 free", "ok 0"),
        ("open 0 1 free", "ok 1"),
        ("issue 0 0 gold 100", "ok"),
        ("send 0 0 0 3 gold 40 0", "ok 1"),
        ("receive 0 0 1", "ok 1"),
        ("send 1 1 3 0 transfer/channel-0/gold 40 0", "ok 1"),
        ("receive 1 1 1", "ok 1"),
        ("pay 0 0 1 gold 61", "no 32 ledger"),
        ("pay 0 0 1 transfer/channel-1/transfer/channel-0/gold 40", "ok"),
        ("home 0 transfer/channel-1/transfer/channel-0/gold", "ok 0 gold"),
        ("retire 0 1 transfer/channel-1/transfer/channel-0/gold 1", "no 15 world"),
        ("send 0 1 1 3 transfer/channel-1/transfer/channel-0/gold 40 0", "ok 1"),
        ("receive 1 0 1", "ok 1"),
        ("send 1 0 3 0 transfer/channel-0/gold 40 0", "ok 1"),
        ("receive 0 1 1", "ok 1"),
        ("retire 0 0 gold 100", "ok"),
    ]);
}

#[test]
fn a_seventh_hop_is_refunded() {
    let mut script = String::from("open 0 1 free\nopen 0 1 free\nissue 0 0 gold 9\n");
    let mut denomination = String::from("gold");
    for hop in 0..7 {
        let (chain, link) = (hop % 2, hop % 2);
        script += &format!("send {chain} {link} 0 0 {denomination} 9 0\n");
        script += &format!("receive {link} {chain} {}\n", hop / 2 + 1);
        if hop < 6 {
            denomination = format!("transfer/channel-{link}/{denomination}");
        }
    }
    script += &format!("pay 0 0 1 {denomination} 9\nack 0 0 4\npay 0 0 1 {denomination} 9\naudit\n");
    let text = answers(&script);
    let last: Vec<&str> = text.lines().skip(15).collect();
    assert_eq!(last[..6], ["16 ok 4", "17 ok 2", "18 no 32 ledger", "19 ok", "20 ok", "21 ok"],);
    assert_eq!(last[6..8], ["audit 1 2 7", "token 0 gold 9 9 0"]);
    assert_eq!(last[8..].len(), 6, "six hops stand on six escrows");
}

#[test]
fn lines_before_their_commands() {
    let long = "x".repeat(256);
    assert_eq!(answers(&format!("#{long}\n{long}\nbar 0 0")), "1 no 1 script\n2 no 1 script\n3 ok\n");
    assert_eq!(answers("\n# remark \t\n\nbar 0 0"), "4 ok\n");
    assert_eq!(answers(" bar 0 0\nbar 0 0 \nbar  0 0\nbar\t0 0\nbar 0 0\r\n   "), {
        let lines: Vec<String> = (1..=6).map(|n| format!("{n} no 2 script\n")).collect();
        lines.concat()
    });
    assert_eq!(answers("help\nbar 0\nbar 00 0\nbar 8 16\nbar 0 16"), {
        "1 no 3 script\n2 no 4 script\n3 no 5 script\n4 no 6 world\n5 no 12 world\n"
    });
    assert_eq!(answers(""), "");
    assert_eq!(answers(&"\n".repeat(65_537)), "0 no 1 script\n");
    assert_eq!(answers(&("\n".repeat(65_529) + "bar 0 0")), "65530 ok\n");
}

#[test]
fn the_examples_answer_as_their_files_say() {
    let examples = std::path::Path::new(env!("CARGO_MANIFEST_DIR")).join("../../../examples");
    let mut seen = 0;
    for entry in std::fs::read_dir(examples).expect("the examples") {
        let path = entry.expect("a file").path();
        if path.extension().is_some_and(|e| e == "txt") {
            let script = std::fs::read_to_string(&path).expect("a script");
            let expected = std::fs::read_to_string(path.with_extension("out")).expect("its answers");
            assert_eq!(answers(&script), expected, "{}", path.display());
            seen += 1;
        }
    }
    assert!(seen >= 7);
}

/// SUPPLY = HELD + OPEN and ESCROW = VOUCHERS + OPEN, in audits after every 50th line.
#[test]
fn audits_of_random_scripts_add_up() {
    let mut lines = 0;
    for seed in 0..100 {
        let script = simulator::generator::generate(seed, false);
        let mut session = simulator::script::Session::default();
        let mut out = Vec::new();
        for (index, line) in script.split(|&b| b == b'\n').enumerate() {
            session.line(line, &mut out);
            if index % 50 == 49 {
                out.clear();
                session.line(b"audit", &mut out);
                lines += check_audit(std::str::from_utf8(&out).expect("answers are ASCII"));
            }
        }
    }
    assert!(lines > 10_000);
}

fn check_audit(audit: &str) -> usize {
    let mut lines = 0;
    for line in audit.lines().filter(|l| l.starts_with("token ") || l.starts_with("escrow ")) {
        let words: Vec<&str> = line.split(' ').collect();
        let figures: Vec<u128> = words[words.len() - 3..].iter().map(|w| w.parse().expect("a number")).collect();
        assert_eq!(figures[0], figures[1] + figures[2], "{line}");
        lines += 1;
    }
    lines
}
