//! Each rule once, and each edge of the format once.

use crate::flaws;
use crate::floor::{Call, Floor};
use crate::generate;
use crate::ledger::Vote;
use crate::random::Random;
use crate::refusal::Refusal;
use crate::reports::{entry_letters, rehearsal, worklist};
use crate::script::{self, LONGEST};

/// The floor after the calls, which must all be taken. Lines are parted by commas.
fn floor(lines: &str) -> Floor {
    let (mut floor, calls) = opened(lines);
    for call in calls {
        assert_eq!(floor.carry_out(call), Ok(()), "{}", script::call_line(call));
    }
    floor
}

/// The refusal of the last call. It must leave everything as it was; those before are taken.
fn refusal(lines: &str) -> (u8, char) {
    let (taken, last) = lines.rsplit_once(',').expect("an opening and a call");
    let mut floor = floor(taken);
    let before = floor.clone();
    let call = script::read_call(last.trim().as_bytes()).expect("a good line");
    let refusal = floor.carry_out(call).expect_err("a refusal");
    assert_eq!(floor, before);
    (refusal.number(), refusal.layer())
}

fn opened(lines: &str) -> (Floor, Vec<Call>) {
    let text: String = lines
        .split(',')
        .map(|line| format!("{}\n", line.trim()))
        .collect();
    let ((_, votes), rest) = script::opening(text.as_bytes());
    let floor = Floor::open(&votes.expect("a good opening")).expect("an open floor");
    (
        floor,
        script::calls(rest)
            .map(|(_, call)| call.expect("a good line"))
            .collect(),
    )
}

fn journals(floor: &Floor) -> Vec<String> {
    floor.ledgers().iter().map(entry_letters).collect()
}

/// Up to the coordinator's last vote, with two ledgers.
const VOTED: &str = "B, S 0, D 0 1, S 1, D 1 0";

#[test]
fn a_floor_has_two_to_eight_ledgers() {
    for size in [0, 1, 9] {
        assert_eq!(
            Floor::open(&vec![Vote::Yes; size]),
            Err(Refusal::MisreadOpening)
        );
    }
    for size in 2..=8 {
        assert!(Floor::open(&vec![Vote::No; size]).is_ok());
    }
}

#[test]
fn all_yes_posts_with_four_messages() {
    let floor = floor(&format!(
        "F 2 YY, {VOTED}, S 0, S 0, D 0 1, S 1, S 1, D 1 0"
    ));
    assert_eq!(journals(&floor), ["adh", "bfh"]);
    assert_eq!(floor.network().sent(), 4);
}

#[test]
fn one_no_drops_whoever_votes_it() {
    for (votes, ready) in [("YN", "cgi"), ("NY", "bgi"), ("NN", "cgi")] {
        let floor = floor(&format!(
            "F 2 {votes}, {VOTED}, S 0, S 0, D 0 1, S 1, S 1, D 1 0"
        ));
        assert_eq!(journals(&floor), ["aei", ready]);
    }
}

#[test]
fn prepares_and_orders_go_from_the_lowest_upwards() {
    let prepared = floor("F 3 YYY, B, S 0, D 0 1, S 0, D 0 2");
    assert_eq!(journals(&prepared), ["a", "b", "b"]);
    assert_eq!(refusal("F 3 YYY, B, S 0, S 0, S 0"), (6, 'F'));
    let orders = floor("F 3 YYY, E 1 0, E 1 2, S 1, D 1 0, S 1, D 1 2, S 1");
    assert_eq!(journals(&orders), ["g", "ei", "g"]);
}

#[test]
fn a_prepare_counts_at_the_start_only() {
    let late = floor("F 3 YYY, B, S 0, E 1 0, D 0 1");
    assert_eq!(journals(&late), ["a", "-", "-"]);
}

#[test]
fn a_vote_counts_until_the_coordinator_decides() {
    let early = floor("F 3 YYY, B, S 0, D 0 1, S 1, D 1 0, S 0, D 0 2, S 2, D 2 0");
    assert_eq!(journals(&early), ["ad", "b", "b"]);
    let late = floor("F 2 YY, B, S 0, D 0 1, S 1, E 0 1, D 1 0");
    assert_eq!(journals(&late), ["ae", "b"]);
}

#[test]
fn the_same_decision_again_is_ignored_and_the_contrary_disputed_once() {
    let same = floor(&format!("F 2 YY, {VOTED}, S 0, D 0 1, S 1, D 1 0"));
    assert_eq!(journals(&same), ["ad", "bf"]);
    let contrary = "F 3 YYY, B, S 0, D 0 1, S 1, D 1 0, S 0, D 0 2, S 2, D 2 0, \
                    E 1 0, E 1 2, S 1, E 2 0, E 2 1, S 2, D 1 0, D 2 0";
    assert_eq!(journals(&floor(contrary)), ["adj", "be", "be"]);
}

#[test]
fn an_early_expiry_ends_in_two_decisions_and_two_disputes() {
    let lines = format!("F 2 YY, {VOTED}, S 0, S 0, E 1 0, S 1, S 1, D 0 1, D 1 0");
    assert_eq!(journals(&floor(&lines)), ["adhj", "beij"]);
}

#[test]
fn an_order_can_come_before_the_beginning() {
    let lines = "F 2 YY, E 1 0, S 1, D 1 0";
    assert_eq!(journals(&floor(lines)), ["g", "e"]);
    assert_eq!(refusal(&format!("{lines}, B")), (5, 'F'));
}

#[test]
fn a_leader_with_blank_replies_drops() {
    let asked = "F 4 YYYY, E 1 0, S 1, D 1 2, D 2 1, S 1, D 1 3";
    assert_eq!(journals(&floor(asked)), ["-", "-", "-", "-"]);
    assert_eq!(refusal(&format!("{asked}, S 1")), (6, 'F'));
    assert_eq!(
        journals(&floor(&format!("{asked}, D 3 1"))),
        ["-", "e", "-", "-"]
    );
}

#[test]
fn a_reply_with_a_decision_counts_as_an_order_in_any_round() {
    let told = "F 4 YYYY, E 2 0, E 2 1, E 2 3, E 1 0, S 1, D 1 2, E 1 3, D 2 1";
    assert_eq!(journals(&floor(told)), ["-", "g", "e", "-"]);
}

#[test]
fn a_blank_reply_to_an_earlier_round_does_not_count() {
    let lines = "F 4 YYYY, E 1 0, S 1, D 1 2, E 1 3, D 2 1";
    assert_eq!(journals(&floor(lines)), ["-", "-", "-", "-"]);
    let again = format!("{lines}, S 1, D 1 2, D 2 1");
    assert_eq!(journals(&floor(&again)), ["-", "e", "-", "-"]);
}

#[test]
fn a_leader_does_not_ask_whom_it_noticed() {
    let lines = "F 4 YYYY, E 2 3, E 1 2, E 1 0, S 1";
    assert_eq!(refusal(&format!("{lines}, S 1")), (6, 'F'));
    assert_eq!(
        journals(&floor(&format!("{lines}, D 1 3, D 3 1"))),
        ["-", "e", "-", "-"]
    );
}

#[test]
fn a_participant_leads_only_past_all_lower_ones() {
    assert_eq!(refusal("F 3 YYY, E 2 0, S 2"), (6, 'F'));
    assert_eq!(journals(&floor("F 3 YYY, E 2 0, E 2 1")), ["-", "-", "e"]);
}

#[test]
fn the_coordinator_drops_for_a_missing_vote_only() {
    let lines = "F 3 YYY, B, S 0, S 0, D 0 1, S 1, D 1 0, E 0 1";
    assert_eq!(journals(&floor(lines)), ["a", "b", "-"]);
    assert_eq!(
        journals(&floor(&format!("{lines}, E 0 2"))),
        ["ae", "b", "-"]
    );
}

#[test]
fn a_ledger_that_is_stopped_gets_nothing_and_says_nothing() {
    let floor = floor("F 3 YYY, E 1 0, S 1, X 2, D 1 2");
    assert_eq!(
        (floor.network().sent(), floor.network().loaded().count()),
        (1, 0)
    );
}

#[test]
fn what_a_stopped_ledger_sent_still_arrives() {
    assert_eq!(journals(&floor("F 2 YY, B, S 0, X 0, D 0 1")), ["a", "b"]);
}

#[test]
fn a_restart_goes_by_the_journal() {
    let before_vote = "F 2 YY, B, S 0, D 0 1";
    let posted = format!("F 2 YY, {VOTED}, S 0, D 0 1");
    for (lines, ledger, text) in [
        ("F 2 YY".to_string(), 0, "K i"),
        ("F 2 YY, B".to_string(), 0, "K ai"),
        (format!("F 2 YY, {VOTED}"), 0, "U ad"),
        (format!("F 2 YY, {VOTED}, S 0, S 0"), 0, "K adh"),
        ("F 2 YY, B, E 0 1".to_string(), 0, "K aei"),
        (before_vote.to_string(), 1, "U b"),
        (before_vote.replace("YY", "YN"), 1, "K ci"),
        (posted.clone(), 1, "U bf"),
        (format!("{posted}, S 1, S 1"), 1, "K bfh"),
        (format!("F 2 NY, {VOTED}, S 0, D 0 1"), 1, "K bgi"),
        (format!("F 2 NY, {VOTED}, S 0, D 0 1, S 1, S 1"), 1, "K bgi"),
    ] {
        let lines = format!("{lines}, X {ledger}, R {ledger}");
        let script: String = lines
            .split(',')
            .map(|line| format!("{}\n", line.trim()))
            .collect();
        let found = rehearsal(script.as_bytes());
        assert!(
            found.contains(&format!("L {ledger} {text}\n")),
            "{lines}: {found}"
        );
    }
}

#[test]
fn refusals_come_in_their_order() {
    for (lines, number, layer) in [
        ("F 2 YY, X 0, B", 3, 'F'),
        ("F 2 YY, B, B", 5, 'F'),
        ("F 2 YY, S 2", 2, 'F'),
        ("F 2 YY, X 1, S 1", 3, 'F'),
        ("F 2 YY, S 1", 6, 'F'),
        ("F 2 YY, D 0 2", 2, 'F'),
        ("F 2 YY, D 1 1", 2, 'F'),
        ("F 2 YY, X 1, D 0 1", 7, 'N'),
        ("F 2 YY, E 0 0", 2, 'F'),
        ("F 2 YY, E 9 0", 2, 'F'),
        ("F 2 YY, X 1, E 1 0", 3, 'F'),
        ("F 2 YY, E 0 1", 9, 'F'),
        ("F 2 YY, E 1 0, E 1 0", 9, 'F'),
        ("F 3 YYY, E 2 0, E 2 0", 10, 'F'),
        ("F 2 YY, X 2", 2, 'F'),
        ("F 2 YY, X 1, X 1", 3, 'F'),
        ("F 2 YY, R 2", 2, 'F'),
        ("F 2 YY, R 1", 4, 'F'),
        ("F 2 YY, X 1, R 1, R 1", 4, 'F'),
        ("F 2 YY, X 1, R 1, X 1", 3, 'F'),
    ] {
        assert_eq!(refusal(lines), (number, layer), "{lines}");
    }
}

#[test]
fn a_full_link_stops_the_act_and_the_question_alike() {
    let asks = "F 5 YYYYY, E 1 0, S 1, E 1 4, S 1";
    assert_eq!(refusal(&format!("{asks}, E 1 3, S 1")), (8, 'N'));
    let replies = "F 5 YYYYY, E 1 0, S 1, D 1 2, E 1 4, S 1, D 1 2, E 1 3, S 1";
    assert_eq!(refusal(&format!("{replies}, D 1 2")), (8, 'N'));
    let orders = format!("{replies}, E 2 0, E 2 1, E 2 3, E 2 4, S 2");
    assert_eq!(refusal(&format!("{orders}, S 2")), (8, 'N'));
}

#[test]
fn an_expiry_is_on_time_once_nothing_of_the_stopped_is_on_its_way() {
    assert!(!floor("F 3 YYY, B, S 0").on_time(0));
    assert!(!floor("F 3 YYY, B, S 0, X 0").on_time(0));
    assert!(floor("F 3 YYY, B, S 0, X 0, D 0 1").on_time(0));
    assert!(floor("F 3 YYY, B, S 0, X 0, X 1, R 0").on_time(0));
}

#[test]
fn the_eight_lines() {
    let script = b"F 2 YY\nB\nX 0\nE 1 0\nS 1\nS 1\nR 0\nS 0\n";
    let text = "2 0\n3 0\n4 0\n5 0\n6 0\n7 0\n8 3 F\nL 0 K ai\nL 1 R ei\nM 1\n";
    assert_eq!(rehearsal(script), text);
    assert_eq!(worklist(script), "N 0\n");
}

#[test]
fn the_worklist_names_the_uncertain_and_the_disputed() {
    let voted = format!("F 2 YY, {VOTED}, S 0, S 0, E 1 0, S 1, D 0 1, D 1 0, X 1, R 1");
    let lines: String = voted
        .split(',')
        .map(|line| format!("{}\n", line.trim()))
        .collect();
    let text = worklist(lines.as_bytes());
    assert_eq!(text.lines().count(), 2);
    assert!(text.starts_with("W 0 2 dispute between decisions: find the ledgers that "));
    let text = worklist(b"F 2 YY\nB\nS 0\nD 0 1\nX 1\nR 1\nbad\nX 0\n");
    assert!(text.starts_with("W 1 1 uncertain after a restart: ask the other ledgers "));
    assert!(text.ends_with("alike\nN 1\n"));
}

#[test]
fn a_script_that_does_not_open_prints_its_refusal_alone() {
    let long = [b"F 2 YY\n", &b"B\n".repeat(LONGEST / 2)[..]].concat();
    for (script, text) in [
        (&b""[..], "1 16 S\n"),
        (b"\n", "1 16 S\n"),
        (b"F 2 YY", "1 16 S\n"),
        (b"F 1 Y\nB\n", "1 1 F\n"),
        (b"F 9 YYYYYYYYY\n", "1 1 F\n"),
        (&long, "0 16 S\n"),
    ] {
        assert_eq!(rehearsal(script), text);
        assert_eq!(worklist(script), text);
    }
}

#[test]
fn the_longest_script_is_read() {
    let calls = b"B\n".repeat((LONGEST - 8) / 2);
    let script = [&b"F 3 YYY\n"[..], &calls].concat();
    assert_eq!(script.len(), LONGEST);
    assert!(rehearsal(&script).starts_with("2 0\n3 5 F\n"));
    assert!(rehearsal(&script).ends_with("32765 5 F\nL 0 R a\nL 1 R -\nL 2 R -\nM 0\n"));
    assert_eq!(rehearsal(&[&script[..], b"B"].concat()), "0 16 S\n");
}

#[test]
fn a_bad_line_ends_the_calls() {
    let tail = "L 0 R a\nL 1 R -\nM 0\n";
    let found = rehearsal(b"F 2 YY\nB\nS  0\nS 0\n");
    assert_eq!(found, format!("2 0\n3 16 S\n{tail}"));
    assert_eq!(rehearsal(b"F 2 YY\nB\nS 0"), format!("2 0\n3 16 S\n{tail}"));
    assert_eq!(rehearsal(b"F 2 YY\nB\n\n"), format!("2 0\n3 16 S\n{tail}"));
    assert_eq!(rehearsal(b"F 2 YY\n"), "L 0 R -\nL 1 R -\nM 0\n");
}

#[test]
fn good_lines_read_back() {
    for line in ["B", "S 0", "D 1 9", "E 9 0", "X 5", "R 8"] {
        let call = script::read_call(line.as_bytes()).expect(line);
        assert_eq!(script::call_line(call), line);
    }
}

#[test]
fn every_flaw_makes_a_line_bad() {
    let mut random = Random::new(7);
    for _ in 0..500 {
        for (name, spoil) in flaws::OF_CALLS {
            let good = flaws::call_naming_ledgers(&mut random);
            assert!(script::read_call(&good).is_some());
            let bad = spoil(&mut random, good);
            assert_eq!(script::read_call(&bad), None, "{name}: {bad:?}");
            assert!(!bad.contains(&b'\n'));
        }
        for (name, spoil) in flaws::OF_OPENINGS {
            let size = random.between(2, 8);
            let good = script::opening_line(&vec![Vote::Yes; size]).into_bytes();
            let bad = [spoil(&mut random, good), b"\n".to_vec()].concat();
            assert_eq!(rehearsal(&bad), "1 16 S\n", "{name}: {bad:?}");
        }
    }
}

#[test]
fn a_seed_always_gives_the_same_script() {
    for seed in 1..50 {
        assert_eq!(generate::script(seed).bytes, generate::script(seed).bytes);
    }
}
