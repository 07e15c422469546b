//! What is said of shows whose findings are worked out by hand, in the comments of their texts.
use super::run;
use crate::input::{self, Input};
use crate::output::Status;

fn said(bytes: &[u8]) -> (String, Status) {
    let input = Input {
        bytes: bytes.to_vec(),
        names: None,
    };
    let said = run(&input).unwrap();
    (said.lines.collect::<Vec<_>>().join("\n"), said.status)
}

fn said_of(text: &str) -> String {
    let input = input::of(text.as_bytes().to_vec()).unwrap();
    run(&input).unwrap().lines.collect::<Vec<_>>().join("\n")
}

const STANDS: &str = "v0 stands for variable 0, p0 for predicate 0, a0 for action 0, and so on";

/// The macro brings front light and house light on at once, from the only start state.
#[test]
fn a_finding_that_happens() {
    let expected = format!(
        "may meet forbidden combination 1 at node 3; actions: 2
it is the first of 4 findings, which `bulanevior findings` lists
{STANDS}

the way there in the graph:
  at the start node 0: not p0 and not p1 and not p2
  press 1: action 2
      v0 := 1
      v1 := 1
    then node 3: p0 and p1 and not p2
  there nothing contradicts forbidden combination 1: p0 and p1
      p0: v0 >= 1
      p1: v1 >= 1

replayed by the proved Step, from a start state that the companion found:
  v0 0, v1 0, v2 0
  press 1: action 2 moves to v0 1, v1 1, v2 0
  this state meets forbidden combination 1
  it really happens

lemmas: 20 of 20 accepted"
    );
    let shortcut = include_bytes!("../../../shows/shortcut.words");
    assert_eq!(said(shortcut), (expected, Status::Findings));
}

/// The incident: 10 off a level of 5. The lemma that would keep it has a sum of 9 - level, which is 9 at level 0.
#[test]
fn a_run_off_that_happens() {
    let expected = format!(
        "action 0 may take variable 0 below its low end at node 0; actions: none
it is the only finding
{STANDS}

the way there in the graph:
  at the start node 0: nothing is known
  there action 0 may take v0 below 0:
      v0 := v0 - 10
    no accepted lemma that applies there shows: a0 keeps v0 low

replayed by the proved Step, from a start state that the companion found:
  v0 5
  press 1: action 0 runs v0 off its range, to -5 (worked out by the companion)
  it really happens

lemmas: 1 of 2 accepted
the others are not; by how much, and why, is worked out by the companion, not proved:
  number 0: lemma a0 keeps v0 low by goal
    its sum reaches 9, and has to stay below 0
    it is false: at v0 0"
    );
    let incident = include_bytes!("../../../shows/incident.words");
    assert_eq!(said(incident), (expected, Status::Findings));
}

/// Blackout, restore: the restore ends the dark, and the lemma that says so is missing.
#[test]
fn a_finding_that_does_not_happen() {
    let unshown = include_bytes!("../../../shows/blackout_unshown.words");
    let (text, status) = said(unshown);
    assert_eq!(status, Status::Findings);
    let expected = "worked out by the companion, not proved:
  start states walk this way, but none of them meets the combination there
  no presses were found that really go wrong, which is no proof that there are none

a lemma against this finding, found by the companion and accepted by the proved Ask:
  lemma a1 makes not p0 by goal

lemmas: 23 of 23 accepted";
    assert!(text.ends_with(expected), "{text}");
}

/// Bump runs off at the 201st press of the bump, 5 more each time: not on the shortest way, which has none.
#[test]
fn a_finding_that_happens_by_other_presses() {
    let (text, _) = said(include_bytes!("../../../shows/bump.words"));
    for line in [
        "  start states walk this way, but none of them takes v0 above 1000 there",
        "  but there are presses that go wrong",
        "  press 1: action 0 moves to v0 0, v1 1",
        "  .. 177 presses more ..",
        "  press 201: action 1 moves to v0 1000, v1 1",
        "  press 202: action 1 runs v0 off its range, to 1005 (worked out by the companion)",
        "  these presses really go wrong",
    ] {
        assert!(text.lines().any(|said| said == line), "{line}: {text}");
    }
}

/// Up to 3, and then one more: not below 0, which is the finding.
#[test]
fn other_presses_are_not_the_finding() {
    let text = said_of(
        "variable level 0 to 3
start level = 0
action up
    level := level + 1",
    );
    for line in [
        "action 0 may take variable 0 below its low end at node 0; actions: none",
        "  no start state takes level below 0 there",
        "  but there are presses that go wrong",
        "  press 4: action 0 (up) runs level off its range, to 4 (worked out by the companion)",
        "  these presses really go wrong",
    ] {
        assert!(text.lines().any(|said| said == line), "{line}: {text}");
    }
    assert!(!text.contains("it really happens"), "{text}");
    // From 3 the press runs off at once, at the other end.
    let text = said_of("variable level 0 to 3\nstart level = 3\naction up\n    level := level + 1");
    assert!(text.contains("  no start state takes level below 0 there\n"));
    assert!(text.contains(
        "  press 1: action 0 (up) runs level off its range, to 4 (worked out by the companion)\n"
    ));
}

/// At least 5 and at most 3: nothing goes wrong.
#[test]
fn a_show_that_cannot_start() {
    let text = said_of(
        "variable level 0 to 9
start level >= 5 and level <= 3
action up
    level := level + 1",
    );
    let expected = "worked out by the companion, not proved:
  no state meets the start rows: the show cannot start

a lemma against this finding, found by the companion and accepted by the proved Ask:
  lemma start never by row 0, row 1

lemmas: 0 of 0 accepted";
    assert!(text.ends_with(expected), "{text}");
}

/// x + y is even and x - y odd at the start: there is no such state, and halving ranges does not come to see it. So nothing is said of states
/// that walk the way, though none of them could meet the combination.
#[test]
fn a_search_that_is_given_up() {
    let text = said_of(
        "variable x 0 to 8000
variable y 0 to 8000
variable z 0 to 8000
variable w -8000 to 8000
variable k 0 to 1
start x + y - 2 z = 0 and x - y - 2 w = 1 and k <= 0
predicate far: x >= 8001
predicate on: k >= 1
action press
    k := 1
forbid far and on
lemma start makes not on by goal, row 4
lemma press makes on by goal
lemma press keeps k low by goal
lemma press keeps k high by goal",
    );
    let none = "no start state was found that walks this way and meets the combination there";
    assert!(text.contains(none), "{text}");
}

#[test]
fn a_long_way_is_told_in_part() {
    let (text, _) = said(include_bytes!("../../../shows/counter.words"));
    assert_eq!(text.matches("  .. 487 presses more ..").count(), 2);
    assert!(text.contains("  it really happens"));
    assert!(text.lines().count() < 400);
}

#[test]
fn safe_shows() {
    let fade = "safe: nodes 1, edges 2
no list of actions, from any start state, meets a forbidden state or runs a variable off its range

lemmas: 4 of 4 accepted";
    let (text, status) = said(include_bytes!("../../../shows/fade.words"));
    assert_eq!((text.as_str(), status), (fade, Status::Good));
    // A level of 0 to 1, at least 2 at the start, and the lemma that this cannot be: (level - 2) is -1 at most.
    let words: [u32; 9] = [
        0x1000_0001,
        0x4000_0001,
        0x2FFF_FFFE,
        0x3000_0001,
        0x5000_0000,
        0xF000_0000,
        0x9FF0_0000,
        0x8000_0000,
        0xA000_0001,
    ];
    let bytes: Vec<u8> = words.iter().flat_map(|word| word.to_le_bytes()).collect();
    let (text, _) = said(&bytes);
    assert!(text.contains("no state meets the start rows: the show cannot start"));
}

/// A guard row that counts the level 1,001 times, and what is no whole number of words.
#[test]
fn refusals() {
    let mut fade = include_bytes!("../../../shows/fade.words").to_vec();
    fade[44..48].copy_from_slice(&0x3000_03E9u32.to_le_bytes());
    let expected = "refused: word 11 has a number that is not allowed (4 AT 11)
worked out by the companion, not proved:
  word 11, byte 44: TERM of guard row 0 of action 1: coefficient 1,001, allowed are -1,000 to 1,000";
    assert_eq!(said(&fade), (expected.to_string(), Status::Refused));
    let expected = "odd bytes: the file was cut
worked out by the companion, not proved:
  the file has 127 bytes, and a word has 4: behind word 30 there are 3 bytes";
    assert_eq!(said(&fade[..127]), (expected.to_string(), Status::Refused));
    let expected = "odd bytes: the file was cut
worked out by the companion, not proved:
  the file has 1 byte, and a word has 4";
    assert_eq!(said(&fade[..1]), (expected.to_string(), Status::Refused));
    let (text, status) = said(&vec![0; 65_537]);
    assert!(text.ends_with("  the file has more than 65,536 bytes: it is no show, or two in one"));
    assert_eq!(status, Status::Refused);
}
