use super::*;
use crate::input;
use crate::show::model::*;
use crate::show::reading;
use crate::show::rows::{Range, Row};
use crate::text;
use bulanevior::kind;

/// The words of a stored show, as plain values.
fn stored(name: &str) -> Show {
    let bytes = std::fs::read(format!("../shows/{name}.words")).unwrap();
    let words: Vec<u32> = bytes
        .chunks(4)
        .map(|four| u32::from_le_bytes(four.try_into().unwrap()))
        .collect();
    let end = words.iter().position(|&word| kind(word) == 15).unwrap() + 1;
    reading::show(&words[..end], &words[end..]).unwrap()
}

/// The lemmas found for a logic, and whether the proved call says safe of them. Each is accepted, or `find` says trouble.
fn found(logic: &Logic) -> (Vec<Lemma>, bool) {
    let mut checker = Checker::new(logic);
    let lemmas = finder::find(logic, &mut checker).unwrap();
    let safe = checker.safe(&lemmas).unwrap();
    (lemmas, safe.expect("a list that fits"))
}

/// What the command prints of a file, the lines behind it, and its status.
fn said(bytes: &[u8]) -> (String, Vec<String>, Status) {
    let input = input::of(bytes.to_vec()).unwrap_or_else(|_| panic!("no show"));
    let said = run(&input).unwrap();
    let text = String::from_utf8(said.bytes).unwrap();
    (text, said.behind, said.status)
}

/// From the logic alone, whatever lemmas the show came with: no more than the shortest list that is stored.
#[test]
fn safe_shows() {
    for (name, most) in [
        ("fade", 4),
        ("house", 19),
        ("rig8", 128),
        ("bakery", 79),
        ("chase", 27),
        ("chase_unshown", 27),
        ("master", 22),
        ("blackout", 24),
        ("blackout_unshown", 24),
        ("incident_mended", 2),
        ("difference", 2),
    ] {
        let show = stored(name);
        let (lemmas, safe) = found(&show.logic);
        assert!(safe, "{name}");
        assert!(lemmas.len() <= most, "{name}: {}", lemmas.len());
        if !name.ends_with("_unshown") {
            assert!(lemmas.len() <= show.lemmas.len(), "{name}");
        }
    }
}

/// What needs no lemma gets none: nothing is forbidden and nothing set.
#[test]
fn nothing_to_show() {
    let text = "variable level 0 to 1000\nstart level = 5\npredicate up: level >= 1\naction look\n    when level >= 3\n";
    let (text, behind, status) = said(text.as_bytes());
    assert_eq!((behind.len(), status), (0, Status::Good));
    assert!(!text.contains("lemma"), "{text}");
}

/// House from a text without lemmas to a text with them, which reads back and is safe.
#[test]
fn house_as_text() {
    let house = "variable level 0 to 1000
variable house 0 to 1
start level = 0 and house = 0
predicate level_up: level >= 1
predicate house_up: house >= 1
action house_on
    when level <= 0
    house := 1
action to_half
    when house <= 0
    level := 500
action level_off
    level := 0
action house_off
    house := 0
forbid level_up and house_up
";
    let (text, behind, status) = said(house.as_bytes());
    assert_eq!((behind.len(), status), (0, Status::Good));
    let (show, names) = text::read(&text).unwrap();
    assert_eq!(
        names.actions,
        ["house_on", "to_half", "level_off", "house_off"]
    );
    let mut checker = Checker::new(&show.logic);
    assert_eq!(checker.safe(&show.lemmas), Ok(Some(true)));
    assert!(
        text.contains("\nlemma house_on makes not level_up by goal, row 0\n"),
        "{text}"
    );
}

/// What is lacking, worked out by hand.
#[test]
fn what_is_lacking() {
    for (name, lines) in [
        // 10 off, with no guard: at 0 it becomes -10.
        (
            "incident",
            &["at node 0 (nothing known): a0 keeps v0 low; false at v0 0, where v0 becomes -10"] as &[_],
        ),
        // 5 more where the switch is on: the least level at which that is too much is 996.
        (
            "bump",
            &["at node 1 (p0): a1 keeps v0 high; false at v0 996, v1 1, where v0 becomes 1001"],
        ),
        // The macro puts both on, from wherever one of them is out: nodes 0, 1, 2 and 4; the house light goes on where the front light alone is: 2
        // and 4; the haze where the front light is and it is out: 2 and 3.
        (
            "shortcut",
            &[
                "at node 0 (not p0 and not p1 and not p2), and at 3 more nodes: a2 never, against p0 and p1; false at v0 0, v1 0, v2 0",
                "at node 2 (p0 and not p1 and not p2), and at 1 more node: a0 never, against p0 and p1; false at v0 1, v1 0, v2 0",
                "at node 2 (p0 and not p1 and not p2), and at 1 more node: a3 never, against p0 and p2; false at v0 1, v1 0, v2 0",
            ],
        ),
    ] {
        let (_, behind, status) = said(&stored(name).bytes());
        assert_eq!(status, Status::Findings);
        assert!(behind[0].starts_with("findings: "), "{}", behind[0]);
        assert_eq!(behind[1..], *lines, "{name}");
    }
}

/// Fade without its guards: at each end the nearest level is named.
#[test]
fn fade_without_guards() {
    let mut logic = stored("fade").logic;
    logic
        .actions
        .iter_mut()
        .for_each(|action| action.guards.clear());
    let show = Show {
        logic,
        lemmas: Vec::new(),
    };
    let (_, behind, _) = said(&show.bytes());
    assert_eq!(
        behind[1..],
        [
            "at node 0 (nothing known): a0 keeps v0 low; false at v0 0, where v0 becomes -5",
            "at node 0 (nothing known): a1 keeps v0 high; false at v0 996, where v0 becomes 1001",
        ]
    );
}

/// The counter comes to its last node, where its forbidden combination is: 512 nodes.
#[test]
fn counter() {
    let (text, behind, status) = said(&stored("counter").bytes());
    assert_eq!(status, Status::Findings);
    assert_eq!(behind.len(), 2);
    let line = &behind[1];
    assert!(line.starts_with("at node 510 (not p0 and p1 "), "{line}");
    assert!(
        line.contains("): a0 never, against p0 and p1 and "),
        "{line}"
    );
    assert!(
        line.ends_with("; false at v0 0, v1 1, v2 1, v3 1, v4 1, v5 1, v6 1, v7 3"),
        "{line}"
    );
    assert!(text.contains("\nlemma "));
}

/// Twice a difference is never 1, but no multipliers show it.
#[test]
fn between_whole_numbers() {
    let text = "variable x 0 to 10
variable y 0 to 10
action jump
    when 2 x - 2 y = 1
    x := x + 100
";
    let (_, behind, status) = said(text.as_bytes());
    assert_eq!(status, Status::Findings);
    let why = "no state makes it false, and no multipliers show it: a further predicate may help";
    let line = format!("at node 0 (nothing known): jump keeps x high; {why}");
    assert_eq!(behind[1..], [line]);
}

/// Lamps, each with actions to go up and down, and with two predicates: 3 by 3 by .. nodes where all are followed.
fn lamps(count: usize, forbidden: impl Fn(usize) -> Literals) -> Logic {
    let lamp = Row::variable;
    let mut logic = Logic {
        ranges: vec![Range { low: 0, high: 1000 }; count],
        start: (0..count)
            .map(|v| Row::default().plus(-1, &lamp(v)))
            .collect(),
        forbidden: (0..count).map(forbidden).collect(),
        ..Logic::default()
    };
    for v in 0..count {
        logic.predicates.push(Row::constant(-1).plus(1, &lamp(v)));
        logic.predicates.push(Row::constant(-500).plus(1, &lamp(v)));
        let up = (v, Row::constant(5).plus(1, &lamp(v)));
        let down = (v, Row::constant(-5).plus(1, &lamp(v)));
        logic.actions.push(Action {
            guards: vec![Row::constant(995).plus(-1, &lamp(v))],
            sets: vec![up],
        });
        logic.actions.push(Action {
            guards: vec![Row::constant(-10).plus(1, &lamp(v))],
            sets: vec![down],
        });
    }
    logic
}

/// 2,187 nodes, all of which are needed before the list is made shorter.
#[test]
fn more_nodes_than_fit() {
    let logic = lamps(7, |v| {
        Literals::default().with(2 * v, false).with(2 * v + 1, true)
    });
    let (lemmas, safe) = found(&logic);
    assert!(safe && lemmas.len() <= 49, "{}", lemmas.len());
}

/// The same with a lamp that goes down whatever it is at: with 2,187 nodes, what is said is of a graph that fits.
#[test]
fn lacking_with_more_nodes_than_fit() {
    let mut logic = lamps(7, |v| {
        Literals::default().with(2 * v, false).with(2 * v + 1, true)
    });
    logic.actions[1].guards.clear();
    let lemmas = Vec::new();
    let (_, behind, status) = said(&Show { logic, lemmas }.bytes());
    assert_eq!((behind.len(), status), (4, Status::Findings));
    assert!(
        behind[1].contains(": a1 keeps v0 low; false at v0 0, "),
        "{}",
        behind[1]
    );
    assert!(
        behind[1].ends_with(", where v0 becomes -5"),
        "{}",
        behind[1]
    );
    assert!(
        behind[2].contains(": a1 makes p0, against not p0 and p1; false at v0 "),
        "{}",
        behind[2]
    );
}

/// A start that may be anything: one line for each literal that would keep the combination out.
#[test]
fn lacking_at_the_start() {
    let text = "variable level 0 to 1000
variable house 0 to 1
start level + 3 house >= 3
predicate level_up: level >= 1
predicate house_up: house >= 1
forbid level_up and house_up
";
    let (_, behind, _) = said(text.as_bytes());
    let against = "against level_up and house_up";
    assert_eq!(
        behind[1..],
        [
            format!("at the start: start makes not level_up, {against}; false at level 1, house 1"),
            format!("at the start: start makes not house_up, {against}; false at level 0, house 1"),
        ]
    );
}

/// Predicates that nothing forbidden speaks of are not followed where there are too many.
#[test]
fn predicates_that_are_not_needed() {
    let mut logic = lamps(7, |_| Literals::default());
    logic.forbidden = vec![Literals::default().with(0, false).with(1, true)];
    let (lemmas, safe) = found(&logic);
    assert!(safe);
    assert!(lemmas.len() < 40, "{}", lemmas.len());
}
