//! Words made and taken apart; the words are those of tests/header.c, which has the header's macros.
use bulanevior::raw::*;
use bulanevior::word::*;

/// Fade's logic and its first two lemmas, as docs/FORMAT.md has them.
#[test]
fn fade_is_made() {
    let made = [
        var(0, 1000),
        init(0),
        pred(0),
        action(1, 1),
        row(-5),
        term(0, 1),
        set(0),
        row(-5),
        term(0, 1),
        action(1, 1),
        row(995),
        term(0, -1),
        set(0),
        row(5),
        term(0, 1),
        END,
        lemma(0, BNV_GOAL_LOW, 0),
        sets(0, 0),
        mult(1),
        mult(1),
        lemma(0, BNV_GOAL_HIGH, 0),
        sets(0, 0),
        mult(1),
        mult(0),
    ];
    let bytes = include_bytes!("../../shows/fade.words");
    assert!(made
        .iter()
        .flat_map(|w| w.to_le_bytes())
        .eq(bytes[..96].iter().copied()));
}

#[test]
fn fields_at_their_ends() {
    assert_eq!(var(BNV_LOWEST, BNV_HIGHEST), 0x1800_1FFF);
    assert_eq!((var(-1, -2), var(16384, 0)), (0x1FFF_FFFE, 0x1000_0000));
    assert_eq!(row(BNV_LEAST_CONSTANT), 0x2FF0_BDC0);
    assert_eq!(row(BNV_MOST_CONSTANT), 0x200F_4240);
    assert_eq!(term(7, BNV_LEAST_COEFFICIENT), 0x3700_FC18);
    assert_eq!(term(15, BNV_MOST_COEFFICIENT), 0x3F00_03E8);
    assert_eq!(
        (init(8), pred(14), set(7)),
        (0x4000_0008, 0x5000_000E, 0x7000_0007)
    );
    assert_eq!((action(8, 8), action(15, 17)), (0x6000_0088, 0x6000_00F1));
    assert_eq!((sets(0, 1), sets(3, 0)), (0x8000_4000, 0x8000_0003));
    assert_eq!(
        (sets(0x3FFF, 0x2001), sets(0x4000, 0x4000)),
        (0x8800_7FFF, 0x8000_0000)
    );
    assert_eq!(lemma(BNV_START as usize, BNV_GOAL_HOLDS, 13), 0x9FF1_000D);
    assert_eq!(lemma(15, BNV_GOAL_FAILS, 1), 0x90F2_0001);
    assert_eq!(lemma(2, BNV_GOAL_NEVER, 0), 0x9020_0000);
    assert_eq!(mult(BNV_MOST_MULTIPLIER), 0xA000_FFFF);
    assert_eq!(make(3, 0xF000_0005), 0x3000_0005);
}

#[test]
fn words_are_taken_apart() {
    assert_eq!((var_low(0x1800_1FFF), var_high(0x1800_1FFF)), (-8192, 8191));
    assert_eq!((var_low(0x1000_03E8), var_high(0x1FFF_FFFE)), (0, -2));
    assert_eq!(
        (row_constant(0x2FFF_FFFB), row_constant(0x200F_4240)),
        (-5, 1_000_000)
    );
    assert_eq!(row_constant(0x2800_0000), -134_217_728);
    assert_eq!(
        (term_variable(0x3700_FC18), term_coefficient(0x3700_FC18)),
        (7, -1000)
    );
    assert_eq!(term_coefficient(0x3000_03E8), 1000);
    assert_eq!(
        (
            action_guard_rows(0x6000_0083),
            action_assignments(0x6000_0083)
        ),
        (8, 3)
    );
    let parts = |w| (lemma_source(w), lemma_goal(w), lemma_index(w));
    assert_eq!(parts(0x9FF1_000D), (BNV_START as usize, BNV_GOAL_HOLDS, 13));
    assert_eq!(parts(0x90F2_0001), (15, BNV_GOAL_FAILS, 1));
}

/// House's records, as docs/FORMAT.md has them.
#[test]
fn records_are_taken_apart() {
    let known = |w| (sets_hold(w), sets_fail(w));
    let houses = [0x8000_C000, 0x8000_4002, 0x8000_8001].map(known);
    assert_eq!(houses, [(0, 3), (2, 1), (1, 2)]);
    assert_eq!(known(0x8800_0000), (0, 0x2000));
    let origins = [0xB000_1FFF, 0xB000_0000, 0xB000_0001, 0xB000_1FFE].map(origin);
    assert_eq!(origins, [None, Some((0, 0)), Some((0, 1)), Some((511, 14))]);
    assert_eq!([0xC000_0002, 0xCFFF_FFFF].map(edge), [Some(2), None]);
}
