//! Numbers that are no answer permit nothing.
use super::*;
use raw::*;

/// Every number up to 20 and the largest as an answer, with no other field filled: those named are `Ok` or a refusal
/// that is none, the others a mismatch.
fn tried<T>(named: &[u32], call: impl Fn(u32) -> Result<T, Refusal>) {
    for n in (0..20).chain([u32::MAX]) {
        let answer = call(n);
        assert_eq!(answer.is_ok(), named.contains(&n), "{n}");
        if let Err(why) = answer {
            assert!(
                matches!(why, Refusal::Mismatch(m) if m == n || m == 0),
                "{n}: {why:?}"
            );
            assert_eq!(why.number(), u32::MAX);
        }
    }
}

#[test]
fn zeros_and_unknown_numbers_permit_nothing() {
    tried(&[BNV_GOOD], |answer| {
        checked(BnvCheck {
            answer,
            refusal: 0,
            value: 0,
            variables: 0,
            start_rows: 0,
            predicates: 0,
            actions: 0,
            forbidden: 0,
        })
    });
    tried(&[BNV_NOT_ENABLED, BNV_RUNS_OFF, BNV_MOVED], |answer| {
        stepped(BnvStep {
            answer,
            row: 0,
            variable: 0,
            refusal: 0,
            row_value: -1,
            value: 0,
        })
    });
    tried(&[BNV_NOT_ENABLED, BNV_MOVED], |answer| {
        racked(BnvStep {
            answer,
            row: 0,
            variable: 0,
            refusal: 0,
            row_value: -1,
            value: 0,
        })
    });
    tried(&[BNV_NOT_ACCEPTED, BNV_ACCEPTED], |answer| {
        asked(BnvAsk {
            answer,
            refusal: 0,
            value: 0,
        })
    });
    tried(&[BNV_LISTED], |answer| {
        found(BnvFindings {
            answer,
            refusal: 0,
            value: 0,
            count: 0,
        })
    });
    tried(&[BNV_NO_NODE, BNV_NODE], |answer| {
        succeeded(BnvSuccessor {
            answer,
            node: 0,
            refusal: 0,
            value: 0,
        })
    });
}

/// A record of zeros but for the verdict.
fn verdict(verdict: u32) -> BnvJudge {
    BnvJudge {
        verdict,
        node: 0,
        place: 0,
        variable: 0,
        high: 0,
        nodes: 0,
        edges: 0,
        refusal: 0,
        value: 0,
    }
}

#[test]
fn only_its_own_number_is_safe() {
    tried(&[BNV_MAY_FORBID, BNV_MAY_RUN_OFF, BNV_SAFE], |n| {
        judged(verdict(n))
    });
    for n in (0..20).chain([u32::MAX]) {
        let safe = judged(verdict(n)).is_ok_and(|j| j.verdict == Verdict::Safe);
        assert_eq!(safe, n == BNV_SAFE, "{n}");
    }
}

#[test]
fn only_a_judged_show_is_safe() {
    let words = [1, 2, 3];
    for answer in (0..20).chain([u32::MAX]) {
        for judged in [0, BNV_SAFE] {
            for (logic, lemmas) in [(0, 0), (1, 2), (4, 0), (3, 1), (usize::MAX, 1)] {
                let s = BnvShow {
                    answer,
                    logic,
                    lemmas,
                    judged: verdict(judged),
                };
                let safe = shown(s, &words).is_ok_and(|s| s.is_safe());
                let good = answer == BNV_JUDGED && judged == BNV_SAFE && logic < 3;
                assert_eq!(safe, good, "{s:?}");
            }
        }
    }
    let none = |answer| {
        let judged = verdict(0);
        shown(
            BnvShow {
                answer,
                logic: 0,
                lemmas: 0,
                judged,
            },
            &words,
        )
    };
    assert_eq!(none(0), Err(NoShow::Mismatch(0)));
    assert_eq!(none(BNV_TOO_LONG), Err(NoShow::TooLong));
    assert_eq!(none(BNV_ODD_BYTES), Err(NoShow::OddBytes));
    assert_eq!(none(BNV_WORDS_SHORT), Err(NoShow::WordsShort));
    assert_eq!(
        none(BNV_JUDGED).map(|s| s.answer),
        Ok(Err(Refusal::Mismatch(0)))
    );
}
