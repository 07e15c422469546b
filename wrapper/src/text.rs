//! Every answer as a sentence for the operator; include/bulanevior_text.h has the same in C.
use crate::*;
use core::{error::Error, fmt};

impl Error for Refusal {}
impl Error for NoShow {}

/// A sentence with number and value behind it, as the operator's program prints them. In C it stands behind "refused: ".
impl fmt::Display for Refusal {
    fn fmt(&self, f: &mut fmt::Formatter<'_>) -> fmt::Result {
        match *self {
            Refusal::Short(_) => write!(f, "a lent list is too short, a fault of the caller")?,
            Refusal::Word(n) => write!(
                f,
                "word {n} is missing, of the wrong kind, after the end, or has a stray bit"
            )?,
            Refusal::Limit(n) => write!(
                f,
                "word {n} is one too many of its kind, or counts too many"
            )?,
            Refusal::Value(n) => write!(f, "word {n} has a number that is not allowed")?,
            Refusal::Lemma(n) => {
                write!(f, "word {n} of the lemmas is missing or against the rules")?
            }
            Refusal::Lemmas(n) => {
                write!(f, "word {n} of the lemmas begins one more than 512 lemmas")?
            }
            Refusal::Nodes => write!(f, "the picture of this show needs more than 512 nodes")?,
            Refusal::Absent(n) => write!(f, "there is no action, lemma or node {n}")?,
            Refusal::Length(n) => write!(f, "the state has {n} values, not one for each variable")?,
            Refusal::State(n) => write!(f, "the value of variable {n} is off its range")?,
            Refusal::Sum(n) => write!(f, "the sum of lemma {n} does not fit 64 bits")?,
            Refusal::Findings(n) => {
                write!(f, "the findings list is too short, {n} words are needed")?
            }
            Refusal::Mismatch(n) => {
                return write!(f, "{}: {n} is no answer of this one", self.text())
            }
        }
        write!(f, " ({} AT {})", self.number(), self.value())
    }
}

impl fmt::Display for NoShow {
    fn fmt(&self, f: &mut fmt::Formatter<'_>) -> fmt::Result {
        match *self {
            NoShow::TooLong => write!(f, "too long: more than 65,536 bytes"),
            NoShow::OddBytes => write!(f, "odd bytes: the file was cut"),
            NoShow::WordsShort => write!(f, "the lent words list is too short"),
            NoShow::Mismatch(n) => Refusal::Mismatch(n).fmt(f),
        }
    }
}

/// "variables 1, start rows 0, predicates 0, actions 2, forbidden combinations 0".
impl fmt::Display for Counts {
    fn fmt(&self, f: &mut fmt::Formatter<'_>) -> fmt::Result {
        let Counts {
            variables,
            start_rows,
            predicates,
            ..
        } = self;
        write!(
            f,
            "variables {variables}, start rows {start_rows}, predicates {predicates}, "
        )?;
        let (actions, forbidden) = (self.actions, self.forbidden);
        write!(f, "actions {actions}, forbidden combinations {forbidden}")
    }
}

/// "guard row 1 lacks 5": the row is worth -5.
impl fmt::Display for Failing {
    fn fmt(&self, f: &mut fmt::Formatter<'_>) -> fmt::Result {
        let lacks = self.value.unsigned_abs();
        write!(f, "guard row {} lacks {lacks}", self.row)
    }
}

/// "moves", "is not enabled (guard row 0 lacks 5)", "runs off at variable 0".
impl fmt::Display for Step {
    fn fmt(&self, f: &mut fmt::Formatter<'_>) -> fmt::Result {
        match self {
            Step::Moved => write!(f, "moves"),
            Step::NotEnabled(failing) => write!(f, "is not enabled ({failing})"),
            Step::RunsOff(variable) => write!(f, "runs off at variable {variable}"),
        }
    }
}

/// As `Step`.
impl fmt::Display for Rack {
    fn fmt(&self, f: &mut fmt::Formatter<'_>) -> fmt::Result {
        match *self {
            Rack::Moved => Step::Moved.fmt(f),
            Rack::NotEnabled(failing) => Step::NotEnabled(failing).fmt(f),
        }
    }
}

/// "accepted", "not accepted".
impl fmt::Display for Ask {
    fn fmt(&self, f: &mut fmt::Formatter<'_>) -> fmt::Result {
        f.write_str(match self {
            Ask::Accepted => "accepted",
            Ask::NotAccepted => "not accepted",
        })
    }
}

/// How a variable goes past it: "below its low end", "above its high end".
impl fmt::Display for End {
    fn fmt(&self, f: &mut fmt::Formatter<'_>) -> fmt::Result {
        f.write_str(match self {
            End::Low => "below its low end",
            End::High => "above its high end",
        })
    }
}

/// "may meet forbidden combination 0 at node 1", "action 0 may take variable 0 below its low end at node 0".
impl fmt::Display for Finding {
    fn fmt(&self, f: &mut fmt::Formatter<'_>) -> fmt::Result {
        match self {
            Finding::MayForbid { node, combination } => {
                write!(
                    f,
                    "may meet forbidden combination {combination} at node {node}"
                )
            }
            Finding::MayRunOff {
                node,
                action,
                variable,
                end,
            } => write!(
                f,
                "action {action} may take variable {variable} {end} at node {node}"
            ),
        }
    }
}

/// "safe", or the finding.
impl fmt::Display for Verdict {
    fn fmt(&self, f: &mut fmt::Formatter<'_>) -> fmt::Result {
        match self.finding() {
            None => write!(f, "safe"),
            Some(finding) => finding.fmt(f),
        }
    }
}

/// "safe: nodes 1, edges 2", or the finding.
impl fmt::Display for Judgement {
    fn fmt(&self, f: &mut fmt::Formatter<'_>) -> fmt::Result {
        let (nodes, edges) = (self.nodes, self.edges);
        match self.verdict.finding() {
            None => write!(f, "safe: nodes {nodes}, edges {edges}"),
            Some(finding) => finding.fmt(f),
        }
    }
}

/// The judgement, or the refusal behind "refused: ".
impl fmt::Display for Show<'_> {
    fn fmt(&self, f: &mut fmt::Formatter<'_>) -> fmt::Result {
        match self.answer {
            Ok(judgement) => judgement.fmt(f),
            Err(why @ Refusal::Mismatch(_)) => why.fmt(f),
            Err(why) => write!(f, "refused: {why}"),
        }
    }
}

/// The actions of a path list that `judge` has filled, as text: "actions: 0 2 1", or "actions: none".
///
/// ```
/// use bulanevior::Presses;
/// assert_eq!(Presses(&[0xD0000002, 0xD0000000, 0]).to_string(), "actions: 2 0");
/// ```
#[derive(Clone, Copy, Debug)]
pub struct Presses<'a>(
    /// The path list.
    pub &'a [u32],
);

impl fmt::Display for Presses<'_> {
    fn fmt(&self, f: &mut fmt::Formatter<'_>) -> fmt::Result {
        write!(f, "actions:")?;
        if actions(self.0).next().is_none() {
            return write!(f, " none");
        }
        actions(self.0).try_for_each(|action| write!(f, " {action}"))
    }
}
