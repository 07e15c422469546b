//! Why a show is refused: the word at fault, and the rule that it breaks.
use super::OWN;
use crate::show::fault::{thousands, Fault};
use crate::show::reading;
use crate::verdict::{mismatch, Refused};
use bulanevior::{raw, Refusal, SHOW_BYTES};

/// What is said of a show of so many bytes that is refused, cut or too long; or the trouble.
pub fn lines(why: &Refused, bytes: usize) -> Result<Vec<String>, String> {
    let own = match &why.refusal {
        None => vec![length(bytes)],
        Some((refusal, logic, lemmas)) => match fault(*refusal, logic, lemmas)? {
            Some(fault) => vec![fault.to_string()],
            None => return Ok(vec![why.sentence.clone(), advice(*refusal)]),
        },
    };
    let said = own.into_iter().map(|line| format!("  {line}"));
    let head = [why.sentence.clone(), OWN.to_string()];
    Ok(head.into_iter().chain(said).collect())
}

fn length(bytes: usize) -> String {
    let most = thousands(SHOW_BYTES as i64);
    match (bytes, bytes % 4) {
        (n, _) if n > SHOW_BYTES => {
            format!("the file has more than {most} bytes: it is no show, or two in one")
        }
        (1, _) => "the file has 1 byte, and a word has 4".to_string(),
        (n @ (2 | 3), _) => format!("the file has {n} bytes, and a word has 4"),
        (n, left) => {
            let (count, last) = (thousands(n as i64), n / 4 - 1);
            let (are, s) = if left == 1 { ("is", "") } else { ("are", "s") };
            format!("the file has {count} bytes, and a word has 4: behind word {last} there {are} {left} byte{s}")
        }
    }
}

/// The word at fault, where the refusal is for a word. The companion has to find the same word and the same number.
fn fault(refusal: Refusal, logic: &[u32], lemmas: &[u32]) -> Result<Option<Fault>, String> {
    let number = refusal.number();
    if !(raw::BNV_REFUSED_WORD..=raw::BNV_REFUSED_LEMMAS).contains(&number) {
        return Ok(None);
    }
    match reading::show(logic, lemmas) {
        Err(fault) if (fault.number, fault.at) == (number, refusal.value()) => Ok(Some(fault)),
        Err(fault) => Err(mismatch(format!(
            "{refusal}, and the companion finds {fault}"
        ))),
        Ok(_) => Err(mismatch(format!(
            "{refusal}, and the companion finds no fault"
        ))),
    }
}

/// What can be done where no word is at fault.
fn advice(refusal: Refusal) -> String {
    match refusal {
        Refusal::Nodes => "the logic has to follow fewer predicates, or more lemmas have to show which of them hold".to_string(),
        _ => "this does not come from the file: report it".to_string(),
    }
}
