//! Reading a program: refusals 2, 3 and 4.
//!
//! "The first bad word decides; at one word 2, 3, 4 in that order."

use crate::words::*;
use crate::Refusal;

/// "A row has eight coefficients, an absent one being zero, and a constant."
#[derive(Clone, Copy, Debug, PartialEq, Eq, Default)]
pub struct Row {
    pub coefficients: [i64; MAX_VARIABLES],
    pub constant: i64,
}

impl Row {
    /// "It holds at a state when its value (coefficients times variables, plus the constant) is at least 0."
    /// Request 5: "the row test should give the row's value at the state, and yes is then a value of at least
    /// 0."
    pub fn value(&self, state: &[i32]) -> i64 {
        let mut total = self.constant;
        for (variable, value) in state.iter().enumerate() {
            total += self.coefficients[variable] * i64::from(*value);
        }
        total
    }
}

/// A set of literals: two masks of predicates.
#[derive(Clone, Copy, Debug, PartialEq, Eq, Hash, Default)]
pub struct Literals {
    pub known_false: u32,
    pub known_true: u32,
}

impl Literals {
    /// "SETS: known-false predicates 27..14 (bit 14 is predicate 0), known-true 13..0"
    pub fn of_word(word: u32) -> Literals {
        Literals { known_false: field(word, 27, 14), known_true: field(word, 13, 0) }
    }

    pub fn word(&self) -> u32 {
        make(SETS, (self.known_false << 14) | self.known_true)
    }

    /// "predicate unknown or in both sets"
    pub fn good(&self, predicates: usize) -> bool {
        let known = (1u32 << predicates) - 1;
        (self.known_false | self.known_true) & !known == 0 && self.known_false & self.known_true == 0
    }

    pub fn is_empty(&self) -> bool {
        self.known_false == 0 && self.known_true == 0
    }

    /// All literals of `self` are literals of `other`.
    pub fn within(&self, other: &Literals) -> bool {
        self.known_false & !other.known_false == 0 && self.known_true & !other.known_true == 0
    }

    /// Some literal of one is the opposite of a literal of the other.
    pub fn contradicts(&self, other: &Literals) -> bool {
        self.known_false & other.known_true != 0 || self.known_true & other.known_false != 0
    }
}

#[derive(Clone, Debug)]
pub struct Assignment {
    pub variable: usize,
    pub row: Row,
}

#[derive(Clone, Debug)]
pub struct Action {
    /// The word index of its ACTION word.
    pub begin: usize,
    /// The word index of the next ACTION, SETS or END.
    pub end: usize,
    pub guards: Vec<Row>,
    pub assignments: Vec<Assignment>,
}

impl Action {
    pub fn assigned(&self, variable: usize) -> Option<&Row> {
        self.assignments.iter().find(|a| a.variable == variable).map(|a| &a.row)
    }

    /// "An action is enabled when all its guard rows hold; with no guard it always is": then there is none.
    /// Request 5: "the number of the first guard row that fails and its value, which is below 0". "Everything
    /// counts from 0", and the rows are the action's own. Each is worked out once, and none after the one that
    /// fails.
    pub fn failing_guard(&self, state: &[i32]) -> Option<(usize, i64)> {
        self.guards.iter().map(|row| row.value(state)).enumerate().find(|(_, value)| *value < 0)
    }
}

#[derive(Clone, Copy, Debug, PartialEq, Eq)]
pub struct Range {
    pub low: i64,
    pub high: i64,
}

#[derive(Clone, Debug)]
pub struct Program {
    pub ranges: Vec<Range>,
    pub start: Vec<Row>,
    pub predicates: Vec<Row>,
    pub actions: Vec<Action>,
    pub forbidden: Vec<Literals>,
}

struct Reader<'a> {
    words: &'a [u32],
    at: usize,
}

impl Reader<'_> {
    fn refuse<T>(&self, number: u32) -> Result<T, Refusal> {
        Err(Refusal { number, value: self.at as u64 })
    }

    /// The kind of the next word, if there is a next word.
    fn next_kind(&self) -> Option<u32> {
        self.words.get(self.at).map(|w| kind(*w))
    }

    /// The next word, which must be there and of this kind: "program word missing, of the wrong
    /// kind" is 2 with "word index (list length if missing)".
    fn due(&self, wanted: u32) -> Result<u32, Refusal> {
        match self.words.get(self.at) {
            Some(word) if kind(*word) == wanted => Ok(*word),
            // `at` is the list's length when the word is missing.
            _ => self.refuse(2),
        }
    }

    /// INIT or PRED: "how many rows follow", all 28 bits; then the rows.
    fn rows(&mut self, wanted: u32, most: usize, variables: usize) -> Result<Vec<Row>, Refusal> {
        let word = self.due(wanted)?;
        let count = payload(word) as usize;
        if count > most {
            return self.refuse(3);
        }
        self.at += 1;
        (0..count).map(|_| self.row(variables)).collect()
    }

    /// "A row is ROW and its TERMs, variables strictly rising."
    fn row(&mut self, variables: usize) -> Result<Row, Refusal> {
        let word = self.due(ROW)?;
        let constant = signed(word, 27, 0);
        if !(-MAX_CONSTANT..=MAX_CONSTANT).contains(&constant) {
            return self.refuse(4);
        }
        self.at += 1;
        let mut row = Row { coefficients: [0; MAX_VARIABLES], constant };
        let mut lowest = 0; // the lowest variable that still rises
        while self.next_kind() == Some(TERM) {
            let word = self.words[self.at];
            if field(word, 23, 16) != 0 {
                return self.refuse(2);
            }
            let variable = field(word, 27, 24) as usize;
            let coefficient = signed(word, 15, 0);
            if variable >= variables
                || variable < lowest
                || coefficient == 0
                || !(-MAX_COEFFICIENT..=MAX_COEFFICIENT).contains(&coefficient)
            {
                return self.refuse(4);
            }
            row.coefficients[variable] = coefficient;
            lowest = variable + 1;
            self.at += 1;
        }
        Ok(row)
    }

    /// "An action is ACTION, its guard rows, then per assignment SET and a row; SET variables
    /// strictly rise."
    fn action(&mut self, before: usize, variables: usize) -> Result<Action, Refusal> {
        let begin = self.at;
        let word = self.due(ACTION)?;
        if field(word, 27, 8) != 0 {
            return self.refuse(2);
        }
        let guards = field(word, 7, 4) as usize;
        let assignments = field(word, 3, 0) as usize;
        if before == MAX_ACTIONS || guards > MAX_ROWS || assignments > MAX_ROWS {
            return self.refuse(3);
        }
        self.at += 1;
        let guards = (0..guards).map(|_| self.row(variables)).collect::<Result<Vec<_>, _>>()?;
        let mut sets = Vec::new();
        let mut lowest = 0;
        for _ in 0..assignments {
            let word = self.due(SET)?;
            let variable = payload(word) as usize;
            if variable >= variables || variable < lowest {
                return self.refuse(4);
            }
            lowest = variable + 1;
            self.at += 1;
            sets.push(Assignment { variable, row: self.row(variables)? });
        }
        Ok(Action { begin, end: self.at, guards, assignments: sets })
    }
}

/// "A program is 1 to 8 VAR; INIT and 0 to 8 rows; PRED and 0 to 14 rows; 0 to 16 actions; 0 to 8
/// SETS, the forbidden combinations; END; nothing after it."
pub fn read(words: &[u32]) -> Result<Program, Refusal> {
    let mut reader = Reader { words, at: 0 };

    let mut ranges = Vec::new();
    loop {
        // The first VAR is due; afterwards a VAR may follow, and anything else must be INIT.
        if !ranges.is_empty() && reader.next_kind() != Some(VAR) {
            break;
        }
        let word = reader.due(VAR)?;
        if ranges.len() == MAX_VARIABLES {
            return reader.refuse(3);
        }
        let range = Range { low: signed(word, 27, 14), high: signed(word, 13, 0) };
        if range.low > range.high {
            return reader.refuse(4);
        }
        ranges.push(range);
        reader.at += 1;
    }
    let variables = ranges.len();

    let start = reader.rows(INIT, MAX_ROWS, variables)?;
    let predicates = reader.rows(PRED, MAX_PREDICATES, variables)?;

    let mut actions = Vec::new();
    while reader.next_kind() == Some(ACTION) {
        let action = reader.action(actions.len(), variables)?;
        actions.push(action);
    }

    let mut forbidden = Vec::new();
    while reader.next_kind() == Some(SETS) {
        if forbidden.len() == MAX_FORBIDDEN {
            return reader.refuse(3);
        }
        let literals = Literals::of_word(words[reader.at]);
        if !literals.good(predicates.len()) {
            return reader.refuse(4);
        }
        forbidden.push(literals);
        reader.at += 1;
    }

    let word = reader.due(END)?;
    if payload(word) != 0 {
        return reader.refuse(2); // END's payload is 0
    }
    reader.at += 1;
    if reader.at < words.len() {
        return reader.refuse(2); // a word after END
    }
    Ok(Program { ranges, start, predicates, actions, forbidden })
}
