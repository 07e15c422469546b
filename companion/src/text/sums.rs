//! Sums and rows in a text.
use super::fault::{alternatives, Fault};
use super::lexer::{Cursor, Kind};
use crate::show::fault::thousands;
use crate::show::model::{COEFFICIENT, CONSTANT};
use crate::show::rows::{Row, VARIABLES};

/// A sum, with the columns at which it is at fault, if it is.
#[derive(Clone, Copy)]
struct Sum {
    row: Row,
    /// Of each variable's last term, and of the last number, where there are such.
    terms: [usize; VARIABLES],
    number: Option<usize>,
    begin: usize,
}

/// How many rows a comparison may be.
#[derive(Clone, Copy, PartialEq, Eq)]
pub enum Rows {
    One,
    /// Two where it is an equation.
    Several,
}

/// The number of a variable that is expected.
pub fn variable(cursor: &mut Cursor, variables: &[String]) -> Result<usize, Fault> {
    cursor.one_of(variables, "variable", || match variables {
        [] => "a variable, and none is declared above".to_string(),
        _ => format!("one of {}", variables.join(", ")),
    })
}

impl Sum {
    fn new(column: usize) -> Sum {
        Sum {
            row: Row::default(),
            terms: [column; VARIABLES],
            number: None,
            begin: column,
        }
    }

    /// Adds the next term: a number, a variable, or a number of times a variable.
    fn term(&mut self, sign: i64, cursor: &mut Cursor, variables: &[String]) -> Result<(), Fault> {
        let column = cursor.column();
        let number = cursor.number();
        let times = number.is_some() && cursor.take("*");
        if times || cursor.next().is_some_and(|token| token.kind == Kind::Name) {
            let v = variable(cursor, variables)?;
            self.row.coefficients[v] += sign * number.unwrap_or(1);
            self.terms[v] = column;
            return Ok(());
        }
        let Some(number) = number else {
            let mut due = vec!["a number".to_string()];
            due.extend_from_slice(variables);
            return Err(cursor.expected(&alternatives(&due)));
        };
        self.row.constant += sign * number;
        self.number = Some(column);
        Ok(())
    }

    /// Up to the first token that continues no sum.
    fn read(cursor: &mut Cursor, variables: &[String]) -> Result<Sum, Fault> {
        let mut sum = Sum::new(cursor.column());
        loop {
            let sign = cursor.plus_or_minus();
            sum.term(sign, cursor, variables)?;
            if !cursor.is("+") && !cursor.is("-") {
                return Ok(sum);
            }
        }
    }

    /// This sum less another, which stands behind it.
    fn less(&self, other: &Sum) -> Sum {
        let mut sum = *self;
        sum.row = self.row.plus(-1, &other.row);
        for (v, _) in other.row.terms() {
            sum.terms[v] = other.terms[v];
        }
        sum.number = other.number.or(self.number);
        sum
    }

    /// Minus the sum.
    fn turned(&self) -> Sum {
        let row = Row::default().plus(-1, &self.row);
        Sum { row, ..*self }
    }

    fn less_one(&self) -> Sum {
        let row = self.row.plus(-1, &Row::constant(1));
        Sum { row, ..*self }
    }

    /// The row that it is, if its numbers are allowed.
    fn row(&self, cursor: &Cursor) -> Result<Row, Fault> {
        let outside = |what: &str, number: i64, limit: i64, column: usize| {
            let (number, limit) = (thousands(number), thousands(limit));
            let message = format!("{what} {number} in the row, allowed are -{limit} to {limit}");
            Err(cursor.fault(column, message))
        };
        let large = |&(_, c): &(usize, i64)| c.abs() > COEFFICIENT;
        if let Some((v, c)) = self.row.terms().find(large) {
            return outside("coefficient", c, COEFFICIENT, self.terms[v]);
        }
        match self.row.constant {
            c if c.abs() > CONSTANT => {
                outside("constant", c, CONSTANT, self.number.unwrap_or(self.begin))
            }
            _ => Ok(self.row),
        }
    }
}

/// A sum as the row of a value.
pub fn value(cursor: &mut Cursor, variables: &[String]) -> Result<Row, Fault> {
    Sum::read(cursor, variables)?.row(cursor)
}

/// Two sums and a comparison between them, as the rows that hold where it does.
pub fn comparison(
    cursor: &mut Cursor,
    variables: &[String],
    rows: Rows,
) -> Result<Vec<Row>, Fault> {
    let left = Sum::read(cursor, variables)?;
    let sign = cursor.next().map_or("", |token| token.text);
    match (sign, rows) {
        (">=" | "<=" | ">" | "<", _) | ("=", Rows::Several) => cursor.skip(),
        ("=", Rows::One) => {
            let why = "`=` is two rows, and a predicate is one; expected `>=`, `<=`, `>` or `<`";
            return Err(cursor.fault(cursor.column(), why));
        }
        (_, Rows::One) => return Err(cursor.expected("`+`, `-`, `>=`, `<=`, `>` or `<`")),
        (_, Rows::Several) => return Err(cursor.expected("`+`, `-`, `>=`, `<=`, `>`, `<` or `=`")),
    }
    let right = Sum::read(cursor, variables)?;
    let (above, below) = (left.less(&right), left.less(&right).turned());
    match sign {
        ">=" => Ok(vec![above.row(cursor)?]),
        ">" => Ok(vec![above.less_one().row(cursor)?]),
        "<=" => Ok(vec![below.row(cursor)?]),
        "<" => Ok(vec![below.less_one().row(cursor)?]),
        _ => Ok(vec![above.row(cursor)?, below.row(cursor)?]),
    }
}
