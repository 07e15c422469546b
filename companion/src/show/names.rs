//! Names for variables, predicates and actions. Words have none: names live in the text of a show only.
use super::model::Logic;

#[derive(Clone, Debug, Default, PartialEq, Eq)]
pub struct Names {
    pub variables: Vec<String>,
    pub predicates: Vec<String>,
    pub actions: Vec<String>,
}

impl Names {
    /// The names of a logic that comes without: `v0`, `p0`, `a0` and so on.
    pub fn numbered(logic: &Logic) -> Names {
        let all = |letter: char, count: usize| (0..count).map(|k| format!("{letter}{k}")).collect();
        Names {
            variables: all('v', logic.ranges.len()),
            predicates: all('p', logic.predicates.len()),
            actions: all('a', logic.actions.len()),
        }
    }

    /// "level 5, house 0"
    pub fn state<T: Into<i64> + Copy>(&self, state: &[T]) -> String {
        let values = self.variables.iter().zip(state);
        let said: Vec<String> = values
            .map(|(name, &value)| format!("{name} {}", value.into()))
            .collect();
        said.join(", ")
    }
}
