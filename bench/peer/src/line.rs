//! Lines of JSON.

/// The members of an object in the making.
#[derive(Default)]
pub struct Line(Vec<(&'static str, String)>);

impl Line {
    /// Adds a member whose value's text is JSON.
    pub fn add(&mut self, name: &'static str, value: impl ToString) {
        self.0.push((name, value.to_string()));
    }

    /// Returns the text of the object, with its members in ascending order.
    pub fn text(mut self) -> String {
        self.0.sort_unstable();
        let members: Vec<String> = self.0.iter().map(|(name, value)| format!("\"{name}\":{value}")).collect();
        format!("{{{}}}", members.join(","))
    }
}
