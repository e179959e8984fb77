
/// The readers that gix-date keeps to itself, made visible so that they can be asked one at a time.
pub mod visible {
    use crate::Time;
    use jiff::Zoned;

    /// `parse` less its six calls into jiff's text readers.
    pub use super::function::parse_cut as any;
    /// The same with raw dates read by rule 2.
    pub use super::function::parse_cut_2 as any_2;
    /// How many pairs `relative::parse` found.
    pub use super::relative::visible::pairs;

    /// `raw::parse_raw`.
    pub fn raw(input: &str) -> Option<Time> {
        super::raw::parse_raw(input)
    }

    /// `raw::parse_raw` by rule 2: with hours below 24 and minutes below 60.
    pub fn raw_2(input: &str) -> Option<Time> {
        super::raw::parse_raw_2(input)
    }

    /// `git::parse_git_date_format`.
    pub fn iso(input: &str) -> Option<Time> {
        super::git::parse_git_date_format(input)
    }

    /// `relative::parse`: `None` if the text is not relative, an error if it is and leads nowhere.
    pub fn relative(input: &str, now: Option<Zoned>) -> Option<gix_error::Result<Zoned>> {
        super::relative::parse(input, now)
    }
}
