
/// The count of pairs, which `parse` uses and does not tell.
pub mod visible {
    /// How many pairs `input` has, 0 if it is one of the named words, `None` if it is not relative.
    pub fn pairs(input: &str) -> Option<usize> {
        if super::parse_named(input, None).is_some() {
            return Some(0);
        }
        super::parse_ago(input).map(|pairs| pairs.len())
    }
}
