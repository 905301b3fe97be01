//! Prints lists and bytes as terms of the proof language.

/// A list of terms that are printed already.
pub fn list(terms: impl IntoIterator<Item = String>) -> String {
    let mut out: String = terms.into_iter().map(|term| term + " ∷ ").collect();
    out += "[]";
    if out == "[]" {
        out
    } else {
        format!("({out})")
    }
}

pub fn bytes(bytes: &[u8]) -> String {
    list(bytes.iter().map(u8::to_string))
}

#[cfg(test)]
mod tests {
    use super::*;

    #[test]
    fn terms_are_printed_as_the_definitions_write_them() {
        assert_eq!(bytes(&[1, 0, 7]), "(1 ∷ 0 ∷ 7 ∷ [])");
        assert_eq!(bytes(&[]), "[]");
    }
}
