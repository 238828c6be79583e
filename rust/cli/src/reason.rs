//! Why an arrival got its answer, and why a family has its place, in words: those of the library's reason.

use tools::why::Reason;

/// A reason in words.
pub fn of(why: &Reason) -> String {
    why.to_string()
}

#[cfg(test)]
mod tests;
