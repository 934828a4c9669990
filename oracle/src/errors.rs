//! The one error that flatten.rs makes, as in docs/src/src/errors.rs.

#[derive(Debug)]
pub enum ParsingError {
    ParseError { message: String },
}
