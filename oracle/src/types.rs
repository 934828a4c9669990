//! `Value`, as in docs/src/src/types.rs.

#[derive(Debug, Clone)]
pub enum Value {
    Str(String),
    Float(f64),
    StrList(Vec<String>),
}
