use std::fmt;

#[derive(Debug)]
pub struct ArrowError(pub String);

impl fmt::Display for ArrowError {
    fn fmt(&self, f: &mut fmt::Formatter<'_>) -> fmt::Result {
        f.write_str(&self.0)
    }
}
