//! A stand-in for upstream's error module.

/// Never built: no LIN reader gives an error.
#[derive(Debug)]
pub enum ParseError {}

/// What the LIN readers give: always a value, so `let Ok(board) = ..` takes it.
pub type Result<T> = std::result::Result<T, ParseError>;
