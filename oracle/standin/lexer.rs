//! Stands in for cranelift-isle's `lexer`. A Return of serialize.rs carries nothing of its rule but
//! `pos`, so ours tells which rule of the book it was, beside the pos that the book gives it.

#[derive(Clone, Copy, Debug, Default, Eq, PartialEq)]
pub struct Pos {
    pub rule: u32,
    pub pos: u32,
}
