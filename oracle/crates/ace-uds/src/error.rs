//! Error types. Forced: the two variants that the published validation makes, and both `into()` paths.
//! Guessed: everything else about them; the server passes them on whole and only "a codec error" is compared.

use ace_core::codec::CodecError;

#[derive(Debug, Clone, PartialEq, Eq)]
pub enum ValidationError {
    InvalidLength { expected: usize, actual: usize },
    UnsupportedService(u8),
}

#[derive(Debug, Clone, PartialEq, Eq)]
pub enum UdsError {
    Validation(ValidationError),
    Codec(CodecError),
}

impl From<ValidationError> for UdsError {
    fn from(e: ValidationError) -> Self {
        Self::Validation(e)
    }
}

impl From<CodecError> for UdsError {
    fn from(e: CodecError) -> Self {
        Self::Codec(e)
    }
}
