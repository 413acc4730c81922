//! The exit status.

/// How a subcommand ended. A fault ends with [`FAULT`] in its place.
#[derive(Clone, Copy, Debug, PartialEq, Eq)]
pub enum Status {
    /// All is well: every block decoded, the matrix accepted, the file written.
    Done,
    /// Some block is open: it failed or was refused. Or, where that is asked for, some block was
    /// decoded beyond the half.
    Open,
}

/// The status for a fault of the input or of the system.
pub const FAULT: u8 = 2;

impl Status {
    /// The number that the shell sees.
    pub fn code(self) -> u8 {
        match self {
            Status::Done => 0,
            Status::Open => 1,
        }
    }
}
