//! Stand-in for errors.rs: the errors that the given files name.

#[derive(Clone, Copy, Debug, PartialEq, Eq)]
pub enum Error {
    SameVertex,
    EmptyWire,
    NotClosedWire,
    NotSimpleWire,
    NotDisjointWires,
    EmptyShell,
    NotConnected,
    NotClosedShell,
    NotManifold,
}

impl std::fmt::Display for Error {
    fn fmt(&self, f: &mut std::fmt::Formatter<'_>) -> std::fmt::Result { write!(f, "{self:?}") }
}

impl std::error::Error for Error {}
