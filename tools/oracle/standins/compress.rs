//! Stand-in for compress.rs: only the names that the given files bring into
//! scope; nothing here is asked for an answer.

pub struct CompressedEdgeIndex;
pub struct CompressedEdge<C>(C);
pub struct CompressedFace<S>(S);
pub struct CompressedShell<P, C, S>(P, C, S);
pub struct CompressedSolid<P, C, S>(P, C, S);
