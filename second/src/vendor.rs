//! How the vertices of a vendor's task lead on (wish 5).

use crate::table::VertexNo;

/// A vendor's way to describe a task: one edge leaves each vertex, and the vertices' order says where it leads.
#[derive(Clone, Copy)]
pub(crate) enum Vendor {
    /// A cycle in which each vertex leads to the next and the last to the first.
    Ring,
    /// Each vertex leads only to itself.
    GearTable,
}

impl Vendor {
    /// The vertex that a vertex leads to, of so many.
    pub(crate) fn leads_to(self, vertex: VertexNo, count: u16) -> VertexNo {
        match self {
            Vendor::Ring => VertexNo((vertex.0 + 1) % count),
            Vendor::GearTable => vertex,
        }
    }
}
