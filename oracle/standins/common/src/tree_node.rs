//! Walks over trees of shared nodes.
//!
//! Assumed of `transform_down`: a node is visited first, then the children of what it became, from the first to the last. A stop
//! ends the whole walk: no later node is visited, siblings of every level among them. A node's children are replaced only where
//! a visit said that it changed something.

use std::sync::Arc;

use crate::error::Result;

#[derive(Clone, Copy, Debug, PartialEq, Eq)]
pub enum TreeNodeRecursion {
    Continue,
    Jump,
    Stop,
}

#[derive(Debug)]
pub struct Transformed<T> {
    pub data: T,
    pub transformed: bool,
    pub tnr: TreeNodeRecursion,
}

impl<T> Transformed<T> {
    pub fn yes(data: T) -> Self {
        Self { data, transformed: true, tnr: TreeNodeRecursion::Continue }
    }

    pub fn no(data: T) -> Self {
        Self { data, transformed: false, tnr: TreeNodeRecursion::Continue }
    }

    /// Changed, and the walk ends here.
    pub fn complete(data: T) -> Self {
        Self { data, transformed: true, tnr: TreeNodeRecursion::Stop }
    }
}

pub trait TransformedResult<T> {
    fn data(self) -> Result<T>;
}

impl<T> TransformedResult<T> for Result<Transformed<T>> {
    fn data(self) -> Result<T> {
        self.map(|transformed| transformed.data)
    }
}

pub trait TreeNode: Sized {
    /// Visits the children until one visit ends with a stop.
    fn map_children<F>(self, visit: F) -> Result<Transformed<Self>>
    where
        F: FnMut(Self) -> Result<Transformed<Self>>;

    fn transform_down<F>(self, mut visit: F) -> Result<Transformed<Self>>
    where
        F: FnMut(Self) -> Result<Transformed<Self>>,
    {
        walk_down(self, &mut visit)
    }
}

fn walk_down<N, F>(node: N, visit: &mut F) -> Result<Transformed<N>>
where
    N: TreeNode,
    F: FnMut(N) -> Result<Transformed<N>>,
{
    let visited = visit(node)?;
    match visited.tnr {
        TreeNodeRecursion::Continue => {
            let mut below = visited.data.map_children(|child| walk_down(child, visit))?;
            below.transformed |= visited.transformed;
            Ok(below)
        }
        TreeNodeRecursion::Jump => Ok(Transformed { tnr: TreeNodeRecursion::Continue, ..visited }),
        TreeNodeRecursion::Stop => Ok(visited),
    }
}

/// A node behind an `Arc`. Traits of other crates become tree nodes through this one.
pub trait DynTreeNode {
    fn arc_children(&self) -> Vec<&Arc<Self>>;

    fn with_new_arc_children(self: Arc<Self>, children: Vec<Arc<Self>>) -> Result<Arc<Self>>;
}

impl<T: DynTreeNode + ?Sized> TreeNode for Arc<T> {
    fn map_children<F>(self, mut visit: F) -> Result<Transformed<Self>>
    where
        F: FnMut(Self) -> Result<Transformed<Self>>,
    {
        let children: Vec<Self> = self.arc_children().into_iter().map(Arc::clone).collect();
        let mut new_children = Vec::with_capacity(children.len());
        let mut transformed = false;
        let mut tnr = TreeNodeRecursion::Continue;
        for child in children {
            if tnr == TreeNodeRecursion::Stop {
                new_children.push(child);
                continue;
            }
            let visited = visit(child)?;
            transformed |= visited.transformed;
            tnr = visited.tnr;
            new_children.push(visited.data);
        }
        let data = if transformed { self.with_new_arc_children(new_children)? } else { self };
        Ok(Transformed { data, transformed, tnr })
    }
}
