//! Stand-in for Plank's operation graph: the names that the original files
//! mention. The shuffler never reads a graph, so this one is always empty.

use plank_core::newtype_index;
use sir_data::OperationIdx;

newtype_index! {
    pub struct OpNodeId;
    pub struct ValueNodeId;
}

#[derive(Debug, Clone, Copy)]
pub enum OpNodeKind {
    Flippable(OperationIdx),
    RetDestPush(OperationIdx),
    Normal(OperationIdx),
}

/// One operation as the tracked stack's `op` takes it.
pub struct OpView<'a> {
    pub inputs_fifo: &'a [ValueNodeId],
    pub outputs_fifo: &'a [ValueNodeId],
    pub kind: OpNodeKind,
}

/// A graph without operations and without outputs.
#[derive(Debug)]
pub struct OpGraph;

impl OpGraph {
    pub fn output_values_fifo(&self) -> &[ValueNodeId] {
        &[]
    }

    pub fn get_op(&self, id: OpNodeId) -> OpView<'_> {
        panic!("the stand-in graph has no operation {id}")
    }
}
