//! Stand-in for Plank's `sir-data`: the two index types that the stacks name.

plank_core::newtype_index! {
    pub struct StaticAllocId;
    pub struct OperationIdx;
}
