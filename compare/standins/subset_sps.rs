// Stands in for a module that is not in the text: `Context` holds one of these, and the comparison makes none.
#[derive(Debug, Clone)]
pub struct SubsetSps {
    pub sps: super::sps::SeqParameterSet,
}
