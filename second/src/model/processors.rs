//! "a constant table of processors copied from LLVM's AMDGPU user guide": the `amdgcn` and generic rows.

/// A row: "primary name, alternative names, whether `sramecc` and `xnack` are supported".
#[derive(Debug, PartialEq, Eq)]
pub struct Processor {
    pub primary: &'static str,
    pub alternatives: &'static [&'static str],
    pub features: &'static [&'static str],
}

impl Processor {
    /// The primary name, and then the alternative ones.
    pub fn names(&self) -> impl Iterator<Item = &'static str> {
        [self.primary].into_iter().chain(self.alternatives.iter().copied())
    }

    pub fn supports(&self, feature: &[u8]) -> bool {
        self.features.iter().any(|supported| supported.as_bytes() == feature)
    }
}

/// The row with this name.
pub fn known(name: &[u8]) -> Option<&'static Processor> {
    PROCESSORS.iter().find(|row| row.names().any(|other| other.as_bytes() == name))
}

const fn row(
    primary: &'static str,
    alternatives: &'static [&'static str],
    features: &'static [&'static str],
) -> Processor {
    Processor { primary, alternatives, features }
}

const NEITHER: &[&str] = &[];
const XNACK: &[&str] = &["xnack"];
const BOTH: &[&str] = &["sramecc", "xnack"];

pub const PROCESSORS: &[Processor] = &[
    row("gfx600", &["tahiti"], NEITHER),
    row("gfx601", &["pitcairn", "verde"], NEITHER),
    row("gfx602", &["hainan", "oland"], NEITHER),
    row("gfx700", &["kaveri"], NEITHER),
    row("gfx701", &["hawaii"], NEITHER),
    row("gfx702", &[], NEITHER),
    row("gfx703", &["kabini", "mullins"], NEITHER),
    row("gfx704", &["bonaire"], NEITHER),
    row("gfx705", &[], NEITHER),
    row("gfx801", &["carrizo"], XNACK),
    row("gfx802", &["iceland", "tonga"], NEITHER),
    row("gfx803", &["fiji", "polaris10", "polaris11"], NEITHER),
    row("gfx805", &["tongapro"], NEITHER),
    row("gfx810", &["stoney"], XNACK),
    row("gfx900", &[], XNACK),
    row("gfx902", &[], XNACK),
    row("gfx904", &[], XNACK),
    row("gfx906", &[], BOTH),
    row("gfx908", &[], BOTH),
    row("gfx909", &[], XNACK),
    row("gfx90a", &[], BOTH),
    row("gfx90c", &[], XNACK),
    row("gfx940", &[], BOTH),
    row("gfx941", &[], BOTH),
    row("gfx942", &[], BOTH),
    row("gfx1010", &[], XNACK),
    row("gfx1011", &[], XNACK),
    row("gfx1012", &[], XNACK),
    row("gfx1013", &[], XNACK),
    row("gfx1030", &[], NEITHER),
    row("gfx1031", &[], NEITHER),
    row("gfx1032", &[], NEITHER),
    row("gfx1033", &[], NEITHER),
    row("gfx1034", &[], NEITHER),
    row("gfx1035", &[], NEITHER),
    row("gfx1036", &[], NEITHER),
    row("gfx1100", &[], NEITHER),
    row("gfx1101", &[], NEITHER),
    row("gfx1102", &[], NEITHER),
    row("gfx1103", &[], NEITHER),
    row("gfx1150", &[], NEITHER),
    row("gfx1151", &[], NEITHER),
    row("gfx1152", &[], NEITHER),
    row("gfx1200", &[], NEITHER),
    row("gfx1201", &[], NEITHER),
    row("gfx9-generic", &[], XNACK),
    row("gfx10-1-generic", &[], XNACK),
    row("gfx10-3-generic", &[], NEITHER),
    row("gfx11-generic", &[], NEITHER),
    row("gfx12-generic", &[], NEITHER),
];

#[cfg(test)]
mod tests {
    use super::*;
    use crate::model::id::begins_a_processor;
    use std::collections::BTreeSet;

    fn names() -> Vec<&'static str> {
        PROCESSORS.iter().flat_map(Processor::names).collect()
    }

    #[test]
    fn no_name_stands_twice() {
        assert_eq!(PROCESSORS.len(), 50);
        assert_eq!(names().len(), 68);
        assert_eq!(names().into_iter().collect::<BTreeSet<_>>().len(), 68);
    }

    #[test]
    fn each_name_is_found_on_its_row() {
        for row in PROCESSORS {
            assert!(row.names().all(|name| known(name.as_bytes()) == Some(row)), "{}", row.primary);
        }
        for name in names() {
            let shorter = &name.as_bytes()[..name.len() - 1];
            let longer = [name.as_bytes(), b"0"].concat();
            let upper = name.to_ascii_uppercase();
            assert_eq!([shorter, &longer, upper.as_bytes()].map(known), [None; 3], "{name}");
        }
    }

    #[test]
    fn an_alternative_name_stands_in_the_sixth_field() {
        for row in PROCESSORS {
            assert!(begins_a_processor(row.primary.as_bytes()), "{}", row.primary);
            assert!(!row.alternatives.iter().any(|name| begins_a_processor(name.as_bytes())), "{}", row.primary);
        }
    }
}
