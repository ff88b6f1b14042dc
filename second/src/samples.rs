//! The files of `samples/`, with what they hold.

use crate::model::binaries::Binary;
use crate::model::{part, OK, OVERLAP};
use std::collections::BTreeMap;

/// A bundle, and its entries in order: canonical ID and image. `as_written`: LLVM's bundler wrote what the bundle writer writes for them.
pub struct BundleSample {
    pub name: &'static str,
    pub bytes: &'static [u8],
    pub as_written: bool,
    pub entries: &'static [(&'static str, &'static [u8])],
}

/// A bundle that every call refuses by this number.
pub struct RefusedSample {
    pub name: &'static str,
    pub bytes: &'static [u8],
    pub number: u64,
    pub place: u64,
}

/// Offload binaries laid end to end.
pub struct BinariesSample {
    pub name: &'static str,
    pub bytes: &'static [u8],
    pub binaries: &'static [BinarySample],
}

pub struct BinarySample {
    pub image_kind: u64,
    pub offload_kind: u64,
    pub image: &'static [u8],
    pub pairs: &'static [(&'static str, &'static str)],
}

impl BinarySample {
    /// Whether an answer of a reader on these bytes is this binary.
    pub fn is(&self, bytes: &[u8], answer: &Binary) -> bool {
        let named = |place: u64, length: u64| part(bytes, place, length);
        let text = |place: u64, length: u64| named(place, length).and_then(|text| std::str::from_utf8(text).ok());
        let pairs: Option<BTreeMap<&str, &str>> = answer
            .pairs
            .iter()
            .map(|pair| Some((text(pair.key_place, pair.key_length)?, text(pair.text_place, pair.text_length)?)))
            .collect();
        answer.number == OK
            && answer.image_kind == self.image_kind
            && answer.offload_kind == self.offload_kind
            && named(answer.image_place, answer.image_length) == Some(self.image)
            && pairs == Some(self.pairs.iter().copied().collect())
    }
}

macro_rules! sample {
    ($path:literal) => {
        include_bytes!(concat!("../../samples/", $path))
    };
}

const HOST: &str = "host-x86_64-unknown-linux-gnu-";

pub const BUNDLES: &[BundleSample] = &[
    BundleSample {
        name: "three-cards",
        bytes: sample!("bundles/three-cards.bundle"),
        as_written: true,
        entries: &[
            (HOST, b""),
            ("hip-amdgcn-amd-amdhsa--gfx906:sramecc+:xnack+", sample!("images/gfx906-sramecc+xnack+.o")),
            ("hip-amdgcn-amd-amdhsa--gfx906:sramecc+:xnack-", sample!("images/gfx906-sramecc+xnack-.o")),
            ("hip-amdgcn-amd-amdhsa--gfx906:sramecc-:xnack+", sample!("images/gfx906-sramecc-xnack+.o")),
            ("hip-amdgcn-amd-amdhsa--gfx906:sramecc-:xnack-", sample!("images/gfx906-sramecc-xnack-.o")),
            ("hip-amdgcn-amd-amdhsa--gfx90a:sramecc+:xnack+", sample!("images/gfx90a-sramecc+xnack+.o")),
            ("hip-amdgcn-amd-amdhsa--gfx90a:sramecc+:xnack-", sample!("images/gfx90a-sramecc+xnack-.o")),
            ("hip-amdgcn-amd-amdhsa--gfx1030", sample!("images/gfx1030.o")),
        ],
    },
    BundleSample {
        name: "aligned",
        bytes: sample!("bundles/aligned.bundle"),
        as_written: false,
        entries: &[
            (HOST, b""),
            ("hipv4-amdgcn-amd-amdhsa--gfx90a:sramecc+:xnack-", sample!("images/gfx90a-sramecc+xnack-.o")),
            ("hipv4-amdgcn-amd-amdhsa--gfx906:sramecc-:xnack+", sample!("images/gfx906-sramecc-xnack+.o")),
            ("hipv4-amdgcn-amd-amdhsa--gfx1030", sample!("images/gfx1030.o")),
        ],
    },
    BundleSample {
        name: "driver",
        bytes: sample!("bundles/driver.bundle"),
        as_written: false,
        entries: &[
            ("host-x86_64-unknown-linux--", b""),
            ("hipv4-amdgcn-amd-amdhsa--gfx1030", sample!("images/gfx1030.co")),
            ("hipv4-amdgcn-amd-amdhsa--gfx906:sramecc-:xnack+", sample!("images/gfx906-sramecc-xnack+.co")),
        ],
    },
    BundleSample {
        name: "kinds",
        bytes: sample!("bundles/kinds.bundle"),
        as_written: true,
        entries: &[
            (HOST, sample!("images/host.bc")),
            ("openmp-amdgcn-amd-amdhsa--gfx906", sample!("images/gfx906.bc")),
            ("hip-amdgcn-amd-amdhsa--gfx906", sample!("images/gfx906.o")),
            ("openmp-nvptx64-nvidia-cuda--sm_70", sample!("images/sm_70.s")),
            ("openmp-nvptx64-nvidia-cuda--sm_80", sample!("images/sm_80.s")),
        ],
    },
    BundleSample {
        name: "host-only",
        bytes: sample!("bundles/host-only.bundle"),
        as_written: true,
        entries: &[(HOST, b"")],
    },
    BundleSample {
        name: "five-fields",
        bytes: sample!("bundles/five-fields.bundle"),
        as_written: false,
        entries: &[
            (HOST, b""),
            ("hip-amdgcn-amd-amdhsa--gfx906:sramecc-:xnack+", sample!("images/gfx906-sramecc-xnack+.o")),
            ("hip-amdgcn-amd-amdhsa--gfx906:sramecc+:xnack+", sample!("images/gfx906-sramecc+xnack+.o")),
            ("openmp-amdgcn-amd-amdhsa--gfx1030", sample!("images/gfx1030.o")),
        ],
    },
    BundleSample {
        name: "generic",
        bytes: sample!("bundles/generic.bundle"),
        as_written: true,
        entries: &[
            (HOST, b""),
            ("hip-amdgcn-amd-amdhsa--gfx9-generic:xnack+", sample!("images/gfx9-generic-xnack+.o")),
            ("hip-amdgcn-amd-amdhsa--gfx9-generic:xnack-", sample!("images/gfx9-generic-xnack-.o")),
            ("hip-amdgcn-amd-amdhsa--gfx10-3-generic", sample!("images/gfx10-3-generic.o")),
            ("hip-amdgcn-amd-amdhsa--gfx11-generic", sample!("images/gfx11-generic.o")),
            ("hip-amdgcn-amd-amdhsa--gfx906", sample!("images/gfx906.o")),
        ],
    },
    BundleSample {
        name: "generic-short",
        bytes: sample!("bundles/generic-short.bundle"),
        as_written: false,
        entries: &[
            (HOST, b""),
            ("hip-amdgcn-amd-amdhsa--gfx11-generic", sample!("images/gfx11-generic.o")),
            ("hip-amdgcn-amd-amdhsa--gfx9-generic:xnack-", sample!("images/gfx9-generic-xnack-.o")),
            ("hip-amdgcn-amd-amdhsa--gfx9-generic:xnack+", sample!("images/gfx9-generic-xnack+.o")),
            ("hip-amdgcn-amd-amdhsa--gfx10-3-generic", sample!("images/gfx10-3-generic.o")),
        ],
    },
    BundleSample {
        name: "alternative",
        bytes: sample!("bundles/alternative.bundle"),
        as_written: false,
        entries: &[
            (HOST, b""),
            ("hip-amdgcn-amd-amdhsa--fiji", sample!("images/gfx803.o")),
            ("hip-amdgcn-amd-amdhsa--carrizo:xnack+", sample!("images/gfx801-xnack+.o")),
            ("hip-amdgcn-amd-amdhsa--gfx801:xnack-", sample!("images/gfx801-xnack-.o")),
        ],
    },
];

pub const REFUSED: &[RefusedSample] =
    &[RefusedSample { name: "overlap", bytes: sample!("refused/overlap.bundle"), number: OVERLAP, place: 1 }];

/// Every bundle, accepted or refused.
pub fn all_bundles() -> impl Iterator<Item = &'static [u8]> {
    BUNDLES.iter().map(|sample| sample.bytes).chain(REFUSED.iter().map(|sample| sample.bytes))
}

/// Device names that some samples answer with an image and others with NONE, and some that break the rules.
pub const DEVICES: &[&str] = &[
    "host-x86_64-unknown-linux-gnu",
    "host-x86_64-unknown-linux",
    "hip-amdgcn-amd-amdhsa-gfx906",
    "hip-amdgcn-amd-amdhsa-gfx906:xnack+:sramecc-",
    "hip-amdgcn-amd-amdhsa--gfx906:sramecc+:xnack-",
    "hip-amdgcn-amd-amdhsa--gfx906:xnack-",
    "hip-amdgcn-amd-amdhsa--gfx90a:sramecc+:xnack-",
    "hip-amdgcn-amd-amdhsa--gfx90a:sramecc-:xnack-",
    "hip-amdgcn-amd-amdhsa--gfx1030:cumode+",
    "hipv4-amdgcn-amd-amdhsa-gfx906",
    "hipv4-amdgcn-amd-amdhsa--gfx906:sramecc-:xnack+",
    "hipv4-amdgcn-amd-amdhsa--gfx906:sramecc-:xnack-",
    "hipv4-amdgcn-amd-amdhsa--gfx90a:sramecc+:xnack-",
    "hipv4-amdgcn-amd-amdhsa--gfx1030",
    "openmp-amdgcn-amd-amdhsa--gfx1030",
    "openmp-amdgcn-amd-amdhsa-gfx906:sramecc-",
    "openmp-nvptx64-nvidia-cuda-sm_70",
    "openmp-nvptx64-nvidia-cuda--sm_80",
    "openmp-nvptx64-nvidia-cuda--sm_90",
    "hip-amdgcn-amd-amdhsa-gfx9-generic:xnack-",
    "hip-amdgcn-amd-amdhsa--gfx9-generic:xnack+",
    "hip-amdgcn-amd-amdhsa--gfx9-generic",
    "hip-amdgcn-amd-amdhsa-gfx10-3-generic",
    "hip-amdgcn-amd-amdhsa--gfx11-generic:xnack-",
    "hipv4-amdgcn-amd-amdhsa-gfx11-generic",
    "hip-amdgcn-amd-amdhsa-gnu-gfx11-generic",
    "hip-amdgcn-amd-amdhsa-gfx11-",
    "hip-amdgcn-amd-amdhsa--gfx11-generic-",
    "hip-amdgcn-amd-amdhsa--gfx906:xnack",
    "gfx906",
    "",
    "hip-amdgcn-amd-amdhsa--fiji",
    "hip-amdgcn-amd-amdhsa-gfx803",
    "hip-amdgcn-amd-amdhsa--carrizo:xnack-",
    "hip-amdgcn-amd-amdhsa-gfx801:xnack+",
];

pub const BINARIES: &[BinariesSample] = &[
    BinariesSample {
        name: "one",
        bytes: sample!("binaries/one.bin"),
        binaries: &[BinarySample {
            image_kind: 1,
            offload_kind: 0,
            image: sample!("images/gfx906.o"),
            pairs: &[("triple", "amdgcn-amd-amdhsa"), ("arch", "gfx906")],
        }],
    },
    BinariesSample {
        name: "bitcode",
        bytes: sample!("binaries/bitcode.bin"),
        binaries: &[BinarySample {
            image_kind: 2,
            offload_kind: 1,
            image: sample!("images/gfx906.bc"),
            pairs: &[("triple", "amdgcn-amd-amdhsa"), ("arch", "gfx906")],
        }],
    },
    BinariesSample {
        name: "kinds",
        bytes: sample!("binaries/kinds.bin"),
        binaries: &[
            BinarySample {
                image_kind: 1,
                offload_kind: 3,
                image: sample!("images/gfx906-sramecc-xnack+.o"),
                pairs: &[("triple", "amdgcn-amd-amdhsa"), ("arch", "gfx906:sramecc-:xnack+")],
            },
            BinarySample {
                image_kind: 2,
                offload_kind: 1,
                image: sample!("images/gfx906.bc"),
                pairs: &[("triple", "amdgcn-amd-amdhsa"), ("arch", "gfx906")],
            },
            BinarySample {
                image_kind: 5,
                offload_kind: 2,
                image: sample!("images/sm_70.s"),
                pairs: &[("triple", "nvptx64-nvidia-cuda"), ("arch", "sm_70")],
            },
            BinarySample {
                image_kind: 5,
                offload_kind: 2,
                image: sample!("images/sm_80.s"),
                pairs: &[("triple", "nvptx64-nvidia-cuda"), ("arch", "sm_80")],
            },
        ],
    },
    BinariesSample {
        name: "pairs",
        bytes: sample!("binaries/pairs.bin"),
        binaries: &[
            BinarySample {
                image_kind: 1,
                offload_kind: 1,
                image: sample!("images/gfx1030.o"),
                pairs: &[
                    ("triple", "amdgcn-amd-amdhsa"),
                    ("arch", "gfx1030"),
                    ("feature", "-wavefrontsize64"),
                    ("note", "arch"),
                    ("empty", ""),
                ],
            },
            BinarySample {
                image_kind: 0,
                offload_kind: 1,
                image: b"",
                pairs: &[("triple", "amdgcn-amd-amdhsa"), ("arch", "gfx1030")],
            },
        ],
    },
    BinariesSample {
        name: "small",
        bytes: sample!("binaries/small.bin"),
        binaries: &[
            BinarySample {
                image_kind: 0,
                offload_kind: 3,
                image: b"",
                pairs: &[("triple", "amdgcn-amd-amdhsa"), ("arch", "gfx906")],
            },
            BinarySample {
                image_kind: 0,
                offload_kind: 2,
                image: b"",
                pairs: &[("triple", "nvptx64-nvidia-cuda"), ("arch", "sm_70")],
            },
        ],
    },
];

#[cfg(test)]
mod tests {
    use super::*;
    use crate::gen::ids::{kind_respelled, meaning_of};
    use crate::model::binaries::read_all;
    use crate::model::bundle::{check, check_of, entries, entry_at, pick, pick_of, Checked};
    use crate::model::id::{canonical, meaning, Reading};
    use crate::model::{END, NONE, QUERY};
    use std::collections::BTreeSet;

    #[test]
    fn bundles_hold_their_images() {
        for sample in BUNDLES {
            let count = sample.entries.len() as u64;
            assert_eq!(check(sample.bytes), Checked { number: OK, place: 0, count }, "{}", sample.name);
            for (index, (id, image)) in sample.entries.iter().enumerate() {
                let picked = pick(sample.bytes, id.as_bytes());
                assert_eq!((picked.number, picked.index), (OK, index as u64), "{}: {id}", sample.name);
                let found = &sample.bytes[picked.position as usize..][..picked.size as usize];
                assert!(found == *image, "{}: {id}", sample.name);
                let located = entry_at(sample.bytes, index as u64);
                assert_eq!((located.position, located.size), (picked.position, picked.size), "{}: {id}", sample.name);
                let spelled = &sample.bytes[located.id_position as usize..][..located.id_length as usize];
                assert_eq!(meaning(spelled).map(|entry| canonical(&entry)), Some(id.as_bytes().to_vec()));
            }
        }
    }

    #[test]
    fn bundles_are_picked_from_by_hip_and_by_hipv4() {
        for sample in BUNDLES {
            for (id, _) in sample.entries {
                let other = canonical(&kind_respelled(&meaning_of(id.as_bytes())));
                assert_eq!(pick(sample.bytes, &other), pick(sample.bytes, id.as_bytes()), "{}: {id}", sample.name);
            }
        }
    }

    #[test]
    fn bundles_are_those_of_our_own_cards() {
        for sample in BUNDLES {
            let [general, profile] = [Reading::General, Reading::Profile].map(|reading| entries(reading, sample.bytes));
            assert_eq!(check_of(&profile), check_of(&general), "{}", sample.name);
            for (id, _) in sample.entries {
                let picked = pick_of(Reading::Profile, &profile, id.as_bytes());
                assert_eq!(picked, pick(sample.bytes, id.as_bytes()), "{}: {id}", sample.name);
            }
        }
    }

    #[test]
    fn an_alternative_name_is_its_primary_by_the_profile_alone() {
        let sample = BUNDLES.iter().find(|sample| sample.name == "alternative").unwrap();
        let answer = |reading, device: &str| {
            let picked = pick_of(reading, &entries(reading, sample.bytes), device.as_bytes());
            (picked.number, picked.index)
        };
        for (device, index) in
            [("gfx803", 1), ("-fiji", 1), ("-polaris11", 1), ("gfx801:xnack+", 2), ("-carrizo:xnack-", 3)]
        {
            let device = format!("hip-amdgcn-amd-amdhsa-{device}");
            assert_eq!(answer(Reading::Profile, &device), (OK, index), "{device}");
        }
        for device in ["gfx803", "-polaris11", "gfx801:xnack+", "-carrizo:xnack-"] {
            let device = format!("hip-amdgcn-amd-amdhsa-{device}");
            assert_eq!(answer(Reading::General, &device), (NONE, 0), "{device}");
        }
    }

    #[test]
    fn a_bundle_of_clangs_driver_is_picked_from() {
        let driver = BUNDLES.iter().find(|sample| sample.name == "driver").unwrap();
        let answer = |device: &str| {
            let picked = pick(driver.bytes, device.as_bytes());
            (picked.number, picked.index, picked.position, picked.size)
        };
        for kind in ["hip", "hipv4"] {
            assert_eq!(answer(&format!("{kind}-amdgcn-amd-amdhsa--gfx1030")), (OK, 1, 4096, 3288));
            assert_eq!(answer(&format!("{kind}-amdgcn-amd-amdhsa-gfx906:xnack+:sramecc-")), (OK, 2, 8192, 3048));
            assert_eq!(answer(&format!("{kind}-amdgcn-amd-amdhsa-gfx906:xnack-:sramecc-")), (NONE, 0, 0, 0));
            assert_eq!(answer(&format!("{kind}-amdgcn-amd-amdhsa-gfx906")), (NONE, 0, 0, 0));
        }
        assert_eq!(answer("openmp-amdgcn-amd-amdhsa--gfx1030"), (NONE, 0, 0, 0));
        assert_eq!(answer("host-x86_64-unknown-linux"), (OK, 0, 4096, 0));
        assert_eq!(answer("host-x86_64-unknown-linux-gnu"), (NONE, 0, 0, 0));
    }

    #[test]
    fn bundles_of_generic_processors_are_picked_from() {
        let index = |name: &str, device: &str| {
            let sample = BUNDLES.iter().find(|sample| sample.name == name).unwrap();
            let picked = pick(sample.bytes, device.as_bytes());
            (picked.number, picked.index)
        };
        for dashes in ["-", "--"] {
            for (processor, long, short) in [
                ("gfx9-generic:xnack+", (OK, 1), (OK, 3)),
                ("gfx9-generic:xnack-", (OK, 2), (OK, 2)),
                ("gfx10-3-generic", (OK, 3), (OK, 4)),
                ("gfx11-generic", (OK, 4), (OK, 1)),
                ("gfx11-generic:xnack-", (OK, 4), (OK, 1)),
                ("gfx9-generic", (NONE, 0), (NONE, 0)),
                ("gfx12-generic", (NONE, 0), (NONE, 0)),
                ("gfx9", (NONE, 0), (NONE, 0)),
                ("gfx9-generic-:xnack-", (QUERY, 0), (QUERY, 0)),
            ] {
                let device = format!("hip-amdgcn-amd-amdhsa{dashes}{processor}");
                assert_eq!(index("generic", &device), long, "{device}");
                assert_eq!(index("generic-short", &device), short, "{device}");
            }
        }
    }

    #[test]
    fn devices_get_each_answer() {
        for sample in BUNDLES {
            let numbers: BTreeSet<u64> =
                DEVICES.iter().map(|device| pick(sample.bytes, device.as_bytes()).number).collect();
            assert_eq!(numbers, BTreeSet::from([OK, QUERY, NONE]), "{}", sample.name);
        }
    }

    #[test]
    fn refused_bundles_are_refused() {
        for RefusedSample { name, bytes, number, place } in REFUSED {
            assert_eq!(check(bytes), Checked { number: *number, place: *place, count: 0 }, "{name}");
            for device in DEVICES {
                let picked = pick(bytes, device.as_bytes());
                assert_eq!((picked.number, picked.place), (*number, *place), "{name}: {device}");
            }
            let located = entry_at(bytes, 0);
            assert_eq!((located.number, located.place), (*number, *place), "{name}");
        }
    }

    #[test]
    fn images_of_the_sample_overlap_in_one_byte() {
        let mut bundle = REFUSED[0].bytes.to_vec();
        bundle[40] -= 1; // the first image's size
        let images = [0, 1].map(|index| {
            let located = entry_at(&bundle, index);
            assert_eq!(located.number, OK);
            (located.position, located.position + located.size)
        });
        let found = images.map(|(start, end)| &bundle[start as usize..end as usize]);
        assert_eq!(found, [&sample!("images/host.bc")[..], sample!("images/sm_70.s")]);
        assert_eq!(images[0].1, images[1].0);
    }

    #[test]
    fn binaries_hold_their_images() {
        for sample in BINARIES {
            let answers = read_all(sample.bytes);
            assert_eq!(answers.len(), sample.binaries.len() + 1, "{}", sample.name);
            for (answer, binary) in answers.iter().zip(sample.binaries) {
                assert!(binary.is(sample.bytes, answer), "{}: {answer:?}", sample.name);
            }
            assert_eq!(answers[sample.binaries.len()].number, END, "{}", sample.name);
        }
    }
}
