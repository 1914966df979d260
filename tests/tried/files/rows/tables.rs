//! Has the commit-graphs of two `objects` folders, as git 2.39.5 wrote them.

use crate::files::files::{Written, files_of};
use std::alloc::{AllocError, Global};

/// The commit-graph of six commits in one file.
const SINGLE: &str = "\
header: 4347504801010400
table of contents: 4f4944460000000000000044 4f49444c0000000000000444 4344415400000000000004bc \
    454447450000000000000594 0000000000000000000005a0
fanout table: 00000000*27 00000001*50 00000002*21 00000003*14 00000004*9 00000005*129 00000006*6
ids: 1b6afd474ef1db168e67a7c8319af43d72ab5c16 4da8c4cf88c968fd12c982ac977b2e83ec0b5746 \
    62e053567ce85cbd092fa503ab791ed9f64587b1 70fe3f53b9b8f59ef5c51371da30b562af4dc716 \
    79deb138ee72fc41f08d8292cee24a0eda97c507 fa1091475e16a5a1e6ac902405ff3bf3c5d54aaf
rows: 4b825dc642cb6eb9a060e54bf8d69288fbee49040000000380000000000000106553f132 \
    4b825dc642cb6eb9a060e54bf8d69288fbee490400000005700000000000000900000007 \
    4b825dc642cb6eb9a060e54bf8d69288fbee49040000000570000000000000086553f114 \
    4b825dc642cb6eb9a060e54bf8d69288fbee490400000001000000020000000fffffffff \
    4b825dc642cb6eb9a060e54bf8d69288fbee49047000000070000000000000046553f11e \
    4b825dc642cb6eb9a060e54bf8d69288fbee49047000000070000000000000046553f100
further parents: 00000004 00000002 80000005
hash: 7996a449a8e0fb8c83d49d599d79ca6c9773e318
";

/// The base of a chain: four of the commits.
const BASE: &str = "\
header: 4347504801010300
table of contents: 4f4944460000000000000038 4f49444c0000000000000438 434441540000000000000488 \
    000000000000000000000518
fanout table: 00000000*77 00000001*21 00000002*23 00000003*129 00000004*6
ids: 4da8c4cf88c968fd12c982ac977b2e83ec0b5746 62e053567ce85cbd092fa503ab791ed9f64587b1 \
    79deb138ee72fc41f08d8292cee24a0eda97c507 fa1091475e16a5a1e6ac902405ff3bf3c5d54aaf
rows: 4b825dc642cb6eb9a060e54bf8d69288fbee490400000003700000000000000900000007 \
    4b825dc642cb6eb9a060e54bf8d69288fbee49040000000370000000000000086553f114 \
    4b825dc642cb6eb9a060e54bf8d69288fbee49047000000070000000000000046553f11e \
    4b825dc642cb6eb9a060e54bf8d69288fbee49047000000070000000000000046553f100
hash: 790bba026ba89ef5536a519dfcf3ceec27e698f1
";

/// The other two.
const TOP: &str = "\
header: 4347504801010501
table of contents: 4f4944460000000000000050 4f49444c0000000000000450 434441540000000000000478 \
    4544474500000000000004c0 4241534500000000000004cc 0000000000000000000004e0
fanout table: 00000000*27 00000001*85 00000002*144
ids: 1b6afd474ef1db168e67a7c8319af43d72ab5c16 70fe3f53b9b8f59ef5c51371da30b562af4dc716
rows: 4b825dc642cb6eb9a060e54bf8d69288fbee49040000000580000000000000106553f132 \
    4b825dc642cb6eb9a060e54bf8d69288fbee490400000000000000010000000fffffffff
further parents: 00000002 00000001 80000003
base graphs: 790bba026ba89ef5536a519dfcf3ceec27e698f1
hash: 0b665c722a2835b0c247ea3a19c3815aa2bff4b3
";

/// The lines that name the files of the chain.
const CHAIN: &str = "\
text: 790bba026ba89ef5536a519dfcf3ceec27e698f1|0b665c722a2835b0c247ea3a19c3815aa2bff4b3|
";

/// The paths of the files, in the form of `files`.
static FILES: [(&str, &str); 4] = [
    ("single/info/commit-graph", SINGLE),
    (
        "chain/info/commit-graphs/graph-790bba026ba89ef5536a519dfcf3ceec27e698f1.graph",
        BASE,
    ),
    (
        "chain/info/commit-graphs/graph-0b665c722a2835b0c247ea3a19c3815aa2bff4b3.graph",
        TOP,
    ),
    ("chain/info/commit-graphs/commit-graph-chain", CHAIN),
];

/// Has what a commit-graph says of a commit. The parents are places in `COMMITS`.
pub(crate) struct Wanted {
    pub(crate) id: &'static str,
    pub(crate) time: i64,
    pub(crate) level: u32,
    pub(crate) parents: &'static [usize],
}

/// The six commits, the last one with four parents.
pub(crate) static COMMITS: [Wanted; 6] = [
    Wanted {
        id: "fa1091475e16a5a1e6ac902405ff3bf3c5d54aaf",
        time: 1700000000,
        level: 1,
        parents: &[],
    },
    Wanted {
        id: "4da8c4cf88c968fd12c982ac977b2e83ec0b5746",
        time: 4294967303,
        level: 2,
        parents: &[0],
    },
    Wanted {
        id: "62e053567ce85cbd092fa503ab791ed9f64587b1",
        time: 1700000020,
        level: 2,
        parents: &[0],
    },
    Wanted {
        id: "79deb138ee72fc41f08d8292cee24a0eda97c507",
        time: 1700000030,
        level: 1,
        parents: &[],
    },
    Wanted {
        id: "70fe3f53b9b8f59ef5c51371da30b562af4dc716",
        time: 17179869183,
        level: 3,
        parents: &[1, 2],
    },
    Wanted {
        id: "1b6afd474ef1db168e67a7c8319af43d72ab5c16",
        time: 1700000050,
        level: 4,
        parents: &[4, 3, 2, 0],
    },
];

/// Writes out the files.
pub(crate) fn files(alloc: Global) -> Result<Vec<Written>, AllocError> {
    files_of(alloc, &FILES)
}
