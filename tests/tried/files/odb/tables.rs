//! Has the files of two `objects` folders, as git 2.39.5 wrote them.

use crate::files::files::{Written, files_of};
use std::alloc::{AllocError, Global};

/// The index of three blobs, of which two are deltas by offset.
const OFFSET_INDEX: &str = "\
signature and version: ff744f6300000002
fanout table: 00000000*6 00000001*43 00000002*194 00000003*13
ids: 060bfc0668237c81787c62ccaa767ddfcf27920f 316d70d7e4e8a475bc788cf78a909c6328250d54 \
    f3c2c5e9bdabe1d08b16bec4df75795140e787e9
checksums: 180736a2 d0162a38 46699aa2
offsets: 0000000c 00000088 00000078
hashes of the pack and of the index: 12f99959384c5584a03e86ad98e893512db41a18 \
    5801fe5bd890532bc86a0e0f414ea235aed80f3a
";

/// The pack of that index.
const OFFSET_PACK: &str = "\
bytes: 5041434b0000000200000003bf0f789c35ce510a83301045d1ffac224bf03dad36cb110cb460 \
    1390ee1f6de7fa75673ee630fbbbd53ca4fd17451c192353e41199234be419299cdf0c8e8084 \
    242861094c6882139ef17cff85673ce319cf78c6339e4b5adb96fb357efa51ffcbdafaf7558f \
    740269f34962666c789cfbcff88c71c233000ba6035e667c789cfbcff89971c267000be70378 \
    12f99959384c5584a03e86ad98e893512db41a18
";

/// The index of the same blobs, of which two are deltas by id.
const ID_INDEX: &str = "\
signature and version: ff744f6300000002
fanout table: 00000000*6 00000001*43 00000002*194 00000003*13
ids: 060bfc0668237c81787c62ccaa767ddfcf27920f 316d70d7e4e8a475bc788cf78a909c6328250d54 \
    f3c2c5e9bdabe1d08b16bec4df75795140e787e9
checksums: 180736a2 c7033516 151e1ac3
offsets: 0000000c 0000009b 00000078
hashes of the pack and of the index: 104bb065b2d4a9166271c477d53074cb691aef0b \
    8ca176572ff55617fb439a81cd4c9c0714818cb2
";

/// The pack of that index.
const ID_PACK: &str = "\
bytes: 5041434b0000000200000003bf0f789c35ce510a83301045d1ffac224bf03dad36cb110cb460 \
    1390ee1f6de7fa75673ee630fbbbd53ca4fd17451c192353e41199234be419299cdf0c8e8084 \
    242861094c6882139ef17cff85673ce319cf78c6339e4b5adb96fb357efa51ffcbdafaf7558f \
    740269f3496276060bfc0668237c81787c62ccaa767ddfcf27920f789cfbcff88c71c233000b \
    a6035e76060bfc0668237c81787c62ccaa767ddfcf27920f789cfbcff89971c267000be70378 \
    104bb065b2d4a9166271c477d53074cb691aef0b
";

/// The index of a commit.
const COMMIT_INDEX: &str = "\
signature and version: ff744f6300000002
fanout table: 00000000*63 00000001*193
ids: 3f73ef342e6ba55056734d0d4706fddbba4634d3
checksums: 8f8f67e4
offsets: 0000000c
hashes of the pack and of the index: aa176c27d8998dc09a908562ccfd7abab4d1ab4a \
    3cd7feb15fc7552dec3d399e8b002c8f739235f0
";

/// The pack of that index.
const COMMIT_PACK: &str = "\
bytes: 5041434b00000002000000019807789c55cab10a80201080e1dda7b8bdc5e4320589a227f1f4 \
    a48608ec821e3f0297fee19f3ea9cc80e4cc90934593c832f9a8ade601a9b86cbd71ae10337a \
    8d2adeb29d151608717e26e847dd82eebb4ae771ec225c6185907ea46f4495bd5ea25ef13320 \
    15aa176c27d8998dc09a908562ccfd7abab4d1ab4a
";

/// The loose file of its child.
const SECOND: &str = "\
bytes: 7801558ebb0e02211045adf98ae96d581806488cd1f8250c33448bdd3588899fef23db78ab93 \
    9353dcbacef36dc0447937ba2a202717a412bacaa49c8b25ab01b925a1ec526aac8ad9a2b997 \
    aecb00dfa2d7e6d1297109c1068a1ec50a464b4d84b9207d8437e539ae6b87331ccae9758429 \
    da6db0ff82a9bf23433b5ce050ff12b725e6a1755dc4bc0126ff3153
";

/// The loose file of a merge of both.
const THIRD: &str = "\
bytes: 780155cec16a03310c04d09efd15baf7a29565d90b4b49e89758964c7248b61817f2f9494a7a \
    c89c86e11da6ed97cb79022df231873bb0164ad684a9a9b8ae15053db1f662b252295ddd7945 \
    0e3f75f875029265b1ae89732b44cb221e73cddc7bf2d5c40bab4452fcf7b1e7e83d32b9684d \
    0993e4c886c619a59ba95696c71043fd9da77dc011b67ab87dc192f115f87c96d0fe8e4f1ff0 \
    0d5b7b23f145c23c9d87853bcda13e6a
";

/// A comment, the second folder, an empty line, and a folder that does not exist.
const ALTERNATES: &str = "\
text: #two|/second||none
";

/// The paths of the files, in the form of `files`. The first folder has the second as its alternate,
/// and two packs have the same blobs.
static FILES: [(&str, &str); 9] = [
    ("first/info/alternates", ALTERNATES),
    ("first/pack/a.idx", OFFSET_INDEX),
    ("first/pack/a.pack", OFFSET_PACK),
    ("first/02/d76dfb547c822116e37a74ff5e9d6e84b632b0", SECOND),
    ("second/pack/b.idx", ID_INDEX),
    ("second/pack/b.pack", ID_PACK),
    ("second/pack/c.idx", COMMIT_INDEX),
    ("second/pack/c.pack", COMMIT_PACK),
    ("second/b0/0f028e470a3f7b7e13a2b333fdc942d28e58f5", THIRD),
];

/// The ids of the objects in these files: three blobs, then three commits.
pub(crate) static IDS: [&str; 6] = [
    "f3c2c5e9bdabe1d08b16bec4df75795140e787e9",
    "316d70d7e4e8a475bc788cf78a909c6328250d54",
    "060bfc0668237c81787c62ccaa767ddfcf27920f",
    "3f73ef342e6ba55056734d0d4706fddbba4634d3",
    "02d76dfb547c822116e37a74ff5e9d6e84b632b0",
    "b00f028e470a3f7b7e13a2b333fdc942d28e58f5",
];

/// Writes out the files.
pub(crate) fn files(alloc: Global) -> Result<Vec<Written>, AllocError> {
    files_of(alloc, &FILES)
}
