//! Calendar files written out by hand, byte for byte, with what a reader is to give.

/// Document 01, "One whole case": the export of a span with day 4,822.
pub fn whole_case() -> Vec<u8> {
    const HEAD: &[u8] = &[
        0xB5, 0xA2, 0xB0, 0xB3, 0xB3, 0xB0, 0xA2, 0xB5, 0x01, 0x00, 0x05, 0x00, 0x01, 0x00, 0x01, 0x00, 0x1E,
        0x00, 0x01, 0x00, 0xE0, 0x01,
    ];
    const TABLE: &[u8] = &[0xD6, 0x12, 0x00, 0x00, 0x01, 0x00, 0x02, 0x00, 0xFF, 0x0F, 0xFF, 0x0F];
    const BLOCK: &[u8] = &[
        0x00, 0x00, 0xD6, 0x12, 0x01, 0x00, 0x00, 0x00, 0x08, 0x00, 0x08, 0x01, 0x58, 0x02, 0x44, 0x65, 0x70,
        0x00,
    ];
    [HEAD, &[0; 42], TABLE, &[0; 52], BLOCK, &[0; 46]].concat()
}

/// Document 01: the export of a span without it.
pub fn empty() -> Vec<u8> {
    const HEAD: &[u8] = &[
        0xB5, 0xA2, 0xB0, 0xB3, 0xB3, 0xB0, 0xA2, 0xB5, 0x00, 0x00, 0x05, 0x00, 0x01, 0x00, 0x01, 0x00, 0x1E,
        0x00, 0x01, 0x00, 0xE0, 0x01,
    ];
    [HEAD, &[0; 42]].concat()
}

/// Two days, 217 bytes, with anything in what is to be ignored. Day 4,822 has its block at 192, with two bytes
/// of notes and appointments at 204 and 212; day 4,823 has its block at 128, with notes only.
pub fn two_days() -> Vec<u8> {
    const HEAD: &[u8] = &[
        0xB5, 0xA2, 0xB0, 0xB3, 0xB3, 0xB0, 0xA2, 0xB5, 2, 0, 0xFF, 0xFF, 7, 0, 3, 0, 99, 0, 0, 2, 0xA0, 0x05,
    ];
    const TABLE: &[u8] = &[
        0xD6, 0x12, 0x80, 0x0F, 9, 9, 3, 0, 0xFF, 0x0F, 0xFF, 0x0F, //
        0xD7, 0x12, 0xFF, 0xFF, 1, 0, 2, 0, 0, 0, 0, 0,
    ];
    const NOTES_ONLY: &[u8] = &[0, 0, 0xD7, 0x12, 1, 0, 3, 0, 0, 0, b'a', b'b', 0];
    const BOTH: &[u8] = &[
        0, 0, 0xD6, 0x12, 1, 0, 2, 0, 13, 0, b'n', 0, //
        8, 1, 0x58, 0x02, b'D', b'e', b'p', 0, //
        5, 2, 0x59, 0x02, 0,
    ];
    [HEAD, &[0xEE; 42], TABLE, &[0xEE; 40], NOTES_ONLY, &[0x11; 51], BOTH].concat()
}

/// Where `two_days` is changed, to what, and the number and place that it is then refused with.
pub const FAULTS: &[(usize, &[u8], u32, usize)] = &[
    (0, &[0xB4], 21, 0),
    (3, &[0], 21, 0),
    (7, &[0xA2, 1], 21, 0),
    // The table: 13 descriptors end at 220, 12 at 208, but the third begins with EE EE.
    (8, &[13, 0], 22, 64),
    (8, &[0, 1], 22, 64),
    (8, &[0xFF, 0xFF], 22, 64),
    (8, &[12, 0], 22, 88),
    (8, &[3, 0], 22, 88),
    // Days: 43,830, the same, falling.
    (64, &[0x36, 0xAB], 22, 64),
    (64, &[0xFF, 0xFF], 22, 64),
    (64, &[0xD7, 0x12], 22, 76),
    (64, &[0xD8, 0x12], 22, 76),
    (76, &[0x36, 0xAB], 22, 76),
    (76, &[0xD6, 0x12], 22, 76),
    (76, &[0xD6, 0x11], 22, 76),
    (76, &[0, 0], 22, 76),
    // Another day than the block's.
    (64, &[0xD5, 0x12], 23, 64),
    (76, &[0xD8, 0x12], 23, 76),
    (76, &[0x35, 0xAB], 23, 76),
    // The offset: its high bit, the head, the table, another block, one that is past the end.
    (70, &[3, 0x80], 23, 64),
    (70, &[0, 0], 23, 64),
    (70, &[1, 0], 23, 64),
    (70, &[2, 0], 23, 64),
    (70, &[4, 0], 23, 64),
    (70, &[0xFF, 0x7F], 23, 64),
    (82, &[3, 0], 23, 76),
    (82, &[1, 0], 23, 76),
    (82, &[2, 0x80], 23, 76),
    // The block's words.
    (192, &[1], 23, 64),
    (193, &[1], 23, 64),
    (194, &[0xD7], 23, 64),
    (195, &[0x13], 23, 64),
    (196, &[0], 23, 64),
    (197, &[1], 23, 64),
    (198, &[3], 23, 64),
    (199, &[1], 23, 64),
    (200, &[14], 23, 64),
    (201, &[1], 23, 64),
    (128, &[1], 23, 76),
    (132, &[2], 23, 76),
    (134, &[80, 0], 23, 76),
    (136, &[77, 0], 23, 76),
    // The list: cut in the second appointment or in the first, or beginning with the notes' last byte.
    (200, &[12], 24, 212),
    (200, &[9], 24, 212),
    (200, &[7], 24, 204),
    (200, &[1], 24, 204),
    (198, &[1], 24, 203),
    (136, &[1], 24, 141),
    // Sizes.
    (204, &[0], 24, 204),
    (204, &[4], 24, 204),
    (204, &[7], 24, 204),
    (204, &[9], 24, 204),
    (204, &[13], 24, 204),
    (204, &[14], 24, 204),
    (204, &[255], 24, 204),
    (212, &[4], 24, 212),
    (212, &[6], 24, 212),
    // Flags, minutes.
    (205, &[4], 24, 204),
    (205, &[0x81], 24, 204),
    (213, &[255], 24, 212),
    (206, &[0xA0, 0x05], 24, 204),
    (206, &[0xFF, 0xFF], 24, 204),
    (206, &[0x5A, 0x02], 24, 212),
    (214, &[0xA0, 0x05], 24, 212),
    (214, &[0x57, 0x02], 24, 212),
    // The zero.
    (211, b"x", 24, 204),
    (208, &[0], 24, 204),
    (210, &[0], 24, 204),
    (216, &[1], 24, 212),
];

/// Where a file is changed, and to what.
type Change = (usize, &'static [u8]);

/// Two changes of `two_days` at once, and the refusal.
pub const TWO_FAULTS: &[([Change; 2], u32, usize)] = &[
    ([(0, &[0]), (8, &[0, 1])], 21, 0),
    ([(8, &[0, 1]), (64, &[0xFF, 0xFF])], 22, 64),
    ([(76, &[0, 0]), (192, &[1])], 22, 76),
    ([(76, &[0, 0]), (70, &[0, 0])], 22, 76),
    ([(204, &[0]), (82, &[0, 0])], 24, 204),
    ([(192, &[1]), (204, &[0])], 23, 64),
    ([(204, &[0]), (128, &[1])], 24, 204),
    ([(212, &[0]), (206, &[0xFF, 0xFF])], 24, 204),
    ([(128, &[1]), (136, &[1])], 23, 76),
];

/// To how many bytes `two_days` is cut, and the refusal.
pub const CUTS: &[(usize, u32, usize)] = &[
    (0, 21, 0),
    (8, 21, 0),
    (63, 21, 0),
    (64, 22, 64),
    (87, 22, 64),
    (88, 23, 64),
    (128, 23, 64),
    (192, 23, 64),
    (201, 23, 64),
    (202, 23, 64),
    (203, 23, 64),
    (204, 23, 64),
    (216, 23, 64),
];

/// Where `two_days` is changed so that a reader gives the same.
pub const IGNORED: &[Change] = &[
    (10, &[0; 12]),
    (10, &[0xFF; 12]),
    (22, &[0; 42]),
    (66, &[0xFF; 4]),
    (72, &[0; 4]),
    (78, &[0xA5; 4]),
    (88, &[0; 40]),
    (138, &[0, 0, 0]),
    (141, &[0xFF; 51]),
    (202, &[0xFF, 0xFF]),
];

/// Files of days without appointments, and the number and place of the refusal (0 and 0: accepted). They are
/// about where a block may stand: each has its bytes there, also where it is refused.
pub fn offsets() -> Vec<(Vec<u8>, u32, usize)> {
    let days = |first: u16| (0..16).map(|day| [day, 0, 0, first + day, 0, 0]).collect::<Vec<_>>();
    vec![
        (bare(&[[0, 7, 1, 2, 0, 0], [7, 0, 0, 3, 0, 0]]), 0, 0),
        // The first descriptor looks like the second day's block.
        (bare(&[[0, 7, 1, 2, 0, 0], [7, 0, 0, 1, 0, 0]]), 23, 76),
        // The table ends at 136, and its last eight bytes look like the beginning of day 3's block.
        (
            bare(&[
                [0, 0, 0, 4, 0, 0],
                [1, 0, 0, 5, 0, 0],
                [2, 0, 0, 6, 0, 0],
                [3, 0, 0, 2, 0, 0],
                [4, 0, 0, 7, 0, 0],
                [5, 0, 0, 3, 1, 0],
            ]),
            23,
            100,
        ),
        // The table ends at 256, where the first block may begin.
        (bare(&days(4)), 0, 0),
        (bare(&days(3)), 23, 64),
        // The last offset without a high bit, and those with one that a file has room for.
        (bare(&[[0, 0, 0, 0x7FFF, 0, 0]]), 0, 0),
        (bare(&[[0, 0, 0, 0x8000, 0, 0]]), 23, 64),
        (bare(&[[0, 0, 0, 0x87FF, 0, 0]]), 23, 64),
        (bare(&[[0, 0, 0, 2, 0, 0], [1, 0, 0, 0x8003, 0, 0], [2, 0, 0, 0x8002, 0, 0]]), 23, 76),
    ]
}

/// With these descriptors, and at each one's offset behind the table its block.
fn bare(descriptors: &[[u16; 6]]) -> Vec<u8> {
    let mut file = empty();
    file[8] = descriptors.len() as u8;
    for word in descriptors.iter().flatten() {
        file.extend(word.to_le_bytes());
    }
    let end = file.len();
    for &[day, _, _, offset, ..] in descriptors {
        let at = 64 * usize::from(offset);
        if at >= end {
            file.resize(file.len().max(at + 10), 0);
            file[at + 2..at + 4].copy_from_slice(&day.to_le_bytes());
            file[at + 4] = 1;
        }
    }
    file
}
