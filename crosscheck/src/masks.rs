//! The must-be-zero masks, read anew from each chip's own document: 003 for Gen7, 000
//! for Gen6.
//!
//! A bit is judged only where the command's own table marks it MBZ. A row that
//! says "Reserved" without MBZ, or bits that no row names, go unjudged. Line
//! numbers are those of the chip's document.

/// Dwords of the longest fixed part, the VFE's.
pub const FIXED_DWORDS: usize = 8;

/// Kinds of command of all chips.
pub const KINDS: usize = 9;

/// `bits(high, low)` is the mask of the manual's row "high:low".
const fn bits(high: u32, low: u32) -> u32 {
    (u32::MAX >> (31 - high)) & (u32::MAX << low)
}

/// One mask per dword of the command's fixed part. Dword 0 is the header,
/// which rules 3 and 4 judge whole, so its mask is 0 everywhere.
pub type Masks = [u32; FIXED_DWORDS];

/// A chip's masks.
pub struct Table {
    pub vfe: Masks,
    pub curbe: Masks,
    pub descriptor: Masks,
    pub state_flush: Masks,
    pub object: Masks,
    /// Zeros where the chip has no such command.
    pub gateway: Masks,
}

impl Table {
    /// By kind, for callers that walk it. Kinds 0 to 2 have no mask.
    const fn by_kind(&self) -> [Masks; KINDS] {
        [
            [0; FIXED_DWORDS],
            [0; FIXED_DWORDS],
            [0; FIXED_DWORDS],
            self.vfe,
            self.curbe,
            self.descriptor,
            self.state_flush,
            self.object,
            self.gateway,
        ]
    }
}

/// Document 003.
pub const GEN7: Table = Table {
    // MEDIA_VFE_STATE, table from line 2935.
    vfe: [
        0,
        bits(9, 8) | bits(7, 4), // lines 2991-2993 and 2996-3000
        0,                       // bit 5 is "Reserved" alone (3086); no row for 2:0
        bits(7, 2) | bits(1, 0), // lines 3106-3108 and 3111-3115; no row for 31:8
        0,
        bits(29, 8), // lines 3215-3217
        0,
        0,
    ],
    // MEDIA_CURBE_LOAD, table from line 3405.
    curbe: [
        0,
        bits(31, 0),  // lines 3452-3456
        bits(31, 17), // lines 3459-3463
        0,
        0,
        0,
        0,
        0,
    ],
    // MEDIA_INTERFACE_DESCRIPTOR_LOAD, table from line 3535.
    descriptor: [
        0,
        bits(31, 5) | bits(4, 0), // lines 3582-3586 and 3589-3593
        bits(31, 17),             // lines 3596-3600
        0,
        0,
        0,
        0,
        0,
    ],
    // MEDIA_STATE_FLUSH, table from line 4074.
    state_flush: [
        0,
        bits(31, 9) | bits(7, 7), // lines 4121-4125 and 4143-4147
        0,
        0,
        0,
        0,
        0,
        0,
    ],
    // MEDIA_OBJECT, table from line 4199. Inline data has no mask.
    object: [
        0,
        bits(7, 6), // lines 4257-4259; no row for 31:8
        // lines 4295-4297, 4313-4315, 4318-4322, 4340-4344, 4347-4351
        bits(30, 25) | bits(23, 23) | bits(22, 22) | bits(20, 20) | bits(19, 19),
        bits(31, 29),               // line 4440, inside the address row
        bits(31, 25) | bits(15, 9), // lines 4443-4445 and 4456-4458
        bits(31, 20) | bits(15, 8), // lines 4469-4471 and 4484-4486
        0,
        0,
    ],
    gateway: [0; FIXED_DWORDS],
};

/// Document 000.
pub const GEN6: Table = Table {
    // MEDIA_VFE_STATE, table from line 651.
    vfe: [
        0,
        bits(9, 8),              // line 656; 7:4 is the stack size (657)
        bits(4, 3) | bits(2, 2), // lines 668 and 669; 1:0 is "Reserved" alone (670)
        bits(7, 0),              // line 672; 31:8 is "Reserved" alone (671)
        0,
        bits(29, 8), // line 681
        0,
        0,
    ],
    // MEDIA_CURBE_LOAD, table from line 697.
    curbe: [
        0,
        bits(31, 0),  // line 706
        bits(31, 17), // line 707
        0,
        0,
        0,
        0,
        0,
    ],
    // MEDIA_INTERFACE_DESCRIPTOR_LOAD, table from line 715.
    descriptor: [
        0,
        bits(31, 5) | bits(4, 0), // lines 724 and 725
        bits(31, 17),             // line 726
        0,
        0,
        0,
        0,
        0,
    ],
    // MEDIA_STATE_FLUSH, table from line 821.
    state_flush: [
        0,
        bits(31, 24), // line 834; watermark and barrier mask below (835, 836)
        0,
        0,
        0,
        0,
        0,
        0,
    ],
    // MEDIA_OBJECT, table from line 845. Inline data has no mask.
    object: [
        0,
        bits(7, 6), // line 850; 31:8 is "Reserved" alone (849)
        // lines 857, 859 and 861; bit 19 is "Reserved" alone (862)
        bits(30, 25) | bits(23, 22) | bits(20, 20),
        bits(31, 29),               // line 873, inside the address row
        bits(31, 25) | bits(15, 9), // lines 874 and 876
        bits(31, 20) | bits(15, 8), // lines 878 and 880
        0,
        0,
    ],
    // MEDIA_GATEWAY_STATE, table from line 799. The barrier's row is 23:16, though its
    // format is U4 (813): a range of a named field.
    gateway: [
        0,
        bits(31, 24), // line 812
        0,
        0,
        0,
        0,
        0,
        0,
    ],
};

/// A chip's masks by kind.
pub fn of(chip: u32) -> &'static [Masks; KINDS] {
    const BY_KIND: [[Masks; KINDS]; 2] = [GEN6.by_kind(), GEN7.by_kind()];
    match chip {
        6 => &BY_KIND[0],
        7 => &BY_KIND[1],
        _ => panic!("no chip: {chip}"),
    }
}

#[cfg(test)]
mod tests {
    use super::*;

    const LOAD: Masks = [0, u32::MAX, 0xfffe_0000, 0, 0, 0, 0, 0];

    #[test]
    fn rows_of_gen7_join_to_these_masks() {
        assert_eq!(GEN7.vfe, [0, 0x3f0, 0, 0xff, 0, 0x3fff_ff00, 0, 0]);
        assert_eq!([GEN7.curbe, GEN7.descriptor], [LOAD; 2]);
        assert_eq!(GEN7.state_flush, [0, 0xffff_fe80, 0, 0, 0, 0, 0, 0]);
        let object = [
            0,
            0xc0,
            0x7ed8_0000,
            0xe000_0000,
            0xfe00_fe00,
            0xfff0_ff00,
            0,
            0,
        ];
        assert_eq!(GEN7.object, object);
        assert_eq!(GEN7.gateway, [0; 8]);
    }

    #[test]
    fn rows_of_gen6_join_to_these_masks() {
        assert_eq!(GEN6.vfe, [0, 0x300, 0x1c, 0xff, 0, 0x3fff_ff00, 0, 0]);
        assert_eq!([GEN6.curbe, GEN6.descriptor], [LOAD; 2]);
        assert_eq!(GEN6.state_flush, [0, 0xff00_0000, 0, 0, 0, 0, 0, 0]);
        let object = [
            0,
            0xc0,
            0x7ed0_0000,
            0xe000_0000,
            0xfe00_fe00,
            0xfff0_ff00,
            0,
            0,
        ];
        assert_eq!(GEN6.object, object);
        assert_eq!(GEN6.gateway, GEN6.state_flush);
    }
}
