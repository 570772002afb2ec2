//! The names of `include/tahvenno.h` without their `TAHVENNO_`: sizes, the bits of every word, and the numbers that
//! calls take and give. A size that begins with a digit keeps the underscore. Nothing else in this crate says where
//! a bit stands; a test compares each name with the header.
//!
//! The typed values of this crate are made of these, so a monitor needs them only where it looks at a word by itself.

/// Bits `high` down to `low` of a word, as a mask.
const fn bits(high: u32, low: u32) -> u64 {
    (u64::MAX >> (63 - high)) & (u64::MAX << low)
}

/// The lowest bit of a mask.
const fn lowest(mask: u64) -> u64 {
    1 << mask.trailing_zeros()
}

/// A number put under a mask, without what is too wide.
///
/// ```
/// use tahvenno::layout::{get, put, SPAN};
/// assert_eq!(get(SPAN, put(SPAN, 12)), 12);
/// assert_eq!(put(SPAN, 64), 0);
/// ```
pub const fn put(mask: u64, number: u64) -> u64 {
    number.wrapping_mul(lowest(mask)) & mask
}

/// The number that stands under a mask.
///
/// ```
/// use tahvenno::layout::{get, CMDQEN, LOG2SIZE};
/// let control = 0x0006_0000_0030_0001;
/// assert_eq!((get(CMDQEN, control), get(LOG2SIZE, control)), (1, 1));
/// ```
pub const fn get(mask: u64, word: u64) -> u64 {
    (word & mask) / lowest(mask)
}

/// MemAttr of Normal memory, by its outer and its inner half.
///
/// ```
/// use tahvenno::layout::{normal, NC, WB};
/// assert_eq!(normal(WB, NC), 13);
/// ```
pub const fn normal(outer: u64, inner: u64) -> u64 {
    4 * outer + inner
}

/// The outer half in a MemAttr of Normal memory.
///
/// ```
/// use tahvenno::layout::{normal, outer, NC, WB};
/// assert_eq!(outer(normal(WB, NC)), WB);
/// ```
pub const fn outer(memattr: u64) -> u64 {
    memattr / normal(1, 0)
}

/// The inner half in a MemAttr of Normal memory.
///
/// ```
/// use tahvenno::layout::{inner, normal, NC, WB};
/// assert_eq!(inner(normal(WB, NC)), NC);
/// ```
pub const fn inner(memattr: u64) -> u64 {
    memattr % normal(1, 0)
}

/// Declares the constants, and [`ALL`] with their names for the test.
macro_rules! constants {
    ($($(#[$about:meta])* $name:ident: $type:ty = $value:expr;)*) => {
        $($(#[$about])* pub const $name: $type = $value;)*

        /// Every constant of this module with its name.
        pub const ALL: &[(&str, u64)] = &[$((stringify!($name), $name as u64)),*];
    };
}

constants! {
    /// The most rows of a kept memory.
    MAX_ROWS: usize = 1000;
    /// The words of a row, and the stores of a fill.
    ROW_WORDS: usize = 4;
    /// The largest LOG2SIZE of a queue.
    MAX_LOG2SIZE: u64 = 12;
    /// The most rows of a second table.
    MAX_REGIONS: usize = 128;
    /// The words of a row of the second table, and the stores of its fill.
    REGION_WORDS: usize = 2;
    /// The most stores of a run.
    MAX_STORES: u64 = (MAX_ROWS + MAX_REGIONS + (1 << MAX_LOG2SIZE)) as u64;
    /// The bytes of a slot of the queue.
    SLOT_BYTES: usize = 16;
    /// The words of a command as the writers take it.
    COMMAND_WORDS: usize = 16;
    /// The words of an answer.
    ANSWER_WORDS: usize = 8;
    /// The largest n of a recorder.
    MAX_EVENT_N: u64 = 7;
    /// The bytes of a record.
    RECORD_BYTES: usize = 32;
    /// The stores of an event write.
    RECORD_STORES: u64 = 5;

    /// Control word: the index of the first command that waits.
    RD: u64 = bits(19, 0);
    /// Control word: the index behind the last command that waits.
    WR: u64 = bits(39, 20);
    /// Control word: the code of the last error.
    ERR: u64 = bits(46, 40);
    /// Control word: flips with each error.
    GERROR: u64 = bits(47, 47);
    /// Control word: follows GERROR when the guest acknowledges.
    GERRORN: u64 = bits(48, 48);
    /// Control word: the queue is enabled.
    CMDQEN: u64 = bits(49, 49);
    /// Control word: the queue has 2 to the power of this many slots.
    LOG2SIZE: u64 = bits(54, 50);
    /// Control word: a completion interrupt is owed to the guest.
    PENDING: u64 = bits(55, 55);

    /// Index word: the index of the oldest record.
    EVENT_RD: u64 = bits(19, 0);
    /// Index word: the index behind the newest record.
    EVENT_WR: u64 = bits(39, 20);
    /// Index word: flips with the first record that is dropped.
    EVENT_OVERFLOW: u64 = bits(40, 40);
    /// Index word: follows EVENT_OVERFLOW when the overflow is acknowledged.
    EVENT_ACKNOWLEDGED: u64 = bits(41, 41);
    /// Index word: the recorder has 2 to the power of this many slots.
    EVENT_N: u64 = bits(46, 42);

    /// Record, first word: the event's number.
    RECORD_EVENT: u64 = bits(7, 0);
    /// Record, first word: the event's stream.
    RECORD_STREAM: u64 = bits(63, 32);

    /// Row, word 0: the row is in use.
    VALID: u64 = bits(0, 0);
    /// Row, word 0: one of [`STE`], [`CD`], [`STAGE1`] and [`STAGE2`].
    KIND: u64 = bits(2, 1);
    /// Row, word 0: last-level.
    LAST_LEVEL: u64 = bits(3, 3);
    /// Row, word 0: for every ASID.
    GLOBAL: u64 = bits(4, 4);
    /// Row, word 0: how many low bits of an address or a stream are open.
    SPAN: u64 = bits(10, 5);
    /// Row, word 0: the hypervisor's, without ASIDs.
    EL2: u64 = bits(11, 11);
    /// Row, word 0: the hypervisor's, with ASIDs.
    EL2_E2H: u64 = bits(12, 12);
    /// Row, word 0: both marks, of which a row has one at most.
    MARK: u64 = EL2 | EL2_E2H;
    /// Row, word 0: the virtual machine.
    VMID: u64 = bits(31, 16);
    /// Row, word 0: the address space.
    ASID: u64 = bits(47, 32);
    /// Last-level STE row, word 0: take STE_MEMATTR.
    MTCFG: u64 = bits(48, 48);
    /// Last-level STE row, word 0: the MemAttr to take.
    STE_MEMATTR: u64 = bits(52, 49);
    /// Last-level STE row, word 0: the shareability to take.
    SHCFG: u64 = bits(54, 53);
    /// Last-level STE row, word 0: the hints to take.
    ALLOCCFG: u64 = bits(58, 55);
    /// Last-level STE row, word 0: data or instruction.
    INSTCFG: u64 = bits(60, 59);
    /// Last-level STE row, word 0: privileged or not.
    PRIVCFG: u64 = bits(62, 61);
    /// Last-level stage row, word 0: MemAttr.
    MEMATTR: u64 = bits(51, 48);
    /// Last-level stage row, word 0: shareability.
    SH: u64 = bits(53, 52);
    /// Last-level stage 1 row, word 0: hints.
    HINTS: u64 = bits(59, 54);
    /// Row, word 1: the stream.
    STREAM: u64 = bits(31, 0);
    /// Row, word 1: the substream.
    SUBSTREAM: u64 = bits(51, 32);
    /// Row, word 1: Config.
    CONFIG: u64 = bits(54, 52);
    /// Row, words 2 and 3: the addresses of the lower half; the upper half is from the complement on.
    LOWER_HALF: u64 = bits(51, 0);
    /// The least span of a stage row.
    MIN_SPAN: u64 = 12;
    /// The greatest span of a stage row.
    MAX_SPAN: u64 = 48;

    /// Region, word 0: the row is in use.
    REGION_VALID: u64 = bits(0, 0);
    /// Region, word 0: last-level.
    REGION_LAST_LEVEL: u64 = bits(1, 1);
    /// Region, word 0: one of the ten sizes.
    REGION_SIZE: u64 = bits(5, 2);
    /// A region of 4 KiB.
    _4KB: u64 = 0;
    /// A region of 16 KiB.
    _16KB: u64 = 1;
    /// A region of 64 KiB.
    _64KB: u64 = 2;
    /// A region of 2 MiB.
    _2MB: u64 = 3;
    /// A region of 32 MiB.
    _32MB: u64 = 4;
    /// A region of 512 MiB.
    _512MB: u64 = 5;
    /// A region of 1 GiB.
    _1GB: u64 = 6;
    /// A region of 16 GiB.
    _16GB: u64 = 7;
    /// A region of 64 GiB.
    _64GB: u64 = 8;
    /// A region of 512 GiB.
    _512GB: u64 = 9;

    /// Kind: a stream.
    STE: u64 = 0;
    /// Kind: a substream's context.
    CD: u64 = 1;
    /// Kind: stage 1.
    STAGE1: u64 = 2;
    /// Kind: stage 2.
    STAGE2: u64 = 3;
    /// Config: every transaction is aborted.
    CONFIG_ABORT: u64 = 0;
    /// Config: neither stage.
    CONFIG_BYPASS: u64 = 4;
    /// Config: stage 1 alone.
    CONFIG_STAGE1: u64 = 5;
    /// Config: stage 2 alone.
    CONFIG_STAGE2: u64 = 6;
    /// Config: stage 1, then stage 2.
    CONFIG_BOTH: u64 = 7;

    /// MemAttr: Device nGnRnE.
    DEVICE_NGNRNE: u64 = 0;
    /// MemAttr: Device nGnRE.
    DEVICE_NGNRE: u64 = 1;
    /// MemAttr: Device nGRE.
    DEVICE_NGRE: u64 = 2;
    /// MemAttr: Device GRE.
    DEVICE_GRE: u64 = 3;
    /// A half of Normal memory: not cached.
    NC: u64 = 1;
    /// A half of Normal memory: write-through.
    WT: u64 = 2;
    /// A half of Normal memory: write-back.
    WB: u64 = 3;
    /// SH: not shareable.
    NSH: u64 = 0;
    /// SH: outer shareable.
    OSH: u64 = 2;
    /// SH: inner shareable.
    ISH: u64 = 3;
    /// Hint of the inner half: allocate on a read.
    INNER_RA: u64 = 1;
    /// Hint of the inner half: allocate on a write.
    INNER_WA: u64 = 2;
    /// Hint of the inner half: transient.
    INNER_TR: u64 = 4;
    /// Hint of the outer half: allocate on a read.
    OUTER_RA: u64 = 8;
    /// Hint of the outer half: allocate on a write.
    OUTER_WA: u64 = 16;
    /// Hint of the outer half: transient.
    OUTER_TR: u64 = 32;

    /// SHCFG: not shareable.
    SHCFG_NSH: u64 = 0;
    /// SHCFG: as it comes in.
    SHCFG_INCOMING: u64 = 1;
    /// SHCFG: outer shareable.
    SHCFG_OSH: u64 = 2;
    /// SHCFG: inner shareable.
    SHCFG_ISH: u64 = 3;
    /// INSTCFG: as it comes in.
    INSTCFG_INCOMING: u64 = 0;
    /// INSTCFG: data.
    INSTCFG_DATA: u64 = 2;
    /// INSTCFG: instruction.
    INSTCFG_INSTRUCTION: u64 = 3;
    /// PRIVCFG: as it comes in.
    PRIVCFG_INCOMING: u64 = 0;
    /// PRIVCFG: unprivileged.
    PRIVCFG_UNPRIVILEGED: u64 = 2;
    /// PRIVCFG: privileged.
    PRIVCFG_PRIVILEGED: u64 = 3;

    /// Feature: stage 1.
    S1P: u64 = 1;
    /// Feature: stage 2.
    S2P: u64 = 2;
    /// Feature: ASIDs of 16 bits.
    ASID16: u64 = 4;
    /// Feature: VMIDs of 16 bits.
    VMID16: u64 = 8;
    /// Feature: the hypervisor's own mappings.
    HYP: u64 = 16;
    /// Feature: invalidation of ranges.
    RIL: u64 = 32;
    /// Feature: the device permission table.
    DPT: u64 = 64;
    /// The setting E2H.
    E2H: u64 = 128;

    /// Word of a command: its code.
    CMD_CODE: usize = 0;
    /// Word of a command: StreamID.
    CMD_STREAM: usize = 1;
    /// Word of a command: SubstreamID.
    CMD_SUBSTREAM: usize = 2;
    /// Word of a command: Range.
    CMD_RANGE: usize = 3;
    /// Word of a command: Leaf.
    CMD_LEAF: usize = 4;
    /// Word of a command: VMID.
    CMD_VMID: usize = 5;
    /// Word of a command: ASID.
    CMD_ASID: usize = 6;
    /// Word of a command: the address without its low 12 bits.
    CMD_ADDRESS: usize = 7;
    /// Word of a command: CS.
    CMD_CS: usize = 8;
    /// Word of a command: NUM.
    CMD_NUM: usize = 9;
    /// Word of a command: SCALE.
    CMD_SCALE: usize = 10;
    /// Word of a command: TG.
    CMD_TG: usize = 11;
    /// Word of a command: TTL.
    CMD_TTL: usize = 12;
    /// Word of a command: TTL128.
    CMD_TTL128: usize = 13;
    /// Word of a command: SIZE.
    CMD_SIZE: usize = 14;
    /// What an address is shifted down by in a command.
    ADDRESS_SHIFT: u64 = 12;
    /// Code: CMD_PREFETCH_CONFIG.
    CODE_PREFETCH_CONFIG: u64 = 0x01;
    /// Code: CMD_PREFETCH_ADDR.
    CODE_PREFETCH_ADDR: u64 = 0x02;
    /// Code: CMD_CFGI_STE.
    CODE_CFGI_STE: u64 = 0x03;
    /// Code: CMD_CFGI_STE_RANGE.
    CODE_CFGI_STE_RANGE: u64 = 0x04;
    /// Code: CMD_CFGI_CD.
    CODE_CFGI_CD: u64 = 0x05;
    /// Code: CMD_CFGI_CD_ALL.
    CODE_CFGI_CD_ALL: u64 = 0x06;
    /// Code: CMD_TLBI_NH_ALL.
    CODE_TLBI_NH_ALL: u64 = 0x10;
    /// Code: CMD_TLBI_NH_ASID.
    CODE_TLBI_NH_ASID: u64 = 0x11;
    /// Code: CMD_TLBI_NH_VA.
    CODE_TLBI_NH_VA: u64 = 0x12;
    /// Code: CMD_TLBI_NH_VAA.
    CODE_TLBI_NH_VAA: u64 = 0x13;
    /// Code: CMD_TLBI_EL2_ALL.
    CODE_TLBI_EL2_ALL: u64 = 0x20;
    /// Code: CMD_TLBI_EL2_ASID.
    CODE_TLBI_EL2_ASID: u64 = 0x21;
    /// Code: CMD_TLBI_EL2_VA.
    CODE_TLBI_EL2_VA: u64 = 0x22;
    /// Code: CMD_TLBI_EL2_VAA.
    CODE_TLBI_EL2_VAA: u64 = 0x23;
    /// Code: CMD_TLBI_S12_VMALL.
    CODE_TLBI_S12_VMALL: u64 = 0x28;
    /// Code: CMD_TLBI_S2_IPA.
    CODE_TLBI_S2_IPA: u64 = 0x2A;
    /// Code: CMD_TLBI_NSNH_ALL.
    CODE_TLBI_NSNH_ALL: u64 = 0x30;
    /// Code: CMD_SYNC.
    CODE_SYNC: u64 = 0x46;
    /// Code: CMD_DPTI_ALL.
    CODE_DPTI_ALL: u64 = 0x70;
    /// Code: CMD_DPTI_PA.
    CODE_DPTI_PA: u64 = 0x73;
    /// Range: every stream.
    EVERY_STREAM: u64 = 31;
    /// CS: no signal.
    CS_NONE: u64 = 0;
    /// CS: an interrupt.
    CS_IRQ: u64 = 1;
    /// CS: an event, which signals nothing here.
    CS_SEV: u64 = 2;
    /// TG: a granule of 4 KiB.
    TG_4KB: u64 = 1;
    /// TG: a granule of 16 KiB.
    TG_16KB: u64 = 2;
    /// TG: a granule of 64 KiB.
    TG_64KB: u64 = 3;

    /// End of a run: the queue is disabled.
    OFF: u64 = 0;
    /// End of a run: an error is active.
    HELD: u64 = 1;
    /// End of a run: no command waits.
    EMPTY: u64 = 2;
    /// End of a run: an illegal command.
    RAISED: u64 = 3;
    /// End of a run: a store was due and none was left.
    CUT: u64 = 4;
    /// Illegal: no command has this code.
    UNKNOWN_CODE: u64 = 1;
    /// Illegal: a feature is absent.
    FEATURE_ABSENT: u64 = 2;
    /// Illegal: a Reserved bit is set.
    RESERVED_BIT: u64 = 3;
    /// Illegal: a field has a value that it may not have.
    BAD_PARAMETER: u64 = 4;
    /// End of a fill: the row is in use now.
    FILLED: u64 = 0;
    /// End of a fill: a store was due and none was left.
    FILL_CUT: u64 = 1;
    /// Of two batches: they leave the same rows.
    SAME: u64 = 0;
    /// Of two batches: a command is no legal invalidation.
    UNFIT: u64 = 1;
    /// Of two batches: they leave different rows.
    DIFFER: u64 = 2;
    /// End of an event write: the record waits.
    EVENT_STORED: u64 = 0;
    /// End of an event write: the ring is full.
    EVENT_DROPPED: u64 = 1;
    /// End of an event write: a store was due and none was left.
    EVENT_CUT: u64 = 2;

    /// Bit of an access: it writes.
    WRITE: u64 = 1;
    /// Bit of an access: it fetches an instruction.
    INSTRUCTION: u64 = 2;
    /// Bit of an access: it is privileged.
    PRIVILEGED: u64 = 4;
    /// Outcome: an address.
    ADDRESS: u64 = 0;
    /// Outcome: aborted.
    ABORT: u64 = 1;
    /// Outcome: no STE row answers.
    MISS_STE: u64 = 2;
    /// Outcome: no CD row answers.
    MISS_CD: u64 = 3;
    /// Outcome: no stage 1 row answers.
    MISS_STAGE1: u64 = 4;
    /// Outcome: no stage 2 row answers.
    MISS_STAGE2: u64 = 5;
}
