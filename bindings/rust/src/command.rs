//! Commands as values, and the writers.

use crate::features::Features;
use crate::layout::*;
use crate::refusal::Refusal;
use crate::region::RegionSize;
use crate::unit;

numbered! {
    /// The granule of a range.
    Granule {
        /// 4 KiB.
        Kb4 = TG_4KB, "4KB";
        /// 16 KiB.
        Kb16 = TG_16KB, "16KB";
        /// 64 KiB.
        Kb64 = TG_64KB, "64KB";
    }
}

numbered! {
    /// What the guest asks for when a CMD_SYNC is consumed.
    Signal {
        /// Nothing.
        None = CS_NONE, "no signal";
        /// An interrupt: the run counts it, and sets the pending bit.
        Interrupt = CS_IRQ, "an interrupt";
        /// An event; it signals nothing here.
        Event = CS_SEV, "an event";
    }
}

/// A range of addresses: `(num + 1) << scale` granules from the address of the command, rounded down to one. It needs
/// [`Features::RIL`]. One granule alone (`num` and `scale` 0) needs a `ttl`, and one of 16 KiB a `ttl` above 1.
#[derive(Clone, Copy, Debug, PartialEq, Eq, Hash)]
pub struct Range {
    /// The granule.
    pub granule: Granule,
    /// NUM, of 5 bits.
    pub num: u8,
    /// SCALE, of 5 bits.
    pub scale: u8,
    /// The level of the guest's tables, or 0; of 2 bits. It narrows nothing.
    pub ttl: u8,
    /// The level is of 128-bit descriptors; only with a `ttl`.
    pub ttl128: bool,
}

/// What a command by address aims at.
#[derive(Clone, Copy, Debug, PartialEq, Eq, Hash)]
pub struct Target {
    /// Last-level rows only.
    pub leaf: bool,
    /// The address. Its low 12 bits are not part of a command and are dropped.
    pub address: u64,
    /// The addresses from there on; else the rows that cover this one.
    pub range: Option<Range>,
}

impl Target {
    /// The rows of any level that cover an address.
    ///
    /// ```
    /// use tahvenno::{Command, Target};
    /// let command = Command::TlbiS2Ipa { vmid: 0, target: Target::at(0x1000) };
    /// assert_eq!(command.words()[tahvenno::layout::CMD_ADDRESS], 1);
    /// ```
    pub const fn at(address: u64) -> Self {
        Self { leaf: false, address, range: None }
    }
}

/// A command of the guest's queue, by the names of IHI 0070.
///
/// A field that is too wide, or would make the command illegal, is refused by the writers with [`Refusal::Fields`].
#[derive(Clone, Copy, Debug, PartialEq, Eq, Hash)]
pub enum Command {
    /// Removes nothing.
    PrefetchConfig,
    /// Removes nothing.
    PrefetchAddr,
    /// A stream's STE rows and all its CD rows.
    CfgiSte {
        /// The stream.
        stream: u32,
        /// Of the STE rows last-level ones only.
        leaf: bool,
    },
    /// The same for a block of streams: those equal to `stream` above the lowest `range + 1` bits.
    CfgiSteRange {
        /// One of the streams.
        stream: u32,
        /// Of 5 bits; [`EVERY_STREAM`] takes them all.
        range: u8,
    },
    /// A substream's CD rows.
    CfgiCd {
        /// The stream.
        stream: u32,
        /// The substream, of 20 bits.
        substream: u32,
        /// Last-level rows only.
        leaf: bool,
    },
    /// A stream's CD rows.
    CfgiCdAll {
        /// The stream.
        stream: u32,
    },
    /// Stage 1 of a virtual machine.
    TlbiNhAll {
        /// The virtual machine.
        vmid: u16,
    },
    /// Stage 1 of an address space, but for global rows.
    TlbiNhAsid {
        /// The virtual machine.
        vmid: u16,
        /// The address space.
        asid: u16,
    },
    /// Stage 1 by address, of an address space and global rows.
    TlbiNhVa {
        /// The virtual machine.
        vmid: u16,
        /// The address space.
        asid: u16,
        /// The addresses.
        target: Target,
    },
    /// Stage 1 by address, of every address space.
    TlbiNhVaa {
        /// The virtual machine.
        vmid: u16,
        /// The addresses.
        target: Target,
    },
    /// All rows of the hypervisor.
    TlbiEl2All,
    /// An address space of the hypervisor, but for global rows.
    TlbiEl2Asid {
        /// The address space.
        asid: u16,
    },
    /// The hypervisor's by address; with E2H of an address space and global rows.
    TlbiEl2Va {
        /// The address space.
        asid: u16,
        /// The addresses.
        target: Target,
    },
    /// The hypervisor's by address, of every address space.
    TlbiEl2Vaa {
        /// The addresses.
        target: Target,
    },
    /// Both stages of a virtual machine.
    TlbiS12Vmall {
        /// The virtual machine.
        vmid: u16,
    },
    /// Stage 2 by address.
    TlbiS2Ipa {
        /// The virtual machine.
        vmid: u16,
        /// The addresses, which begin below 2^52.
        target: Target,
    },
    /// Both stages of every virtual machine.
    TlbiNsnhAll,
    /// Tells the guest that the commands before it are done.
    Sync {
        /// How.
        signal: Signal,
    },
    /// All rows of the second table.
    DptiAll,
    /// The rows of the second table within a region.
    DptiPa {
        /// Last-level rows only.
        leaf: bool,
        /// How large the region is.
        size: RegionSize,
        /// Where it begins, below 2^56: a multiple of its size, else nothing is removed. Its low 12 bits are dropped.
        address: u64,
    },
}

impl Command {
    /// The command as the writers take it: its code and its fields.
    ///
    /// ```
    /// use tahvenno::{layout, Command};
    /// let words = Command::TlbiNhAsid { vmid: 5, asid: 0x1234 }.words();
    /// assert_eq!((words[layout::CMD_CODE], words[layout::CMD_ASID]), (layout::CODE_TLBI_NH_ASID, 0x1234));
    /// ```
    pub fn words(&self) -> [u64; COMMAND_WORDS] {
        let fields = match *self {
            Self::PrefetchConfig => Fields::of(CODE_PREFETCH_CONFIG),
            Self::PrefetchAddr => Fields::of(CODE_PREFETCH_ADDR),
            Self::CfgiSte { stream, leaf } => Fields::of(CODE_CFGI_STE).with(CMD_STREAM, stream).with(CMD_LEAF, leaf),
            Self::CfgiSteRange { stream, range } => {
                Fields::of(CODE_CFGI_STE_RANGE).with(CMD_STREAM, stream).with(CMD_RANGE, range)
            }
            Self::CfgiCd { stream, substream, leaf } => {
                Fields::of(CODE_CFGI_CD).with(CMD_STREAM, stream).with(CMD_SUBSTREAM, substream).with(CMD_LEAF, leaf)
            }
            Self::CfgiCdAll { stream } => Fields::of(CODE_CFGI_CD_ALL).with(CMD_STREAM, stream),
            Self::TlbiNhAll { vmid } => Fields::of(CODE_TLBI_NH_ALL).with(CMD_VMID, vmid),
            Self::TlbiNhAsid { vmid, asid } => Fields::of(CODE_TLBI_NH_ASID).with(CMD_VMID, vmid).with(CMD_ASID, asid),
            Self::TlbiNhVa { vmid, asid, target } => {
                Fields::of(CODE_TLBI_NH_VA).with(CMD_VMID, vmid).with(CMD_ASID, asid).at(target)
            }
            Self::TlbiNhVaa { vmid, target } => Fields::of(CODE_TLBI_NH_VAA).with(CMD_VMID, vmid).at(target),
            Self::TlbiEl2All => Fields::of(CODE_TLBI_EL2_ALL),
            Self::TlbiEl2Asid { asid } => Fields::of(CODE_TLBI_EL2_ASID).with(CMD_ASID, asid),
            Self::TlbiEl2Va { asid, target } => Fields::of(CODE_TLBI_EL2_VA).with(CMD_ASID, asid).at(target),
            Self::TlbiEl2Vaa { target } => Fields::of(CODE_TLBI_EL2_VAA).at(target),
            Self::TlbiS12Vmall { vmid } => Fields::of(CODE_TLBI_S12_VMALL).with(CMD_VMID, vmid),
            Self::TlbiS2Ipa { vmid, target } => Fields::of(CODE_TLBI_S2_IPA).with(CMD_VMID, vmid).at(target),
            Self::TlbiNsnhAll => Fields::of(CODE_TLBI_NSNH_ALL),
            Self::Sync { signal } => Fields::of(CODE_SYNC).with(CMD_CS, signal),
            Self::DptiAll => Fields::of(CODE_DPTI_ALL),
            Self::DptiPa { leaf, size, address } => {
                Fields::of(CODE_DPTI_PA).with(CMD_LEAF, leaf).with(CMD_SIZE, size).page(address)
            }
        };
        fields.0
    }
}

/// The words of a command that is put together.
struct Fields([u64; COMMAND_WORDS]);

impl Fields {
    fn of(code: u64) -> Self {
        Self([0; COMMAND_WORDS]).with(CMD_CODE, code)
    }

    fn with(mut self, field: usize, value: impl Into<u64>) -> Self {
        self.0[field] = value.into();
        self
    }

    /// The writers take an address without its low bits.
    fn page(self, address: u64) -> Self {
        self.with(CMD_ADDRESS, address >> ADDRESS_SHIFT)
    }

    fn at(self, target: Target) -> Self {
        let fields = self.with(CMD_LEAF, target.leaf).page(target.address);
        let Some(Range { granule, num, scale, ttl, ttl128 }) = target.range else {
            return fields;
        };
        let fields = fields.with(CMD_TG, granule).with(CMD_NUM, num).with(CMD_SCALE, scale);
        fields.with(CMD_TTL, ttl).with(CMD_TTL128, ttl128)
    }
}

/// Writes a command ([`Command::words`]) into a slot of 16 bytes. That the slot is free is the caller's business, and
/// so is the doorbell.
///
/// ```
/// use tahvenno::{layout, write_command, Command, Features, Refusal};
/// let mut slot = [0; layout::SLOT_BYTES];
/// write_command(&mut slot, &Command::CfgiCdAll { stream: 5 }.words(), Features::S1P)?;
/// assert_eq!(slot[..8], [0x06, 0, 0, 0, 5, 0, 0, 0]);
/// let refused = write_command(&mut slot, &Command::DptiAll.words(), Features::S1P);
/// assert_eq!(refused, Err(Refusal::FeatureAbsent { command: 0 }));
/// # Ok::<(), Refusal>(())
/// ```
pub fn write_command(slot: &mut [u8], command: &[u64; COMMAND_WORDS], features: Features) -> Result<(), Refusal> {
    unit::write_command(slot, command, features.bits()).map(drop)
}

/// Writes commands ([`Command::words`]) into the free slots from WR on, and moves WR past them by one store after the
/// last byte.
///
/// ```
/// use tahvenno::*;
/// let (mut kept, mut queue) = ([0; kept_words(1)], [0; queue_bytes(1)]);
/// empty(&mut kept, 1, true)?;
/// let sync = Command::Sync { signal: Signal::None }.words();
/// write_batch(&mut kept, &mut queue, &[sync; 2], Features::NONE)?;
/// assert_eq!(state(&kept)?.wr, 2);
/// assert_eq!(write_batch(&mut kept, &mut queue, &[sync], Features::NONE), Err(Refusal::NoRoom));
/// # Ok::<(), Refusal>(())
/// ```
pub fn write_batch(
    kept: &mut [u64],
    queue: &mut [u8],
    commands: &[[u64; COMMAND_WORDS]],
    features: Features,
) -> Result<(), Refusal> {
    unit::write_batch(kept, queue, commands, features.bits()).map(drop)
}
