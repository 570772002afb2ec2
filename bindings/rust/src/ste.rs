//! STE rows: what becomes of a stream's transactions.

use crate::attributes::MemAttr;
use crate::error::{demand, FieldError};
use crate::layout::{self, get, put};

numbered! {
    /// Which stages a stream's transactions go through.
    Config {
        /// None: each is aborted.
        Abort = layout::CONFIG_ABORT, "abort";
        /// Neither: the address comes out as it is.
        Bypass = layout::CONFIG_BYPASS, "bypass";
        /// Stage 1.
        Stage1 = layout::CONFIG_STAGE1, "stage 1";
        /// Stage 2.
        Stage2 = layout::CONFIG_STAGE2, "stage 2";
        /// Stage 1, then stage 2.
        Both = layout::CONFIG_BOTH, "both stages";
    }
}

numbered! {
    /// The shareability that a stream's transactions take.
    ShCfg {
        /// Not shareable.
        Nsh = layout::SHCFG_NSH, "take not shareable";
        /// As it comes in.
        Incoming = layout::SHCFG_INCOMING, "keep the shareability";
        /// Outer shareable.
        Osh = layout::SHCFG_OSH, "take outer shareable";
        /// Inner shareable.
        Ish = layout::SHCFG_ISH, "take inner shareable";
    }
}

numbered! {
    /// Whether a stream's reads are of data or of instructions; its writes are of data.
    InstCfg {
        /// As it comes in.
        Incoming = layout::INSTCFG_INCOMING, "keep data or instruction";
        /// As it comes in, too.
        Reserved = 1, "keep data or instruction, by the Reserved number";
        /// Data.
        Data = layout::INSTCFG_DATA, "take data";
        /// Instruction.
        Instruction = layout::INSTCFG_INSTRUCTION, "take instruction";
    }
}

numbered! {
    /// Whether a stream's transactions are privileged.
    PrivCfg {
        /// As it comes in.
        Incoming = layout::PRIVCFG_INCOMING, "keep the privilege";
        /// As it comes in, too.
        Reserved = 1, "keep the privilege, by the Reserved number";
        /// Unprivileged.
        Unprivileged = layout::PRIVCFG_UNPRIVILEGED, "take unprivileged";
        /// Privileged.
        Privileged = layout::PRIVCFG_PRIVILEGED, "take privileged";
    }
}

/// The hints that a stream's transactions take in each half that is cached.
#[derive(Clone, Copy, Debug, Default, PartialEq, Eq, Hash)]
pub struct AllocCfg {
    /// Take them; else the others are not looked at.
    pub take: bool,
    /// Allocate on a read.
    pub ra: bool,
    /// Allocate on a write.
    pub wa: bool,
    /// Transient.
    pub tr: bool,
}

impl AllocCfg {
    /// Its four flags from the highest bit to the lowest.
    fn number(self) -> u64 {
        [self.take, self.ra, self.wa, self.tr].into_iter().fold(0, |number, flag| 2 * number + u64::from(flag))
    }

    fn of_number(number: u64) -> Self {
        let [take, ra, wa, tr] = [3, 2, 1, 0].map(|place| number >> place & 1 == 1);
        Self { take, ra, wa, tr }
    }
}

/// What a stream changes in the attributes that come in.
#[derive(Clone, Copy, Debug, PartialEq, Eq, Hash)]
pub struct Overrides {
    /// MTCFG: take `memattr`; else it is not looked at.
    pub mtcfg: bool,
    /// The memory type to take.
    pub memattr: MemAttr,
    /// The shareability to take.
    pub shcfg: ShCfg,
    /// The hints to take.
    pub alloccfg: AllocCfg,
    /// Data or instruction.
    pub instcfg: InstCfg,
    /// Privileged or not.
    pub privcfg: PrivCfg,
}

impl Overrides {
    /// Everything as it comes in.
    pub const NONE: Self = Self {
        mtcfg: false,
        memattr: MemAttr::Device(crate::Device::NGnRnE),
        shcfg: ShCfg::Incoming,
        alloccfg: AllocCfg { take: false, ra: false, wa: false, tr: false },
        instcfg: InstCfg::Incoming,
        privcfg: PrivCfg::Incoming,
    };

    fn payload(self) -> u64 {
        put(layout::MTCFG, self.mtcfg.into())
            | put(layout::STE_MEMATTR, self.memattr.into())
            | put(layout::SHCFG, self.shcfg.into())
            | put(layout::ALLOCCFG, self.alloccfg.number())
            | put(layout::INSTCFG, self.instcfg.into())
            | put(layout::PRIVCFG, self.privcfg.into())
    }

    /// Those in word 0. Every number of two bits is a SHCFG, INSTCFG and PRIVCFG.
    fn of_payload(word: u64) -> Result<Self, FieldError> {
        let unnamed = |_| FieldError::Unnamed;
        Ok(Self {
            mtcfg: get(layout::MTCFG, word) == 1,
            memattr: get(layout::STE_MEMATTR, word).try_into().map_err(|_| FieldError::MemAttr)?,
            shcfg: get(layout::SHCFG, word).try_into().map_err(unnamed)?,
            alloccfg: AllocCfg::of_number(get(layout::ALLOCCFG, word)),
            instcfg: get(layout::INSTCFG, word).try_into().map_err(unnamed)?,
            privcfg: get(layout::PRIVCFG, word).try_into().map_err(unnamed)?,
        })
    }
}

/// An STE row, last-level: one stream.
#[derive(Clone, Copy, Debug, PartialEq, Eq, Hash)]
pub struct Ste {
    /// The stream.
    pub stream: u32,
    /// The virtual machine whose stage rows answer.
    pub vmid: u16,
    /// The stages.
    pub config: Config,
    /// What is changed before them.
    pub overrides: Overrides,
}

impl Ste {
    /// Words 0 and 1, without the tag.
    pub(crate) fn words(&self) -> [u64; 2] {
        [
            put(layout::VMID, self.vmid.into()) | self.overrides.payload(),
            put(layout::STREAM, self.stream.into()) | put(layout::CONFIG, self.config.into()),
        ]
    }

    pub(crate) fn of_words(words: &[u64; 4]) -> Result<Self, FieldError> {
        Ok(Self {
            stream: get(layout::STREAM, words[1]) as u32,
            vmid: get(layout::VMID, words[0]) as u16,
            config: get(layout::CONFIG, words[1]).try_into().map_err(|_| FieldError::Config)?,
            overrides: Overrides::of_payload(words[0])?,
        })
    }
}

/// An STE row that is not last-level: a block of 2^span streams.
#[derive(Clone, Copy, Debug, PartialEq, Eq, Hash)]
pub struct SteBranch {
    /// The first stream, a multiple of 2^span.
    pub stream: u32,
    /// 6, 8 or 10.
    pub span: u8,
}

impl SteBranch {
    /// Words 0 and 1, without the tag.
    pub(crate) fn words(&self) -> Result<[u64; 2], FieldError> {
        demand([6, 8, 10].contains(&self.span), FieldError::Span)?;
        demand(self.stream % (1 << self.span) == 0, FieldError::Stream)?;
        Ok([put(layout::SPAN, self.span.into()), put(layout::STREAM, self.stream.into())])
    }

    pub(crate) fn of_words(words: &[u64; 4]) -> Self {
        Self { stream: get(layout::STREAM, words[1]) as u32, span: get(layout::SPAN, words[0]) as u8 }
    }
}
