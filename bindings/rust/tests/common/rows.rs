//! Random rows with every field in its range.

use super::Random;
use tahvenno::*;

pub type Make = fn(&mut Random) -> Row;

/// Every kind, and of stage 1 every regime.
pub const KINDS: [Make; 12] = [
    ste,
    ste_branch,
    |r| Row::Cd(Cd { stream: r.wide(32) as u32, substream: r.wide(20) as u32, asid: r.wide(16) as u16 }),
    |r| Row::CdBranch(CdBranch { stream: r.wide(32) as u32 }),
    |r| stage1(r, guest),
    |r| stage1(r, |_| Regime::El2),
    |r| stage1(r, el2_e2h),
    |r| stage1_branch(r, guest),
    |r| stage1_branch(r, |_| Regime::El2),
    |r| stage1_branch(r, el2_e2h),
    stage2,
    stage2_branch,
];

fn ste(r: &mut Random) -> Row {
    let alloccfg = AllocCfg { take: r.flag(), ra: r.flag(), wa: r.flag(), tr: r.flag() };
    let overrides = Overrides {
        mtcfg: r.flag(),
        memattr: r.memattr(),
        shcfg: r.pick(ShCfg::ALL),
        alloccfg,
        instcfg: r.pick(InstCfg::ALL),
        privcfg: r.pick(PrivCfg::ALL),
    };
    Row::Ste(Ste { stream: r.wide(32) as u32, vmid: r.wide(16) as u16, config: r.pick(Config::ALL), overrides })
}

fn ste_branch(r: &mut Random) -> Row {
    let span = r.pick(&[6, 8, 10]);
    Row::SteBranch(SteBranch { stream: (r.wide(32) as u32) >> span << span, span })
}

fn guest(r: &mut Random) -> Regime {
    Regime::Guest { vmid: r.wide(16) as u16, asid: r.wide(16) as u16, global: r.flag() }
}

fn el2_e2h(r: &mut Random) -> Regime {
    Regime::El2E2h { asid: r.wide(16) as u16, global: r.flag() }
}

fn span(r: &mut Random) -> u8 {
    let some = 12 + r.below(37) as u8;
    r.pick(&[12, 48, some])
}

/// Below 2^52.
fn low(r: &mut Random, span: u8) -> u64 {
    r.wide(52) >> span << span
}

/// In the lower half or in the upper one.
fn either(r: &mut Random, span: u8) -> u64 {
    low(r, span) | r.pick(&[0, u64::MAX << 52])
}

fn stage1(r: &mut Random, regime: fn(&mut Random) -> Regime) -> Row {
    let span = span(r);
    let (input, output) = (either(r, span), low(r, span));
    Row::Stage1(Stage1 { regime: regime(r), span, input, output, attributes: r.attributes() })
}

fn stage1_branch(r: &mut Random, regime: fn(&mut Random) -> Regime) -> Row {
    let span = span(r);
    Row::Stage1Branch(Stage1Branch { regime: regime(r), span, input: either(r, span) })
}

fn stage2(r: &mut Random) -> Row {
    let (vmid, span) = (r.wide(16) as u16, span(r));
    let (input, output) = (low(r, span), low(r, span));
    Row::Stage2(Stage2 { vmid, span, input, output, memattr: r.memattr(), sh: r.pick(Shareability::ALL) })
}

fn stage2_branch(r: &mut Random) -> Row {
    let span = span(r);
    Row::Stage2Branch(Stage2Branch { vmid: r.wide(16) as u16, span, input: low(r, span) })
}
