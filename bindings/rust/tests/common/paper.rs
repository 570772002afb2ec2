//! The words of a row by the bit numbers of documents 01 and 02, written down a second time, for what a wrong name in the crate
//! would do on the way there and back.

use tahvenno::*;

fn number(value: impl Into<u64>, lowest: u32) -> u64 {
    value.into() << lowest
}

fn payload(attributes: Attributes) -> u64 {
    number(attributes.memattr, 48) | number(attributes.sh, 52) | attributes.hints.bits() << 54
}

fn overrides(of: Overrides) -> u64 {
    let AllocCfg { take, ra, wa, tr } = of.alloccfg;
    let alloccfg = number(take, 58) | number(ra, 57) | number(wa, 56) | number(tr, 55);
    let rest = number(of.shcfg, 53) | number(of.instcfg, 59) | number(of.privcfg, 61);
    number(of.mtcfg, 48) | number(of.memattr, 49) | alloccfg | rest
}

fn regime(of: Regime) -> u64 {
    match of {
        Regime::Guest { vmid, asid, global } => number(vmid, 16) | number(asid, 32) | number(global, 4),
        Regime::El2 => 1 << 11,
        Regime::El2E2h { asid, global } => 1 << 12 | number(asid, 32) | number(global, 4),
    }
}

pub fn words(row: &Row) -> [u64; 4] {
    // valid, kind and last-level
    let tag = |kind: u64, last: bool| 1 | kind << 1 | number(last, 3);
    match *row {
        Row::Ste(Ste { stream, vmid, config, overrides: changed }) => {
            [tag(0, true) | number(vmid, 16) | overrides(changed), number(stream, 0) | number(config, 52), 0, 0]
        }
        Row::SteBranch(SteBranch { stream, span }) => [tag(0, false) | number(span, 5), stream.into(), 0, 0],
        Row::Cd(Cd { stream, substream, asid }) => {
            [tag(1, true) | number(asid, 32), number(stream, 0) | number(substream, 32), 0, 0]
        }
        Row::CdBranch(CdBranch { stream }) => [tag(1, false), stream.into(), 0, 0],
        Row::Stage1(Stage1 { regime: whose, span, input, output, attributes }) => {
            [tag(2, true) | regime(whose) | number(span, 5) | payload(attributes), 0, input, output]
        }
        Row::Stage1Branch(Stage1Branch { regime: whose, span, input }) => {
            [tag(2, false) | regime(whose) | number(span, 5), 0, input, 0]
        }
        Row::Stage2(Stage2 { vmid, span, input, output, memattr, sh }) => {
            let attributes = Attributes { memattr, sh, hints: Hints::NONE };
            [tag(3, true) | number(vmid, 16) | number(span, 5) | payload(attributes), 0, input, output]
        }
        Row::Stage2Branch(Stage2Branch { vmid, span, input }) => {
            [tag(3, false) | number(vmid, 16) | number(span, 5), 0, input, 0]
        }
    }
}
