//! Single fields that are written at other places, in part or not at all.

use super::bytes::{at, moved, ones, without, Made};
use crate::generate::commands::RANGED;
use crate::generate::fields::own;
use crate::model::fields::*;

const STREAMS: [u64; 4] = [0x03, 0x04, 0x05, 0x06];
const LEAVES: [u64; 8] = [0x03, 0x05, 0x12, 0x13, 0x22, 0x23, 0x2A, 0x73];

pub const PARTS: &[(&str, Made)] = &[
    ("Leaf dropped", |named, _, new| match named.of(&LEAVES) {
        true => without(new, 64, 64),
        false => new,
    }),
    ("Leaf of 73 dropped", |named, _, new| {
        match named.of(&[0x73]) {
            true => without(new, 64, 64),
            false => new,
        }
    }),
    ("Leaf always set", |named, _, new| match named.of(&LEAVES) {
        true => new | 1 << 64,
        false => new,
    }),
    ("Leaf turned round", |named, _, new| {
        match named.of(&LEAVES) {
            true => new ^ 1 << 64,
            false => new,
        }
    }),
    ("SCALE in TG's place", |named, _, new| {
        match named.of(&RANGED) {
            true => without(new, 75, 74) | at(named, SCALE, 74) & ones(75, 74),
            false => new,
        }
    }),
    ("NUM and SCALE exchanged", |named, _, new| {
        match named.of(&RANGED) {
            true => without(new, 24, 12) | at(named, SCALE, 12) | at(named, NUM, 20),
            false => new,
        }
    }),
    ("TG and TTL exchanged", |named, _, new| {
        match named.of(&RANGED) {
            true => without(new, 75, 72) | at(named, TG, 72) | at(named, TTL, 74),
            false => new,
        }
    }),
    ("SCALE a bit too high", |named, _, new| {
        match named.of(&RANGED) {
            true => moved(new, (24, 20), 1),
            false => new,
        }
    }),
    ("SCALE of four bits", |named, _, new| {
        match named.of(&RANGED) {
            true => without(new, 24, 24),
            false => new,
        }
    }),
    ("NUM of four bits", |named, _, new| {
        match named.of(&RANGED) {
            true => without(new, 16, 16),
            false => new,
        }
    }),
    ("NUM plus one", |named, _, new| {
        match (named.fields[TG], named.fields[NUM]) {
            (1.., 0..31) => new + (1 << 12),
            _ => new,
        }
    }),
    ("TTL dropped", |named, _, new| match named.of(&RANGED) {
        true => without(new, 73, 72),
        false => new,
    }),
    ("TTL128 dropped", |named, _, new| match named.of(&RANGED) {
        true => without(new, 71, 71),
        false => new,
    }),
    ("TTL128 at bit 70", |named, _, new| {
        match named.of(&RANGED) {
            true => moved(new, (71, 71), -1),
            false => new,
        }
    }),
    ("TG dropped", |named, _, new| match named.of(&RANGED) {
        true => without(new, 75, 74),
        false => new,
    }),
    ("TG less one", |named, _, new| match named.fields[TG] {
        2.. => new - (1 << 74),
        _ => new,
    }),
    ("no range in 2A", |named, _, new| match named.of(&[0x2A]) {
        true => without(without(new, 24, 12), 75, 71),
        false => new,
    }),
    ("no range in 22 and 23", |named, _, new| {
        match named.of(&[0x22, 0x23]) {
            true => without(without(new, 24, 12), 75, 71),
            false => new,
        }
    }),
    ("VMID and ASID exchanged", |named, _, new| {
        match named.of(&[0x11, 0x12]) {
            true => without(new, 63, 32) | at(named, ASID, 32) | at(named, VMID, 48),
            false => new,
        }
    }),
    ("an ASID of 8 bits", |named, _, new| {
        match own(named.code()).contains(&ASID) {
            true => without(new, 63, 56),
            false => new,
        }
    }),
    (
        "a VMID of 8 bits",
        |named, _, new| match own(named.code()).contains(&VMID) {
            true => without(new, 47, 40),
            false => new,
        },
    ),
    ("an ASID of 8 bits without ASID16", |named, _, new| {
        match own(named.code()).contains(&ASID) && !named.has(1 << 2) {
            true => without(new, 63, 56),
            false => new,
        }
    }),
    ("a VMID of 8 bits without VMID16", |named, _, new| {
        match own(named.code()).contains(&VMID) && !named.has(1 << 3) {
            true => without(new, 47, 40),
            false => new,
        }
    }),
    ("Range of four bits", |named, _, new| {
        match named.of(&[0x04]) {
            true => without(new, 68, 68),
            false => new,
        }
    }),
    ("Range plus one", |named, _, new| match named.code() {
        0x04 => new + (1 << 64),
        _ => new,
    }),
    ("a StreamID of 31 bits", |named, _, new| {
        match named.of(&STREAMS) {
            true => without(new, 63, 63),
            false => new,
        }
    }),
    ("a StreamID of 16 bits", |named, _, new| {
        match named.of(&STREAMS) {
            true => without(new, 63, 48),
            false => new,
        }
    }),
    (
        "a StreamID of a block's start",
        |named, _, new| match named.code() {
            0x04 => {
                let bits = named.fields[RANGE] as u32 + 1;
                without(new, 31 + bits, 32)
            }
            _ => new,
        },
    ),
    ("a SubstreamID of 19 bits", |named, _, new| {
        match named.of(&[0x05]) {
            true => without(new, 31, 31),
            false => new,
        }
    }),
    ("a SubstreamID a bit too low", |named, _, new| {
        match named.of(&[0x05]) {
            true => moved(new, (31, 12), -1),
            false => new,
        }
    }),
    (
        "SSV set beside a SubstreamID",
        |named, _, new| match named.fields[SUBSTREAM] {
            0 => new,
            _ => new | 1 << 11,
        },
    ),
    ("CS 2 as CS 0", |named, _, new| match named.fields[CS] {
        2 => without(new, 13, 12),
        _ => new,
    }),
    ("CS 1 as CS 2", |named, _, new| match named.fields[CS] {
        1 => new + (1 << 12),
        _ => new,
    }),
    ("SIZE of three bits", |named, _, new| {
        match named.of(&[0x73]) {
            true => without(new, 75, 75),
            false => new,
        }
    }),
    ("SIZE up to 9", |named, _, new| match named.fields[SIZE] {
        10.. => without(new, 75, 72) | 9 << 72,
        _ => new,
    }),
];
