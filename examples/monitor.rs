//! A monitor's calls from Rust, by the crate in bindings/rust: those of monitor.c, for a guest that writes its queue itself and
//! rings the doorbell.
use std::error::Error;
use tahvenno::*;

const ROWS: usize = 2; // of the kept memory
const REGIONS: usize = 1; // of the second table, which this guest has no use for
const LOG2SIZE: u8 = 1; // a queue of two slots
const N: u8 = 2; // a recorder of four
const FEATURES: Features = Features::S1P.union(Features::S2P);
const ONE_STORE: u64 = 1;
const STREAM: u32 = 5;
const SUBSTREAM: u32 = 0;
const VMID: u16 = 0;
const PAGE: u8 = 12;
const FROM: u64 = 0x1000;
const TO: u64 = 0x8000;
const F_TRANSLATION: u8 = 0x10; // the event of an access that nothing maps

/// A write by the device of the stream, somewhere in the page.
const ACCESS: Access = Access {
    stream: STREAM,
    substream: SUBSTREAM,
    address: FROM + 0x234,
    write: true,
    instruction: false,
    privileged: false,
    attributes: Attributes::of(MemAttr::WRITE_BACK),
};

/// What the guest wants: every stage 1 and stage 2 row removed, and an interrupt when that is done.
const COMMANDS: [Command; 2] = [Command::TlbiNsnhAll, Command::Sync { signal: Signal::Interrupt }];

/// The guest writes its commands from the first slot on, and tells WR.
fn guest(queue: &mut [u8]) -> Result<u32, Refusal> {
    for (slot, command) in queue.chunks_exact_mut(layout::SLOT_BYTES).zip(COMMANDS) {
        write_command(slot, &command.words(), FEATURES)?;
    }
    Ok(COMMANDS.len() as u32)
}

fn main() -> Result<(), Box<dyn Error>> {
    let (mut kept, mut table) = ([0; kept_words(ROWS)], [0; table_words(REGIONS)]);
    let (mut queue, mut events) = ([0; queue_bytes(LOG2SIZE)], [0; event_words(N)]);
    empty(&mut kept, LOG2SIZE, true)?;
    empty_table(&mut table)?;
    empty_recorder(&mut events)?;
    let ste = Row::Ste(Ste { stream: STREAM, vmid: VMID, config: Config::Stage2, overrides: Overrides::NONE });
    let (memattr, sh) = (MemAttr::WRITE_BACK, Shareability::Ish);
    let page = Row::Stage2(Stage2 { vmid: VMID, span: PAGE, input: FROM, output: TO, memattr, sh });
    for (row, value) in [ste, page].iter().enumerate() {
        fill(&mut kept, row, &value.words()?, FILL_STORES)?;
    }
    println!("before: {}", translate(&kept, &ACCESS)?);
    let wr = guest(&mut queue)?;
    doorbell(&mut kept, wr)?;
    // one store a call, as if power went after each, until a run is not cut
    while run(&mut kept, &mut table, &queue, FEATURES, ONE_STORE)?.end == RunEnd::Cut {}
    // no matter which of these calls consumed the CMD_SYNC; raised first, then cleared
    if Control::parse(kept[0])?.pending {
        println!("interrupt");
        clear_pending(&mut kept)?;
    }
    let outcome = translate(&kept, &ACCESS)?;
    println!("after: {outcome}");
    if let Outcome::Miss(_) = outcome {
        event_write(&mut events, &Record::event(F_TRANSLATION, STREAM), layout::RECORD_STORES)?;
    }
    let event = event_read(&mut events)?;
    println!("event: {:x} of stream {}", event.number(), event.stream());
    Ok(())
}
