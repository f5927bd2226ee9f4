//! firmware.c in Rust, by the crate of device/rust.
#![no_std]
#![deny(unsafe_code)]
use sfi_device::{Entry, Firmware, Host, News, Plugin, Plugins, Setup, StoreStatus, Turns};

#[allow(unsafe_code)]
mod board;
use board::{need, tell, Board, Flash, SECTOR};

const PLUGINS: u32 = 2;
const ROUNDS: u32 = 400;
const PIECE: usize = 512;
const TRIAL_STARTS: u32 = 2;
const TURNS: Turns = Turns { ticks: 1000, on_trial: 100 };

/// Tells of each version that comes or goes.
struct Log;
impl Host for Log {
    fn tells(&mut self, number: u32, news: News, version: u32) {
        let words: &[u8] = match news {
            News::Starts => b" starts \0",
            News::IsRefused => b" refuses \0",
            News::IsKept => b" keeps \0",
            News::GaveUp => b" gives up \0",
        };
        tell(number, words, version);
    }
}

/// The gates that a plug-in may have are of these services, by their numbers from 0 on.
static GATES: &[Entry<Log>] = &[Entry::EXIT, Entry::NONE, Entry::NONE, Entry::YIELD, Entry::REPORT];

type All<'host> = Plugins<'host, Flash, Log, { PLUGINS as usize }>;

/// Where a plug-in lies, in flash and in memory.
fn set_up(number: u32) -> Plugin<Flash> {
    let flash = number * 4 * SECTOR;
    let areas = [flash + 2 * SECTOR, flash + 3 * SECTOR];
    Plugin {
        device: Flash { plugin: number },
        setup: Setup { records: flash, areas, area_size: SECTOR, trial_starts: TRIAL_STARTS },
        place: board::place(number),
    }
}

/// Hands on an update in pieces, between which all plug-ins have turns.
fn hand_on(all: &mut All, number: u32, update: &board::Update) -> Result<(), StoreStatus> {
    all.begin(number, &update.claim, &update.signature)?;
    for piece in update.image().chunks(PIECE) {
        all.run();
        all.write(number, piece)?;
    }
    all.finish(number)
}

/// Takes the next update, if one has come. Those from before the last reset are here again.
fn take_update(all: &mut All, number: u32) {
    if let Some(update) = board::next_update(number) {
        match hand_on(all, number, update) {
            Ok(()) | Err(StoreStatus::TooOld) => {}
            Err(status) => tell(number, b" takes no update: \0", status as u32),
        }
    }
}

/// Called by board.rs.
fn run() {
    let mut log = Log;
    let firmware = Firmware::new(&mut log, GATES, Board);
    let opened = Plugins::open(firmware, [0, 1].map(set_up), TURNS);
    need(opened.is_ok(), b"flash and memory are right\0");
    if let Ok(mut all) = opened {
        for _ in 0..ROUNDS {
            // a product's loop has no end
            all.run();
            for number in 0..PLUGINS {
                if all.may_update(number) {
                    take_update(&mut all, number);
                }
            }
        }
    }
}
