//! Updates by a flash in memory, on this machine.
use sfi_device::{digest, Claim, Device, Setup, Store, StoreStatus};

const SETUP: Setup = Setup { records: 0, areas: [1024, 2048], area_size: 1024, trial_starts: 1 };

#[derive(Default)]
struct Memory<const COUNTS: bool> {
    bytes: Vec<u8>,
    is_watched: bool,
    counter: u32,
}

impl<const COUNTS: bool> Memory<COUNTS> {
    fn new() -> Self {
        Memory { bytes: vec![0; 3072], ..Memory::default() }
    }
}

impl<const COUNTS: bool> Device for Memory<COUNTS> {
    const SECTOR_SIZE: u32 = 512;
    const PAGE_SIZE: u32 = 64;
    fn read(&mut self, address: u32, bytes: &mut [u8]) -> bool {
        bytes.copy_from_slice(&self.bytes[address as usize..][..bytes.len()]);
        true
    }
    fn erase_sector(&mut self, address: u32) -> bool {
        self.bytes[address as usize..][..512].fill(0xff);
        true
    }
    fn program_page(&mut self, address: u32, bytes: &[u8]) -> bool {
        self.bytes[address as usize..].iter_mut().zip(bytes).for_each(|(old, new)| *old &= new);
        true
    }
    fn is_signed(&mut self, claim: &Claim, signature: &[u8; 64]) -> bool {
        signature[..32] == claim.digest
    }
    fn watch(&mut self, on: bool) {
        self.is_watched = on;
    }
    const HAS_COUNTER: bool = COUNTS;
    fn counter(&mut self) -> u32 {
        assert!(COUNTS);
        self.counter
    }
    fn raise_counter(&mut self, least_sequence: u32) -> bool {
        assert!(COUNTS);
        self.counter = least_sequence;
        true
    }
}

/// Once a version is kept no older one runs.
fn claim(sequence: u32, image: &[u8]) -> (Claim, [u8; 64]) {
    let claim = Claim { sequence, least_sequence: sequence, length: image.len() as u32, digest: digest(image) };
    let mut signature = [0; 64];
    signature[..32].copy_from_slice(&claim.digest);
    (claim, signature)
}

fn update<const COUNTS: bool>(store: &mut Store<Memory<COUNTS>>, sequence: u32, image: &[u8]) -> Result<(), StoreStatus> {
    let (claim, signature) = claim(sequence, image);
    store.begin(&claim, &signature)?;
    image.chunks(100).try_for_each(|piece| store.write(piece))?;
    store.finish()
}

#[test]
fn digests() {
    // FIPS 180-4's example "abc"
    assert_eq!(digest(b"abc")[..8], [0xba, 0x78, 0x16, 0xbf, 0x8f, 0x01, 0xcf, 0xea]);
}

#[test]
fn a_version_that_is_not_kept_gives_way() {
    let mut store = Store::open(Memory::<false>::new(), SETUP).unwrap();
    assert_eq!(store.choose(), Err(StoreStatus::NoVersion));
    update(&mut store, 1, &[1; 700]).unwrap();
    let first = store.choose().unwrap();
    let (claimed, mut image) = (store.claim(first), [0; 700]);
    assert_eq!((claimed.sequence, claimed.length), (1, 700));
    assert!(store.device().read(SETUP.areas[first as usize], &mut image));
    assert_eq!(image, [1; 700]);
    store.keep().unwrap();
    assert_eq!(update(&mut store, 1, &[2; 700]), Err(StoreStatus::TooOld));
    let (forged, signature) = (claim(2, &[2; 700]).0, [0; 64]);
    assert_eq!(store.begin(&forged, &signature), Err(StoreStatus::NotSigned));
    update(&mut store, 2, &[2; 700]).unwrap();
    assert_ne!(store.choose().unwrap(), first);
    let device = store.into_device(); // a reset: the new version was started once, and not kept
    assert!(device.is_watched);
    assert_eq!(device.bytes[SETUP.areas[first as usize] as usize..][..700], [1; 700]);
    let mut store = Store::open(device, SETUP).unwrap();
    assert_eq!(store.choose(), Ok(first));
    assert!(!store.into_device().is_watched);
}

#[test]
fn a_version_that_is_kept_raises_the_counter() {
    let mut store = Store::open(Memory::<true>::new(), SETUP).unwrap();
    assert_eq!(store.choose(), Err(StoreStatus::NoVersion));
    for sequence in [3, 4] {
        update(&mut store, sequence, &[1; 700]).unwrap();
        store.choose().unwrap();
        store.keep().unwrap();
    }
    assert_eq!(store.into_device().counter, 4);
}
