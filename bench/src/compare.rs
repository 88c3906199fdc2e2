//! Holds the proved side against the plain one on random input, and stops at the first difference.

use crate::device::{Advanced, Device, Ran, Refused};
use crate::drawing::Beam;
use crate::proved::Proved;
use crate::random::{self, Random};
use crate::validator::{validate, STORE};
use crate::{console, vectors};

const IMAGES: usize = 60_000;
const RUNS: usize = 12_000;
const SCRIPTS: usize = 6_000;
const PRINTED: usize = 8 << 20;

pub fn all(proved: &Proved, seed: u64) -> Result<(), String> {
    images(proved, &mut Random::new(seed))?;
    runs(proved, &mut Random::new(seed ^ 1))?;
    scripts(proved, &mut Random::new(seed ^ 2))
}

fn images(proved: &Proved, random: &mut Random) -> Result<(), String> {
    let mut kinds = [0; 3];
    for number in 1..=IMAGES {
        let size = random.size();
        let mut image = random::image(random, size);
        let start = match random.below(12) {
            0 => random.next() as u32 % 20_000,
            1..=4 => 2 * random.below(image.len() / 2 + 1) as u32,
            _ => 0,
        };
        let size = if random.once_in(200) { random.next() as u32 % 9000 } else { size };
        if random.once_in(300) {
            image.resize(size as usize + 1, 0);
        }
        let length = if random.once_in(100) { random.below(STORE) } else { STORE + random.below(3) };
        let store = vec![random.byte(); length];
        let (mut plain_store, mut proved_store) = (store.clone(), store);
        let wanted = validate(&image, size, start, &mut plain_store);
        let got = proved.validate(&image, size, start, &mut proved_store);
        kinds[match wanted {
            crate::validator::Verdict::Passed { .. } => 0,
            crate::validator::Verdict::Fault { .. } => 1,
            crate::validator::Verdict::Refused(_) => 2,
        }] += 1;
        if got != wanted {
            return Err(format!(
                "image {number}: size {size} start {start} store {length}: proved {got:?}, plain {wanted:?}\n{}",
                hex(&image)
            ));
        }
        if proved_store != plain_store {
            return Err(format!("image {number}: size {size} start {start}: the stores differ\n{}", hex(&image)));
        }
    }
    let [passed, faulty, refused] = kinds;
    println!("images: {IMAGES} agree ({passed} passed, {faulty} with a fault, {refused} refused)");
    Ok(())
}

/// What advancing comes to.
#[derive(Clone, Copy, PartialEq, Eq, Debug)]
pub struct Place {
    pub advanced: Advanced,
    pub address: u16,
    pub beam: Beam,
}

/// Loads a dump, sets the switch and starts by the command.
fn started(dump: &[u16], size: u32, start: u16, closed: bool) -> Result<Device, Refused> {
    let mut device = Device::load(size, dump)?;
    device.set_switch(closed);
    device.command(0x27, &start.to_be_bytes(), &mut [])?;
    Ok(device)
}

/// The plain side of `Proved::advance`.
pub fn plain_advance(dump: &[u16], size: u32, start: u16, closed: bool, sights: &[u8]) -> Result<Place, Refused> {
    let mut device = started(dump, size, start, closed)?;
    let advanced = device.advance(sights)?;
    Ok(Place { advanced, address: device.state.address, beam: device.state.beam })
}

/// The plain side of `Proved::run`.
pub fn plain_run(
    dump: &[u16],
    size: u32,
    start: u16,
    closed: bool,
    sights: &[u8],
    list: &mut [[u16; 8]],
) -> Result<Ran, Refused> {
    started(dump, size, start, closed)?.run(sights, list)
}

fn runs(proved: &Proved, random: &mut Random) -> Result<(), String> {
    let (mut ends, mut advanced) = ([0; 12], [0; 12]);
    for number in 1..=RUNS {
        let size = random.size();
        let mut dump = random::dump(random, size);
        if random.once_in(100) {
            dump.pop();
        }
        if random.once_in(100) {
            let at = random.below(dump.len());
            dump[at] |= 0x0800 << random.below(5);
        }
        let start = if random.once_in(10) { random.next() as u16 % 9000 } else { 0 };
        let mut sights = random::sights(random, 6000);
        if random.once_in(100) {
            sights.push(3);
        }
        let closed = random.once_in(2);
        let list = vec![[0xA5A5; 8]; random.pick(&[0, 1, 2, 3, 50, 30_000])];
        let (mut plain_list, mut proved_list) = (list.clone(), list);
        let wanted = plain_run(&dump, size, start, closed, &sights, &mut plain_list);
        let got = proved.run(&dump, size, start, closed, &sights, &mut proved_list);
        ends[wanted.map_or(11, |ran| ran.end as usize)] += 1;
        let there = plain_advance(&dump, size, start, closed, &sights);
        let proved_there = proved.advance(&dump, size, start, closed, &sights);
        advanced[there.map_or(11, |place| place.advanced.end as usize)] += 1;
        if proved_there != there {
            return Err(format!(
                "advance {number}: size {size} start {start} closed {closed} sights {}: proved {proved_there:?}, plain {there:?}",
                sights.len()
            ));
        }
        if got != wanted || proved_list != plain_list {
            return Err(format!(
                "run {number}: size {size} start {start} closed {closed} sights {} room {}: proved {got:?}, plain {wanted:?}",
                sights.len(),
                plain_list.len()
            ));
        }
    }
    println!("advances: {RUNS} agree (ended 0 to 10 {:?}, refused {})", &advanced[..11], advanced[11]);
    println!("runs with their lists: {RUNS} agree (ended 0 to 10 {:?}, refused {})", &ends[..11], ends[11]);
    Ok(())
}

fn scripts(proved: &Proved, random: &mut Random) -> Result<(), String> {
    let mut out = vec![0; PRINTED];
    let (mut ends, mut keys) = ([0; 11], [0; 3]);
    for number in 1..=SCRIPTS {
        let script = random::script(random);
        let wanted = console::answers(&script);
        let length = proved.script(&script, &mut out);
        if out[..length] != wanted[..] {
            let text = String::from_utf8_lossy(&script);
            return Err(format!("script {number}: {}\n{text}", vectors::first_difference(&out[..length], &wanted)));
        }
        run_ends(&wanted).for_each(|end| ends[end] += 1);
        for (count, answer) in keys.iter_mut().zip([&b"heard"[..], b"unheard", b"refused 13"]) {
            *count += wanted.split(|&b| b == b'\n').filter(|&line| line == answer).count();
        }
    }
    let [heard, unheard, refused] = keys;
    println!("console scripts: {SCRIPTS} agree (their runs ended 0 to 10 {ends:?})");
    println!("keys in them: {heard} heard, {unheard} unheard, {refused} refused");
    Ok(())
}

/// Why each run in a printed session ended.
fn run_ends(printed: &[u8]) -> impl Iterator<Item = usize> + '_ {
    printed.split(|&b| b == b'\n').filter_map(|line| {
        let mut words = line.strip_prefix(b"ran ")?.split(|&b| b == b' ');
        std::str::from_utf8(words.nth(2)?).ok()?.parse().ok()
    })
}

fn hex(bytes: &[u8]) -> String {
    bytes.iter().map(|b| format!("{b:02X}")).collect()
}
