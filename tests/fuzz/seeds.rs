//! Writes inputs by chance into a folder, for the fuzzer to begin with: `seeds FOLDER`.

use differential::chance::Chance;
use differential::texts;

const SEEDS: u64 = 300;

fn main() -> std::io::Result<()> {
    let folder = std::env::args().nth(1).expect("the folder is named");
    for case in 0..SEEDS {
        let chance = &mut Chance::new(1, case);
        std::fs::write(format!("{folder}/text-{case}"), texts::text(chance))?;
        std::fs::write(format!("{folder}/numbers-{case}"), numbers(chance))?;
    }
    Ok(())
}

/// Bytes that stand for a fit job, which the first one tells by being even.
fn numbers(chance: &mut Chance) -> Vec<u8> {
    let length = chance.from_to(4, 150);
    let mut bytes: Vec<u8> = (0..length).map(|_| chance.number() as u8).collect();
    bytes[0] &= 0xfe;
    bytes
}
