//! The fuzzer's bytes as inputs of all six calls: the library and its twin have to agree on each.
//!
//! The only `unsafe` of this folder is here, where the bytes come in by pointer and length.

#![deny(unsafe_op_in_unsafe_fn)]

mod bytes;

use differential::chance::Chance;
use differential::compare::Input;
use differential::{inputs, ours};

/// Compares all six calls on inputs made of these bytes; answers 0 exactly if they agree.
///
/// # Safety
/// `data` points to `count` bytes.
#[no_mangle]
pub unsafe extern "C" fn twin_compare(data: *const u8, count: usize) -> i32 {
    // No bytes may come with a null pointer, which a slice must not have.
    let data = match count {
        0 => &[],
        _ => unsafe { std::slice::from_raw_parts(data, count) },
    };
    match agree(data) {
        Ok(()) => 0,
        Err(account) => {
            eprintln!("{account}");
            1
        }
    }
}

fn agree(data: &[u8]) -> Result<(), String> {
    // Slice lengths, old contents and null pointers hang on the bytes alone, so that a found input
    // stays one.
    let sum = data.iter().map(|&byte| u64::from(byte)).sum();
    let chance = &mut Chance::new(sum, data.len() as u64);
    ours::set_null_turn(sum % 2 == 1);
    inputs::read(chance, data.to_vec()).compare()?;
    inputs::report(chance, data.to_vec()).compare()?;
    let judged = bytes::judged(data);
    judged.compare()?;
    inputs::plan(chance, judged.job.clone()).compare()?;
    inputs::diagram(chance, judged.job.clone()).compare()?;
    inputs::one_paths(chance, judged.job).compare()?;
    Ok(())
}
