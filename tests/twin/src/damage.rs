//! Damages a text as transport and hands do.

use crate::chance::Chance;

/// Bytes that mean something to the form, and some that look as if they did.
pub const TELLING: &[u8] = b"\n\r\t\0 ,+|&()=az09AZ_-;\x7f\x80\xc3\xa9\xff";

/// One change to a text, at the bytes or at the lines.
pub fn damage(chance: &mut Chance, text: &mut Vec<u8>) {
    let place = chance.below(text.len() + 1);
    let byte = match chance.one_in(4) {
        true => chance.number() as u8,
        false => chance.pick(TELLING),
    };
    match chance.below(11) {
        0..=2 if place < text.len() => text[place] = byte,
        3 => text.insert(place, byte),
        4 if place < text.len() => {
            text.remove(place);
        }
        5 => text.truncate(place),
        6 => text.push(byte),
        7 => damage_line(chance, text),
        8 if place < text.len() => text[place].make_ascii_uppercase(),
        9 => {
            text.splice(place..place, "é".bytes());
        }
        _ => *text = windows_lines(text),
    }
}

/// Doubles a line, leaves it out, or moves it to the front.
fn damage_line(chance: &mut Chance, text: &mut Vec<u8>) {
    let mut lines: Vec<Vec<u8>> = text
        .split_inclusive(|&byte| byte == b'\n')
        .map(<[u8]>::to_vec)
        .collect();
    if lines.is_empty() {
        return;
    }
    let place = chance.below(lines.len());
    match chance.below(3) {
        0 => lines.insert(place, lines[place].clone()),
        1 => {
            lines.remove(place);
        }
        _ => lines.swap(0, place),
    }
    *text = lines.concat();
}

fn windows_lines(text: &[u8]) -> Vec<u8> {
    let lines: Vec<&[u8]> = text.split(|&byte| byte == b'\n').collect();
    lines.join(&b"\r\n"[..])
}
